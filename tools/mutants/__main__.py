"""Makes wrong versions of the crates' code, tries each with the prover, and tells which were refused and which were not.

python3 tools/mutants [K/N] [CRATE..]: those crates, else all that have promises; K/N takes of each function's mutants the
K-th of every N, so that N runs try all; 0/1 tries none. What an earlier run found is not tried again while the crate stays
as it is. It ends with failure where a mutant survives that the file `unobservable` gives no reason for, or where that file
names a mutant that is not made, or is refused.
"""
import pathlib
import signal
import sys
import time

import report
from checking import judged
from known import known
from making import mutants_of
from results import Results
from rounds import reach_of, rounds_of
from trying import Scratch
from world import World

ROOT = pathlib.Path(__file__).resolve().parents[2]
CRATES = ("types", "numbers", "tags", "bodies", "walk", "utf8", "values", "headers", "segments", "lines", "text", "dump", "thaolisem")


def part_of(mutants, part):
    """Of each function's mutants, and of the constants', the K-th of every N."""
    groups = {}
    for mutant in mutants:
        groups.setdefault(mutant.group, []).append(mutant)
    return [mutant for group in groups.values() for mutant in group[part[0] - 1 :: part[1]]] if part[0] else []


def try_crate(crate, rounds, results):
    """Tries a crate's rounds, and notes what became of each mutant."""
    scratch, began = Scratch(ROOT, crate), time.time()
    if not scratch.prepare():
        sys.exit(f"{crate} is not proved as it is")
    try:
        for number, mutants in enumerate(rounds, 1):
            for found in judged(scratch, mutants):
                results.add(*found)
            print(f"{crate}: round {number} of {len(rounds)}, {time.time() - began:.0f} s", file=sys.stderr, flush=True)
    finally:
        scratch.clear()


def main():
    """Tries the crates named, or all."""
    signal.signal(signal.SIGTERM, lambda *_: sys.exit("stopped"))
    words = sys.argv[1:]
    part = tuple(map(int, words.pop(0).split("/"))) if words and "/" in words[0] else (1, 1)
    world, reasons, wrong = World(ROOT), known(), 0
    report.heading()
    for crate in words or CRATES:
        made, results = mutants_of(world, crate), Results(ROOT, crate)
        tried = results.known()
        rounds = rounds_of([m for m in part_of(made, part) if m.name not in tried], reach_of(world.of(crate)))
        if rounds:
            try_crate(crate, rounds, results)
        wrong += report.row(crate, made, results.known(), reasons)
    sys.exit(1 if wrong else 0)


main()
