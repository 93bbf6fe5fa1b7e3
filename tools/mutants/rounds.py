"""Rounds: mutants that are tried together, at most one in each proof."""
from itertools import zip_longest

from body import KEYWORDS
from making import UNUSED, USED


def called(source, function, names):
    """The names of the crate's functions that a function's body calls."""
    found = set()
    for index in range(function.first, function.last):
        name, after, before = source.tokens[index].text, source.tokens[index + 1].text, source.tokens[index - 1].text
        foreign = before == "::" and source.tokens[index - 2].text not in names["modules"]
        if name in names["functions"] and name not in KEYWORDS and after == "(" and not foreign:
            found.add(name)
    return found


def reach_of(sources):
    """For each function's path the paths of all functions that it calls, itself or through others."""
    paths = {}
    for source in sources:
        for function in source.functions:
            paths["::".join((source.crate,) + source.module + function.path)] = (source, function)
    names = {"functions": {f.path[-1] for _, f in paths.values()}, "modules": {m for s in sources for m in s.module} | {"crate", "Self"}}
    reach = {path: called(source, function, names) for path, (source, function) in paths.items()}
    reach = {path: {p for p in paths if p.split("::")[-1] in found} for path, found in reach.items()}
    changed = True
    while changed:
        wider = {path: found.union(*(reach[p] for p in found)) for path, found in reach.items()}
        changed = wider != reach
        reach = wider
    return reach


def rounds_of(mutants, reach):
    """The mutants in rounds: one of each function, or of a cycle of calls; constants that functions name alone, the others together."""
    rounds = [[mutant] for mutant in mutants if mutant.group == USED]
    unused, waiting = {}, {}
    for mutant in mutants:
        if mutant.group == UNUSED:
            unused.setdefault(mutant.where, []).append(mutant)
        elif mutant.group != USED:
            waiting.setdefault(mutant.group, []).append(mutant)
    rounds += [[m for m in found if m] for found in zip_longest(*unused.values())]
    while waiting:
        chosen = []
        for group in sorted(waiting, key=lambda g: -len(waiting[g])):
            if not any(group in reach[m.group] and m.group in reach[group] for m in chosen):
                chosen.append(waiting[group].pop(0))
        waiting = {group: left for group, left in waiting.items() if left}
        rounds.append(chosen)
    return rounds
