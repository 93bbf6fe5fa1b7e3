"""Tries mutants with the prover, in a copy of the crates outside the repository."""
import pathlib
import shutil
import subprocess
import sys
import tempfile

sys.path.append(str(pathlib.Path(__file__).resolve().parents[1] / "slips"))
from rooms import Crates, Room


class Scratch:
    """A copy in which one crate is changed, with what the prover keeps of the unchanged one."""

    def __init__(self, root, crate):
        self.root, self.crate = pathlib.Path(root), crate
        self.crates = Crates(self.root)
        self.place = pathlib.Path(tempfile.mkdtemp(prefix="mutants-"))
        self.logs = self.root / "target" / "mutants" / "logs" / crate
        self.logs.mkdir(parents=True, exist_ok=True)
        self.number = len(list(self.logs.iterdir()))

    def prepare(self):
        """Proves the crate as it is, in the repository; answers whether it is proved."""
        return "\nlogic=proved" in self.crates.check(self.crate)

    def clear(self):
        """Removes the copy."""
        shutil.rmtree(self.place, ignore_errors=True)

    def changed(self, mutants):
        """The texts of the crate's files with the mutants in them, by file."""
        texts = {}
        for mutant in sorted(mutants, key=lambda m: -m.start):
            text = texts.get(mutant.file) or (self.root / "crates" / self.crate / "src" / mutant.file).read_text()
            texts[mutant.file] = text[: mutant.start] + mutant.new + text[mutant.end :]
        return texts

    def log_of(self, mutants):
        """What the prover says of the crate with the mutants in it, or nothing where it takes too long; proofs call goals and steps by the names that these have then."""
        shutil.rmtree(self.place, ignore_errors=True)
        room = Room(self.crates, self.crate, self.place)
        room.write({f"src/{file}": text for file, text in self.changed(mutants).items()})
        try:
            room.rename({"/".join(mutant.where.split("::")[1:]) for mutant in mutants if not mutant.of_constant})
            said = room.check()
        except subprocess.TimeoutExpired:
            return None
        self.number += 1
        (self.logs / f"{self.number}.log").write_text(said)
        return said
