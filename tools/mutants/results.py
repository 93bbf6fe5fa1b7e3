"""What became of the mutants tried so far, kept below target/ as long as the crate stays as it is."""
import hashlib


class Results:
    """A crate's results: a line for each mutant tried, behind a first line with the stamp of the crate's files."""

    def __init__(self, root, crate):
        files = [f for part in ("src", "specs", "proofs") for f in (root / "crates" / crate / part).rglob("*") if f.is_file()]
        texts = [str(f.relative_to(root)).encode() + f.read_bytes() for f in sorted(files)]
        self.stamp = hashlib.sha256(b"".join(texts)).hexdigest()
        self.path = root / "target" / "mutants" / "results" / f"{crate}.tsv"
        self.path.parent.mkdir(parents=True, exist_ok=True)
        if not self.path.is_file() or self.path.read_text(encoding="utf-8").partition("\n")[0] != self.stamp:
            self.path.write_text(self.stamp + "\n")

    def add(self, mutant, verdict, said):
        """Notes what became of a mutant."""
        with open(self.path, "a", encoding="utf-8") as file:
            print(verdict, mutant.kind, *mutant.name, said, sep="\t", file=file)

    def known(self):
        """The verdict on each mutant tried since the crate last changed, by the mutant's name."""
        lines = self.path.read_text(encoding="utf-8").splitlines()[1:]
        return {tuple(line.split("\t")[2:5]): line.split("\t")[0] for line in lines}
