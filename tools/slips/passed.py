"""Which gathered edits passed, kept below target/ as long as nothing that they stand on changes; and the logs of the tries."""
import hashlib
import subprocess


class Passed:
    """What is kept of an edit."""

    def __init__(self, root, crates, crate, edit):
        files = [f for one in crates.below(crate) for part in ("src", "specs", "proofs") for f in (root / "crates" / one / part).rglob("*") if f.is_file()]
        files += [edit, *(root / "tools" / "slips").glob("*.py")]
        texts = [str(f.relative_to(root)).encode() + b"\0" + f.read_bytes() for f in sorted(files)]
        kit = subprocess.run(["rt", "version"], stdout=subprocess.PIPE, check=True).stdout
        self.stamp = hashlib.sha256(b"\0".join([kit, *texts])).hexdigest()
        self.folder = root / "target" / "slips" / crate / edit.stem
        self.folder.mkdir(parents=True, exist_ok=True)

    def is_known(self):
        """Whether the edit passed, with all as it is."""
        file = self.folder / "passed"
        return file.is_file() and file.read_text() == self.stamp

    def note(self):
        """Notes that it passed."""
        (self.folder / "passed").write_text(self.stamp)

    def keep(self, number, log):
        """Keeps the log of a round."""
        (self.folder / f"{number}.log").write_text(log)
