"""The list of mutants that change nothing that can be observed, each with its reason."""
import pathlib

LIST = pathlib.Path(__file__).parent / "unobservable"


def known():
    """The reasons, by the mutants' names; a reason holds for the mutants above it, up to the reason before."""
    reasons, waiting, entry = {}, [], {}
    for line in LIST.read_text().splitlines():
        word, _, rest = line.partition(":")
        if word in ("in", "old", "new"):
            entry[word] = rest.strip()
        if word == "new":
            waiting.append((entry["in"], entry["old"], entry["new"]))
        if word == "why":
            reasons.update({name: rest.strip() for name in waiting})
            waiting = []
    return reasons
