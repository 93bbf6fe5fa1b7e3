"""Reads in a log whether a slip was refused in a function by itself."""
import re

from edits import module_of, pieces_of

REFUSED, HIDDEN = "refused", "hidden"
# Errors that say only that a proof names what is not there, or cites what was itself refused.
NAMES = re.compile(r"can be named from here|has no field|is not in scope|has no `|was not admitted|was rejected")


def verdict(log, crate, place, functions, texts):
    """What became of a slip in a function, or in those of a cycle of calls: refused, hidden by a function that it calls, or why it is not refused."""
    found = [verdict_in(log, crate, place, function, texts) for function in functions]
    return REFUSED if REFUSED in found else found[0]


def verdict_in(log, crate, place, function, texts):
    """The same in one function."""
    status = re.search(rf"^fn {re.escape('::'.join([crate, *function.split('/')]))}: (.*)$", log, re.MULTILINE)
    if not status:
        return "the log has no line for the function"
    if status[1].startswith("proved"):
        return "it is proved"
    if status[1].startswith("no proof: it calls"):
        return HIDDEN
    if status[1].startswith("no proof") and "did not prove" in status[1]:
        return REFUSED
    errors = errors_of(log, place)
    facts = [error for error in errors if not NAMES.search(error)]
    notes = notes_of(log, function, texts)
    if facts or (notes and not errors) or any("at which this goal is false" in note for note in notes):
        return REFUSED
    return f"the prover says only: {' '.join((errors or [status[1]])[0].split())[:200]}"


def errors_of(log, place):
    """The errors in a function's own proof."""
    folder, slash, name = place.rpartition("/")
    last = r"\+[^/\s]+" if name.startswith("+") else re.escape(name)
    path = rf"^(?:\./)?proofs/{re.escape(folder + slash)}{last}/[^/\s]+\.antt:[\d:]+ error: (.*(?:\n  .*)*)"
    return re.findall(path, log, re.MULTILINE)


def notes_of(log, function, texts):
    """What the prover did not prove of a function, as it says of lines of its text."""
    found = []
    for file, text in texts.items():
        pieces = pieces_of(text)
        for head, piece in zip(pieces, pieces[1:]):
            # a type's function is named by the file that declares the type
            if piece.name and (module_of(file) + piece.name == function or function.endswith("/" + piece.name) and "/" in piece.name):
                attributes = re.search(r"(?:^ *#\[.*\]\n)*\Z", head.text, re.MULTILINE)[0].count("\n")
                lines = range(piece.line - attributes, piece.line + piece.text.count("\n"))
                said = re.findall(rf"^note: {re.escape(file)}:(\d+):\d+: (it is not proved that .*)$", log, re.MULTILINE)
                found += [words for line, words in said if int(line) in lines]
    return found
