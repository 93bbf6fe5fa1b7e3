"""Reads in a log what became of each mutant."""
import re

from items import Source

REFUSED, MISFIT, COMPILER, SURVIVED, NO_ANSWER, HIDDEN = "refused", "does not fit", "compiler refused", "survived", "no answer", "hidden"
# An error that says only that the proof names what the code no longer has, or has another number of facts to prove.
SHAPE = re.compile(r"can be named from here|has no field|is not in scope|has no `|was rejected|this pattern needs a function")
WAITS = "was not admitted"


def compiler_errors(log):
    """The files and lines at which the compiler refused the code, with what it said."""
    found = re.finditer(r"^(?:\S*/)?src/(\S+\.rt):(\d+):\d+: (error\S*: .*)$", log, re.MULTILINE)
    return [(m[1], int(m[2]), m[3]) for m in found]


def blamed(errors, texts, mutants):
    """The mutants in whose function the compiler refused something, each with what it said."""
    found = {}
    for file, line, said in errors:
        for mutant in mutants:
            if mutant.file == file and (mutant.of_constant or line in lines_of(mutant, texts[file])):
                found.setdefault(id(mutant), (mutant, said))
    return list(found.values())


def lines_of(mutant, text):
    """The lines of the changed text at which a mutant's function stands."""
    module = mutant.where.split("::")[1:]
    source = Source(mutant.crate, (), mutant.file, text)
    for function in source.functions:
        if list(function.path) == module[-len(function.path) :]:
            first, last = source.tokens[function.first].start, source.tokens[function.last].end
            return range(text.count("\n", 0, first) + 1, text.count("\n", 0, last) + 2)
    return range(0)


def own_errors(log, where):
    """What the prover said in a function's own proof, or in the proof of the cycle of calls that it is in."""
    *folders, name = where.split("::")[1:]
    folder = "/".join(folders + [""])
    path = rf"^(?:\./)?proofs/{re.escape(folder)}(?:{name}|\+[^/\s]*{name}[^/\s]*)/[^/\s]*\.antt:[\d:]* error: (.*(?:\n  .*)*)$"
    return [" ".join(said.split()) for said in re.findall(path, log, re.MULTILINE)]


def verdict(log, where):
    """What became of the mutant in a function, and the words of the log that say so."""
    status = re.search(rf"^fn {re.escape(where)}: (.*)$", log, re.MULTILINE)
    if not status:
        return NO_ANSWER, "the log has no line for the function"
    if status[1].startswith("proved"):
        return SURVIVED, ""
    if status[1].startswith("no proof") and "did not prove" in status[1]:
        return REFUSED, status[1]
    if status[1].startswith("no proof"):
        return (HIDDEN if "it calls " in status[1] else MISFIT), status[1]
    if status[1].startswith("could not tell"):
        return NO_ANSWER, status[1]
    errors = [e for e in own_errors(log, where) if WAITS not in e]
    facts = [e for e in errors if not SHAPE.search(e)]
    if facts:
        return REFUSED, facts[0]
    if errors:
        return MISFIT, errors[0]
    # with no error of its own and no callee to wait for, a goal is left that has no answer and that the search does not prove
    return (HIDDEN if "it calls " in status[1] else REFUSED), status[1]


def verdict_on(mutant, log):
    """What became of a mutant, of a function or of a constant."""
    return verdict_of_constant(log) if mutant.of_constant else verdict(log, mutant.where)


def verdict_of_constant(log):
    """What became of the mutant of a constant: the strongest that any function's proof says."""
    if "\nlogic=proved" in log:
        return SURVIVED, ""
    said = [verdict(log, where) for where in re.findall(r"^fn (\S+):", log, re.MULTILINE)]
    for wanted in (REFUSED, MISFIT, NO_ANSWER, HIDDEN):
        for found in said:
            if found[0] == wanted:
                return found
    return NO_ANSWER, "the log has no line for a function"
