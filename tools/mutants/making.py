"""All wrong versions of a crate's functions and constants, each once."""
from dataclasses import dataclass

import operands
import small
import statements
from body import Body

MAKERS = (
    small.comparisons, small.constants, small.operators, small.truths,
    statements.orders, statements.guards, statements.stores, statements.turns,
    operands.arguments, operands.fields, operands.elements, operands.variables, operands.constructors, operands.answers,
)
# The groups of constants; a function's group is its own path.
USED, UNUSED = "used", "unused"


@dataclass
class Mutant:
    """A wrong version: where it stands, of which kind it is, the text that is replaced and the one put there."""

    crate: str
    file: str
    where: str
    group: str
    kind: str
    start: int
    end: int
    new: str
    old_lines: str = ""
    new_lines: str = ""

    @property
    def of_constant(self):
        """Whether a constant is changed, and not a function's body."""
        return self.group in (USED, UNUSED)

    @property
    def name(self):
        """What identifies the mutant in the list of the known ones."""
        return self.where, self.old_lines, self.new_lines


def spoken(text):
    """A text on one line."""
    return " ".join(text.split())


def changed_lines(text, mutant):
    """The lines that a mutant changes, before and after, each on one line."""
    first = text.rfind("\n", 0, mutant.start) + 1
    last = text.find("\n", mutant.end)
    return spoken(text[first:last]), spoken(text[first : mutant.start] + mutant.new + text[mutant.end : last])


def made(source, where, group, changes):
    """The mutants of some changes, without those that give the same text again."""
    found, texts = [], set()
    for kind, first, last, new in changes:
        start, end = source.tokens[first].start, source.tokens[last].end
        text = spoken(source.text[:start] + new + source.text[end:])
        if text in texts or text == spoken(source.text):
            continue
        texts.add(text)
        mutant = Mutant(source.crate, source.file, where, group, kind, start, end, new)
        mutant.old_lines, mutant.new_lines = changed_lines(source.text, mutant)
        found.append(mutant)
    return numbered(found)


def numbered(mutants):
    """The mutants, those of one name told apart by a number behind the new text."""
    times = {}
    for mutant in mutants:
        times[mutant.name] = times.get(mutant.name, 0) + 1
        if times[mutant.name] > 1:
            mutant.new_lines += f" ({times[mutant.name]})"
    return mutants


def mutants_of(world, crate):
    """All mutants of a crate: those of functions under the function's path, those of constants alone."""
    found = []
    for source in world.of(crate):
        for function in source.functions:
            where = "::".join((crate,) + source.module + function.path)
            body = Body(world, source, function)
            found += made(source, where, where, [c for maker in MAKERS for c in maker(body)])
        for name, first, last in source.constants:
            where = "::".join((crate,) + source.module + (name,))
            changes = [("constant", first, last, other) for other in small.beside(source.written(first, last))]
            found += made(source, where, USED if is_used(world, crate, name) else UNUSED, changes)
    return found


def is_used(world, crate, name):
    """Whether a function of the crate names a constant."""
    return any(t.text == name for s in world.of(crate) for f in s.functions for t in s.tokens[f.first : f.last])
