"""A function's body: its patterns, paths, calls, literals and variables."""
from typing import NamedTuple

from tokens import PAIRS, split

KEYWORDS = {"if", "else", "match", "while", "for", "in", "loop", "let", "mut", "return", "break", "continue", "as", "true", "false"}
ARITHMETIC = {"+", "-", "*", "/", "%", "<<", ">>", "&", "|"}


class Use(NamedTuple):
    """A path with what it is applied to: its first token, its names, its opening bracket, and its parts (first, last)."""

    first: int
    path: list
    opening: int
    parts: list


class Variable(NamedTuple):
    """A variable, its type (or nothing), and the tokens from and to which it is seen."""

    name: str
    kind: str
    start: int
    end: int


class Body:
    """The tokens of one function's body, with what the makers ask of them."""

    def __init__(self, world, source, function):
        self.world, self.source, self.function = world, source, function
        self.tokens, self.partners = source.tokens, source.partners
        self.first, self.last = function.first, function.last
        self.owner = function.path[0] if len(function.path) > 1 else ""
        self.arms = [self.arm(i) for i in self.range() if self.text(i) == "=>"]
        self.lets = [i for i in self.range() if self.text(i) == "let"]
        self.in_pattern = {i for start, arrow, _ in self.arms for i in range(start, arrow)}
        for index in self.lets:
            self.in_pattern.update(range(index, self.ahead(index, ("=",))))
        self.variables = self.seen_variables()

    def range(self):
        """The indexes of the body's tokens, braces included."""
        return range(self.first, self.last + 1)

    def text(self, index):
        """A token's text."""
        return self.tokens[index].text

    def ahead(self, index, texts):
        """The next index at which one of the texts, or a closing bracket of an outer pair, stands outside inner brackets."""
        while self.text(index) not in texts and self.text(index) not in PAIRS.values():
            index = self.partners[index] if self.text(index) in PAIRS else index
            index += 1
        return index

    def arm(self, arrow):
        """A match arm by its pattern's first token, its arrow and its last token."""
        start = arrow
        while True:
            before = self.text(start - 1)
            if before in (",", "{") or (before == "}" and start < arrow):
                break
            start = self.partners[start - 1] if before in PAIRS.values() else start - 1
        end = self.partners[arrow + 1] if self.text(arrow + 1) == "{" else self.ahead(arrow + 1, (",",)) - 1
        return start, arrow, end

    def enclosing_end(self, index):
        """The index of the brace that closes the block around a token."""
        while self.text(index) != "}":
            index = self.partners[index] if self.text(index) in PAIRS else index
            index += 1
        return index

    def starts_statement(self, index):
        """Whether a token is the first of a statement."""
        return self.text(index - 1) in ("{", "}", ";") and index - 1 >= self.first

    def ends_operand(self, index):
        """Whether an operand ends at a token, so that what follows is an operator or an index."""
        token = self.tokens[index]
        return token.text in (")", "]") or token.kind == "number" or (token.kind == "name" and token.text not in KEYWORDS)

    def path_ending(self, index):
        """The first token and the names of the path that ends at a token."""
        first, names = index, [self.text(index)]
        while self.text(first - 1) == "::":
            first -= 2
            names.insert(0, self.text(first))
        return first, names

    def uses(self, bracket):
        """The paths of the code that are followed by such a bracket, with the parts between the brackets."""
        for index in self.range():
            token = self.tokens[index]
            if token.kind == "name" and token.text not in KEYWORDS and index not in self.in_pattern and self.text(index + 1) == bracket:
                first, names = self.path_ending(index)
                opening = index + 1
                yield Use(first, names, opening, split(self.tokens, self.partners, opening + 1, self.partners[opening] - 1))

    def fields(self, use):
        """The names and types of what a constructor holds, or nothing where the path names none."""
        return self.world.held(self.source, use.path, self.owner)

    def valued(self, use):
        """The parts of a struct literal as field, first and last token of the value, and whether the field stands alone."""
        for first, last in use.parts:
            alone = first == last
            yield self.text(first), first if alone else first + 2, last, alone

    def seen_variables(self):
        """The variables of parameters, let statements and patterns."""
        seen = [Variable(name, kind, self.first, self.last) for name, kind in self.function.parameters]
        for index in self.lets:
            self.let(index, seen)
        for start, arrow, end in self.arms:
            seen += self.bound(start, arrow - 1, arrow, end)
        return seen

    def let(self, index, seen):
        """Adds what a let statement binds."""
        equals = self.ahead(index, ("=",))
        end = self.ahead(equals, (";", "else"))
        last = self.enclosing_end(end)
        name = index + 1 + (self.text(index + 1) == "mut")
        if self.text(name + 1) == "=":
            seen.append(Variable(self.text(name), self.kind(equals + 1, end - 1, seen), end, last))
        elif self.text(name + 1) == ":":
            seen.append(Variable(self.text(name), self.source.joined(name + 2, equals - 1), end, last))
        else:
            seen += self.bound(name, equals - 1, end, last)

    def bound(self, first, last, start, end):
        """The variables that a pattern of one constructor binds."""
        if self.text(last) not in (")", "}"):
            return []
        opening = self.partners[last]
        _, names = self.path_ending(opening - 1)
        held = self.world.held(self.source, names, self.owner) or []
        found = []
        for (name, kind), (part, part_end) in zip(held, split(self.tokens, self.partners, opening + 1, last - 1)):
            kind = dict(held).get(self.text(part), kind) if name else kind
            if self.text(part_end) != "_" and self.tokens[part_end].kind == "name":
                found.append(Variable(self.text(part_end), kind, start, end))
        return found

    def kind(self, first, last, seen):
        """The type of an expression, where it is simple to tell, or nothing."""
        known = {v.name: v.kind for v in seen if v.start <= first <= v.end}
        if self.text(last - 1) == "as":
            return self.text(last)
        if first == last and self.tokens[first].kind == "number":
            suffix = self.text(first).lstrip("0123456789_")
            return suffix or "usize"
        if self.text(last) == ")" and self.text(last - 2) == "len":
            return "usize"
        if self.text(first) in known and (first == last or self.text(first + 1) in ARITHMETIC):
            return known[self.text(first)]
        if first + 2 == last and self.text(first + 1) == ".":
            return dict(self.world.struct(self.source, known.get(self.text(first)) or "") or []).get(self.text(last))
        if self.text(last) == ")" and self.path_ending(self.partners[last] - 1)[0] == first:
            callee = self.world.callee(self.source, self.path_ending(self.partners[last] - 1)[1])
            return callee.result if callee else None
        return None
