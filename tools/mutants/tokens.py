"""The tokens of Rattle's code, without blanks and comments."""
import re
from typing import NamedTuple

PATTERN = re.compile(
    r"""(?P<space>\s+)
    |(?P<comment>//[^\n]*)
    |(?P<bytes>b"(?:\\.|[^"\\])*"|b'(?:\\.|[^'\\])+')
    |(?P<label>'[a-z_]+)
    |(?P<number>0x[0-9A-Fa-f_]+|[0-9][0-9_]*(?:\.[0-9]+)?(?:[iuf](?:8|16|32|64|size))?)
    |(?P<name>[A-Za-z_][A-Za-z0-9_]*)
    |(?P<sign>\.\.=|=>|->|::|<<|>>|<=|>=|==|!=|&&|\|\||[-+*/%&|^]=|\.\.|.)""",
    re.VERBOSE,
)
PAIRS = {"(": ")", "[": "]", "{": "}"}


class Token(NamedTuple):
    """A token, and where it stands in the text."""

    kind: str
    text: str
    start: int
    end: int


def tokens_of(text):
    """The tokens of a text, in their order."""
    found = PATTERN.finditer(text)
    return [Token(m.lastgroup, m.group(), m.start(), m.end()) for m in found if m.lastgroup not in ("space", "comment")]


def partners_of(tokens):
    """For each bracket's index the index of its partner."""
    partners, open_ones = {}, []
    for index, token in enumerate(tokens):
        if token.text in PAIRS:
            open_ones.append(index)
        elif token.text in PAIRS.values():
            other = open_ones.pop()
            partners[other], partners[index] = index, other
    return partners


def split(tokens, partners, first, last, at=","):
    """The parts (first, last) of tokens first..last that a sign separates, outside inner brackets."""
    parts, start, index = [], first, first
    while index <= last:
        if tokens[index].text == at:
            if start < index:
                parts.append((start, index - 1))
            start = index + 1
        index = partners[index] if tokens[index].text in PAIRS else index
        index += 1
    if start <= last:
        parts.append((start, last))
    return parts
