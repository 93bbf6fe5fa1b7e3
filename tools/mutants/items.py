"""What a source file declares: functions, constants, and the types of fields and variants."""
from dataclasses import dataclass, field

from tokens import PAIRS, partners_of, split, tokens_of

CLAUSES = ("requires", "ensures", "ghost")


@dataclass
class Function:
    """A function: its path in the module, its parameters' names and types, its result, and its body's first and last token."""

    path: tuple
    parameters: list
    result: str
    first: int
    last: int


@dataclass
class Source:
    """A file's text and tokens, and what it declares."""

    crate: str
    module: tuple
    file: str
    text: str
    functions: list = field(default_factory=list)
    constants: list = field(default_factory=list)
    variants: dict = field(default_factory=dict)
    structs: dict = field(default_factory=dict)
    imports: dict = field(default_factory=dict)

    def __post_init__(self):
        self.tokens = tokens_of(self.text)
        self.partners = partners_of(self.tokens)
        declare(self, 0, len(self.tokens), ())

    def written(self, first, last):
        """The text of tokens first..last, as it stands."""
        return self.text[self.tokens[first].start : self.tokens[last].end]

    def joined(self, first, last):
        """The text of tokens first..last without blanks and lifetimes, as a type is compared."""
        kept = [t for t in self.tokens[first : last + 1] if t.kind != "label"]
        return "".join(t.text + (" " if t.text == "mut" else "") for t in kept).replace("<>", "")


def declare(source, index, end, owner):
    """Notes the items between two tokens."""
    makers = {"fn": function, "const": constant, "enum": enum, "struct": struct, "use": imported}
    while index < end:
        token = source.tokens[index]
        if token.text in makers:
            index = makers[token.text](source, index + 1, owner)
        elif token.text == "impl":
            opening = following(source, index, "{")
            declare(source, opening + 1, source.partners[opening], (owner_of([t.text for t in source.tokens[index + 1 : opening]]),))
            index = source.partners[opening] + 1
        elif token.text == "ghost":
            index = following(source, index, ";") + 1
        else:
            index += 1


def owner_of(words):
    """The name under which the prover tells of an impl's functions: its type's, and of a trait's impl the trait's behind it."""
    if "for" not in words:
        return words[0]
    trait, kind = words[0], words[words.index("for") + 1]
    return kind[0].upper() + kind[1:] + trait


def following(source, index, text):
    """The index of the next token of that text, outside brackets opened on the way."""
    while source.tokens[index].text != text:
        index = source.partners[index] if source.tokens[index].text in PAIRS else index
        index += 1
    return index


def fields_of(source, first, last):
    """The names and types that stand between brackets as `name: type`."""
    fields = []
    for start, end in split(source.tokens, source.partners, first, last):
        start += source.tokens[start].text in ("pub", "mut")
        named = start < end and source.tokens[start + 1].text == ":"
        kind = source.joined(start + 2, end) if named else source.joined(start, end)
        fields.append((source.tokens[start].text if named else None, kind))
    return fields


def function(source, index, owner):
    """Notes a function, and answers the index after it."""
    name = source.tokens[index].text
    opening = following(source, index, "(")
    closing = source.partners[opening]
    parameters = [(n, k) for n, k in fields_of(source, opening + 1, closing - 1) if n]
    index, result = closing + 1, ""
    if source.tokens[index].text == "->":
        start = index + 1
        index = start
        while source.tokens[index].text not in CLAUSES + ("{",):
            index = source.partners.get(index, index) + 1
        result = source.joined(start, index - 1)
    while source.tokens[index].text in CLAUSES:
        # behind the word the clause's name may stand
        index = source.partners[following(source, index, "{")] + 1
    if source.tokens[index].text == ";":
        # a trait's method, which its impls have
        return index + 1
    last = source.partners[index]
    source.functions.append(Function(owner + (name,), parameters, result, index, last))
    return last + 1


def constant(source, index, _owner):
    """Notes a constant by its name and its value's first and last token, and answers the index after it."""
    end = following(source, index, ";")
    source.constants.append((source.tokens[index].text, following(source, index, "=") + 1, end - 1))
    return end + 1


def enum(source, index, _owner):
    """Notes an enum's variants, each with what it holds, and answers the index after it."""
    opening = index + 1
    variants = {}
    for first, last in split(source.tokens, source.partners, opening + 1, source.partners[opening] - 1):
        variants[source.tokens[first].text] = fields_of(source, first + 2, last - 1) if first < last else []
    source.variants[source.tokens[index].text] = variants
    return source.partners[opening] + 1


def struct(source, index, _owner):
    """Notes a struct's fields, and answers the index after it."""
    opening = following(source, index, "{")
    source.structs[source.tokens[index].text] = fields_of(source, opening + 1, source.partners[opening] - 1)
    return source.partners[opening] + 1


def imported(source, index, _owner):
    """Notes which crate the names come from that a use brings in, and answers the index after it."""
    end = following(source, index, ";")
    for name in source.tokens[index + 1 : end]:
        if name.kind == "name":
            source.imports[name.text] = source.tokens[index].text
    return end + 1
