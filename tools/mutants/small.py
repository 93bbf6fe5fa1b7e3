"""Wrong versions of single tokens: comparisons, constants, operators and truth values."""
import re

NEIGHBOURS = {"<": ("<=", ">"), "<=": ("<", ">="), ">": (">=", "<"), ">=": (">", "<="), "==": ("!=",), "!=": ("==",)}
OPPOSITES = (("+", "-"), ("*", "/"), ("<<", ">>"), ("&", "|"), ("+=", "-="), ("&&", "||"))
OPERATORS = dict(OPPOSITES) | {b: a for a, b in OPPOSITES} | {"%": "/"}


def comparisons(body):
    """Each comparison replaced by its neighbours."""
    for index in body.range():
        for other in NEIGHBOURS.get(body.text(index), ()):
            yield "comparison", index, index, other


def constants(body):
    """Each integer plus one and minus one; in a pattern of one integer not where another pattern has it, as the compiler refuses that."""
    taken = {body.text(i) for i in body.in_pattern if is_lone(body, i)}
    for index in body.range():
        if body.tokens[index].kind == "number" and body.text(index - 1) != ".":
            for other in beside(body.text(index)):
                if not (is_lone(body, index) and other in taken):
                    yield "constant", index, index, other


def is_lone(body, index):
    """Whether a token stands in a pattern, and not as the end of a range."""
    return index in body.in_pattern and "..=" not in (body.text(index - 1), body.text(index + 1))


def beside(literal):
    """The literals of the integers beside one, where it is an integer."""
    parts = re.fullmatch(r"(0x[0-9A-Fa-f_]+|[0-9_]+)([iu](?:8|16|32|64|size))?", literal)
    if not parts:
        return []
    value = int(parts[1].replace("_", ""), 0)
    form = "0x{:X}" if parts[1].startswith("0x") else "{}"
    return [form.format(other) + (parts[2] or "") for other in (value + 1, value - 1) if other >= 0]


def operators(body):
    """Each operator between two operands exchanged for its opposite."""
    for index in body.range():
        if body.text(index) in OPERATORS and index not in body.in_pattern and body.ends_operand(index - 1):
            yield "operator", index, index, OPERATORS[body.text(index)]


def truths(body):
    """Each truth value, and each condition that is no comparison, negated."""
    for index in body.range():
        if body.text(index) in ("true", "false"):
            yield "truth", index, index, "false" if body.text(index) == "true" else "true"
        if body.text(index) == "if" and body.text(index + 1) != "let":
            opening = condition_end(body, index)
            if body.text(index + 1) == "!":
                yield "truth", index + 1, opening - 1, body.source.written(index + 2, opening - 1)
            elif not any(body.text(i) in NEIGHBOURS for i in range(index, opening)):
                yield "truth", index + 1, opening - 1, "!" + body.source.written(index + 1, opening - 1)


def condition_end(body, index):
    """The brace that opens the block of an if."""
    return body.ahead(index + 1, ("{",))
