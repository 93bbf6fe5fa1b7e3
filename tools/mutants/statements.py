"""Wrong versions of statements: tests in the other order or left out, stores left out, turns of a loop."""
from small import condition_end


def guards_of(body):
    """The tests that only refuse or leave: first and last token of each."""
    for index in body.range():
        if body.text(index) == "if" and body.starts_statement(index):
            opening = condition_end(body, index)
            closing = body.partners[opening]
            if body.text(opening + 1) in ("return", "break", "continue") and body.text(closing + 1) != "else":
                yield index, closing


def orders(body):
    """Two successive tests in the other order."""
    guards = list(guards_of(body))
    for (first, last), (second, end) in zip(guards, guards[1:]):
        if last + 1 == second:
            yield "order", first, end, body.source.written(second, end) + "\n    " + body.source.written(first, last)


def guards(body):
    """A test left out."""
    for first, last in guards_of(body):
        yield "guard", first, last, ""


def stores(body):
    """A store, or a call for its effect, left out."""
    for index in body.range():
        token = body.tokens[index]
        if not body.starts_statement(index) or token.text in ("let", "return", "if", "match", "while", "for", "loop", "break", "continue"):
            continue
        end = body.ahead(index, (";",))
        if body.text(end) == ";" and (token.kind == "name" or token.text == "*"):
            yield "store", index, end, ""


def turns(body):
    """A loop left where it goes on, and gone on where it is left."""
    for index in body.range():
        if body.text(index) in ("break", "continue"):
            yield "turn", index, index, "continue" if body.text(index) == "break" else "break"
