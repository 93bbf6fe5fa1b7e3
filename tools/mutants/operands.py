"""Wrong versions of operands: exchanged with others of their type, other constructors, answers off by one."""
from tokens import split

NUMBERS = {"u8", "u16", "u32", "u64", "usize", "i64"}


def successive(kinds):
    """The pairs of positions that have one type, each with the next of that type."""
    for first, kind in enumerate(kinds):
        second = next((i for i in range(first + 1, len(kinds)) if kinds[i] == kind), None)
        if second is not None:
            yield first, second


def exchanged(body, kind, one, other):
    """Two parts of the code exchanged, where they differ."""
    (a, b), (c, d) = one, other
    if body.source.joined(a, b) != body.source.joined(c, d):
        between = body.source.text[body.tokens[b].end : body.tokens[c].start]
        yield kind, a, d, body.source.written(c, d) + between + body.source.written(a, b)


def arguments(body):
    """Two arguments of one type exchanged."""
    for use in body.uses("("):
        held = body.fields(use) if use.path[-1][0].isupper() else None
        callee = None if held else body.world.callee(body.source, use.path)
        kinds = [k for _, k in (held or (callee.parameters if callee else []))]
        if len(kinds) == len(use.parts):
            for one, other in successive(kinds):
                yield from exchanged(body, "arguments", use.parts[one], use.parts[other])


def fields(body):
    """The values of two fields of one type exchanged."""
    for use in body.uses("{"):
        held = dict(body.fields(use) or [])
        values = list(body.valued(use)) if held else []
        for one, other in successive([held.get(v[0]) for v in values]):
            (f, a, b, _), (g, c, d, _) = values[one], values[other]
            if body.source.joined(a, b) != body.source.joined(c, d):
                first, last = use.parts[one][0], use.parts[other][1]
                between = body.source.text[body.tokens[b].end : body.tokens[use.parts[other][0]].start]
                yield "fields", first, last, f"{f}: {body.source.written(c, d)}{between}{g}: {body.source.written(a, b)}"


def elements(body):
    """Two successive elements of an array exchanged."""
    for index in body.range():
        if body.text(index) == "[" and index not in body.in_pattern and not body.ends_operand(index - 1):
            parts = split(body.tokens, body.partners, index + 1, body.partners[index] - 1)
            for one, other in zip(parts, parts[1:]):
                yield from exchanged(body, "elements", one, other)


def variables(body):
    """A variable replaced by another of its type, the one bound last."""
    for index in body.range():
        seen = [v for v in body.variables if v.start < index <= v.end]
        own = next((v for v in reversed(seen) if v.name == body.text(index)), None)
        if own is None or own.kind is None or not is_value(body, index):
            continue
        others = [v.name for v in seen if v.kind == own.kind and v.name != own.name]
        if others:
            field = f"{own.name}: " if is_lone_field(body, index) else ""
            yield "variable", index, index, field + others[-1]


def is_value(body, index):
    """Whether a name stands for a variable's value here."""
    if index in body.in_pattern or body.text(index - 1) in (".", "::") or body.text(index + 1) in ("(", "::", ":"):
        return False
    return not (body.starts_statement(index) and body.text(body.ahead(index, (";", "=", "+=", "-="))) in ("=", "+=", "-="))


def is_lone_field(body, index):
    """Whether a name is a field of a struct literal that stands alone for its value."""
    return any(alone and first == index for use in body.uses("{") if body.fields(use) for _, first, _, alone in body.valued(use))


def constructors(body):
    """A variant replaced by the next that holds the same: a refusal by another, a name by another."""
    for index in body.range():
        if body.text(index - 1) != "::" or not body.text(index)[0].isupper() or index in body.in_pattern or body.text(index + 1) == "::":
            continue
        _, path = body.path_ending(index)
        variants = body.world.variants(body.source, path) or {}
        same = [name for name, held in variants.items() if held == variants.get(path[-1])]
        if len(same) > 1:
            yield "constructor", index, index, same[(same.index(path[-1]) + 1) % len(same)]


def answers(body):
    """What a constructor holds, and what a function of a number answers, plus one; a place also minus one."""
    for use in list(body.uses("(")) + list(body.uses("{")):
        if use.path[-1][0].isupper():
            held = body.fields(use) or []
            named = bool(held) and held[0][0] is not None
            parts = list(body.valued(use)) if named else [("", a, b, False) for a, b in use.parts]
            kinds = [dict(held).get(p[0]) for p in parts] if named else [k for _, k in held]
            for (name, first, last, alone), kind in zip(parts, kinds):
                yield from off_by_one(body, first, last, kind, f"{name}: " if alone else "")
    if body.function.result in NUMBERS and body.text(body.last - 1) not in (";", "}"):
        first = max(i for i in body.range() if body.starts_statement(i))
        yield from off_by_one(body, first, body.last - 1, body.function.result, "")


def off_by_one(body, first, last, kind, field):
    """A number plus one, and a place minus one; integers themselves are left to `constants`."""
    lone = first == last and body.tokens[first].kind == "number"
    if kind in NUMBERS and not lone and not any(body.text(i) == "{" for i in range(first, last + 1)):
        for off in ("+ 1", "- 1") if kind == "usize" else ("+ 1",):
            yield "answer", first, last, f"{field}{body.source.written(first, last)} {off}"
