#!/usr/bin/env python3
"""Respells this repository's own definitions and lemmas as today's Rattle spells them: words in snake case.

usage: python3 tools/respell.py [TOP]     once, at the top of a tree that port.py has turned, before anything by hand

`tagFrom` becomes `tag_from`, `read-exactly` becomes `read_exactly`. A lemma whose name would fall together with a definition's in one file gets `_lem` (LEMMAS, TURNED).
Functions of src/, exported names, strings, inputs and outputs keep their names: a name is respelled where it stands in specs/, proofs/, clauses, ghost use lines, edits, comments and pages.
"""
import os
import re
import sys

TOP = sys.argv[1] if len(sys.argv) > 1 else "."
TOKEN = re.compile(r"[^\s(){}\[\];,.\"«»λ`]+")
DEFINED = re.compile(r"^\s*(?:abbrev\s+|unfoldable\s+)?(?:pub\s+)?(?:abbrev\s+|unfoldable\s+|data\s+|record\s+|module\s+)?(?:pub\s+)?([^\s(){}\[\];,.\"]+)\s*(?:\(|\{|:)")
IMPORT = re.compile(r"use ([\w.·+\-']+)\.\{([^}]*)\}")
WORDS = {"use", "let", "in", "where", "rw", "simp", "elim", "λ", "omega", "absurd", "="}
GOALS = {"Proof.antt", "Answers.antt", "Invariants.antt"}

# lemmas that stand in one file with a definition of their name
LEMMAS = {"tag-found", "at-end", "closing-step", "header-back", "real-or-double", "text-read", "of-kind", "frame-text", "header-line", "stored-from", "for-tag", "unsigned-length", "signed-length", "zero-low", "is-nan", "words-in", "of-none"}
# the same, of lemmas that port.py has respelled: where they stand
TURNED = {
    "no_room": ("crates/text/", "crates/dump/", "crates/apdu_dump/"),
    "no_line": ("crates/lines/", "crates/dump/", "crates/apdu_dump/"),
    "of_row": ("crates/headers/proofs/Exactly.antt",),
    "no_value": ("crates/headers/proofs/Following.antt",),
    "one_by_one": ("crates/headers/proofs/Stored.antt",),
    "on_step": ("crates/walk/proofs/Nested.antt",),
}


def files(folder, endings):
    for at, dirs, names in os.walk(os.path.join(TOP, folder)):
        dirs[:] = sorted(d for d in dirs if d not in ("out", "target", ".git"))
        for name in sorted(names):
            if name.endswith(endings):
                yield os.path.join(at, name)


def text_of(path):
    with open(path, encoding="utf-8") as f:
        return f.read()


def is_camel(name):
    return bool(re.match(r"[a-z]", name) and re.search(r"[A-Z]", name))


def snake(name):
    return re.sub(r"([a-z0-9])([A-Z])", lambda m: m.group(1) + "_" + m.group(2).lower(), name).replace("-", "_")


def renamed():
    own = set(os.listdir(os.path.join(TOP, "crates")))
    names, others = set(), set()
    for path in files("crates", (".antt", ".rt")):
        text = text_of(path)
        for where, what in IMPORT.findall(text):
            if where.split(".")[0] != "Rattle" or where.split(".")[1] not in own:
                others |= {w.strip().split(" as ")[-1].strip() for w in what.split(",")}
        if path.endswith(".antt") and os.path.basename(path) not in GOALS:
            for line in text.splitlines():
                m = DEFINED.match(line)
                if m and not line.strip().startswith("--") and m.group(1) not in WORDS:
                    names.add(m.group(1))
    turned = {}
    for name in names - others:
        if is_camel(name) or ("-" in name and name[0].islower()):
            turned[name] = snake(name) + ("_lem" if name in LEMMAS else "")
    return turned


def quoted(line, names):
    """A line of prose: definitions anywhere, lemmas between backticks."""
    line = TOKEN.sub(lambda m: names.get(m.group(0), m.group(0)) if is_camel(m.group(0)) else m.group(0), line)
    return re.sub(r"`([^`\s]+)`", lambda m: "`" + names.get(m.group(1), m.group(1)) + "`", line)


def code(line, names, path):
    at = os.path.relpath(path, TOP)

    def one(m):
        name = m.group(0)
        if at.startswith(TURNED.get(name, ())) and at.endswith(".antt") and not line[: m.start()].endswith("."):
            return name + "_lem"
        return names.get(name, name)

    return TOKEN.sub(one, line)


def strings_kept(line, names):
    """A line of Rattle: camel case alone, and no string's text."""
    parts = re.split(r"(\"(?:[^\"\\]|\\.)*\")", line)
    return "".join(p if i % 2 else TOKEN.sub(lambda m: names.get(m.group(0), m.group(0)) if is_camel(m.group(0)) else m.group(0), p) for i, p in enumerate(parts))


def defined():
    """The names that stand in specs/ and proofs/ once they are respelled."""
    found = set()
    for path in files("crates", (".antt",)):
        found |= set(TOKEN.findall(text_of(path)))
    return found


def paged(line, names, found):
    """A line of a page: what stands between backticks; names that port.py respelled, too."""

    def one(m):
        name = m.group(0)
        if name in names or name in found:
            return names.get(name, name)
        return snake(name) if (is_camel(name) or "-" in name) and snake(name) in found else name

    return re.sub(r"`([^`]+)`", lambda m: "`" + TOKEN.sub(one, m.group(1)) + "`", line)


def respelled(path, names, found=None):
    lines = []
    antt = path.endswith(".antt")
    for line in text_of(path).split("\n"):
        s = line.strip()
        if path.endswith(".edit"):
            if s.startswith("file:"):
                antt = s.endswith(".antt")
            line = (code(line, names, path) if antt else strings_kept(line, names)) if s.startswith(("old:", "new:")) else quoted(line, names)
        elif path.endswith((".antt", ".rt")):
            if s.startswith(("--", "//")):
                line = quoted(line, names)
            else:
                line = code(line, names, path) if antt else strings_kept(line, names)
        else:
            line = paged(line, names, found)
        lines.append(line)
    return "\n".join(lines)


def main():
    names = renamed()
    pages = [os.path.join(TOP, "README.md"), *files("docs", (".md",)), *files("bench", (".md",)), *files("oracle", (".md",))]
    changed = 0
    for paths in (list(files("crates", (".antt", ".rt", ".edit"))), pages):
        found = defined() if paths is pages else None
        for path in paths:
            old = text_of(path)
            new = respelled(path, names, found)
            if new != old:
                changed += 1
                with open(path, "w", encoding="utf-8") as f:
                    f.write(new)
    print(f"respell: {len(names)} names, {changed} files")


if __name__ == "__main__":
    main()
