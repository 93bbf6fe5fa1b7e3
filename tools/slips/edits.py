"""Gathered edits: their slips, and the texts that the slips of some of the functions make."""
import pathlib
import re
from typing import NamedTuple

FUNCTION = re.compile(r'(    )?(?:pub(?:\([a-z]+\))? )?(?:const )?(?:unsafe )?(?:extern "C" )?fn (\w+)')
IMPL = re.compile(r"impl(?:<.*?>)? (?:(\w+)(?:<(.*)>)? for )?(\w+)")


class Slip(NamedTuple):
    """A slip: its name, the functions that it says it stands in, and its changes as file, old and new text."""

    name: str
    places: list
    pairs: list


class Piece(NamedTuple):
    """A part of a file: a function by its name behind its type's, or what stands between functions, with no name; its first line's number."""

    name: str
    text: str
    line: int


def is_gathered(edit):
    """Whether an edit holds several slips."""
    return re.search(r"^slip: ", edit.read_text(), re.MULTILINE) is not None


def slips_of(text):
    """The slips of an edit's text."""
    slips, file, old = [], "", ""
    for line in text.splitlines():
        word, _, rest = line.partition(": ") if not line.startswith("new:") else ("new", "", line[4:].removeprefix(" "))
        if word == "slip":
            slips.append(Slip(rest.strip(), [], []))
        elif word == "in":
            slips[-1].places.extend(rest.split())
        elif word == "file":
            file = rest.strip()
        elif word == "old":
            old = rest
        elif word == "new":
            slips[-1].pairs.append((file, old, rest or line[5:]))
    return slips


def pieces_of(text):
    """A file's functions, and what stands between them."""
    found, owner, name, lines, first = [], None, None, [], 1
    for number, line in enumerate(text.splitlines(keepends=True), 1):
        impl, function = IMPL.match(line), FUNCTION.match(line)
        if impl:
            owner = "".join(word and word[0].upper() + word[1:] for word in (impl[3], impl[1] or "", impl[2] or ""))
        if function and name is None:
            found.append(Piece(None, "".join(lines), first))
            name, lines, first = "/".join(filter(None, (owner if function[1] else None, function[2]))), [], number
        lines.append(line)
        if name and line == ("    }\n" if "/" in name else "}\n"):
            found.append(Piece(name, "".join(lines), first))
            name, lines, first = None, [], number + 1
        if line == "}\n":
            owner = None
    return found + [Piece(name, "".join(lines), first)]


def module_of(file):
    """The modules that lead to a file of src/, each with a slash behind it."""
    path = pathlib.PurePath(file).with_suffix("")
    return "" if path.name in ("lib", "main") else "/".join(path.parts[1:]) + "/"


def homes_of(crate):
    """The modules of a crate's types, by their names."""
    homes = {}
    for path in sorted(crate.glob("src/**/*.rt")):
        for declared in re.finditer(r"^(?:pub(?:\([a-z]+\))? )?(?:struct|enum) (\w+)", path.read_text(), re.MULTILINE):
            homes[declared[1]] = module_of(str(path.relative_to(crate)))
    return homes


def named_in(homes, file, name):
    """A function of a file as the checker names it: a type's by the file that declares the type."""
    return homes.get(name.split("/")[0], module_of(file)) + name if "/" in name else module_of(file) + name


class Gathered:
    """A gathered edit of a crate: the files' texts before and after it."""

    def __init__(self, crate, edit):
        self.homes = homes_of(crate)
        self.slips = slips_of(edit.read_text())
        self.before, self.after, self.outside = {}, {}, {}
        for slip in self.slips:
            for file, old, new in slip.pairs:
                self.before.setdefault(file, (crate / file).read_text())
                text = self.after.setdefault(file, self.before[file])
                if text.count(old) != 1:
                    raise SystemExit(f"{edit}: an old text stands {text.count(old)} times in {file}: {old}")
                if self.at(file, text, text.index(old)) is None:
                    self.outside.setdefault(file, set()).add(slip.name)
                self.after[file] = text.replace(old, new)
        self.changed = {name for file in self.after for name in self.changed_in(file)}
        self.cycles = {}
        for file in crate.glob("src/**/*.rt"):
            self.note_cycles(str(file.relative_to(crate)), file.read_text())

    def at(self, file, text, index):
        """The function in which a place of a text lies, or nothing where it lies in none."""
        line = text.count("\n", 0, index) + 1
        return [p for p in self.pieces(file, text) if p.line <= line][-1].name

    def pieces(self, file, text):
        """A file's pieces; one of specs/ is one."""
        return pieces_of(text) if file.startswith("src/") else [Piece(None, text, 1)]

    def changed_in(self, file):
        """The functions of a file that the edit changes."""
        before, after = (self.pieces(file, texts[file]) for texts in (self.before, self.after))
        if [p.name for p in before] != [p.name for p in after]:
            raise SystemExit(f"an edit changes which functions {file} has")
        return [self.named(file, p.name) for p, q in zip(before, after) if p.name and p.text != q.text]

    def named(self, file, name):
        """A function of a file as the checker names it: a type's by the file that declares the type."""
        return named_in(self.homes, file, name)

    def note_cycles(self, file, text):
        """Notes the functions of a file that stand in a cycle of calls, by the cycle's name."""
        pieces = pieces_of(text)
        for head, function in zip(pieces, pieces[1:]):
            cycle = re.search(r"#\[cycle\((\w+)\)\]\s*(?:#\[.*\]\s*)*\Z", head.text)
            if cycle and function.name:
                self.cycles.setdefault(module_of(file) + "+" + cycle[1], []).append(self.named(file, function.name))

    def functions(self, place):
        """The functions that a place of an `in:` line names: one, or those of a cycle of calls."""
        folder, slash, last = place.rpartition("/")
        if not last.startswith("+"):
            return [place]
        return self.cycles.get(place) or [folder + slash + name for name in last.split("+")[1:]]

    def texts(self, functions, slips):
        """The files' texts with the changes of some functions alone, and of what stands outside functions those of some slips."""
        made = {}
        for file, before in self.before.items():
            outside = self.outside.get(file, set()) & slips
            taken = []
            for old, new in zip(self.pieces(file, before), self.pieces(file, self.after[file])):
                is_wanted = self.named(file, old.name) in functions if old.name else outside
                taken.append(new.text if is_wanted else old.text)
            made[file] = "".join(taken)
        return made
