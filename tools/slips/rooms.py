"""Copies of a crate and of those below it, outside the checkout, in which the prover tries a changed text."""
import json
import os
import re
import shutil
import signal
import subprocess

LONGEST = 900
PARTS = ("src", "specs", "proofs")
NAME = re.compile(r"[^\W\d][\w'+-]*")
# what joins the names of steps and goals into longer ones
JOINT = re.compile(r"(\+|-via-|-clause-\w+\Z)")


def run(folder, *words):
    """What a command of the kit says in a crate's folder; it is ended where it takes too long."""
    pipes = {"stdin": subprocess.DEVNULL, "stdout": subprocess.PIPE, "stderr": subprocess.STDOUT}
    with subprocess.Popen(["rt", *words], cwd=folder, text=True, start_new_session=True, **pipes) as command:
        try:
            return command.communicate(timeout=LONGEST)[0]
        finally:
            if command.poll() is None:
                os.killpg(command.pid, signal.SIGKILL)


class Crates:
    """The crates of the checkout."""

    def __init__(self, root):
        self.root, self.lines, self.names = root, {}, {}
        for line in (root / "crates.txt").read_text().splitlines():
            head, colon, uses = line.partition("#")[0].partition(":")
            if colon:
                self.lines[head.split()[0]] = (line, uses.split())
        self.lowest_first = sorted(self.lines, key=lambda crate: len(self.below(crate)))

    def below(self, crate):
        """The crates of this repository that one stands on, and itself."""
        found, waiting = set(), [crate]
        while waiting:
            one = waiting.pop()
            if one in self.lines and one not in found:
                found.add(one)
                waiting += self.lines[one][1]
        return found

    def check(self, crate):
        """The log of a check in the checkout; the names of the crate's goals and steps are kept."""
        folder = self.root / "crates" / crate
        log = run(folder, "check")
        self.names[crate] = names_of(folder, self.root / "target" / "slips" / crate / "names")
        return log


def names_of(folder, to):
    """For each function's module the names of its goals, steps and places, each by the number that it has among its kind."""
    shutil.rmtree(to, ignore_errors=True)
    to.parent.mkdir(parents=True, exist_ok=True)
    run(folder, "check", "--generated", str(to), "--old-names")
    if not (to / "names.json").is_file():
        return {}
    found = {}
    for module, told in json.loads((to / "names.json").read_text()).items():
        if not module.endswith(".Lts"):
            continue
        named = list(zip(told["places"], told["places_by_name"]))
        pairs = [("goal", old, new) for old, new in told["needs"]] + [("loop", *loop[0]) for loop in told["loops"]]
        pairs += [("step " + place[0], *place[2]) for place, _ in named] + [("place", place[0], name) for place, name in named]
        pairs += [("way", place[0], name[0].lower() + name[1:]) for place, name in named]
        pairs += [("place", old, new) for old, new in told["asked_at"]]
        found[module.removesuffix(".Lts").partition("-proofs.")[2]] = {pair[:2]: pair[2] for pair in pairs if all(pair)}
    return found


class Room:
    """A copy of a crate and of those below it, with what the checkout's check kept of the crate."""

    def __init__(self, crates, crate, place):
        self.crates, self.crate, self.place = crates, crate, place
        self.own, self.new_names = place / "crates" / crate, {}
        for one in crates.below(crate):
            for part in PARTS:
                if (crates.root / "crates" / one / part).is_dir():
                    shutil.copytree(crates.root / "crates" / one / part, place / "crates" / one / part)
        lines = [line for name, (line, _) in crates.lines.items() if name in crates.below(crate)]
        (place / "crates.txt").write_text("\n".join(lines) + "\n")
        kept = crates.root / "crates" / crate / "out" / "incremental"
        if kept.is_dir():
            shutil.copytree(kept, self.own / "out" / "incremental", copy_function=linked)

    def clear(self):
        """Removes the copy."""
        shutil.rmtree(self.place, ignore_errors=True)

    def write(self, texts):
        """Puts texts in the place of files."""
        for file, text in texts.items():
            (self.own / file).write_text(text)

    def rename(self, functions):
        """Has the proofs of functions call their goals and steps by the names that these have in the text as it stands here."""
        before, after = self.crates.names[self.crate], names_of(self.own, self.place / "names")
        for function in functions:
            module = function.replace("/", ".")
            old, new = before.get(module, {}), after.get(module, {})
            self.new_names[function] = {old[key]: new[key] for key in old if key in new}
        self.rename_only(functions)

    def rename_only(self, functions):
        """Has those proofs alone call them so, of functions that were renamed, and the others by their own names."""
        texts = {}
        for function, names in self.new_names.items():
            folder, slash, name = function.rpartition("/")
            for file in [*self.own.glob(f"proofs/{function}/*.antt"), *self.own.glob(f"proofs/{folder}{slash}+*{name}*/*.antt")]:
                text = texts.get(file) or (self.crates.root / "crates" / self.crate / file.relative_to(self.own)).read_text()
                texts[file] = NAME.sub(lambda found: renamed(found[0], names), text) if function in functions else text
        for file, text in texts.items():
            file.write_text(text)

    def check(self):
        """What the prover says of the crate as it stands here."""
        return run(self.own, "check", "--jobs", "1")


def renamed(name, names):
    """A name, or each part of a longer one, by its new name."""
    return names.get(name) or "".join(names.get(part, part) for part in JOINT.split(name))


def linked(one, other):
    """A link to what was proved, which no check changes, and else a copy."""
    return os.link(one, other) if one.endswith(".oantt") else shutil.copy2(one, other)
