"""The declarations of all crates, found by the names that a file uses."""
import pathlib

from items import Source


def module_of(file):
    """The modules that lead to a file of src/; the root has none."""
    return () if file.stem in ("lib", "main") else (file.stem,)


class World:
    """The sources of every crate of a repository."""

    def __init__(self, root):
        self.sources = []
        for file in sorted(pathlib.Path(root).glob("crates/*/src/*.rt")):
            self.sources.append(Source(file.parts[-3], module_of(file), file.name, file.read_text()))

    def of(self, crate):
        """The sources of a crate."""
        return [source for source in self.sources if source.crate == crate]

    def near(self, source, path):
        """The sources in which the last name of a path may be declared, nearest first."""
        crates = {s.crate for s in self.sources}
        if path[0] in crates and len(path) > 1:
            return self.of(path[0]) + self.sources
        origin = source.imports.get(path[0], source.crate)
        origin = source.crate if origin == "crate" else origin
        return [source] + self.of(origin) + self.sources

    def callee(self, source, path):
        """The function that a path names, or nothing."""
        for other in self.near(source, path):
            for function in other.functions:
                if function.path[-1] == path[-1]:
                    return function
        return None

    def variants(self, source, path):
        """The variants of the enum that a path of two or more names leads through, or nothing."""
        for other in self.near(source, path[-2:-1] or path):
            if len(path) > 1 and path[-2] in other.variants:
                return other.variants[path[-2]]
        return None

    def struct(self, source, name):
        """The fields of a struct, or nothing."""
        for other in self.near(source, [name]):
            if name in other.structs:
                return other.structs[name]
        return None

    def held(self, source, path, owner):
        """The fields of the struct or the variant that a path names, or nothing."""
        if len(path) > 1:
            return (self.variants(source, path) or {}).get(path[-1])
        return self.struct(source, owner if path[0] == "Self" else path[0])
