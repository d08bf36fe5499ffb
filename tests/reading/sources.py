"""All sources of the repository, each name in them with what it means."""

import glob
import os
import re

from contracts import CodeFile
from definitions import ELSEWHERE, FORMATS, DefinitionFile, Item

# Names that the language brings without an import, and those that code has in scope without a `use`.
BUILT_IN = set("""⊥ absurd ¬ Unit tt Prim IsProp IsSet Dec yes no ∥ ∥₁ ∣ ∣₁ squash₁ Id J Path refl rw simp search grw cc
    omega grind hlevel assumption first_of at depth ⌜ ⌝ ∗ sem 𝓛 the_row
    Some None Ok Err u8 u16 u32 u64 usize bool char str""".split())


class Sources:
    """The files of all crates; those of proofs and of tests only where they are asked for.

    `unknown` has the names that were found nowhere, with their files and lines.
    """

    def __init__(self, top, with_all=False):
        self.top, self.unknown, self.code_items = top, [], []
        # What attributes hand to the tactics.
        self.handed = Item("attributes", "", "", "")
        self.definitions, self.code, self.texts = {}, {}, {}
        with open(os.path.join(top, "crates.txt"), encoding="utf-8") as it:
            self.crates = re.findall(r"^(\w+)[^:#\n]*:", it.read(), re.MULTILINE)
        for crate in self.crates:
            for folder in ("specs", "proofs") if with_all else ("specs",):
                for file, modules in self.files(crate, folder, ".antt"):
                    path = ("Rattle", crate, folder) + modules
                    self.definitions[path] = DefinitionFile(self, crate, file, path)
            for file, modules in self.files(crate, "src", ".rt"):
                modules = () if modules in (("lib",), ("main",)) else modules
                if with_all or "tests" not in modules:
                    self.code[(crate,) + modules] = CodeFile(self, crate, file, modules)
        for it in list(self.definitions.values()) + list(self.code.values()):
            it.resolve()

    def files(self, crate, folder, ending):
        """The files of a folder of a crate, each with the path of its module there."""
        above = os.path.join(self.top, "crates", crate, folder)
        for it in sorted(glob.glob(os.path.join(above, "**", "*" + ending), recursive=True)):
            modules = os.path.relpath(it, above)[:-len(ending)].split(os.sep)
            yield os.path.relpath(it, self.top).replace(os.sep, "/"), tuple(modules[:-1] if modules[-1] == "mod" else modules)

    def note(self, file, item, chain, start, meaning, formats=FORMATS):
        """Notes what a name that stands in an item means: an item, or the path of a name of the library."""
        if isinstance(meaning, Item):
            item.names(meaning, formats)
        elif meaning:
            item.library.add(meaning)
        elif chain[0] not in BUILT_IN and item.kind != "body":
            self.unknown.append("%s:%d: %s" % (file.file, file.text.count("\n", 0, start) + 1, ".".join(chain)))

    def lines(self, item):
        """The lines of the file in which an item stands."""
        if item.file not in self.texts:
            with open(os.path.join(self.top, item.file), encoding="utf-8") as it:
                self.texts[item.file] = it.read().split("\n")
        return self.texts[item.file]

    def is_ours(self, path):
        return path[0] == "Rattle" and len(path) > 2 and path[1] in self.crates

    def at(self, path):
        """What a path names: an item, or the path itself where it leads into the library."""
        if not self.is_ours(path):
            return ".".join(path)
        if path[2:4] == ("specs", "declared"):
            return self.declared(path[1], path[4:])
        file, rest = self.file_of(path)
        if file and rest and (rest[0] in file.items or rest[0] in file.constructors):
            return file.items.get(rest[0]) or file.constructors[rest[0]]
        if file and rest and rest[0] in file.passed_on:
            return self.at(file.passed_on[rest[0]] + rest[1:])
        # What the check itself makes of a function, which its proof names, is in no file.
        return ELSEWHERE if path[2] == "proofs" else None

    def file_of(self, path):
        """The file of definitions that a path leads to, and what is left of the path."""
        for length in range(len(path), 2, -1):
            file = self.definitions.get(path[:length]) or self.definitions.get(path[:length] + ("Lib",))
            if file:
                return file, path[length:]
        return None, path

    def declared(self, crate, path):
        """The type or the constant of the code that a path leads to, or to a part of."""
        for length in range(len(path) - 1, -1, -1):
            file = self.code.get((crate,) + path[:length])
            if file:
                name = path[length + 1] if path[length] == "TheConstants" and length + 1 < len(path) else path[length]
                return file.items.get(name)
        return None

    def is_constructor(self, path):
        """Whether a path names a constructor of a data type, or a variant of an enum of the code."""
        file, rest = self.file_of(path)
        return "TheVariants" in path or bool(file and len(rest) == 1 and rest[0] in file.constructors)
