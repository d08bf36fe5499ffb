"""Reading what was recorded. vectors/README.md says what each section has."""

import functools
import hashlib
import json
import os
import re

END = ".txt"
# The files of a folder of vectors that two recordings have alike: not that of the versions, nor that of power cuts, since writes
# to several disks come in another order each time.
KINDS = ["mappings", "snapshots", "stores", "tables", "groups", "names", "texts"]
# A file holds experiments, each below a line `== NAME ==`; an experiment holds sections, each below a line `-- NAME --`.
EXPERIMENT = re.compile(r"^== (.+) ==\n", re.M)
SECTION = re.compile(r"^-- (.+) --\n", re.M)


def parted(heading, text):
    """The parts of a text, by their names: each is all that stands below a heading, up to the next one."""
    _, *parts = heading.split(text)
    return dict(zip(parts[::2], parts[1::2]))


def joined(sections):
    """The text of these sections. One that would be read otherwise is refused: a line of it is a heading, or its last has no end."""
    text = "".join("-- %s --\n%s" % it for it in sections.items())
    if parted(SECTION, text) != sections or EXPERIMENT.search(text):
        raise ValueError("a section of %s can't be told from a heading" % ", ".join(sections))
    return text


class Vector:
    """One experiment, by its name and its text."""

    def __init__(self, name, text):
        self.name, self.whole = name, text

    @functools.cached_property
    def sections(self):
        return parted(SECTION, self.whole)

    def has(self, name):
        return name in self.sections

    def text(self, name):
        """A section as it is, newlines and odd bytes included; none if it is not there."""
        return self.sections.get(name, "")

    def file(self, program, name):
        """Makes a file of a section, for the program to read, and returns its path."""
        return program.file(os.path.join("vectors", self.name, name), self.text(name).encode(errors="surrogateescape"))

    def lines(self, name):
        return [it for it in self.text(name).split("\n") if it]

    def rows(self, name):
        """The rows of a section with a head and tabs between its fields."""
        return [it.split("\t") for it in self.lines(name)[1:]]

    def records(self, name):
        """The values of a section that has one in JSON in each line."""
        return [json.loads(it) for it in self.lines(name)]

    def read_only(self):
        """The devices that concise text marks so."""
        return set(re.findall(r"(?:^|;)([^,;]*),[^,;]*,[^,;]*,ro,", self.text("concise.txt")))

    def stack(self, program):
        """The words for the program that name the stack. Table text can't say that a device is read-only."""
        form = "concise" if self.read_only() else "table"
        return [form, self.file(program, form + ".txt"), self.file(program, "disks.txt")]

    def tables(self):
        """The lines of each device of table.txt, each as its words: start, length, target, arguments."""
        return tables_of(self.text("table.txt"))


def tables_of(text):
    """The lines of each device of table text, each as its words."""
    found = {}
    for line in text.split("\n"):
        name, colon, rest = line.partition(": ")
        if colon:
            found.setdefault(name, []).append(rest.split())
    return found


def end_of(lines):
    """The length of a device with these lines."""
    return int(lines[-1][0]) + int(lines[-1][1])


def in_file(folder, kind):
    """The vectors of a kind, in the order of their file; none where a folder has no such file."""
    path = os.path.join(folder, kind + END)
    if not os.path.exists(path):
        return []
    with open(path, encoding="utf-8", errors="surrogateescape", newline="") as recorded:
        return [Vector(name, text) for name, text in parted(EXPERIMENT, recorded.read()).items()]


def put(folder, kind, name, sections):
    """Writes a vector into the file of its kind, in place of one of that name; all stay in the order of their names."""
    texts = {vector.name: vector.whole for vector in in_file(folder, kind)}
    texts[name] = joined(sections)
    with open(os.path.join(folder, kind + END), "w", encoding="utf-8", errors="surrogateescape", newline="") as recorded:
        recorded.write("".join("== %s ==\n%s" % each for each in sorted(texts.items())))


def body(text):
    """A group without comments, tabs and devices, which vgcfgbackup names as they are now, and without what is around it."""
    lines = [re.sub(rb"\t# .*", b"", it).strip(b"\t") for it in text.rstrip(b"\0").split(b"\n")]
    lines = [it for it in lines if it and not it.startswith(b"device = ")]
    first = next((at for at, it in enumerate(lines) if it.endswith(b" {")), 0)
    return b"\n".join(lines[first:len(lines) - lines[::-1].index(b"}")])


def digest(text):
    """What tells texts apart. A NUL at their end isn't told."""
    return hashlib.sha256(text.rstrip(b"\0")).hexdigest()[:20]
