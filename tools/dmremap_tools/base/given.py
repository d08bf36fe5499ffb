"""What dmremap loads, as words of a command line say it."""

import os
from argparse import ArgumentParser, Namespace
from typing import Iterable, List, NamedTuple, Optional

from dmremap_tools.base import WrongWords, streams

# How many bytes FILE and DISKS have at most.
MOST_TEXT = 1 << 20
FORMATS = ("table", "concise", "lvm")


class Given(NamedTuple):
    """A format, FILE, and DISKS unless it is metadata."""

    form: str
    file: str
    disks: Optional[str]

    def words(self) -> List[str]:
        """The words of a command line of dmremap that load it."""
        return [self.form, self.file] + ([] if self.disks is None else [self.disks])

    def copied(self, folder: str) -> "Given":
        """Copies in a folder, without what dmremap doesn't take. They are read once, so they may be pipes."""
        file = os.path.join(folder, "given")
        copy = Given(self.form, file, None if self.disks is None else file + ".disks")
        for path, to in zip(self.words()[1:], copy.words()[1:]):
            put(to, [streams.read(path, MOST_TEXT)])
        return copy


def add_words(parser: ArgumentParser) -> None:
    parser.add_argument("form", metavar="FORMAT", choices=FORMATS, help="table, concise or lvm")
    parser.add_argument("file", metavar="FILE")
    parser.add_argument("disks", metavar="DISKS", nargs="?", help="with table and concise")


def put(path: str, parts: Iterable[str]) -> None:
    """Writes a text to a file for dmremap. Raises OutputFailed."""
    try:
        with open(path, "w", encoding="utf-8", errors="surrogateescape") as file:
            file.writelines(parts)
    except OSError as fault:
        raise streams.OutputFailed(f"{path}: {streams.why(fault)}")


def given_in(words: Namespace, usage: str) -> Given:
    """What the words of a command line load. Refuses them where DISKS is missing, or is one too many."""
    if (words.form == "lvm") == (words.disks is not None):
        raise WrongWords("give DISKS, or leave it out with lvm", "usage: " + usage)
    return Given(words.form, words.file, words.disks)
