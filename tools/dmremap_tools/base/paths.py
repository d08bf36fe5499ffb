"""Where disks are on this machine: lines `NAME PATH`, for --paths."""

import os
import re
from argparse import ArgumentParser
from typing import Dict, NamedTuple, Optional

from dmremap_tools.base import SECTOR, Refusal, quoting, streams

# With more figures, a system couldn't say where a sector after it is.
PLACED = re.compile(r"(.*)\?offset=([0-9]{1,18})(?:&length=([0-9]{1,18}))?", re.S)
# What PATHS takes for a part of a file, in whatever form.
OF_PART = re.compile(r".*\?(?:offset|length)=[^?]*", re.S)
# The greatest length that a path says: of no file is as much there.
REST = 10 ** 18 - SECTOR


class DiskPlace(NamedTuple):
    """Where the bytes of a disk are: a file or a disk here, the byte at which they begin, whether that was said, and
    how many there are at most."""

    path: str
    start: int = 0
    is_said: bool = False
    length: int = REST


def place_of(path: str) -> DiskPlace:
    """The place that a path says, with or without an offset and a length in bytes."""
    match = PLACED.fullmatch(path)
    return DiskPlace(match[1], int(match[2]), True, int(match[3] or REST)) if match else DiskPlace(path)


def is_listed(path: str) -> bool:
    """Whether a path may stand in PATHS: one that is about a part of a file says whole sectors, and at least one."""
    match = PLACED.fullmatch(path)
    start, length = (int(match[it] or 0) for it in (2, 3)) if match else (0, 0)
    return not OF_PART.fullmatch(path) or length > 0 and not (start | length) % SECTOR


def part(path: str, start: int, size: int) -> str:
    """A part of a file as PATHS names it, by where it begins and how long it is, in bytes."""
    return f"{path}?offset={start}&length={size}"


def line(name: str, path: str, start: int = 0, length: int = REST) -> str:
    """The line of PATHS by which a disk is this part of a file, or all of it. A path that no line says is refused."""
    said = path if not start and length == REST and not OF_PART.fullmatch(path) else part(path, start, length)
    if "\n" in path:
        raise Refusal(quoting.shown(path), "no line of PATHS can say this path: give the file another name, or a link "
                      "to it")
    return f"{name} {said}\n"


def add_words(parser: ArgumentParser) -> None:
    parser.add_argument("--paths", metavar="PATHS",
                        help="a list of lines NAME PATH: a disk of the tables and its path here, or "
                             "PATH?offset=BYTES&length=BYTES if it is that part of PATH")


def places(path: Optional[str], are_apart: bool = True) -> Dict[str, DiskPlace]:
    """The place of each name, which may have spaces, of a file that may not be given; if they `are_apart`, no path
    stands twice."""
    found: Dict[str, DiskPlace] = {}
    taken, source = set(), streams.Lines(os.devnull if path is None else path)
    for line in source:
        name, _, place = line.partition(" ")
        if not name or not place or "\0" in line:
            source.refuse_line("not a line of PATHS, give NAME PATH")
        if not is_listed(place):
            source.refuse_line("not a part of a file, give PATH?offset=BYTES&length=BYTES, both multiples of 512")
        if name in found or are_apart and place in taken:
            source.refuse_line("named before, give each name and path once")
        found[name] = place_of(place)
        taken.add(place)
    return found
