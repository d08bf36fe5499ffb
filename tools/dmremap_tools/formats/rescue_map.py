"""The map in which ddrescue says what it could read: areas of a disk, in bytes, each with a status; and the option
--map, by which commands that search images take one for each. What a map doesn't have as read isn't there."""

import contextlib
import os
import re
import shlex
from argparse import ArgumentParser, Namespace
from typing import Dict, List, NamedTuple, Sequence, Tuple

from dmremap_tools.base import SECTOR, Refusal, WrongWords, numbers, quoting, streams, written
from dmremap_tools.formats import disk_image

FINISHED, BAD, UNTRIED = "+", "-", "?"
# What the names of maps end with.
ENDS = (".map", ".mapfile", ".log")
# A map says first where ddrescue stands. An area has a position, a size and a status.
NUMBER = r"(0x[0-9A-Fa-f]{1,16}|0|[1-9][0-9]{0,19})"
CURRENT = re.compile(NUMBER + r"\s+[?*/+FG-](?:\s+[0-9]{1,9})?")
AREA = re.compile(NUMBER + r"\s+" + NUMBER + r"\s+([?*/+-])")
# The bytes from `begin` up to `end`, with a status.
Area = NamedTuple("Area", [("begin", int), ("end", int), ("status", str)])


def read(path: str, is_written: bool = False) -> List[Area]:
    """The areas of a map, which perhaps is written anew then. Each begins where the one before ends."""
    source, areas = streams.Lines(path, is_written), []
    rows = (row for row in source if row and not row.startswith("#"))
    if not CURRENT.fullmatch(next(rows, "")):
        source.refuse("not a map of ddrescue: " + ("give another file as --resume" if is_written
                                                   else "give the file that it wrote"))
    end = None
    for row in rows:
        match = AREA.fullmatch(row)
        begin, size = (int(it, 0) for it in match.groups()[:2]) if match else (0, 0)
        if not match or not size or end not in (None, begin) or begin + size > numbers.LIMIT:
            source.refuse("not the area that comes next, give the map as ddrescue wrote it: " + quoting.shown(row))
        end = begin + size
        areas.append(Area(begin, end, match[3]))
    return areas


def add_words(parser: ArgumentParser, other: str = "") -> None:
    parser.add_argument("images", metavar="IMAGE", nargs="+", help="a file or a block device" + other)
    parser.add_argument("--map", metavar="IMAGE=MAP", action="append", default=[],
                        help="ddrescue's map of an image; what it doesn't list as finished counts as missing")
    parser.add_argument("--map-of-other-length", action="store_true",
                        help="accept a map that doesn't begin and end where its image does")


def images_with_maps(given: Sequence[str], images: Sequence[str]) -> List[Tuple[str, str]]:
    """The image and the map of each word IMAGE=MAP. Both may have a `=` in them."""
    found: Dict[object, Tuple[str, str]] = {}
    for word in given:
        meant = {image for image in images if word.startswith(image + "=")}
        image = min(meant, default="")
        key = written.identity_at(image) or image
        if len(meant) != 1 or key in found:
            raise WrongWords(f"--map: not IMAGE=MAP of one of the images, or given twice: {quoting.shown(word)}")
        found[key] = image, word[len(image) + 1:]
    return list(found.values())


def tell_unused(words: Namespace, typed: Sequence[str]) -> None:
    """Says with which maps the typed words could go on, if none is given and some lie beside the images."""
    called = [(it, name + end) for it in words.images for name in (it, os.path.splitext(it)[0]) for end in ENDS]
    found: List[str] = []
    for image, path in dict.fromkeys(called) if not words.map else ():
        with contextlib.suppress(Refusal):
            found += ["--map", f"{image}={path}"] * bool(os.path.isfile(path) and read(path))
    if found:
        streams.tell("with the maps that are here: dmremap-tools " + " ".join(map(shlex.quote, [*typed, *found])))


def unread_in(words: Namespace, images: Sequence[str]) -> Dict[str, List[Tuple[int, int]]]:
    """The runs of bytes that the maps of images don't have as finished, in whole sectors, by the images' paths."""
    found: Dict[str, List[Tuple[int, int]]] = {}
    for path, map_path in images_with_maps(words.map, images):
        same = (image for image in images if written.identity_at(image) == written.identity_at(path))
        found.update(dict.fromkeys([path, *same], unread_by_map(map_path, path, words.map_of_other_length)))
    return found


def unread_by_map(map_path: str, image: str, is_any_length: bool) -> List[Tuple[int, int]]:
    """Those of one map, in an image. One of another length is refused, unless `is_any_length`: then what lies before
    and behind its rows wasn't read."""
    areas, name = read(map_path), quoting.shown(image)
    try:
        with open(image, "rb", opener=lambda path, flags: os.open(path, flags | os.O_NONBLOCK)) as file:
            size = disk_image.length_of(file, name)
    except OSError as fault:
        raise Refusal(name, streams.why(fault))
    (begin, end), last = (areas[0].begin, areas[-1].end) if areas else (0, 0), whole_sectors(size)
    if (begin, whole_sectors(end)) != (0, last) and not is_any_length:
        raise Refusal(streams.name_of(map_path), f"it is of the bytes {begin} to {end}, and {name} has {size}: give "
                      "the map of this image, or with --map-of-other-length take what it doesn't list as not read")
    runs: List[Tuple[int, int]] = []
    for area in [Area(0, begin, UNTRIED), *areas, Area(end, max(end, size), UNTRIED)]:
        first, stop = area.begin // SECTOR * SECTOR, min(whole_sectors(area.end), last)
        first = max(first, runs[-1][1]) if runs else first
        runs += [(first, stop)] if area.status != FINISHED and first < stop else []
    return runs


def whole_sectors(size: int) -> int:
    """The bytes of the sectors that so many bytes touch."""
    return -(-size // SECTOR) * SECTOR
