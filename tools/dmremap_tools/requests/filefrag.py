"""Makes requests for the sectors of files, from the output of `filefrag -s -v -b512 FILE`.

Takes the extents of one file or of several, in blocks of any size. Prints requests that read them, in the file's order.
Unwritten extents are reported and left out: they read as zeros. Refuses file systems other than ext2, ext3, ext4 and
XFS: the extents of btrfs are no places on its device. Refuses extents without a place, such as `delalloc`, `inline` and
`encoded`, and a text that isn't whole. Without -s of filefrag, new blocks have no place, and preallocated ones count as
unwritten.

Two things don't show in the text: the numbers of `filefrag -X` are hexadecimal and may look decimal, and a file in the
realtime part of XFS has its extents on another device.
"""

import re
from argparse import ArgumentParser, Namespace
from typing import Iterator, Tuple

from dmremap_tools.base import SECTOR, names, quoting, requests, streams

EXAMPLE = "filefrag -s -v -b512 /mnt/report.odt | dmremap-tools filefrag vg0-lv0 | dmremap map lvm vg0.backup"

TYPE = re.compile(r"Filesystem type is: ([^ :.]*).*")
GROUPS = re.compile(r"Filesystem cylinder groups approximately [0-9]+")
SIZE = re.compile(r"File size of .* is ([0-9]+) \(([0-9]+) blocks? of ([0-9]+) bytes\)")
HEAD = re.compile(r" ext: +logical_offset: +physical_offset: length: +expected: flags:")
EXTENT = re.compile(r" *{0}: +{0}\.\. *{0}: +{0}\.\. *{0}: +{0}:(?: +[0-9]+:)? *([a-z_0-9,]*)".format(r"([0-9]{1,18})"))
FOUND = re.compile(r": ([0-9]+) extents? found")
KNOWN = {"ef53", "58465342"}
PLACED = {"", "last", "eof", "merged", "shared", "unwritten"}
MOST_SPARE = 1 << 24
ANEW = "make the text anew by `filefrag -s -v -b512`"


def add_words(parser: ArgumentParser) -> None:
    parser.add_argument("volume", metavar="VOLUME", help="the device that the file system lies on, by its name or path")
    parser.add_argument("file", metavar="FILE", nargs="?", default="-",
                        help="the output of filefrag; by default standard input")


def run(words: Namespace) -> None:
    name, source = names.device(words.volume, "VOLUME"), streams.Lines(words.file)
    for first, count in read_filefrag(source):
        requests.write(source, "R", name, first, count)


def read_filefrag(source: streams.Lines) -> Iterator[Tuple[int, int]]:
    """The first sector of each extent, and how many. `opened` is the line that the list of a file began with."""
    opened, is_known, is_last = "", False, False
    files = size = block = number = after = 0
    for line in source:
        extent = EXTENT.fullmatch(line) if opened else None
        named, kind = (None, None) if extent else (SIZE.fullmatch(line), TYPE.fullmatch(line))
        found = FOUND.search(line) if opened and not extent else None
        if extent:
            place, first, last, start, end, length = map(int, extent.groups()[:6])
            flags, text = extent[7].split(","), line.lstrip(" ")
            faults = {"an extent whose place is not known": not PLACED.issuperset(flags),
                      "an extent is missing": place != number or first < after or is_last,
                      "ends and length differ": last + 1 - first != length or end + 1 - start != length,
                      "the file ends elsewhere": "eof" in flags and (last + 1) * block < size}
            for why in (why for why, is_so in faults.items() if is_so):
                source.refuse(f"{why}, {ANEW}: {quoting.shown(text)}")
            number, is_last, after = number + 1, "last" in flags, last + 1
            if "unwritten" in flags:
                streams.tell("unwritten, so that it reads as zeros: " + quoting.shown(text))
            else:
                if block % SECTOR or not block:
                    source.refuse(f"blocks of {block} bytes, which are no whole sectors: give a multiple of 512")
                yield start * block // SECTOR, length * block // SECTOR
        elif named:
            if not is_known or opened:
                source.refuse_line("the line comes too early, " + ANEW)
            size, blocks, block = map(source.whole, named.groups())
            if not 0 <= blocks * block - size < MOST_SPARE:
                source.refuse_line("bytes and blocks differ, " + ANEW)
            opened, is_last, number, after, files = line, False, 0, 0, files + 1
        elif kind:
            if kind[1] not in KNOWN:
                source.refuse_line("neither ext2, ext3, ext4 nor XFS, whose extents alone are places on the device")
            is_known = True
        elif found:
            if not is_last and (number or found[1] != "0"):
                source.refuse_line("an extent is missing before, " + ANEW)
            opened = ""
        elif not GROUPS.fullmatch(line) and not (opened and HEAD.fullmatch(line)):
            source.refuse_line("not a line of filefrag -v, " + ANEW)
    if opened:
        source.refuse(f"the end is missing, {ANEW}: {quoting.shown(opened)}")
    if not files:
        source.refuse("no file: " + ANEW)
