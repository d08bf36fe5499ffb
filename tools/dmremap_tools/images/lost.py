"""Lists the files of a volume that have missing or unreadable sectors.

Takes GROUP/VOLUME and images, as `save` does. With --map IMAGE=MAP, for each image that has one, the areas that a map
of ddrescue doesn't list as finished are missing, too. Only the length shows whether a map is that of its image: one of
another length is refused. What another member of an array or another leg has isn't lost. Prints a line for each file:
how many of its sectors are lost, and its path. `folder` stands before a folder, whose files may be lost whole. The last
line says how many sectors are lost in all. In place of a path, a line may have

    inode N            a file without a name, such as the journal, or in a lost folder; ?/PATH: one above may be lost
    inode table: FILE  the inode of this file lies there; `inode table` alone has inodes of no file
    in use             the file system's own: its superblocks, descriptors, bitmaps
    no inode           in use, but by no inode: perhaps data of a file whose inode is lost
    unused             nothing uses it
    no file            unused or the file system's own: bitmaps that can't be read don't say which
    past its end       the part of the volume behind the file system
    no file system     none is there that is followed

Needs debugfs of e2fsprogs for ext2, ext3 and ext4, and xfs_db of xfsprogs for XFS. These read the volume in its image,
if it lies there in one piece. Otherwise they read a copy in the folder for temporary files, or the one that --saved
names, which `save` made. A FILE of another length, or with another superblock, is refused.
"""

import os
import tempfile
from argparse import ArgumentParser, Namespace
from collections import Counter
from typing import Optional, Sequence

from dmremap_tools.answers.saved import contents_of
from dmremap_tools.base import Refusal, program, quoting, streams
from dmremap_tools.base.numbers import SECTOR
from dmremap_tools.base.paths import DiskPlace
from dmremap_tools.formats import rescue_map
from dmremap_tools.model.device import Image, NamedDevice, blocks_of, image_of, joined, lacking
from dmremap_tools.model.file_systems import FileSystem, NoSystem, SectorRun, system_in
from dmremap_tools.model.pile import Pile

EXAMPLE = "dmremap-tools lost vg0/home sda.img sdb.img --map sda.img=sda.map"
TABLE = "inode table: "
# How many bytes of a copy are compared, among them the superblock.
COMPARED = 1 << 16


def add_words(parser: ArgumentParser) -> None:
    parser.add_argument("volume", metavar="GROUP/VOLUME", help="the volume, by its name")
    rescue_map.add_words(parser)
    parser.add_argument("--saved", metavar="FILE", help="read the file system from this copy, which `save` made")
    program.add_words(parser)


def run(words: Namespace) -> None:
    target = Pile(words.images, words.program, rescue_map.unread_in(words, words.images)).target(words.volume)
    lost = lacking(target.device, target.size)
    runs = [(begin // SECTOR, (end - begin) // SECTOR) for begin, end in lost]
    if runs:
        with tempfile.TemporaryDirectory(prefix="dmremap-tools-") as folder:
            for line in lines_of(system_of(target, runs, os.path.join(folder, "volume.img"), words.saved), runs):
                streams.out.write(line + "\n")
    unmapped = "" if words.map else "; no map was given (--map IMAGE=MAP): only sectors that the images lack"
    streams.out.write(f"{sum(count for _, count in runs)} sectors lost of {target.size // SECTOR}{unmapped}\n")
    rescue_map.tell_unused(words, ["lost", words.volume, *words.images])


def saved_place(target: NamedDevice, path: str) -> DiskPlace:
    """A copy of a volume, refused if its length or the first bytes that are there, as the superblock, are others."""
    copy, left = image_of(path), COMPARED
    give = f"give the copy of {quoting.shown(target.name)} that `save` made, or leave --saved out"
    if copy.bytes != target.size:
        raise Refusal(copy.name, f"it has {copy.bytes} bytes, and the volume {target.size}: {give}")
    for at, (source, start, size) in joined(target.device, 0, target.size):
        count = min(size, left)
        if count and source.lack(start, count) is None:
            if copy.read(at, count) != source.load(start, count):
                raise Refusal(copy.name, f"it has other bytes than the volume, from byte {at} on: {give}")
            left -= count
    if left == COMPARED:
        streams.tell(f"{copy.name}: nothing of the volume is there with which it could be compared")
    return DiskPlace(path)


def place_of(target: NamedDevice) -> Optional[DiskPlace]:
    """Where a volume lies, if it is all in one piece of an image, by a path that debugfs takes."""
    (_, first), *others = joined(target.device, 0, target.size)
    if others or not isinstance(first.source, Image) or "?" in first.source.path:
        return None
    return DiskPlace(first.source.path, first.start)


def copied(target: NamedDevice, path: str) -> DiskPlace:
    """A copy of a volume, with holes where it has zeros or lacks bytes."""
    with open(path, "wb") as file:
        for begin, _, content, _ in contents_of(0, target.device.extents(0, target.size)):
            streams.show_progress(f"copying {target.name}: {begin >> 20} of {target.size >> 20} MiB")
            if content.strip(b"\0"):
                file.seek(begin)
                file.write(content)
        file.truncate(target.size)
    return DiskPlace(path)


def system_of(target: NamedDevice, runs: Sequence[SectorRun], path: str, saved: Optional[str] = None
              ) -> Optional[FileSystem]:
    """The file system of a volume, in which runs of sectors are asked for, or None where there is none that is
    followed. It is read in its image, in a copy that is there, or in one that is made at a path."""
    place = saved_place(target, saved) if saved else place_of(target)
    try:
        return system_in(place or copied(target, path), target.name, runs)
    except NoSystem:
        return None


def lines_of(system: Optional[FileSystem], runs: Sequence[SectorRun]) -> "list[str]":
    """A line for each file that some of these sectors belong to."""
    if not system:
        return [f"{sum(count for _, count in runs)} sectors: no file system"]
    counts: "Counter[str]" = Counter()
    for each in runs:
        for part in blocks_of(*each, system.sectors):
            for file in system.users(*part):
                counts[file] += part[2]
    folders = system.folders(file[len(TABLE):] if file.startswith(TABLE) else file for file in counts)
    return [f"{count} sectors: {'folder ' if file in folders else ''}{file}" for file, count in sorted(counts.items())]
