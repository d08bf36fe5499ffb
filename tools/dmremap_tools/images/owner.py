"""Names the owners of sectors of images, to show what is lost there, and where you may write.

Takes images, which are searched as by `scan`, and standard input: lines IMAGE FIRST or IMAGE FIRST COUNT, in sectors of
512 bytes unless --sector-size says otherwise, or a kernel's log, of which the lines with `dev DISK, sector N` are
taken: DISK is an image of this name, whatever follows a dot in that. With --map IMAGE=MAP, asks for the areas that a
map of ddrescue doesn't list as finished, and reads nothing there.

Prints a line for each run of sectors and each way up: the image, the first sector, how many, and who has them, with
their own sectors: partition, array, volumes from below. Volumes count whether they are active or not. A sector may
belong to an origin and its snapshots, or to several thin volumes. Other words are

    GPT, MBR, label of LVM, metadata area of LVM, superblock of .., LUKS2 header    labels of what lies elsewhere
    parity of .., metadata of .., store of .., journal of ..                        what keeps volumes
    free in GROUP              no volume has it; GROUP/VOLUME, removed: one had it once, and may still be saved
    nobody                     no partition has it, and there are zeros
    unknown: WHY               nobody can be sure, so don't write there

--opened NAME=IMAGE goes on through a LUKS container, such as disk.img:2 or GROUP/VOLUME, to the opened device, which is
one of the images. With --files, a line ends with the file that has the sectors, as `lost` finds it, or its words.
"""

import functools
import itertools
import operator
import os
import re
import tempfile
from argparse import ArgumentParser, Namespace
from typing import Dict, Iterable, Iterator, List, NamedTuple, Optional, Tuple

from dmremap_tools.base import SECTOR, Refusal, WrongWords, numbers, program, quoting, streams
from dmremap_tools.formats import rescue_map
from dmremap_tools.formats.luks_header import container_in
from dmremap_tools.images.lost import system_of
from dmremap_tools.model.device import Device, Lenient, blocks_of
from dmremap_tools.model.file_systems import FileSystem, SectorRun
from dmremap_tools.model.owners import Owners, Step, Way, unknown_owner, ways
from dmremap_tools.model.pile import Pile

EXAMPLE = "echo 'sda.img 12096 8' | dmremap-tools owner sda.img sdb.img --files"
QUERY = re.compile(r"([^ ]+|.+?) ([0-9]+)(?: ([0-9]+))?")
# A kernel's block layer counts in 512 bytes, whatever sectors the disk itself has.
KERNEL_SECTOR = re.compile(r"\bdev ([!-+\--~]{1,255}), sector ([0-9]+)\b.*")
UNMAPPED = "no map was given: only what the images lack counts as missing"
KERNEL_LINE = re.compile(r"(?:<\d+>)?\[ *\d+\.\d+\].*|.*\bkernel: .*")
# What owns a file system, whose files can be looked up.
FOLLOWED = ("ext2", "ext3", "ext4", "xfs")
# A container that is opened: where its data begins and how many sectors it has, and the opened device with its name.
Opened = NamedTuple("Opened", [("start", int), ("count", int), ("name", str), ("device", Device)])
# Less than a sector of LUKS may be left at the end of a container.
MOST_LEFT, LARGEST_SECTOR = 8, 1 << 30
# What was asked of, and a way up from there.
Row = Tuple[str, Way]


def add_words(parser: ArgumentParser) -> None:
    rescue_map.add_words(parser)
    parser.add_argument("--sector-size", type=numbers.word, metavar="BYTES", default=SECTOR,
                        help="the bytes of a sector or block of the input: 512 by default, 1024 for badblocks, what "
                             "`blockdev --getss` prints for smartctl")
    parser.add_argument("--opened", metavar="NAME=IMAGE", action="append", default=[],
                        help="the opened device of a LUKS container, which is one of the images")
    parser.add_argument("--files", action="store_true", help="name the files, too (ext2, ext3, ext4, XFS)")
    program.add_words(parser)


def run(words: Namespace) -> None:
    unread = rescue_map.unread_in(words, words.images)
    paths = [path for path, _ in rescue_map.images_with_maps(words.map, words.images)]
    mapped = ((path, begin // SECTOR, (end - begin) // SECTOR) for path in paths for begin, end in unread[path])
    pile = Pile(words.images, words.program, unread)
    rows = rows_of(mapped if words.map else queries(words), pile, opened_in(words.opened, pile))
    for name, way in with_files(list(rows), pile) if words.files else rows:
        said = [quoting.escaped(step) + ("" if sector is None else f" {sector}")
                for step, sector in way.steps or ((unknown_owner("nothing says who has it"), None),)]
        streams.out.write(f"{quoting.escaped(name)} {way.first} {way.count} = {' = '.join(said)}\n")
    if not words.map:
        streams.tell(UNMAPPED)


def rows_of(asked: Iterable[Tuple[str, int, int]], pile: Pile, opened: Dict[str, Opened]) -> Iterator[Row]:
    """Each way up from the sectors that are asked for, by the image, the partition or the array."""
    owners = Owners(pile)
    device_named = functools.lru_cache(maxsize=None)(pile.device_named)
    for name, first, count in asked:
        device = device_named(name)
        if device is None:
            raise Refusal(quoting.shown(name), "no image is called so, and no partition or array of one: see `scan` "
                          "for their names")
        inside, end = device.size // SECTOR, first + count
        for way in ways(owners.on(device), first, min(end, inside)):
            yield from ((name, each) for each in through(name, way, opened, owners))
        first = max(inside, first)
        if first < end:
            yield name, Way(first, end - first, ((unknown_owner(device.ended()), None),))


def through(name: str, way: Way, opened: Dict[str, Opened], owners: Owners) -> Iterator[Way]:
    """A way up, which goes on where it ends in the data of a container that is opened."""
    steps, (device, sector), _ = last_device(name, way)
    inner = opened.get(device)
    if not inner:
        yield way
        return
    begin = sector - inner.start
    before, end = min(max(-begin, 0), way.count), min(begin + way.count, inner.count)
    if before:
        yield Way(way.first, before, way.steps)
    for found in ways(owners.on(inner.device), max(begin, 0), end) if end > max(begin, 0) else ():
        at, place = found.first - begin, (inner.name, found.first)
        yield Way(way.first + at, found.count, (*moved(steps, at), place, *found.steps))


def moved(steps: Iterable[Step], sectors: int) -> List[Step]:
    """The steps of a way that begins so many sectors later."""
    return [(name, None if sector is None else sector + sectors) for name, sector in steps]


def last_device(name: str, way: Way) -> Tuple[List[Step], Tuple[str, int], List[str]]:
    """The steps up to the last device on a way, that with its first sector, and the words behind it."""
    places = [at for at, (_, sector) in enumerate(way.steps) if sector is not None]
    last = places[-1] + 1 if places else 0
    device, sector = way.steps[last - 1] if places else (name, way.first)
    return list(way.steps[:last]), (device, sector or 0), [step for step, _ in way.steps[last:]]


def opened_in(given: Iterable[str], pile: Pile) -> Dict[str, Opened]:
    """The containers that are opened, by their names. Refuses a device that isn't as long as a container's data."""
    found: Dict[str, Opened] = {}
    for word in given:
        name, is_one, path = word.rpartition("=")
        device = pile.device_named(path) if is_one else None
        if device is None:
            raise WrongWords(f"--opened: not NAME=IMAGE of one of the images: {quoting.shown(word)}")
        target = pile.target(name)
        container = container_in(Lenient(target.device))
        if not container or container.start is None:
            none = "no LUKS container begins it: see `scan`"
            raise Refusal(quoting.shown(name), container.fault if container else none)
        count, size = container.length or target.size // SECTOR - container.start, device.size // SECTOR
        if not 0 <= count - size < MOST_LEFT:
            raise Refusal(quoting.shown(path), f"it has {size} sectors, and the data of {quoting.shown(name)} {count}: "
                          "give the device that cryptsetup opened")
        outer = pile.device_named(name)
        found[outer.name if outer else target.name] = Opened(container.start, size, path, device)
    return found


def with_files(rows: List[Row], pile: Pile) -> Iterator[Row]:
    """The same with the files that have the sectors, where a way ends in a file system."""
    wanted: Dict[str, List[SectorRun]] = {}
    ends = []
    for name, way in rows:
        _, (device, sector), words = last_device(name, way)
        ends.append((device, sector) if not words or words[0] in FOLLOWED else None)
        if ends[-1]:
            wanted.setdefault(device, []).append((sector, way.count))
    with tempfile.TemporaryDirectory(prefix="dmremap-tools-") as folder:
        systems = {name: looked_up(pile, name, runs, os.path.join(folder, str(number)))
                   for number, (name, runs) in enumerate(wanted.items())}
    for (name, way), end in zip(rows, ends):
        system = systems.get(end[0]) if end else None
        if not system or not end:
            yield name, way
            continue
        parts = ((system.users(*part), part[2]) for part in blocks_of(end[1], way.count, system.sectors))
        at = 0
        for files, same in itertools.groupby(parts, operator.itemgetter(0)):
            count = sum(size for _, size in same)
            yield from ((name, Way(way.first + at, count, (*moved(way.steps, at), (it, None)))) for it in files)
            at += count


def looked_up(pile: Pile, name: str, runs: List[SectorRun], path: str) -> Optional[FileSystem]:
    """The file system of a volume or a device with this name, which may need a copy at a path; None for another one."""
    try:
        return system_of(pile.target(name), runs, path)
    except Refusal as refusal:
        streams.tell(f"no files: {refusal}")
        return None


def queries(words: Namespace) -> Iterator[Tuple[str, int, int]]:
    """What the lines of standard input ask for: an image, a partition or an array, the first sector, and how many."""
    stems: Dict[str, List[str]] = {}
    for path in dict.fromkeys(words.images):
        stems.setdefault(os.path.basename(path).partition(".")[0], []).append(path)
    if words.sector_size % SECTOR or not 0 < words.sector_size <= LARGEST_SECTOR:
        raise WrongWords(f"--sector-size is a multiple of 512, up to 2^30: {words.sector_size}")
    factor, source, passed = words.sector_size // SECTOR, streams.Lines("-"), 0
    for row in source:
        sector, match = KERNEL_SECTOR.search(row), QUERY.fullmatch(row)
        if sector:
            called = stems.get(sector[1], [sector[1]])
            called = [it for it in called if os.path.basename(it) == sector[1]] or called
            if len(called) > 1:
                source.refuse(f"several images may be {sector[1]}, give one: {', '.join(map(quoting.shown, called))}")
            yield called[0], source.whole(sector[2]), 1
        elif match and match[3] != "0":
            yield match[1], source.whole(match[2]) * factor, source.whole(match[3] or "1") * factor
        elif KERNEL_LINE.fullmatch(row):
            passed += 1
        else:
            source.refuse("give IMAGE FIRST or IMAGE FIRST COUNT, and not: " + quoting.shown(row))
    source.tell_if_none()
    if passed:
        streams.tell(f"left out: lines of a kernel's log that name no sector: {passed}")
