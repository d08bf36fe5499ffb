"""A file that is put together, and how far it is, as a map of ddrescue, by which a later run goes on. The map says
first of which volume it is, so that no other one goes on by it, and is locked while a run goes on by it."""

import contextlib
import fcntl
import hashlib
import os
import re
import stat
import time
from typing import Iterable, Iterator, List, Optional, Sequence, Tuple

from dmremap_tools.base import quoting, streams, written
from dmremap_tools.base.numbers import SECTOR
from dmremap_tools.base.refusal import Refusal
from dmremap_tools.formats import rescue_map
from dmremap_tools.formats.rescue_map import BAD, FINISHED, UNTRIED, Area
from dmremap_tools.model.device import ANY, BLOCK, Device, Extent, Gap, Image, Lenient, Missing, Run, cut, read_blocks

OF = re.compile(r"# Of (.*) of ([0-9]+) sectors, from (.*?)(?:, with ([0-9]+) maps)?")
HEAD = "# Mapfile. Created by dmremap-tools save\n# current_pos  current_status  current_pass\n"
# Bytes in which labels, superblocks and partition tables have ids.
HEAD_BYTES = 8192
NEW = "give a new name as --resume, and another OUT"
TAKEN = "another save goes on by it, or began it just now: wait until that has ended, or give another name"
LATER = "it was begun without some map of an image, and what that lacks may be in OUT as zeros"
PARTLY = "give --resume MAP to save the rest: the map says then what is missing"
NOTHING = bytes(BLOCK)
UNREADABLE = Missing("it can't be read")
# How often a map is written, in seconds.
STEP = 30
# Bytes whose places are asked for at once.
WINDOW = 256 << 20
# From which byte up to which one, what they are, or nothing where they are zeros, and what is missing there.
Content = Tuple[int, int, bytes, Optional[Missing]]


class Absent(Missing):
    """Bytes of a disk that isn't here, so that they weren't tried."""

    def __init__(self, disk: str, why: str) -> None:
        super().__init__(why)
        self.disk = disk


def head_of(device: Device) -> str:
    """An id of a device that has none of its own: a sum over its first bytes, or ANY where some can't be read."""
    head = Lenient(device).read(0, HEAD_BYTES)
    return hashlib.sha256(head).hexdigest()[:16] if len(head) == min(HEAD_BYTES, device.size) else ANY


def merged(one: str, other: str) -> Optional[str]:
    """The id that both may be, of which either may not be known; None where they differ."""
    if one.endswith(ANY) and other.startswith(one[:-len(ANY)]):
        return other
    return one if one == other or other.endswith(ANY) and one.startswith(other[:-len(ANY)]) else None


class SavedMap:
    """The areas of a file of so many bytes; of the map at `path`, if there is one, which has to be of the same source:
    what is saved, the ids of what it is read from, and no more maps of images. It is locked as long as this run goes
    on."""

    def __init__(self, path: Optional[str], name: str, ids: List[str], maps: int, size: int) -> None:
        self.size, self.is_begun, self.is_made = size, path is not None and os.path.lexists(path), False
        self.place = None if path is None else written.Place(path)
        self._shown = self.place.shown if self.place else ""
        self._name, self._ids, self._maps, self._lock, self.has_more_maps = name, ids, maps, -1, False
        self._areas, self._marks = append([], Area(0, size, UNTRIED)), []  # type: List[Area], List[Area]
        if self.place and path is not None and self.is_begun:
            self._lock = self._locked(self.place, path)
            self._areas = rescue_map.read(path, is_written=True)
            self._check(path)

    def _locked(self, place: written.Place, path: str) -> int:
        """The descriptor of the map that is there, by which it is locked."""
        with place.failing():
            descriptor = os.open(path, os.O_RDONLY)
            lock(descriptor, self._shown)
            if not os.path.samestat(os.fstat(descriptor), os.stat(path)):
                raise Refusal(self._shown, TAKEN)
        return descriptor

    def _check(self, path: str) -> None:
        """Refuses a map of something else, and takes from it which disk had which id."""
        said, own = map(OF.fullmatch, (next(iter(streams.Lines(path, True)), ""), self._said()))
        if not said or not own:
            raise Refusal(self._shown, f"it doesn't say of which volume it is, as those do that save writes: {NEW}")
        ids = said[3].split(" ")
        known = [merged(one, other) for one, other in zip(ids, own[3].split(" "))]
        is_same = len(ids) == len(self._ids) and None not in known
        if said[1] != own[1] or said[2] != own[2] or not is_same:
            what = f"{said[1]} of {said[2]} sectors" + ", from other images" * (said[1] == own[1] and said[2] == own[2])
            this = f"{own[1]} of {own[2]}"
            raise Refusal(self._shown, f"it is the map of {quoting.shown(what)}, and this is {this}: {NEW}")
        maps = int(said[4] or 0)
        if self._maps < maps:
            raise Refusal(self._shown, f"it was begun with {maps} maps of images: give them again as --map IMAGE=MAP")
        self.has_more_maps, self._ids = self._maps > maps, [it for it in known if it is not None]
        if (self._areas[0].begin, self._areas[-1].end) != (0, self.size) if self._areas else self.size:
            raise Refusal(self._shown, f"a map of another file than one of {self.size} bytes: {NEW}")

    def _said(self) -> str:
        """The line that says what it is the map of."""
        sectors, with_maps = -(-self.size // SECTOR), f", with {self._maps} maps" if self._maps else ""
        return quoting.escaped(f"# Of {self._name} of {sectors} sectors, from {' '.join(self._ids)}{with_maps}")

    def check_finished(self, lost: Sequence[Run]) -> None:
        """Refuses to go on where bytes are finished that are lost by a map which is new to this run."""
        found = (area for run in lost for *_, area in cut(self._areas, *run))
        if any(area and area.status == FINISHED for area in found):
            raise Refusal(self._shown, f"{LATER}: {NEW}")

    def left(self, begin: int, end: int) -> Iterator[Run]:
        """The parts of an area that were not finished when the run began, in whole sectors."""
        for first, stop, area in cut(self._areas, begin, end):
            if area and area.status != FINISHED:
                yield first // SECTOR * SECTOR, -(-stop // SECTOR) * SECTOR

    def mark(self, begin: int, end: int, status: str) -> None:
        """Gives a status to bytes that weren't finished, and that lie after those that were marked before."""
        if self._marks:
            begin = max(begin, self._marks[-1].end)
        append(self._marks, Area(begin, end, status))

    def write(self) -> None:
        """Writes the map, if one is asked for, in place of the one that was there."""
        if not self.place:
            return
        areas: List[Area] = []
        for area in self._areas:
            for begin, end, mark in cut(self._marks, area.begin, area.end):
                append(areas, Area(begin, end, mark.status if mark and area.status != FINISHED else area.status))
        left = next((area for area in areas if area.status != FINISHED), None)
        now, status = (left.begin, UNTRIED) if left else (self.size, FINISHED)
        rows = "".join(f"0x{area.begin:08X}  0x{area.end - area.begin:08X}  {area.status}\n" for area in areas)
        head = f"{self._said()}\n{HEAD}0x{now:08X}     {status}               1\n#      pos        size  status\n"
        with self.place.failing():
            descriptor = self.place.begin()
            held = os.dup(descriptor)
            lock(held, self._shown)
            with open(descriptor, "wb", closefd=False) as file:
                file.write((head + rows).encode("utf-8", "backslashreplace"))
        self.place.close()
        try:
            self.place.put(is_new=not self.is_begun and not self.is_made)
        except Refusal:
            raise Refusal(self._shown, TAKEN)
        self._lock, released, self.is_made = held, self._lock, True
        if released >= 0:
            os.close(released)


def lock(descriptor: int, shown: str) -> None:
    """Locks a map, unless another run has, as long as the descriptor is open. Some file systems have no locks."""
    try:
        fcntl.flock(descriptor, fcntl.LOCK_EX | fcntl.LOCK_NB)
    except BlockingIOError:
        raise Refusal(shown, TAKEN)
    except OSError:
        pass


def append(areas: List[Area], area: Area) -> List[Area]:
    """Adds an area, unless it has no bytes, to others, of which the last may go on in it."""
    if area.begin < area.end:
        if areas and (areas[-1].end, areas[-1].status) == (area.begin, area.status):
            area = Area(areas.pop().begin, area.end, area.status)
        areas.append(area)
    return areas


class Target:
    """A file of so many bytes. One that is made anew has zeros without a place on its disk until others are written,
    and is made beside its place; one that `is_begun` is there already, of this length. It follows no link."""

    def __init__(self, path: str, size: int, is_begun: bool) -> None:
        self.place, self._is_begun = written.Place(path, is_word=False), is_begun
        if not is_begun:
            self.place.check_new()
        elif not os.path.lexists(path):
            why = "the map says that it was begun, and it isn't there: give a --resume that isn't there either"
            raise Refusal(self.place.shown, why)
        self._descriptor = self.place.go_on() if is_begun else self.place.begin()
        with self.place.failing():
            found = os.fstat(self._descriptor)
            if is_begun and (found.st_size != size or not stat.S_ISREG(found.st_mode)):
                why = f"it isn't the file that was begun: it has {found.st_size} bytes and not {size}: "
                raise Refusal(self.place.shown, why + "give that, or another --resume")
            os.ftruncate(self._descriptor, size)

    def has(self, at: int, content: bytes) -> bool:
        """Whether bytes, at most a BLOCK, needn't be written at a place, as they are zeros as what the file has."""
        if not NOTHING.startswith(content):
            return False
        with self.place.failing():
            return not self._is_begun or NOTHING.startswith(os.pread(self._descriptor, len(content), at))

    def write(self, at: int, content: bytes) -> None:
        """Writes bytes at a place."""
        left = memoryview(content)
        with self.place.failing():
            while left:
                count = os.pwrite(self._descriptor, left, at)
                # Its disk begins to take them now, so that the wait for it at the end is short.
                os.posix_fadvise(self._descriptor, at, count, os.POSIX_FADV_DONTNEED)
                left, at = left[count:], at + count

    def sync(self) -> None:
        with self.place.failing():
            os.fdatasync(self._descriptor)


def put_together(path: str, saved: SavedMap, device: Device) -> bool:
    """Makes a file of the bytes of a device, or goes on with it. Tells what is missing, and says whether something is.
    Without a map the file gets to its place once it is whole."""
    target = Target(path, saved.size, saved.is_begun)
    if saved.place:
        put_begun(target, saved)
    gap, due, absent = range(0), time.monotonic() + STEP, {""}
    try:
        windows = ((start, min(end, start + WINDOW) - start) for begin, end in saved.left(0, saved.size)
                   for start in range(begin, end, WINDOW))
        contents = (it for start, size in windows for it in contents_of(start, device.extents(start, size)))
        for begin, end, content, lack in gathered(contents, target):
            target.write(begin, content)
            if lack:
                told = f"missing: {quoting.shown(lack.disk)}: {lack.name}" if isinstance(lack, Absent) else ""
                if told not in absent:
                    streams.tell(told)
                    absent.add(told)
                first = begin // SECTOR
                if first != gap.stop:
                    tell(gap)
                gap = range(gap.start if first == gap.stop else first, end // SECTOR)
            saved.mark(begin, end, UNTRIED if isinstance(lack, Absent) else BAD if lack else FINISHED)
            streams.show_progress(f"{end >> 20} of {saved.size >> 20} MiB")
            if saved.place and time.monotonic() > due:
                target.sync()
                saved.write()
                due = time.monotonic() + STEP
        tell(gap)
    finally:
        # Where the file's disk doesn't take what was written, the map doesn't say that it did.
        if saved.place:
            target.sync()
            saved.write()
    target.place.close()
    if not saved.place:
        target.place.put(is_new=True)
    return bool(gap)


def put_begun(target: Target, saved: SavedMap) -> None:
    """Puts a file in its place once its map is there, as it would look whole. Where that fails, a new map goes."""
    try:
        saved.write()
        if not saved.is_begun:
            target.place.put(is_new=True)
    except BaseException:
        if saved.place and not saved.is_begun and saved.is_made:
            with contextlib.suppress(OSError):
                os.unlink(saved.place.path)
        raise


def tell(gap: range) -> None:
    if gap:
        streams.tell(f"{len(gap)} sectors of the file from {gap.start} on can't be read")


def gathered(contents: Iterable[Content], target: Target) -> Iterator[Content]:
    """The same, with those that go on in each other in one, up to a BLOCK; without those that a file has already."""
    parts: List[bytes] = []
    begin = end = 0
    for first, stop, content, lack in contents:
        is_hole = lack is not None or target.has(first, content)
        if parts and (is_hole or first != end or stop - begin > BLOCK):
            yield begin, end, b"".join(parts), None
            parts = []
        if is_hole:
            yield first, stop, b"", lack
        else:
            begin, end = begin if parts else first, stop
            parts.append(content)
    if parts:
        yield begin, end, b"".join(parts), None


def contents_of(at: int, extents: Iterable[Extent]) -> Iterator[Content]:
    """What extents have that begin at a byte, in blocks. Neither a hole of an image is read, nor what lacks bytes."""
    for source, begin, size in extents:
        if size < BLOCK and isinstance(source, Image):
            with contextlib.suppress(Gap):
                yield at, at + size, source.load(begin, size), None
                at += size
                continue
        is_held = isinstance(source, Image) or source.is_hole
        why = None if is_held else source.lack(begin, size)
        runs: Sequence[Run] = [] if source.is_hole or why else [(begin, begin + size)]
        lack = Missing(why) if why else source if isinstance(source, Missing) else None
        for first, stop, run in cut(list(source.runs(*runs[0])) if isinstance(source, Image) else runs,
                                    begin, begin + size):
            blocks = read_blocks(source.load, first, stop) if run else [(stop - first, b"", not lack)]
            for count, content, is_there in blocks:
                yield at, at + count, content, None if is_there else lack or UNREADABLE
                at += count
