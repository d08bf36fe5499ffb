"""Images of disks, which are opened for reading alone, and devices made of others. A device says in which images its
bytes lie, extent by extent, so that they can be copied in large blocks, and so that what is missing is known before
anything is read."""

import bisect
import errno
import functools
import itertools
import os
import re
from array import array
from typing import Any, Callable, Dict, Iterable, Iterator, List, NamedTuple, Optional, Sequence, Tuple, TypeVar

from dmremap_tools.base import quoting, streams, written
from dmremap_tools.formats import disk_image
from dmremap_tools.base.numbers import SECTOR
from dmremap_tools.base.refusal import Refusal

# The first of some bytes, and the one after them; and the end of what goes on without one.
Run = Tuple[int, int]
ALL = 1 << 64
# Bytes that are read at once.
BLOCK = 1 << 20
# What makes the name of a partition of that of its image.
PART_OF = re.compile(r"(:[0-9]+|\?offset=[0-9]+&length=[0-9]+)$")
# At how many places two devices are compared, how many bytes of each, and a sector of more values says something.
COMPARED, COMPARED_AT_ONCE, SAYING = 256, 4096, 4

# A block with the one that is read for it; or the blocks up to an end of which nothing is known, and why.
Entry = NamedTuple("Entry", [("key", int), ("end", int), ("value", int), ("why", Optional[str])])
# Bytes of a source, from `start` on.
Extent = NamedTuple("Extent", [("source", "Device"), ("start", int), ("size", int)])
# A run of bytes, which may have more to say.
AnyRun = TypeVar("AnyRun", bound=Tuple[Any, ...])


class Gap(Refusal):
    """Bytes that aren't there: their image is missing, ends before them, or can't be read."""


class Doubt(str):
    """Why nobody can be sure of bytes that are there."""


class Device:
    """So many bytes; messages call them `name`. Most lie in other devices; a source reads or computes its own."""

    # Whether all its bytes are known to be there. Devices that can tell that sooner than by their extents do.
    is_whole = False
    # Whether a copy has a hole for its bytes: zeros, and what is missing.
    is_hole = False

    def __init__(self, name: str, size: int = ALL) -> None:
        self.name, self.size = name, size

    def extents(self, start: int, size: int) -> Iterator[Extent]:
        """Where these bytes lie, in their order. What is past its end is missing."""
        if 0 < size <= self.size - start:
            return self._extents(start, size)
        inside = max(0, self.size - start)
        rest = [Extent(Missing(self.ended()), 0, size - inside)] if size else []
        return itertools.chain(self._extents(start, inside) if inside and size else (), rest)

    def lack(self, start: int, size: int) -> Optional[str]:
        """Why some of these bytes aren't there, or None if all are."""
        if start + size <= self.size and self.is_whole:
            return None
        others = (extent for extent in self.extents(start, size) if extent.source is not self)
        return next(filter(None, (extent.source.lack(extent.start, extent.size) for extent in others)), None)

    def ended(self) -> str:
        """What is said of bytes past its end."""
        return f"{self.name} ends at byte {self.size}"

    def read(self, start: int, size: int) -> bytes:
        """These bytes, all of them; a Gap where some aren't there."""
        first = start // SECTOR * SECTOR
        extents = joined(self, first, -(-(start + size) // SECTOR) * SECTOR - first)
        content = b"".join(extent.source.load(extent.start, extent.size) for _, extent in extents)
        return content[start - first:start - first + size]

    def load(self, start: int, size: int) -> bytes:
        """Reads or computes these bytes of a source, or raises a Gap."""
        raise NotImplementedError

    def _extents(self, start: int, size: int) -> Iterator[Extent]:
        yield Extent(self, start, size)


# What ends an id of which the rest isn't known.
ANY = "?"
# What is meant by a name: what it is called, its bytes, the ids of what it lies on, and what is to be said of it.
NamedDevice = NamedTuple("NamedDevice", [
    ("name", str), ("device", Device), ("size", int), ("ids", List[str]), ("notes", List[str])])


class Missing(Device):
    """Bytes that aren't there; the name says why."""

    is_hole = True

    def lack(self, start: int, size: int) -> Optional[str]:
        return self.name

    def load(self, start: int, size: int) -> bytes:
        raise Gap("missing", self.name)


class Absent(Missing):
    """Bytes of a disk that isn't here at all."""


class Unread(Missing):
    """Bytes of an image that weren't read from its disk, each in its place there."""

    def __init__(self, image: "Image", run: Run) -> None:
        super().__init__(f"{image.name} lacks its bytes {run[0]} to {run[1] - 1}, as its map says")
        self.image = image


def holder(source: Device) -> Device:
    """Where the bytes of a source have their places: the image, if they weren't read from its disk."""
    return source.image if isinstance(source, Unread) else source


class Known(Device):
    """Bytes that are known already, as a function gives them."""

    def __init__(self, name: str, size: int, load: Callable[[int, int], bytes]) -> None:
        super().__init__(name, size)
        self._load = load

    def load(self, start: int, size: int) -> bytes:
        return self._load(start, size)


class Part(Device):
    """A run of bytes of another device, perhaps with holes: runs of its own that don't meet; `why` is said of them."""

    def __init__(self, name: str, lower: Device, start: int, size: int, holes: Sequence[Run] = (),
                 why: str = "") -> None:
        super().__init__(name, size)
        self.lower, self.start, self.holes, self._why = lower, start, holes, why

    def lack(self, start: int, size: int) -> Optional[str]:
        if self.holes:
            return super().lack(start, size)
        return self.ended() if start + size > self.size else self.lower.lack(self.start + start, size)

    def _extents(self, start: int, size: int) -> Iterator[Extent]:
        return itertools.chain.from_iterable(
            [Extent(Missing(self._why), 0, end - at)] if hole else self.lower.extents(self.start + at, end - at)
            for at, end, hole in cut(self.holes, start, start + size))


class Overlaid(Device):
    """A device with blocks of the one `above` over its own, which `entries` gives from one block up to another."""

    def __init__(self, name: str, lower: Device, above: Device, block: int,
                 entries: Callable[[int, int], Iterator[Entry]], size: int) -> None:
        super().__init__(name, size)
        self._lower, self._above, self._block, self._entries = lower, above, block, entries

    @functools.cached_property
    def _are_whole(self) -> bool:
        return self._lower.lack(0, self.size) is None and self._above.lack(0, self._above.size) is None

    def lack(self, start: int, size: int) -> Optional[str]:
        if start + size > self.size or not self._are_whole:
            return super().lack(start, size)
        return next((entry.why for entry in self._touched(start, size) if entry.why), None)

    def _touched(self, start: int, size: int) -> Iterator[Entry]:
        return self._entries(start // self._block, -(-(start + size) // self._block))

    def _extents(self, start: int, size: int) -> Iterator[Extent]:
        at, end = start, start + size
        for key, stop, value, why in self._touched(start, size):
            first, stop = max(at, key * self._block), min(end, stop * self._block)
            yield from self._lower.extents(at, first - at) if first > at else ()
            if why:
                yield Extent(Missing(why), 0, stop - first)
            else:
                yield from self._above.extents((value - key) * self._block + first, stop - first)
            at = stop
        yield from self._lower.extents(at, end - at) if at < end else ()


def sorted_entries(pairs: Sequence[Run]) -> Callable[[int, int], Iterator[Entry]]:
    """The entries of sorted pairs of a block and the one that is read for it."""
    blocks, places = (array("Q", column) for column in zip(*pairs)) if pairs else ((), ())

    def entries(first: int, end: int) -> Iterator[Entry]:
        for at in range(bisect.bisect_left(blocks, first), bisect.bisect_left(blocks, end)):
            yield Entry(blocks[at], blocks[at] + 1, places[at], None)
    return entries


class Copies(Device):
    """Several copies of the same bytes. The first one that has them is read."""

    def __init__(self, name: str, copies: Sequence[Device], size: int) -> None:
        super().__init__(name, size)
        self._copies = copies

    def lack(self, start: int, size: int) -> Optional[str]:
        if start + size <= self.size and any(copy.lack(start, size) is None for copy in self._copies):
            return None
        return super().lack(start, size)

    def best(self) -> Optional[Device]:
        """A copy that has all bytes, or the only one."""
        only = self._copies[0] if len(self._copies) == 1 else None
        return next((copy for copy in self._copies if copy.lack(0, self.size) is None), only)

    def _extents(self, start: int, size: int) -> Iterator[Extent]:
        return copied([(copy, start) for copy in self._copies], size)


def copied(copies: Sequence[Tuple[Device, int]], size: int) -> Iterator[Extent]:
    """The extents of so many bytes of the first copy, a device and a place, or of the next where it lacks some."""
    (device, start), *others = copies
    is_last = not others or device.lack(start, size) is None
    done = 0
    for extent in device.extents(start, size):
        if is_last or extent.source.lack(extent.start, extent.size) is None:
            yield extent
        else:
            yield from copied([(other, at + done) for other, at in others], extent.size)
        done += extent.size


class Agreed(Device):
    """Bytes that several devices have, where these are the same; `why` is said of those that aren't."""

    def __init__(self, name: str, sides: Sequence[Device], why: str) -> None:
        super().__init__(name, min(side.size for side in sides))
        self._sides, self._why, self._known = sides, why, {}  # type: Sequence[Device], str, Dict[int, List[Run]]

    def _extents(self, start: int, size: int) -> Iterator[Extent]:
        for number, offset, count in blocks_of(start, size, BLOCK):
            if number not in self._known:
                begin = number * BLOCK
                self._known[number] = joint(self._differing(begin, min(begin + BLOCK, self.size)))
            at = number * BLOCK + offset
            yield from Part(self.name, self._sides[0], 0, self.size, self._known[number], self._why).extents(at, count)

    def _differing(self, begin: int, end: int) -> Iterator[Run]:
        """The sectors of some bytes that aren't the same on all sides, or can't be read there."""
        for count, contents, is_there in read_blocks(
                lambda *run: [side.read(*run) for side in self._sides], begin, end):
            if not is_there:
                yield begin, begin + count
            elif contents.count(contents[0]) < len(contents):
                yield from ((begin + at, begin + at + SECTOR) for at in range(0, count, SECTOR)
                            if len({content[at:at + SECTOR] for content in contents}) > 1)
            begin += count


class Image(Device):
    """The whole sectors of a file or a disk; `path` is as it was given. Some may not have been read from it."""

    def __init__(self, path: str, unread: Sequence[Run] = ()) -> None:
        self.path, self.is_whole, name = path, not unread, quoting.shown(path)
        try:
            descriptor = os.open(path, os.O_RDONLY | os.O_NONBLOCK | os.O_CLOEXEC)
            # By this a file is the same one under another name.
            self.identity = written.identity(os.fstat(descriptor))
            if not self.identity:
                raise Refusal(name, "neither a file nor a disk: give an image of the disk")
            written.note_input(descriptor)
            self._file = open(descriptor, "rb", buffering=0)
        except OSError as fault:
            whole = PART_OF.sub("", path)
            is_part = whole != path and os.path.exists(whole) and not os.path.lexists(path)
            also = f": give {quoting.shown(whole)}, whose partitions are found" * is_part
            raise Refusal(name, streams.why(fault) + also)
        self.bytes, self.other_form = disk_image.length_of(self._file, name), disk_image.form_of(descriptor)
        super().__init__(name, self.bytes // SECTOR * SECTOR)
        self._unread = [(*run, Unread(self, run)) for run in unread]

    def ended(self) -> str:
        return f"{self.name} ends at byte {self.bytes}: give an image of the whole disk"

    def _extents(self, start: int, size: int) -> Iterator[Extent]:
        if not self._unread:
            return iter([Extent(self, start, size)])
        parts = cut(self._unread, start, start + size)
        return (Extent(run[2] if run else self, begin, end - begin) for begin, end, run in parts)

    def load(self, start: int, size: int) -> bytes:
        try:
            content = os.pread(self._file.fileno(), size, start)
        except OSError as fault:
            raise Gap(self.name, f"byte {start} and those after it can't be read ({streams.why(fault)}): take an image "
                      "of it by ddrescue")
        if size and not content:
            raise Gap(self.name, f"it ends at byte {start}: give an image that nobody changes")
        rest = size - len(content)
        return content + self.load(start + len(content), rest) if rest else content

    def runs(self, start: int, end: int) -> Iterator[Run]:
        """The sectors of these bytes that aren't in holes, where the file system tells of holes, as runs of bytes."""
        while start < end:
            try:
                begin = self._file.seek(start, os.SEEK_DATA)
                stop = self._file.seek(begin, os.SEEK_HOLE)
            except OSError as fault:
                if fault.errno != errno.ENXIO:
                    yield start, end
                return
            if begin >= end:
                return
            yield begin // SECTOR * SECTOR, min(-(-stop // SECTOR) * SECTOR, end)
            start = stop


def image_of(path: str) -> Image:
    """The image at a path, which has the bytes of a disk in their order."""
    image = Image(path)
    if image.other_form or not image.size:
        short = f"too short: it has {image.bytes} bytes" if image.bytes else "empty"
        raise Refusal(image.name, image.other_form or f"it is {short}: give the image of a disk")
    return image


class Lenient:
    """A device as the readers of labels and tables take an image: fewer bytes where it ends or lacks some."""

    def __init__(self, device: Device) -> None:
        self._device, self.path, self.size = device, device.name, device.size

    def read(self, at: int, count: int) -> bytes:
        """The bytes that are there, up to the first sector that isn't."""
        blocks = read_blocks(self._device.read, at, min(at + count, self.size))
        return b"".join(content for _, content, _ in itertools.takewhile(lambda block: block[2], blocks))

    def filled(self, at: int, count: int) -> bytes:
        """The same to the last one that is wanted, with zeros for those that aren't there."""
        blocks = read_blocks(self._device.read, at, min(at + count, self.size))
        return b"".join(content.ljust(size, b"\0") for size, content, _ in blocks)

    def next_data(self, at: int) -> int:
        """The next byte from `at` on that isn't in a hole of an image."""
        runs = self._device.runs(at, self.size) if isinstance(self._device, Image) else iter([(at, self.size)])
        return next((begin for begin, _ in runs), self.size)


def whole_run(device: Device) -> Optional[Tuple[Image, int, int]]:
    """The image in which all bytes of a device lie in a row, the byte at which they begin there, and how many there
    are; None where something lies between."""
    start, size = 0, device.size
    while isinstance(device, Part) and not device.holes:
        start += device.start
        device = device.lower
        size = min(size, device.size - start)
    return (device, start, size) if isinstance(device, Image) and device.is_whole else None


def is_alike(one: Device, other: Device, start: int, size: int) -> bool:
    """Whether of so many bytes from one on some sectors that say something are the same in both; a few are tried."""
    for at in range(start, start + size, max(size // COMPARED, COMPARED_AT_ONCE)):
        pair = [Lenient(each).filled(at, COMPARED_AT_ONCE) for each in (one, other)]
        sectors = ((content[it:it + SECTOR] for content in pair) for it in range(0, COMPARED_AT_ONCE, SECTOR))
        if any(mine == its and len(set(mine)) > SAYING for mine, its in sectors):
            return True
    return False


def cut(runs: Sequence[AnyRun], start: int, end: int) -> Iterator[Tuple[int, int, Optional[AnyRun]]]:
    """Some bytes in parts: those in a run, with that, and those between. The runs are sorted, and don't meet."""
    for at in range(max(0, bisect.bisect_right(runs, (start, ALL)) - 1), len(runs)):
        run = runs[at]
        if run[0] >= end:
            break
        if run[1] > start:
            if run[0] > start:
                yield start, run[0], None
            yield max(start, run[0]), min(run[1], end), run
            start = min(run[1], end)
    if start < end:
        yield start, end, None


def joint(runs: Iterable[Run]) -> List[Run]:
    """Some runs in their order, with those that meet in one."""
    found: List[Run] = []
    for begin, end in sorted(runs):
        last = found.pop() if found and begin <= found[-1][1] else (begin, begin)
        found.append((last[0], max(last[1], end)))
    return found


def blocks_of(start: int, size: int, block: int) -> Iterator[Tuple[int, int, int]]:
    """The blocks that some bytes touch: the number of each, the first byte in it, and how many."""
    while size > 0:
        number, offset = divmod(start, block)
        count = min(size, block - offset)
        yield number, offset, count
        start, size = start + count, size - count


def read_blocks(load: Callable[[int, int], Any], begin: int, end: int) -> Iterator[Tuple[int, Any, bool]]:
    """Bytes in blocks, and in halves of these where they can't be read: how many, the bytes, and if they are there."""
    waiting: List[Tuple[int, int]] = [(start, min(BLOCK, end - start)) for start in reversed(range(begin, end, BLOCK))]
    while waiting:
        start, size = waiting.pop()
        try:
            yield size, load(start, size), True
        except (Gap, OSError):
            half = max(size // 2 // SECTOR, size > SECTOR) * SECTOR
            if half:
                waiting += [(start + half, size - half), (start, half)]
            else:
                yield size, b"", False


def lacking(device: Device, size: int) -> List[Run]:
    """The runs of the first bytes of a device that aren't there."""
    found = joined(device, 0, size) if device.lack(0, size) is not None else ()
    return joint((at, at + it.size) for at, it in found if it.source.lack(it.start, it.size) is not None)


def joined(device: Device, start: int, size: int) -> Iterator[Tuple[int, Extent]]:
    """Where some bytes of a device lie, with those that go on in their source in one: the first of each, and those."""
    last: Optional[Extent] = None
    for extent in itertools.chain(device.extents(start, size), [None]):
        if last and extent and last.source is extent.source and last.start + last.size == extent.start:
            last = last._replace(size=last.size + extent.size)
            continue
        if last:
            yield start, last
            start += last.size
        last = extent


# Bytes that nobody wrote.
ZEROS = Known("zeros", ALL, lambda start, size: bytes(size))
ZEROS.is_hole = True
