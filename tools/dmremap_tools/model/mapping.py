"""Devices that dmremap maps: tables of linear and striped lines, and snapshots. The program is asked where sectors are
read, by a child that stays open, and what it answers is taken from the devices that stand for its disks."""

import contextlib
import functools
import itertools
import os
import subprocess
import tempfile
import weakref
from typing import Any, Callable, Dict, Iterator, List, NoReturn, Optional, Sequence, Tuple

from dmremap_tools.base import names, numbers, paths, program, quoting, tables
from dmremap_tools.base.given import put
from dmremap_tools.base.numbers import SECTOR
from dmremap_tools.base.program import NoProgram
from dmremap_tools.base.refusal import Refusal
from dmremap_tools.formats import store_places
from dmremap_tools.model.config_text import shown
from dmremap_tools.model.device import ALL, BLOCK, ZEROS, Device, Extent, Gap, Lenient, Missing, blocks_of, whole_run
from dmremap_tools.model.volume_group import Record

# Sectors that one request asks for, and answers to these that are kept.
WINDOW, MOST_WINDOWS = 1 << 15, 20
# Devices that are loaded together, of which the program takes 1,024 with what they lie on, and programs that run.
MOST_DEVICES, MOST_CHILDREN = 400, 16
# Bytes of an answer that are taken at a time, and pieces of what is read.
MOST_READ, PIECE = 1 << 20, 1 << 16
FILES = ("FILE", "DISKS", "PATHS")
FAILS = "reads fail there, as the tables say"
# What else is done, by a name that no disk has.
OTHERS = {"\0zero": (ZEROS, 0, ALL), "\0error": (Missing(FAILS), 0, ALL)}
# What a snapshot is called in tables of its own, and why one is refused.
NAME, NEXT, OLDER = "snapshot", "activate it with lvm2, or save the origin", "give an older image of its disk"
INVALID_SNAPSHOT = ("the snapshot is invalid: its store was full, and chunks that the origin overwrote since are lost; "
                    "save the origin instead")
LOST = f"the store: its header is zeros, and what follows isn't, so that it isn't new: save the origin, or {OLDER}"
UNKNOWN = f"the store: its header or its list is zeros, and nothing tells whether the merge ended: {OLDER}"
ODD = f"the store: its header says neither that it is valid nor that it isn't, {store_places.DAMAGED}: {OLDER}"

# Pieces in columns: disks, or what else is done; starts there, which without a disk mean nothing; and how many sectors.
MappedPieces = Tuple[List[str], List[int], List[int]]


class Tables:
    """Tables that are loaded together. A line names a device here by its path, and anything else below it as a disk."""

    def __init__(self) -> None:
        self.devices: Dict[str, tables.TableDevice] = {}
        self.disks: Dict[str, Device] = {}
        # What writes to a file what the program reads of the disk that a store is.
        self.stores: Dict[str, Callable[[str], None]] = {}
        self._names: Dict[Device, str] = {}
        self._whole_run = functools.lru_cache(None)(
            lambda name: OTHERS.get(name) or whole_run(self.disks[name]) or (ZEROS, 0, 0))
        # What adds devices that are to be loaded together with those that are there.
        self.waiting: List[Callable[[], object]] = []

    def disk(self, device: Device) -> str:
        """The name of the disk that a device is here."""
        name = self._names.setdefault(device, f"d{next(DISKS)}")
        self.disks[name] = device
        return name

    def add(self, name: str, lines: Sequence[tables.Line]) -> None:
        self.devices[name] = tables.TableDevice(name)
        self.devices[name].lines += lines

    def add_waiting(self) -> None:
        """Adds the devices that wait, as far as they can be followed."""
        while self.waiting:
            with contextlib.suppress(Refusal):
                self.waiting.pop()()

    def closure(self, wanted: Sequence[str]) -> "Tables":
        """Tables with some of the devices and what they lie on."""
        found, waiting = Tables(), list(wanted)
        while waiting:
            name = waiting.pop()
            if name in found.devices:
                continue
            found.devices[name] = self.devices[name]
            for lower in self.devices[name].lowers():
                if lower in self.disks:
                    found.disks[lower] = self.disks[lower]
                else:
                    waiting.append(names.of_path(lower))
        found.stores = {name: copy for name, copy in self.stores.items() if name in found.disks}
        return found

    def lines(self) -> Iterator[tables.Line]:
        return (line for device in self.devices.values() for line in device.lines)

    def spans(self) -> Iterator[Tuple[str, int, Optional[int]]]:
        """What the lines use of disks: the first sector, and how many, or None for all."""
        return (span for line in self.lines() for span in line.spans() if span[0] in self.disks)

    @functools.lru_cache(MOST_WINDOWS)
    def window(self, name: str, start: int) -> List[Extent]:
        """Where the bytes of a window lie. Where the program was ended meanwhile, it is asked once more."""
        count, child = min(WINDOW, self.devices[name].end() - start), self.child_of(name)
        try:
            pieces = child.ask(name, start, count)
        except Refusal:
            self._child.cache_clear()
            pieces = self.child_of(name).ask(name, start, count)
        found: List[Extent] = []
        runs = {disk: self._whole_run(disk) for disk in set(pieces[0])}
        for disk, place, length in zip(*pieces):
            at, size = place * SECTOR, length * SECTOR
            source, begin, most = runs[disk]
            if at + size <= most:
                found.append(Extent._make((source, begin + at, size)))
            else:
                found += self.disks[disk].extents(at, size)
        return found

    def child_of(self, name: str) -> "Child":
        """The program that knows a device and others around it, or this one alone where it refuses another."""
        known = list(self.devices)
        first = known.index(name) // MOST_DEVICES * MOST_DEVICES
        for wanted in (known[first:first + MOST_DEVICES], [name]):
            child = self._child(*wanted)
            if isinstance(child, Child):
                return child
        raise child

    @functools.lru_cache(MOST_CHILDREN)
    def _child(self, *wanted: str) -> Any:
        """The program that knows some devices, or why it can't; that is kept, too, and isn't tried again."""
        try:
            return self.closure(wanted)._started()
        except Refusal as refusal:
            return refusal

    def _started(self) -> "Child":
        """The program with all of these tables, and with copies of what the stores say."""
        asked = program.dmremap(Child.program)
        with tempfile.TemporaryDirectory(prefix="dmremap-tools-") as folder:
            copies = {name: os.path.join(folder, name) for name in self.stores}
            for name, path in copies.items():
                self.stores[name](path)
            file, disks, listed = self.write(folder, copies)
            words = [asked, "map", "table", file, disks] + ["--paths", listed] * bool(copies)
            chunks = store_places.chunks_in(words, self.devices.values()) if copies else {}
            child = Child(words, next(iter(self.devices)))
            child.chunks = chunks
            return child

    def write(self, folder: str, files: Dict[str, str]) -> List[str]:
        """Writes FILE, DISKS, and PATHS with these files; the paths of the three. A disk that is too short gets as many
        sectors as lines say, as reading tells what it lacks."""
        listed = [paths.line(name, file) for name, file in files.items()]
        ends = {name: min(device.size // SECTOR, numbers.LONGEST_DEVICE) for name, device in self.disks.items()}
        for disk, start, count in self.spans():
            ends[disk] = max(ends[disk], start + (count or 0))
        written = [os.path.join(folder, name) for name in FILES]
        put(written[0], [tables.text_of(list(self.devices.values()), False)])
        put(written[1], (f"{name} {end}\n" for name, end in ends.items()))
        put(written[2], listed)
        return written


class LoadedTables(Tables):
    """Tables that somebody gave, which one program has loaded, by these words; and the devices of their disks."""

    def __init__(self, devices: Sequence[tables.TableDevice], disks: Dict[str, Device], words: Sequence[str]) -> None:
        super().__init__()
        self.devices.update((device.name, device) for device in devices)
        self.disks.update(disks)
        self._words = words

    def child_of(self, name: str) -> "Child":
        return self._child()

    @functools.lru_cache(1)
    def _child(self) -> "Child":
        return Child(self._words, next(iter(self.devices)))


class Child:
    """The program, which knows devices of tables. It answers each request before it takes the next."""

    # The one that is asked, if it is given.
    program: Optional[str] = None
    # How many chunks are in the store of each snapshot, or None where it is invalid.
    chunks: Dict[str, Optional[int]] = {}

    def __init__(self, words: Sequence[str], name: str) -> None:
        """Starts it with these words, of which the first is its path, and asks for the first sector of a device. Raises
        NoProgram where there is none, and what it says where it refuses its tables."""
        self._name, self._number, self._said = words[0], 0, tempfile.TemporaryFile()
        try:
            self._child = program.start(words, stdin=subprocess.PIPE, stdout=subprocess.PIPE, stderr=self._said)
        except Refusal as refusal:
            raise NoProgram(refusal.where, refusal.why)
        # It ends once nobody may ask it any more.
        weakref.finalize(self, self._child.kill)
        self.ask(name, 0, 1)

    def ask(self, name: str, first: int, count: int) -> MappedPieces:
        """The answer to one request, which has its number."""
        try:
            self._child.stdin.write(f"R {name} {first} {count}\n".encode())
            self._child.stdin.flush()
        except (OSError, ValueError):
            # It ended, perhaps at a request before.
            self._fail()
        self._number += 1
        found: MappedPieces = [], [], []
        text = b""
        while count > 0:
            more = self._child.stdout.read1(MOST_READ)
            whole, newline, text = (text + more).rpartition(b"\n")
            try:
                columns = pieces_in((newline + whole).decode(), self._number) if more else self._fail()
            except ValueError:
                self._fail()
            found[0].extend(columns[0])
            found[1].extend(columns[1])
            found[2].extend(columns[2])
            count -= sum(columns[2])
        if count or text:
            self._fail()
        return found

    def _fail(self) -> NoReturn:
        # What was written to one that ended is of no use any more.
        with contextlib.suppress(OSError):
            self._child.stdin.close()
        status = self._child.wait()
        self._said.seek(0)
        said = quoting.shown(self._said.read(1 << 12).decode("utf-8", "replace").strip()) or "no answer"
        raise Refusal(quoting.shown(self._name), f"{said} (status {status}): see what `dmremap-tools explain` says")


class MappedDevice(Device):
    """A device of tables. One that is a snapshot has `chunks_used`, which says how many are in its store."""

    chunks_used: Optional[int] = None

    def __init__(self, name: str, source: Tables, key: str) -> None:
        super().__init__(name, source.devices[key].end() * SECTOR)
        self.source, self.key = source, key

    @functools.cached_property
    def _why(self) -> Optional[str]:
        """What the disks lack of the sectors that the lines name."""
        source = self.source.closure([self.key])
        if any(line.target == "error" for line in source.lines()):
            return FAILS
        for name, start, count in source.spans():
            disk = source.disks[name]
            why = disk.lack(start * SECTOR, disk.size if count is None else count * SECTOR)
            if why:
                return why
        return None

    def lack(self, start: int, size: int) -> Optional[str]:
        """What the disks lack: if all is asked for, and it lies on disks alone, each sector of its lines is its own."""
        lowers = self.source.devices[self.key].lowers()
        if (start, size) == (0, self.size) and all(lower in self.source.disks for lower in lowers):
            return self._why
        return None if self._why is None and start + size <= self.size else super().lack(start, size)

    def _extents(self, start: int, size: int) -> Iterator[Extent]:
        if start % SECTOR or size % SECTOR:
            raise Gap(self.name, "no whole sectors: ask for these")
        end, step = start + size, WINDOW * SECTOR
        for at in range(start // step * step, end, step):
            extents = self.source.window(self.key, at // SECTOR)
            if start <= at and at + step <= end:
                yield from extents
                continue
            for extent in extents:
                stop = at + extent.size
                if start <= at and stop <= end:
                    yield extent
                elif max(start, at) < min(end, stop):
                    yield Extent(extent.source, extent.start + max(start - at, 0), min(end, stop) - max(start, at))
                at = stop


class ReadDevice(Device):
    """A volume that dmremap reads. One program goes on as long as blocks are asked for in their order."""

    is_whole = True

    def __init__(self, path: str, size: int, given: Optional[str], lines: List[str], name: str) -> None:
        super().__init__(path, size)
        self._listed, self._running, self._at = tempfile.TemporaryFile(), contextlib.ExitStack(), -1
        self._listed.write("".join(lines).encode())
        self._listed.flush()
        self._words = [program.dmremap(given), "read", "images", "/dev/stdin", name, "--from"]
        self._block = functools.lru_cache(MOST_WINDOWS)(lambda number: self._read(number * BLOCK, BLOCK))

    def _extents(self, start: int, size: int) -> Iterator[Extent]:
        """In pieces, as of a copy those that are zeros become holes."""
        return (Extent(self, number * PIECE + at, count) for number, at, count in blocks_of(start, size, PIECE))

    def load(self, start: int, size: int) -> bytes:
        content = b"".join(self._block(number)[at:at + count] for number, at, count in blocks_of(start, size, BLOCK))
        # Where a sector of a block can't be read, those before and after it may be.
        content = content if len(content) == size else self._read(start, size)
        if len(content) < size:
            lost = (start + len(content)) // SECTOR
            raise Gap(self.name, f"its sector {lost} can't be read: take an image of its disk by ddrescue")
        return content

    def _read(self, start: int, size: int) -> bytes:
        """As many of these bytes as can be read."""
        if start != self._at:
            self._running.close()
            how = {"stdin": self._listed, "stdout": subprocess.PIPE, "stderr": subprocess.DEVNULL}
            self._child = self._running.enter_context(program.start([*self._words, str(start // SECTOR)], **how))
        content: bytes = self._child.stdout.read(size)
        self._at = start + size if len(content) == size else -1
        return content


def pieces_in(lines: str, number: int) -> MappedPieces:
    """The pieces in an answer's lines, each of which comes after its newline. Raises ValueError where one isn't of the
    request with this number, or isn't a piece."""
    beginning = f"\n{number} "
    text = lines.replace(beginning + "R ", " ")
    for other in OTHERS:
        text = text.replace(beginning + other[1:], f" {other} 0")
    words, count = text.split(" ")[1:], lines.count(beginning)
    if not len(words) == 3 * count == 3 * lines.count("\n"):
        raise ValueError
    return words[::3], list(map(int, words[1::3])), list(map(int, words[2::3]))


def snapshot_of(layout: Any, record: Record) -> Device:
    """The device of a snapshot, or of the origin that it is merged into, whose store dmremap takes and is valid."""
    origin, store, chunk = record.origin or b"", record.store or b"", record.chunk or 0
    name = layout.path(origin if record.is_merging else store)
    merging = [other for other in layout.group.records if other.is_merging and other.origin == origin]
    other = next((shown(other.store or b"") for other in merging if other is not record), None)
    if other is not None:
        raise Refusal(name, f"a snapshot of {shown(origin)}, into which {other} is being merged, isn't followed: save "
                      "the origin instead")
    if origin not in layout.group.volumes or record.volume.extents != layout.group.volumes[origin].extents:
        raise Refusal(name, f"its origin {shown(origin)} isn't there, or was resized since: {NEXT}")
    if layout.lies_on(store, layout.left_behind):
        raise Refusal(name, f"it or its origin is on a disk flagged MISSING, without which the group went on: {NEXT}")
    if chunk not in store_places.CHUNKS:
        raise Refusal(name, f"its text says chunks of {chunk} sectors, which aren't followed: {NEXT}")
    kept, key = layout.plain(store), layout.key_of(origin)
    source = layout.tables.closure([key])
    disk = source.disk(kept)
    source.stores[disk] = lambda path: copy_store(kept, chunk, path)
    words = [names.MAPPER + key, disk, "P", str(chunk)]
    source.add(NAME, [tables.Line(0, layout.size_of(origin) // SECTOR, "snapshot", words)])
    try:
        chunks = source.child_of(NAME).chunks[NAME]
    except store_places.RefusedStore as refusal:
        raise Refusal(name, refusal.word == "read" and kept.lack(0, kept.size) or f"the store: {refusal.why}")
    fault = INVALID_SNAPSHOT if chunks is None else store_fault(kept, chunk, record.is_merging)
    if fault:
        raise Refusal(name, fault)
    made = MappedDevice(name, source, NAME)
    made.chunks_used = chunks
    return made


def copy_store(store: Device, chunk: int, path: str) -> None:
    """Writes what a store says of itself to a file for dmremap to read: the header and the areas of its list in their
    places, and holes between them. It ends before the first sector that can't be read, so that zeros are never taken
    for that."""
    with open(path, "wb") as file:
        for start, length, content in list_of(store, chunk):
            file.seek(start)
            file.write(content)
            is_whole = len(content) == length
        if is_whole:
            file.truncate(store.size)


def store_fault(store: Device, chunk: int, is_merging: bool) -> Optional[str]:
    """Why a store that dmremap takes is none of a kernel, which writes the header at once, with a 1 for valid."""
    is_new = False
    for start, _, content in list_of(store, chunk):
        is_new = is_new if start else not any(content[:4])
        if (is_new or start == chunk * SECTOR and not any(content)) if is_merging else is_new and any(content):
            return UNKNOWN if is_merging else LOST
        if not start and not is_new and content[4:8] != b"\1\0\0\0":
            return ODD
    return None


def list_of(store: Device, chunk: int) -> Iterator[Tuple[int, int, bytes]]:
    """The header and the areas up to the end of the list: where each begins, its length, and its bytes up to the first
    sector that can't be read, after which there are no more."""
    size, step = chunk * SECTOR, (32 * chunk + 1) * chunk * SECTOR
    areas = ((start, size) for start in range(size, store.size - size + 1, step))
    for start, length in itertools.chain([(0, SECTOR)], areas):
        content = Lenient(store).read(start, length)
        yield start, length, content
        # Whose last entry is free, that ends the list.
        if len(content) < length or start and not any(content[-8:]):
            return


DISKS = itertools.count()
