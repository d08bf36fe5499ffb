"""The path of a request down a stack, as a tree: each level is an answer of dmremap itself, and together they have to
give its answer about the whole. A device without a state is asked alone, over disks in place of what lies below it;
snapshots and their origin all at once and in the order of the whole, so that earlier requests reach them. A request is
cut so that each answer has one line of the device and, where a snapshot is written, one chunk, to show whether that was
taken."""

import contextlib
import functools
import itertools
import os
from typing import Collection, Dict, Iterator, List, NamedTuple, Optional, Tuple, Union

from dmremap_tools.base import names, paths, quoting, streams, tables
from dmremap_tools.formats import store_places
from dmremap_tools.base.given import Given, put
from dmremap_tools.base.numbers import SECTOR
from dmremap_tools.base.pieces import Mapped, Piece
from dmremap_tools.base.refusal import Refusal
from dmremap_tools.model.loaded_stack import Stack
from dmremap_tools.model.device import Image, Missing, Part as DiskPart
from dmremap_tools.model.mapping import MappedDevice, Tables, copy_store

BEFORE, PATHS = "--before", "--paths"
TAKEN, NOT_TAKEN, TAKEN_NOW, SNAPSHOT, ORIGIN = "taken", "not taken yet", "taken now", "snapshot", "snapshot-origin"
SEE = "dmremap-tools store says which request fills a store"
INVALID = ("%s was lost before this, so all of it fails: its store was full, or its origin failed to be read when it "
           "had to be copied. " + SEE)
HEADER = "the header of %s's store says that it is invalid: it was full once, so all of the snapshot fails"
FULL = "no place is left in the store of %s, which is lost by this: " + SEE
KEPT = "no place is left in the store of %s, which keeps what it has, as its kind is K"
UNREAD = "%s can't be read in the whole of chunk %d, which had to be copied first, so that %s is lost by this"
BELOW, EITHER = "%s fails there: ask for it", "%s was lost before this, or %s fails there"
# What the name of a unit begins with that is more than a device, before its origin; no name of a device has a space.
# A request that is cut into more pieces isn't shown.
OVER, MOST = "over ", 4096
TOO_MANY = "its way has more than %d pieces: ask for fewer sectors" % MOST
OTHER = "the levels don't make dmremap's answer together, so they aren't shown; that is:\n"


class MapCommand(NamedTuple):
    """The command `map`: the program that is asked, what it loads, and the files of its options by their names."""

    asked: str
    given: Given
    options: Dict[str, str]

    def words(self) -> List[str]:
        """The words by which the stack is loaded, without earlier requests."""
        return self.given.words() + ([PATHS, self.options[PATHS]] if PATHS in self.options else [])


class DeviceRequest:
    """A request for a device, and the pieces that each of its lines makes of it, None for sectors past the end."""

    def __init__(self, operation: str, device: str, start: int, count: int) -> None:
        self.operation, self.device, self.start, self.count = operation, device, start, count
        self.lines: Dict[Optional[tables.Line], List[LinePiece]] = {}

    def __str__(self) -> str:
        return "%s %s %d %d" % (self.operation, self.device, self.start, self.count)

    def final_pieces(self) -> Iterator[Piece]:
        """The pieces on disks that it ends in, in their order."""
        return (piece for parts in self.lines.values() for part in parts for piece in part.final_pieces())

    def tree_rows(self, indent: str = "") -> Iterator[str]:
        """The rows of the tree below it: lines of the device, and their pieces with what lies below these."""
        for line, parts in self.lines.items():
            if line is not None:
                yield "%s%s: %s" % (indent, self.device, line)
            for part in parts:
                yield "%s+- %s%s" % (indent, piece_text(part.piece), ": " + part.note if part.note else "")
                inner = indent + ("   " if part is parts[-1] else "|  ")
                for below in part.below:
                    if len(part.below) > 1:
                        yield inner + str(below)
                    yield from below.tree_rows(inner)


class LinePiece:
    """A piece that a line makes, with paths; a note on it, or nothing; and in `below` the requests for devices."""

    def __init__(self, piece: Piece, note: str, devices: Dict[str, tables.TableDevice]) -> None:
        self.piece, self.note = piece, note
        ends = [piece]
        if piece.to:
            read = Piece(0, "R", piece.count, piece.disk, piece.start) if piece.disk else Piece(0, "zero", piece.count)
            ends = [read, Piece(0, "W", piece.count, piece.to, piece.to_start)]
        self._ends: List[Union[DeviceRequest, Piece]] = [
            DeviceRequest(it.what, names.of_path(it.disk), it.start, it.count) if it.disk in devices else it
            for it in ends]
        self.below = [it for it in self._ends if isinstance(it, DeviceRequest)]

    def final_pieces(self) -> Iterator[Piece]:
        """The pieces on disks that it ends in. A copy joins those that read to those that write as many sectors."""
        ends = [list(it.final_pieces()) if isinstance(it, DeviceRequest) else [it] for it in self._ends]
        if len(ends) == 1:
            yield from ends[0]
            return
        for source, target in _cut_alike(*ends):
            if source.what == "R" and target.what == "W":
                yield Piece(0, "copy", source.count, source.disk, source.start, target.disk, target.start)
            else:
                what = "fill" if (source.what, target.what) == ("zero", "W") else "error"
                yield Piece(0, what, source.count, "", 0, target.disk, target.start)


class RequestPath(NamedTuple):
    """The path of a request from the device that it is for, and dmremap's answer about the whole stack."""

    top: DeviceRequest
    answer: List[Piece]

    def __str__(self) -> str:
        rows = [str(self.top), *self.top.tree_rows(), "answer:", *("  " + piece_text(it) for it in self.answer)]
        return "".join(quoting.escaped(it) + "\n" for it in rows)

    def is_whole(self) -> bool:
        """Whether the levels make the answer together."""
        made = list(self.top.final_pieces())
        is_as_long = sum(it.count for it in made) == sum(it.count for it in self.answer)
        return is_as_long and all(one[1:] == other[1:] for one, other in _cut_alike(made, self.answer))


class LevelQuery(NamedTuple):
    """A request for sectors of one line of a device, or None past its end. `kept` is the path of the origin, if that
    stays in the level's stack; a write `is_watched` if reads of the snapshot come before and after."""

    device: tables.TableDevice
    line: Optional[tables.Line]
    operation: str
    start: int
    sectors: int
    kept: Optional[str] = None
    is_watched: bool = False

    def request_lines(self) -> List[str]:
        """The lines that dmremap gets. The first reads the origin that stays, of a written chunk all."""
        own = "%s %d %d" % (self.device.name, self.start, self.sectors)
        asked = ["R " + own, "W " + own, "R " + own] if self.is_watched else [self.operation + " " + own]
        if self.kept is None:
            return asked
        first, count = self.start, self.sectors
        if self.is_watched and self.line:
            chunk = int(self.line.words[3])
            first -= first % chunk
            count = min(chunk, self.line.length - first)
        return ["R %s %d %d" % (names.of_path(self.kept), first, count), *asked]

    def noted_pieces(self, got: List[List[Piece]], stores: Dict[str, str], invalid: Collection[str]
               ) -> Iterator[Tuple[Piece, str]]:
        """The pieces of its answer, each with a note, by the answers to its requests, the snapshots by the disks of
        their stores, and those snapshots whose headers say that they are invalid."""
        at, origin = self.start, got.pop(0) if self.kept is not None else []
        for piece in got[1] if self.is_watched else got[0]:
            note = self._cause(got, origin, invalid) if piece.what == "error" else self._note(piece, at, got, stores)
            yield piece, note
            if piece.what not in ("copy", "fill"):
                at += piece.count

    def _note(self, piece: Piece, at: int, got: List[List[Piece]], stores: Dict[str, str]) -> str:
        """Which chunks a piece from sector `at` on lies in, and whether they were taken; nothing for other targets."""
        if self.line is None or self.line.target not in (SNAPSHOT, ORIGIN):
            return ""
        if self.line.target == ORIGIN:
            return "%s hadn't taken this chunk" % stores.get(piece.to, "a snapshot") if piece.to else ""
        size = int(self.line.words[3])
        if self.is_watched:
            was_taken = all(it.disk in stores for it in got[0])
            new = NOT_TAKEN if piece.to else TAKEN_NOW
            return "chunk %d, %s" % (self.start // size, TAKEN if was_taken else new)
        first, last = at // size, (at + piece.count - 1) // size
        chunks = "chunk %d" % first if first == last else "chunks %d to %d" % (first, last)
        return "%s, %s" % (chunks, TAKEN if piece.disk in stores else NOT_TAKEN)

    def _cause(self, got: List[List[Piece]], origin: List[Piece], invalid: Collection[str]) -> str:
        """Why the answer is an error; `origin` is what the read of the origin gave."""
        device, line = self.device, self.line
        if line is None:
            return "it goes on to sector %d, and %s ends at %d" % (self.start + self.sectors, device.name, device.end())
        if self.operation == "W" and device.flags == "ro":
            return "%s is read-only" % device.name
        if line.target == "error":
            return "it is an error line"
        lower = line.words[0][len(names.MAPPER):]
        if line.target == ORIGIN:
            return BELOW % lower
        if device.name in invalid:
            return HEADER % device.name
        fails = any(it.what == "error" for it in origin)
        was_lost, is_lost = (all(it.what == "error" for it in answer) for answer in (got[0], got[-1]))
        if not fails and (was_lost or not self.is_watched):
            return INVALID % device.name
        if not self.is_watched:
            return EITHER % (device.name, lower) if was_lost else BELOW % lower
        if not is_lost:
            return KEPT % device.name
        return UNREAD % (lower, self.start // int(line.words[3]), device.name) if fails else FULL % device.name


def queries_of(step: DeviceRequest, device: tables.TableDevice, kept: Optional[str]) -> Iterator[LevelQuery]:
    """A request cut so that each answer has one line of the device, and one chunk of a snapshot that is written."""
    at, end = step.start, step.start + step.count
    if end > device.end():
        yield LevelQuery(device, None, step.operation, at, step.count)
        return
    for line in device.lines:
        until, is_watched = min(end, line.start + line.length), line.target == SNAPSHOT and step.operation == "W"
        size = int(line.words[3]) if is_watched else line.length
        while at < until:
            count = min(until - at, size - (at - line.start) % size)
            yield LevelQuery(device, line, step.operation, at, count, kept, is_watched)
            at += count


def piece_text(piece: Piece) -> str:
    """A piece as dmremap writes it, without the number of its request."""
    read, written = [piece.disk, piece.start] * bool(piece.disk), [piece.to, piece.to_start] * bool(piece.to)
    return " ".join(map(str, [piece.what, *read, piece.count, *written]))


def _cut_alike(first: List[Piece], second: List[Piece]) -> Iterator[Tuple[Piece, Piece]]:
    """Pairs of pieces of both lists, cut to the same numbers of sectors, up to the end of the shorter."""
    left = first[::-1], second[::-1]
    while all(left):
        pair = [pieces.pop() for pieces in left]
        count = min(it.count for it in pair)
        yield pair[0]._replace(count=count), pair[1]._replace(count=count)
        for piece, pieces in zip(pair, left):
            if piece.count > count:
                start, to_start = piece.start + count * bool(piece.disk), piece.to_start + count * bool(piece.to)
                pieces.append(piece._replace(count=piece.count - count, start=start, to_start=to_start))


# A request with its place in the order of the whole: the numbers of those above it, and its own among all.
OrderedRequest = Tuple[Tuple[int, ...], DeviceRequest]


class LevelQueries:
    """Asks dmremap about each level of a loaded stack. `folder` takes the files that this needs."""

    def __init__(self, command: MapCommand, loaded: Stack, folder: str) -> None:
        self._command, self._stack, self._folder = command, loaded, folder
        self._listed, self._earlier = (
            streams.rows(command.options[it]) if it in command.options else [] for it in (PATHS, BEFORE))
        self._source = _tables_on_images(loaded, command.options.get(PATHS))
        self._before, self._by_path = os.path.join(folder, "earlier"), loaded.by_path()
        free = (it for it in map("below%d".__mod__, itertools.count()) if it not in loaded.sizes)
        self._disks = dict(zip([*self._by_path, *loaded.sizes], free))
        self._meant = {disk: path for path, disk in self._disks.items()}

    @functools.cached_property
    def _invalid(self) -> List[str]:
        """The snapshots whose stores are invalid before any request, by what their headers say."""
        if not self._listed:
            return []
        snapshots = [it for it in self._stack.devices if it.lines[0].target == SNAPSHOT]
        counts = store_places.chunks_in([self._command.asked, "map", *self._command.words()], snapshots)
        return [name for name, count in counts.items() if count is None]

    def request_path(self, before: List[str], request: str) -> RequestPath:
        """The path of a request in the state that those before it left; refused if it has too many pieces. Asks unit by
        unit from the top on, as requests for a unit may come from several above it."""
        put(self._before, (it + "\n" for it in [*self._earlier, *before]))
        operation, name, start, count = request.split(" ")
        top = DeviceRequest(operation, name, int(start), int(count))
        path = RequestPath(top, self._answers(self._command.words(), [request])[0])
        waiting: Dict[str, List[OrderedRequest]] = {self._unit_of(name): [((), top)]}
        met = 0
        while waiting:
            unit = max(waiting, key=self._levels_below)
            for key, step in self._add_pieces(unit, sorted(waiting.pop(unit), key=lambda it: it[0])):
                met += 1
                if met > MOST:
                    raise Refusal(request, TOO_MANY)
                waiting.setdefault(self._unit_of(step.device), []).append(((*key, met), step))
        if not path.is_whole():
            raise Refusal(request, OTHER + "".join("%d %s\n" % (it.request, piece_text(it)) for it in path.answer))
        return path

    def _unit_of(self, name: str) -> str:
        """What has to be asked at once for a device: OVER and the path of the origin, or the name of the device."""
        line = self._by_path[names.MAPPER + name].lines[0]
        return OVER + line.words[0] if line.target in (SNAPSHOT, ORIGIN) else name

    def _devices_of(self, unit: str) -> List[tables.TableDevice]:
        """The devices that are asked at once."""
        return [it for it in self._stack.devices if self._unit_of(it.name) == unit]

    @functools.lru_cache(None)
    def _levels_below(self, unit: str) -> int:
        """The longest chain of units from this one down."""
        lowers = {it for member in self._devices_of(unit) for it in member.lowers() if it in self._by_path}
        return 1 + max((self._levels_below(self._unit_of(names.of_path(it))) for it in lowers), default=0)

    def _add_pieces(self, unit: str, steps: List[OrderedRequest]) -> Iterator[OrderedRequest]:
        """Adds its pieces to each request for a unit. Yields the requests below, with the place of that above them."""
        kept = self._kept_origin(unit)
        words, stores = self._level_stack(unit, kept)
        parts = ((key, step, part) for key, step in steps
                 for part in queries_of(step, self._by_path[names.MAPPER + step.device], kept))
        asked = list(itertools.islice(parts, 4 * MOST + 1))
        requests = [request for _, _, part in asked for request in part.request_lines()]
        if len(requests) > 4 * MOST:
            raise Refusal(str(steps[0][1]), TOO_MANY)
        answers = iter(self._answers(words, requests, unit.startswith(OVER)))
        for key, step, part in asked:
            pieces = step.lines.setdefault(part.line, [])
            for piece, note in part.noted_pieces([next(answers) for _ in part.request_lines()], stores, self._invalid):
                disk, to = (self._meant.get(it, it) for it in (piece.disk, piece.to))
                pieces.append(LinePiece(piece._replace(disk=disk, to=to), note, self._by_path))
                yield from ((key, it) for it in pieces[-1].below)

    def _kept_origin(self, unit: str) -> Optional[str]:
        """The path of a unit's origin, if a read of that may fail: it stays, as the snapshots' state depends on it."""
        path = unit[len(OVER):] if unit.startswith(OVER) else ""
        below, _ = self._stack.below([path])
        lines = (line for it in below for line in self._by_path[it].lines)
        return path if any(it.target in ("error", SNAPSHOT) for it in lines) else None

    def _level_stack(self, unit: str, kept: Optional[str]) -> Tuple[List[str], Dict[str, str]]:
        """The words of a stack in which all below a unit is disks, but for the origin that stays; and the snapshots by
        their stores. A device stands in it alone if it has no state, as stores of others may lie on it."""
        has_state = unit.startswith(OVER)
        devices = {it.name: it for it in self._stack.devices} if has_state else {}
        stores: Dict[str, str] = {}
        sizes, copies = dict(self._stack.sizes), dict(stores)
        for device in self._devices_of(unit):
            changed = devices[device.name] = tables.TableDevice(device.name, device.flags)
            changed.lines += [self._line_over_disks(it, kept) for it in device.lines]
            for disk in filter(self._meant.get, changed.lowers()):
                path = self._meant[disk]
                sizes[disk] = self._by_path[path].end() if path in self._by_path else sizes[path]
            if device.lines[0].target == SNAPSHOT:
                _, store, kind, chunk = changed.lines[0].words
                stores[store] = "%s and %s" % (stores[store], device.name) if store in stores else device.name
                if self._listed and kind != "N":
                    path, copy = self._meant[store], os.path.join(self._folder, store)
                    below = self._source.disks.get(path) or MappedDevice(path, self._source, names.of_path(path))
                    copy_store(below, int(chunk), copy)
                    copies[store] = paths.line(store, copy)
        if not has_state:
            sizes = {disk: size for disk, size in sizes.items() if disk in {*devices[unit].lowers()}}
        level, paths_here = os.path.join(self._folder, "level"), os.path.join(self._folder, "PATHS")
        os.makedirs(level, exist_ok=True)
        put(paths_here, [*(it + "\n" for it in self._listed), *copies.values()])
        words = Stack(list(devices.values()), sizes).write(level)
        return words + (["--paths", paths_here] if self._listed and has_state else []), stores

    def _line_over_disks(self, line: tables.Line, kept: Optional[str]) -> tables.Line:
        """The line with disks in place of stores and devices below, but for the origin that stays."""
        over = {*self._by_path, *line.words[1:2] * (line.target == SNAPSHOT)} - {kept}
        return line.with_lowers(lambda it: self._disks[it] if it in over else it)

    def _answers(self, words: List[str], requests: List[str], has_state: bool = True) -> List[List[Piece]]:
        """dmremap's pieces for each request about the stack of these words, after earlier ones if that has a state."""
        found: List[List[Piece]] = [[] for _ in requests]
        command = [self._command.asked, "map", *words, *["--before", self._before] * has_state]
        with Mapped(command, (it + "\n" for it in requests)) as mapped:
            for piece in mapped.answers:
                found[piece.request - 1].append(piece)
        return found


def _tables_on_images(loaded: Stack, listed: Optional[str]) -> Tables:
    """The devices of a stack over the images that PATHS names. Disks without one can't be read."""
    source, places = Tables(), paths.places(listed, are_apart=False)
    source.devices = {it.name: it for it in loaded.devices}
    source.disks.update((disk, Missing(disk, size * SECTOR)) for disk, size in loaded.sizes.items())
    for disk, place in places.items():
        with contextlib.suppress(Refusal):
            size = min(place.length, loaded.sizes[disk] * SECTOR)
            source.disks[disk] = DiskPart(disk, Image(place.path), place.start, size)
    return source
