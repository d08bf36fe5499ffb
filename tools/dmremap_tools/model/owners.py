"""Who has the sectors of images, of their partitions and of arrays: what is found there, what lies on that, and so on
up to the volumes of a group by its text, whether they are active or not."""

import functools
import itertools
import operator
from array import array
from bisect import bisect_right
from collections import namedtuple
from typing import Callable, Dict, Iterable, Iterator, List, NamedTuple, Optional, Set, Tuple

from dmremap_tools.base import SECTOR, Refusal
from dmremap_tools.formats.luks_header import Container
from dmremap_tools.formats.partition_table import Table
from dmremap_tools.model.config_text import shown
from dmremap_tools.model.device import ALL, ZEROS, Device, Gap, Part, blocks_of, holder, joined
from dmremap_tools.model.groups import REMOVED
from dmremap_tools.model.layout import LOWER, Layout
from dmremap_tools.model.mapping import INVALID_SNAPSHOT, MappedDevice, NoProgram, Tables
from dmremap_tools.model.md_array import Array
from dmremap_tools.model.md_superblock import Member
from dmremap_tools.model.physical_volume import PhysicalVolume
from dmremap_tools.model.pile import Pile
from dmremap_tools.model.raid_volume import numbers_in
from dmremap_tools.model.volume_group import Segment

# How many things may lie on each other, and how many ways up there are beside some for each sector.
DEEPEST, MOST_WAYS, MOST_OF_SECTOR = 40, 4096, 8
# Sectors that are read at once of what nothing claims, and that are asked for at once.
WINDOW, MOST_SECTORS = 1 << 11, 1 << 18
# Segments that name no physical volume, and that have columns of data.
BARE = (b"zero", b"error", b"snapshot", b"thin", b"thin-pool", b"cache", b"cache+CACHE_USES_CACHEVOL", b"cache-pool",
        b"integrity")
SNAPSHOT = (b"origin", b"cow_store", b"merging_store")
INTEGRITY = (b"origin", b"integrity")
# What a volume is to another one whose sectors it doesn't have one by one, by the field that names it.
ROLES = {b"metadata": "metadata", b"meta_dev": "journal", b"mirror_log": "log", b"pool": "data", b"data": "data",
         b"cache_pool": "cache", b"cache_vol": "cache", b"origin": "origin"}
POOL_DATA, CACHE = (b"pool", b"data"), (b"cache_pool", b"cache_vol")
# What lies on a volume or a physical volume: a volume with its segment, the field that names the lower one, its number
# in that field, and the sector from which on it is named.
Above = NamedTuple("Above", [("volume", bytes), ("segment", Segment), ("field", bytes), ("place", int), ("start", int)])
# Sectors up to an end, the name of what has them, which of its own they begin with, where it counts them, and who has
# these. Without a name nothing is said of them, as of an origin's that its snapshots read.
OwnedRun = namedtuple("OwnedRun", "first end name sector above", defaults=("", None, None))
FIRST = operator.itemgetter(0)
# Who has sectors of a device, from the first one up to an end. What no run has goes no further up.
Ground = Callable[[int, int], Iterable[OwnedRun]]
# Sectors that go one way up: the first, how many, and each thing that has them, with which of its own they begin.
Step = Tuple[str, Optional[int]]
Way = NamedTuple("Way", [("first", int), ("count", int), ("steps", Tuple[Step, ...])])


def ways(ground: Ground, first: int, end: int) -> Iterator[Way]:
    """Each way up from these sectors; all of them have one."""
    waiting: Dict[Tuple[Step, ...], Way] = {}
    for start in range(first, end, MOST_SECTORS):
        stop, before, waiting = min(end, start + MOST_SECTORS), waiting, {}
        for number, way in enumerate(ways_at_once(ground, start, stop)):
            if number > MOST_WAYS + MOST_OF_SECTOR * (stop - start):
                raise Refusal(f"sector {start}", "too many ways lead up from there: ask for fewer sectors at once")
            # By this it goes on with one that ends where it begins.
            key = tuple((name, None if sector is None else sector - way.first) for name, sector in way.steps)
            known = before.pop(key, None) if way.first == start else None
            if known:
                way = Way(known.first, known.count + way.count, known.steps)
            if way.first + way.count < stop or key in waiting:
                yield way
            else:
                waiting[key] = way
        yield from before.values()
    yield from waiting.values()


def ways_at_once(ground: Ground, first: int, end: int, depth: int = 0) -> Iterator[Way]:
    """The same of so few sectors that their runs can be listed."""
    found = ground(first, end) if depth < DEEPEST else [OwnedRun(first, end, unknown_owner("it lies on itself"))]
    runs = list(dict.fromkeys(found))
    if len(runs) != 1 or runs[0][:2] != (first, end):
        runs = sorted(runs + [OwnedRun(*gap) for gap in gaps(runs, first, end)], key=FIRST)
    for run in runs:
        start, count = run.sector or 0, run.end - run.first
        above = run.above and ways_at_once(run.above, start, start + count, depth + bool(run.name))
        for way in above or [Way(start, count, ())]:
            own = [(run.name, None if run.sector is None else way.first)] if run.name else []
            yield Way(run.first + way.first - start, way.count, (*own, *way.steps))


def gaps(runs: Iterable[OwnedRun], first: int, end: int) -> Iterator[Tuple[int, int]]:
    """Those of some sectors that no run has."""
    for begin, stop, *_ in sorted(runs, key=FIRST):
        if first < begin and first < end:
            yield first, min(begin, end)
        if stop > first:
            first = stop
    if first < end:
        yield first, end


def unknown_owner(why: str) -> str:
    """What is said of sectors whose owner nobody can be sure of."""
    return f"unknown: {why}"


def owned_by_one(name: str) -> Ground:
    """The ground of which one thing has all."""
    return lambda first, end: [OwnedRun(first, end, name)]


def ground_of(claims: Iterable[OwnedRun]) -> Ground:
    """The ground of some claims alone."""
    def ground(first: int, end: int) -> Iterator[OwnedRun]:
        for run in claims:
            begin, stop = max(first, run.first), min(end, run.end)
            if begin < stop:
                sector = None if run.sector is None else run.sector + begin - run.first
                yield OwnedRun(begin, stop, run.name, sector, run.above)
    return ground


def filled(ground: Ground, rest: Ground) -> Ground:
    """A ground, and another one of the sectors that it says nothing of."""
    def both(first: int, end: int) -> Iterator[OwnedRun]:
        runs = list(ground(first, end))
        yield from runs
        for gap in gaps(runs, first, end):
            yield from rest(*gap)
    return both


def owners_of_unclaimed(device: Device, what: str) -> Ground:
    """The ground of what nothing claims: nobody has zeros. What else is there may be in use, as a boot loader."""
    def name_of(window: Tuple[int, int]) -> str:
        """Who has the sectors of a window: nobody, or why that isn't known."""
        try:
            is_empty = not device.read(window[0] * SECTOR, (window[1] - window[0]) * SECTOR).strip(b"\0")
        except Gap as gap:
            return unknown_owner(gap.why)
        return "nobody" if is_empty else unknown_owner(f"{what}, and yet something is written there")

    def ground(first: int, end: int) -> Iterator[OwnedRun]:
        windows = ((start, min(end, start + WINDOW)) for start in range(first, end, WINDOW))
        for name, same in itertools.groupby(windows, name_of):
            begin, *_, stop = itertools.chain.from_iterable(same)
            yield OwnedRun(begin, stop, name)
    return ground


def chunks_of(first: int, end: int, chunk: int, numbers: Callable[[int], Iterable[Optional[int]]], name: str,
              above: Ground, parity: str = "", begin: int = 0, to: int = 0, length: int = ALL) -> Iterator[OwnedRun]:
    """Sectors of a column that begins at one; `numbers` says which chunks of their owner a row has, None for parity."""
    for row, skipped, count in blocks_of(first - begin, end - first, chunk):
        at = begin + row * chunk + skipped
        for number in numbers(row):
            if number is None:
                yield OwnedRun(at, at + count, parity)
            elif number * chunk + skipped < length:
                yield OwnedRun(at, at + count, name, to + number * chunk + skipped, above)


class TextOwners:
    """The volumes of a text, from below. `doubt` says why nobody can be sure what is free."""

    def __init__(self, side: Layout, doubt: Optional[str]) -> None:
        self.side, self.group, self.extent = side, side.group, side.group.extent_size or 0
        self._above: Dict[bytes, List[Above]] = {}
        self._visible, self._named = set(side.visible()), side.group.physicals.keys() | side.group.volumes.keys()
        self._stores = {record.store for record in side.group.records}
        self._reading = functools.lru_cache(None)(lambda name: reading_of(side.volume(name)))
        self._grounds = functools.lru_cache(None)(
            lambda name: [self._through(name, above) for above in self._above.get(name, ())])
        # Who has sectors of a volume, or of a physical volume.
        self.on: Callable[[bytes], Ground] = functools.lru_cache(None)(lambda name: functools.partial(self._runs, name))
        doubts = [doubt, None if self.extent > 0 else "the text says no size of extents"]
        for name, volume in side.group.volumes.items():
            for segment in volume.segments:
                doubts += self._add(name, segment)
        self.doubt = next(filter(None, doubts), None)

    def path(self, name: bytes) -> str:
        """What a volume is called, which is the store of a snapshot where that has its name."""
        return ("store of " if name in self._stores else "") + self.side.path(name)

    def _add(self, name: bytes, segment: Segment) -> Iterator[str]:
        """Notes what a segment lies on, and says what isn't known of that."""
        first, which = segment.node.value(b"start_extent", int), f"{shown(segment.node.key)} of {shown(name)}"
        if first is None or first < 0 or (segment.count or 0) <= 0:
            yield f"the text doesn't say where {which} lies"
        is_named = False
        for field in LOWER:
            has_starts, values = field in (b"stripes", b"mirrors"), segment.node.values(field)
            pairs = segment.node.pairs(field) if has_starts else [(value, 0) for value in values]
            for place, (lower, start) in enumerate(pairs):
                if isinstance(lower, bytes) and lower in self._named and isinstance(start, int) and start >= 0:
                    physical = self.group.physicals.get(lower)
                    sector = start * self.extent + (physical.value(b"pe_start", int) or 0 if physical else 0)
                    self._above.setdefault(lower, []).append(Above(name, segment, field, place, sector))
                    is_named = True
                elif has_starts:
                    yield f"{which} names no place"
        if not is_named and segment.kind not in BARE:
            yield f"nothing is known of the type {shown(segment.kind or b'none')} of {shown(name)}"

    def _runs(self, name: bytes, first: int, end: int) -> Iterator[OwnedRun]:
        """Who has sectors of a volume or a physical volume: itself where a user sees it, and what lies on it."""
        if name in self._visible and name not in self._stores:
            yield OwnedRun(first, end)
        for ground in self._grounds(name):
            yield from ground(first, end)
        for record in self.group.records:
            if name == record.store or name == record.origin and not record.is_merging:
                yield from self._read(record.origin if record.is_merging else record.store, name, first, end)

    def _through(self, lower: bytes, above: Above) -> Ground:
        """Who has sectors of a volume by way of one that lies on it. What the text says of that is looked up once."""
        upper, segment, field, place, begin = above
        kind, columns, chunk = segment.kind or b"", len(segment.stripes), segment.stripe_size or 0
        # Without superblocks, each value is a leg.
        step, is_leg = (1, True) if field == b"raid0_lvs" else (2, field == b"raids" and place % 2 == 1)
        numbers = numbers_in(segment, len(segment.node.values(field)) // step) if is_leg and chunk else None
        length, to = (segment.count or 0) * self.extent, (segment.node.value(b"start_extent", int) or 0) * self.extent
        chunks = functools.partial(chunks_of, name=self.path(upper), above=self.on(upper), begin=begin, to=to,
                                   length=length)
        if field == b"stripes" and columns > 1 and not chunk:
            return owned_by_one(unknown_owner(f"the text says no stripes of {self.path(upper)}"))
        if field in (b"stripes", b"mirrors") or is_leg and kind == b"raid1" or (field, kind) == INTEGRITY:
            if field != b"stripes" or columns == 1:
                columns, chunk, place = 1, ALL, 0
            stop = begin - -length // columns
            return lambda first, end: chunks(
                max(first, begin), min(end, stop), chunk, lambda row: [row * columns + place])
        if numbers:
            parity, of_leg = self._part("parity", upper), functools.partial(numbers, place // step)
            return lambda first, end: chunks(first, end, chunk, lambda row: [of_leg(row)], parity=parity)
        if field in (b"raids", b"raid0_lvs"):
            return owned_by_one(self._part("part" if is_leg else "superblock", upper))
        if field in SNAPSHOT and not kind.startswith(b"cache"):
            # What a snapshot reads of its origin and of its store is found otherwise; a thin one reads its pool.
            return lambda first, end: ()
        # Which thin or cached volumes may read this one: those of the pool whose data it is, or whose cache it is.
        pool = upper if field in POOL_DATA else lower if field in CACHE else b""
        users = [other.volume for other in self._above.get(pool, ()) if other.field in (b"thin_pool", *CACHE)]
        readers = dict.fromkeys([upper] if field == b"origin" else users)

        def ground(first: int, end: int) -> Iterator[OwnedRun]:
            runs = [run for reader in readers for run in self._read(reader, lower, first, end)]
            yield from runs
            # Where nobody can be sure of a volume, it is told as well what is sure.
            for gap in gaps([run for run in runs if run.above], first, end):
                yield OwnedRun(*gap, self._part(ROLES.get(field, "part"), upper))
        return ground

    def _part(self, role: str, name: bytes) -> str:
        """What is a part of a volume, and which volumes that a user sees are above that."""
        found: List[bytes] = []
        waiting = [name]
        while waiting:
            uppers = dict.fromkeys(above.volume for above in self._above.get(waiting.pop(), ()))
            new = [upper for upper in uppers if upper not in found]
            found, waiting = found + new, waiting + new
        seen = [shown(other) for other in found if other in self._visible]
        return f"{role} of {self.path(name)}" + (f", below {', '.join(seen)}" if seen else "")

    def _read(self, upper: bytes, lower: bytes, first: int, end: int) -> Iterator[OwnedRun]:
        """The sectors of a volume that another one reads, which its own layer says. A snapshot's are its own."""
        called, over = self.side.path(upper), None if upper in self._stores else self.on(upper)
        try:
            why, sources = self._reading(upper)
            for at, extent in joined(self.side.plain(lower), first * SECTOR, (end - first) * SECTOR):
                stop, moved = extent.start + extent.size, at - extent.start
                starts, sizes, places = sources.get(holder(extent.source), ((), (), ()))
                for row in range(max(0, bisect_right(starts, extent.start) - 1), bisect_right(starts, stop - 1)):
                    begin, until = max(extent.start, starts[row]), min(stop, starts[row] + sizes[row])
                    if begin < until:
                        sector = (places[row] + begin - starts[row]) // SECTOR
                        yield OwnedRun((begin + moved) // SECTOR, (until + moved) // SECTOR, called, sector, over)
        except NoProgram:
            raise
        except Refusal as refusal:
            why = refusal.why
        if why and why != INVALID_SNAPSHOT:
            yield OwnedRun(first, end, unknown_owner(f"whether {called} has it: {why}"))


def reading_of(device: Device) -> Tuple[Optional[str], Dict[Device, List["array[int]"]]]:
    """What a volume lacks, and where its bytes are read: the starts, the sizes and the places in it, by the sources."""
    lacks, rows = None, {}  # type: Optional[str], Dict[Device, List[Tuple[int, int, int]]]
    for at, extent in joined(device, 0, device.size):
        source = holder(extent.source)
        why = None if source is not extent.source else source.lack(extent.start, extent.size)
        lacks = lacks or why
        if why is None and source is not ZEROS:
            rows.setdefault(source, []).append((extent.start, extent.size, at))
    return lacks, {source: [array("Q", each) for each in zip(*sorted(found))] for source, found in rows.items()}


def without_group(volume: PhysicalVolume) -> str:
    """What is said of a physical volume that no current text of a group names."""
    if volume.faults:
        return unknown_owner(volume.faults[0])
    if volume.current:
        group = volume.current[0].group
        return unknown_owner(f"the current text of {group} doesn't name this physical volume, whose own is older")
    if volume.label.is_used is False:
        return "physical volume of no group"
    return unknown_owner("nothing says to which group this physical volume belongs: give the images of the others")


class Owners:
    """The owners of the sectors of each device that was looked at."""

    def __init__(self, pile: Pile) -> None:
        pile.search()
        self._pile = pile
        doubts = {group.side: group.doubt for group in pile.groups if group.state != REMOVED}
        self._stacks = [TextOwners(side, doubt) for side, doubt in doubts.items()]
        self._removed: Dict[str, List[OwnedRun]] = {}
        for gone in (volume for group in pile.groups for volume in group.volumes if volume.is_removed):
            for identity, first, end in gone.side.uses(gone.key):
                self._removed.setdefault(identity, []).append(OwnedRun(first, end, f"{gone.path}, removed"))
        self._known: Dict[Device, Ground] = {
            member.device: owners_of_member(array, member, self.on(array.device or member.device))
            for array in pile.arrays for member in array.members}
        self._known.update((device, self._of_table(device, table)) for device, table in pile.tables.items())
        self._known.update((spot.device, owners_of_container(spot.device, it)) for spot, it in pile.containers)
        for volume in pile.volumes:
            why = volume.question or volume.doubt
            if why is None:
                self._known[volume.device] = self._of_volume(volume)
            elif volume.device not in pile.tables:
                self._known[volume.device] = owned_by_one(unknown_owner(why))

    def on(self, device: Device) -> Ground:
        """Who has the sectors of a device, which is looked up once it is asked for."""
        return lambda first, end: (self._known.get(device) or self._of_other(device))(first, end)

    def _of_table(self, device: Device, table: Table) -> Ground:
        """Who has the sectors of a disk with a partition table."""
        if table.fault:
            return owned_by_one(unknown_owner(table.fault))
        copies = itertools.chain([table.kind], itertools.repeat(f"backup of the {table.kind}" if table.copy else "MBR"))
        claims = [OwnedRun(start // SECTOR, end // SECTOR, name) for (start, end), name in zip(table.taken, copies)]
        claims += [self._within(part.start, part.size, part) for part in table.partitions.values()]
        return filled(ground_of(claims), owners_of_unclaimed(device, "no partition has it"))

    def _of_volume(self, volume: PhysicalVolume) -> Ground:
        """Who has the sectors of a physical volume."""
        sector, area = volume.label.sector, "metadata area of LVM"
        claims = [OwnedRun(sector, sector + 1, "label of LVM")]
        claims += [OwnedRun(at // SECTOR, -(-(at + size) // SECTOR), area) for at, size in volume.label.areas]
        keys = [(stack, key) for stack in self._stacks for key, identity in stack.side.physical_ids.items()
                if identity == volume.identity]
        grounds = [self._extents(stack, key, volume) for stack, key in keys]
        grounds = grounds or [self._and_once(without_group(volume), volume)]
        return filled(ground_of(claims), lambda first, end: [run for ground in grounds for run in ground(first, end)])

    def _extents(self, stack: TextOwners, key: bytes, volume: PhysicalVolume) -> Ground:
        """Who has the sectors of a physical volume by the text of one group."""
        group, node = stack.side.name, stack.group.physicals[key]
        start, count = node.value(b"pe_start", int), node.value(b"pe_count", int)
        if start is None or count is None or start < 0 or count < 0:
            return owned_by_one(unknown_owner(f"the text of {group} doesn't say where the extents of {shown(key)} are"))
        free = unknown_owner(f"no volume of {group} has it, but {stack.doubt}") if stack.doubt else f"free in {group}"
        extents = filled(stack.on(key), self._and_once(free, volume))
        return filled(ground_of([OwnedRun(start, start + count * stack.extent, "", start, extents)]),
                      owned_by_one(f"physical volume of {group}, outside of its extents"))

    def _and_once(self, name: str, volume: PhysicalVolume) -> Ground:
        """The same for all, and the volumes that were removed, and had some of the sectors."""
        once = ground_of(self._removed.get(volume.identity, ()))
        return lambda first, end: [OwnedRun(first, end, name), *once(first, end)]

    def _within(self, start: int, size: int, device: Device) -> OwnedRun:
        """The run of a device in the one that it lies in, by its place there in bytes; above, who has its sectors."""
        return OwnedRun(start // SECTOR, (start + size) // SECTOR, device.name, 0, self.on(device))

    def _of_other(self, device: Device) -> Ground:
        """Who has sectors of a device that is none of these."""
        within = [found.spot.device for found in self._pile.found if found.spot.image is device]
        inside = [volume for volume in self._pile.volumes if volume.device in within]
        found = next((found for found in self._pile.found if found.spot.device is device), None)
        if inside:
            said = unknown_owner("nothing says what is around the physical volumes that looking through it found")
        elif found is None or found.what in ("unknown", "foreign"):
            said = unknown_owner(found.note if found else "it was looked into no more")
        else:
            said = f"{found.what}: {found.note}" if found.note else found.what
        claims = [self._within(volume.start, volume.size, volume.device) for volume in inside]
        return self._known.setdefault(device, filled(ground_of(claims), owned_by_one(said)))


def owners_of_container(device: Device, container: Container) -> Ground:
    """Who has the sectors of a LUKS container: its header, and its encrypted data."""
    name, start = f"LUKS{container.version}", container.start
    if start is None:
        return owned_by_one(f"{name} container: {container.fault}")
    end = device.size // SECTOR if container.length is None else start + container.length
    claims = [OwnedRun(0, max(start, container.header), f"{name} header")]
    claims += [OwnedRun(start, end, f"{name} data, encrypted")] * (start >= container.header)
    return filled(ground_of(claims), owners_of_unclaimed(device, "the container doesn't say that it has it"))


def owners_of_member(array: Array, member: Member, above: Ground) -> Ground:
    """Who has the sectors of a member of an array: that, or the superblock with what it keeps free."""
    start, rest = member.superblock.start, owned_by_one(f"superblock of {array.label}, with what it keeps free")
    if array.device is None:
        data = owned_by_one(f"{array.label}, which isn't followed: {array.why}")
    elif not any(other is member for other in array.by_role.values()):
        data = owned_by_one(f"a member of {array.label} that is stale or was being rebuilt")
    else:
        data = filled(functools.partial(owners_of_array_data, array, member, above), rest)
    return filled(ground_of([OwnedRun(start, start + array.length(member), "", 0, data)]), rest)


def owners_of_array_data(array: Array, member: Member, above: Ground, first: int, end: int) -> Iterator[OwnedRun]:
    """Who has sectors of a member's data: sectors of the array, or parity."""
    device, chunks = array.device, functools.partial(chunks_of, name=array.label, above=above)
    if array.level == "raid1":
        yield OwnedRun(first, end, array.label, first, above)
    elif array.level in ("linear", "raid0"):
        tables = device.source if isinstance(device, MappedDevice) else Tables()
        for line in tables.lines():
            columns, chunk = len(line.places()), int(line.words[1]) if line.target == "striped" else ALL
            for place, (disk, start, count) in enumerate(line.spans()):
                part = tables.disks[disk]
                if isinstance(part, Part) and part.lower is member.device:
                    begin, until = max(first, start), min(end, start + (count or 0))
                    yield from chunks(begin, until, chunk, lambda row: [row * columns + place], begin=start,
                                      to=line.start)
    else:
        role = next(role for role, other in array.by_role.items() if other is member)
        of_row = functools.partial(copies_in, array, role) if array.level == "raid10" else None
        yield from chunks(first, min(end, array.chunks * array.chunk), array.chunk,
                          of_row or (lambda row: [array.number(role, row)]), parity=f"parity of {array.label}")


def copies_in(array: Array, role: int, row: int) -> List[int]:
    """The chunks of raid10 that a member has in a row."""
    near, far, is_offset = array.copies
    stride, end = 1 if is_offset else max(1, array.chunks // far), array.sectors // array.chunk
    near_by: Set[int] = set()
    for turn in range(far):
        base = (row - turn * stride) // (far if is_offset else 1)
        about = (base * array.count + (role - turn * near) % array.count) // near
        near_by.update(range(max(0, about - near), min(end, about + near + 1)))
    return sorted(it for it in near_by if (role, row) in (array.place(it, copy) for copy in range(near * far)))
