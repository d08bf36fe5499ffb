"""A text of a group, read: its volumes, and their devices over the physical volumes that are there. Linear and striped
segments are lines of a table, which dmremap maps; any other is a disk of that table, which its own layer computes."""

import contextlib
import functools
import itertools
from typing import Callable, Dict, Iterator, List, NoReturn, Optional, Set, Tuple, TypeVar

from dmremap_tools.base import SECTOR, Refusal, names, tables
from dmremap_tools.model import integrity, pools, raid_volume
from dmremap_tools.model.config_text import shown
from dmremap_tools.model.device import Absent, Device, Extent, Missing
from dmremap_tools.model.mapping import MappedDevice, NoProgram, Tables, snapshot_of
from dmremap_tools.model.physical_volume import Text
from dmremap_tools.model.volume_group import GroupText, Record, Segment, VolumeText

# The most sectors of an extent, and extents of a volume: more than lvm2 makes.
MOST_EXTENT, MOST_EXTENTS = 1 << 34, 1 << 32
# The most snapshots that are looked at together, as a program is run for each.
MOST_SNAPSHOTS = 100
MANY = f"no more than {MOST_SNAPSHOTS} snapshots of a group are looked at together: `save` and `serve` give it"
# The most levels of volumes on each other, and the fields of a segment that name other volumes.
MOST_LEVELS = 40
LOWER = (b"stripes", b"mirrors", b"raids", b"raid0_lvs", b"origin", b"cow_store", b"merging_store", b"external_origin",
         b"thin_pool", b"metadata", b"pool", b"data", b"cache_pool", b"cache_vol", b"meta_dev", b"mirror_log",
         b"writecache", b"vdo_pool")
# What makes the device of a segment of each type, of the layout, the volume's name, the segment and its bytes.
LAYERS: Dict[bytes, Callable[["Layout", str, Segment, int], Device]] = {
    b"thin": pools.thin_of, b"cache": pools.cached_of, b"cache+CACHE_USES_CACHEVOL": pools.cached_of,
    b"integrity": integrity.integrity_of,
    **dict.fromkeys(raid_volume.KINDS, lambda *words: raid_volume.Legs(*words[:3]).device(words[3]))}
# The flag of a physical volume without which its group goes on.
GONE = b"MISSING"
# What no volume of a user's is called.
MOVES = b"pvmove"
POOLS = (b"thin-pool", b"cache-pool", b"vdo-pool")
NEXT = "activate the group's copy on a machine with lvm2 for this volume; the others are followed here"
ODD = "restore an older text by vgcfgrestore on copies of the disks (`metadata --list` shows what there is)"
# What devices are called in tables.
NUMBERS = itertools.count()
Made = TypeVar("Made")


class Layout:
    """The volumes by their names; `find` gives the device of a physical volume by its id and its size, or one that is
    missing. Of a group whose disks were changed apart from each other there is one for each side. All volumes are
    loaded together, or with `shared` those of several texts that are wanted."""

    def __init__(self, text: Text, find: Callable[[str, int], Device], shared: Optional[Tables] = None) -> None:
        self.text, self.name, self._find, self.group = text, text.group, find, GroupText(text.node())
        self.extent = (self.group.extent_size or 0) * SECTOR
        self.ids = {name: volume.node.identity for name, volume in self.group.volumes.items()}
        self.physical_ids = {key: node.identity for key, node in self.group.physicals.items()}
        self.records: Dict[bytes, Record] = {record.store: record for record in self.group.records if record.store}
        # The origins of snapshots, by the names of their stores.
        self.origins = {record.store: record.origin for record in reversed(self.group.records) if not record.is_merging}
        self.tables = shared or Tables()
        self._keys = {name: f"v{next(NUMBERS)}" for name in self.group.volumes}
        if not shared:
            self.tables.waiting += [functools.partial(self.key_of, name) for name in reversed(list(self.group.volumes))]
        self._snapshots = itertools.count()
        # The bytes of a volume as its user sees them, or why they can't be given.
        self._made = functools.lru_cache(None)(lambda name: tried(lambda: self._volume(name), Missing))

    @functools.cached_property
    def physical(self) -> Dict[bytes, Device]:
        """The devices of the physical volumes, by their keys."""
        return {key: self._find(node.identity, (node.value(b"dev_size", int) or 0) * SECTOR)
                for key, node in self.group.physicals.items()}

    @functools.cached_property
    def absent(self) -> Set[str]:
        """The ids of the physical volumes that aren't here."""
        return {self.physical_ids[key] for key, device in self.physical.items() if isinstance(device, Absent)}

    @functools.cached_property
    def left_behind(self) -> Set[str]:
        """The ids of those without which the group went on, as its text says."""
        return {node.identity for node in self.group.physicals.values() if GONE in node.values(b"flags")}

    @functools.cached_property
    def _whys(self) -> Dict[bytes, str]:
        """Why volumes aren't followed, as far as that is known: at first those on others in too many levels."""
        lower = {name: lower_in(volume) for name, volume in self.group.volumes.items()}
        deep = list(lower)
        for _ in range(MOST_LEVELS):
            known = set(deep)
            deep = [name for name in deep if not known.isdisjoint(lower[name])]
        return dict.fromkeys(deep, f"it lies on itself, or on others in more than {MOST_LEVELS} levels: {ODD}")

    def path(self, name: bytes) -> str:
        """A volume by its group and its name, for messages."""
        return f"{self.name}/{shown(name)}"

    def refuse(self, name: bytes, why: str) -> NoReturn:
        """Refuses a volume of which the text makes no sense."""
        raise Refusal(self.path(name), f"{why}: {ODD}")

    def check(self) -> None:
        """Refuses a text of whose volumes nobody can say the length."""
        if not 0 < self.extent <= MOST_EXTENT * SECTOR:
            raise Refusal(self.name, f"its text has no size of extents: {ODD}")

    def visible(self) -> List[bytes]:
        """The volumes that a user sees, no pools and moves. A snapshot has its store's name, which the text hides."""
        records = {record.volume.name for record in self.group.records}
        return [name for name, volume in self.group.volumes.items()
                if name not in records and not name.startswith(MOVES)
                and not any(segment.kind in POOLS for segment in volume.segments)
                and (name in self.origins or b"VISIBLE" in volume.node.values(b"status"))]

    def volume(self, name: bytes) -> Device:
        """A volume's bytes as its user sees them."""
        made = self._made(name)
        if isinstance(made, Missing):
            raise Refusal(self.path(name), made.name)
        return made

    def _volume(self, name: bytes) -> Device:
        """The same by its store of a snapshot, or an origin that one is merged into."""
        record = self.records.get(name)
        if record is None or record.is_merging:
            record = next((other for other in self.group.records if other.is_merging and other.origin == name), None)
        if record is None:
            return self.plain(name)
        if next(self._snapshots) >= MOST_SNAPSHOTS:
            raise Refusal(self.path(name), MANY)
        return snapshot_of(self, record)

    def plain(self, name: bytes) -> Device:
        """The bytes that the segments of a volume have."""
        key = self.key_of(name)
        self.tables.add_waiting()
        return MappedDevice(self.path(name), self.tables, key)

    def lower(self, segment: Segment, field: bytes) -> Optional[Device]:
        """The bytes of the volume that a field of a segment names, or None where it has none."""
        name = segment.node.value(field, bytes)
        return None if name is None else self.plain(name)

    def key_of(self, name: bytes) -> str:
        """The name of a volume in the tables, where its lines stand then. One that can't be followed is refused."""
        self.check()
        if name in self._whys:
            raise Refusal(self.path(name), self._whys[name])
        if name not in self._keys:
            self.refuse(name, "the text has no such volume")
        if self._keys[name] not in self.tables.devices:
            try:
                self.tables.add(self._keys[name], list(self._lines(self.group.volumes[name])))
            except Refusal as refusal:
                self._whys[name] = refusal.why
                raise
        return self._keys[name]

    def size_of(self, name: bytes) -> int:
        """The bytes of a volume; 0 where the text has none of this name."""
        volume = self.group.volumes.get(name)
        return volume.extents * self.extent if volume else 0

    def _lines(self, volume: VolumeText) -> Iterator[tables.Line]:
        """The lines of a volume. Refuses one whose segments don't follow each other."""
        start, sectors = 0, self.extent // SECTOR
        if not volume.segments or volume.extents > MOST_EXTENTS:
            self.refuse(volume.name, "its text says no length")
        for segment in sorted(volume.segments, key=lambda segment: segment.node.value(b"start_extent", int) or 0):
            count = segment.length or 0
            if segment.node.value(b"start_extent", int) != start or count <= 0:
                self.refuse(volume.name, f"its {shown(segment.node.key)} doesn't begin where the one before ends")
            yield self._line(volume, segment, start * sectors, count * sectors)
            start += count

    def _line(self, volume: VolumeText, segment: Segment, first: int, length: int) -> tables.Line:
        """The line of a segment, in sectors of its volume. Refuses a type that isn't followed."""
        name, which, kind = volume.name, shown(segment.node.key), segment.kind or b"none"
        if kind in (b"zero", b"error"):
            return tables.Line(first, length, kind.decode(), [])
        if kind in (b"striped", b"linear"):
            return self._striped(name, segment, first, length)
        if kind == b"mirror" and b"PVMOVE" in volume.node.values(b"status"):
            legs, moved = segment.node.pairs(b"mirrors"), segment.node.value(b"extents_moved", int) or 0
            if len(legs) != 2 or not 0 <= moved <= (segment.count or 0):
                self.refuse(name, f"its {which} says no two legs")
            # The second one if all extents were moved. The first is written all the time, while the second isn't whole.
            return tables.Line(first, length, "linear", self._area(name, *legs[moved == segment.count], length))
        maker = LAYERS.get(kind.partition(b"+RESHAPE")[0])
        if maker is None:
            legs = segment.node.pairs(b"mirrors")
            sides = [self.path(leg) for leg, _ in legs if isinstance(leg, bytes) and leg in self.group.volumes]
            what = f"its {which} is of type {shown(kind)}, which isn't followed"
            raise Refusal(self.path(name), f"{what}: save {sides[0]}, or if it was in sync {' or '.join(sides[1:])}"
                          if len(sides) > 1 else f"{what}: {NEXT}")
        size = length * SECTOR
        device = Deferred(self.path(name), size, functools.partial(maker, self, self.path(name), segment, size))
        return tables.Line(first, length, "linear", [self.tables.disk(device), "0"])

    def _striped(self, name: bytes, segment: Segment, first: int, length: int) -> tables.Line:
        """The line of a linear or striped segment."""
        columns, which = len(segment.stripes), f"its {shown(segment.node.key)}"
        if not columns or columns != (segment.node.value(b"stripe_count", int) or columns):
            self.refuse(name, f"{which} has other stripes than it counts")
        if length % columns:
            self.refuse(name, f"{which} isn't divided evenly by its stripes")
        areas = [word for area, extent in segment.stripes for word in self._area(name, area, extent, length // columns)]
        if columns == 1:
            return tables.Line(first, length, "linear", areas)
        if not segment.is_even(self.group.extent_size) or not segment.stripe_size:
            self.refuse(name, f"{which} isn't divided evenly by its stripes, so that no kernel takes it")
        return tables.Line(first, length, "striped", [str(columns), str(segment.stripe_size), *areas])

    def _area(self, name: bytes, area: object, extent: object, length: int) -> List[str]:
        """Where a column begins, as words of a line: on a physical volume or on a volume."""
        if not isinstance(area, bytes) or not isinstance(extent, int) or not 0 <= extent <= MOST_EXTENTS:
            self.refuse(name, "a segment names no place")
        first = extent * self.extent // SECTOR
        if area in self.physical:
            start, count = (self.group.physicals[area].value(key, int) for key in (b"pe_start", b"pe_count"))
            if start is None or count is None or start < 0 or first + length > count * self.extent // SECTOR:
                self.refuse(name, f"a segment goes past the end of {shown(area)}")
            return [self.tables.disk(self.physical[area]), str(start + first)]
        if first + length > self.size_of(area) // SECTOR:
            self.refuse(name, f"a segment goes past the end of the volume {shown(area)}")
        return [names.MAPPER + self.key_of(area), str(first)]

    def below(self, name: bytes) -> List[bytes]:
        """The other volumes that a volume lies on; the origin of a snapshot is one."""
        found = [name]
        # It grows meanwhile.
        for upper in found:
            lower = lower_in(self.group.volumes[upper])
            for record in self.group.records:
                if upper in (record.store, record.is_merging and record.origin):
                    lower |= {record.origin, record.store}
            found += self.group.volumes.keys() & lower - set(found)
        return found[1:]

    def uses(self, name: bytes) -> Set[Tuple[str, int, int]]:
        """What a volume and what it lies on use of physical volumes: ids, first sectors, and those after the last."""
        found, sectors = set(), self.extent // SECTOR
        volumes = [self.group.volumes[lower] for lower in (name, *self.below(name))]
        for segment in (segment for volume in volumes for segment in volume.segments):
            length = (segment.count or 0) // (len(segment.stripes) or 1) * sectors
            for area, start in segment.stripes or segment.node.pairs(b"mirrors"):
                if isinstance(area, bytes) and area in self.group.physicals and isinstance(start, int):
                    first = (self.group.physicals[area].value(b"pe_start", int) or 0) + start * sectors
                    found.add((self.physical_ids[area], first, first + length))
        return found

    def raids(self, name: bytes) -> Iterator[raid_volume.Legs]:
        """The legs of the raids that a volume lies on."""
        for lower in (name, *self.below(name)):
            for segment in (it for it in self.group.volumes[lower].segments if it.kind in raid_volume.KINDS):
                with contextlib.suppress(Refusal):
                    yield raid_volume.Legs(self, self.path(lower), segment)

    def lies_on(self, name: bytes, disks: Set[str]) -> bool:
        """Whether a volume lies on one of the physical volumes of these ids."""
        return name in self.group.volumes and any(identity in disks for identity, _, _ in self.uses(name))


class Deferred(Device):
    """A device that is made when its bytes are asked for. Where it can't be, its bytes are missing."""

    def __init__(self, name: str, size: int, make: Callable[[], Device]) -> None:
        super().__init__(name, size)
        self._made = functools.lru_cache(None)(lambda: tried(make, Missing))

    def lack(self, start: int, size: int) -> Optional[str]:
        return self._made().lack(start, size)

    def _extents(self, start: int, size: int) -> Iterator[Extent]:
        return self._made().extents(start, size)


def tried(make: Callable[[], Made], otherwise: Callable[[str], Made]) -> Made:
    """What a function gives; where it refuses that, what another one makes of the reason. NoProgram is raised."""
    try:
        return make()
    except NoProgram:
        raise
    except Refusal as refusal:
        return otherwise(refusal.why)


def lower_in(volume: VolumeText) -> Set[object]:
    """What a volume lies on, and numbers. A thin one has from the pool what it shares with its origin."""
    return {value for segment in volume.segments for key in LOWER if (key, segment.kind) != (b"origin", b"thin")
            for value in segment.node.values(key)}
