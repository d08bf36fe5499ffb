"""LVM's own raid0 to raid10: pairs of a volume with a superblock of dm-raid, which says what is in sync, and of data,
which is laid out as md lays out its members. The kernel's dm-raid.c has both, and which legs it reads."""

import itertools
import struct
from collections import namedtuple
from typing import Any, Callable, Dict, Iterable, List, Optional, Sequence, Tuple

from dmremap_tools.base import SECTOR, Refusal, tables
from dmremap_tools.model.config_text import shown
from dmremap_tools.model.device import ALL, ANY, Copies, Device, Gap, Missing, Part
from dmremap_tools.model.mapping import MappedDevice, Tables
from dmremap_tools.model.md_chunks import LAYOUTS, PARITY, Rows, Shape
from dmremap_tools.model.md_superblock import CLEAN, NEAR, marked_in
from dmremap_tools.model.volume_group import Segment

FORM, MAGIC, V190 = struct.Struct("<4L4Q4LQ12xl8xQ40xL"), 0x64526D44, 1
LegSuperblock = namedtuple("LegSuperblock", "magic compat_features num_devices array_position events failed_devices "
                           "disk_recovery_offset array_resync_offset level layout stripe_sectors flags "
                           "reshape_position delta_disks data_offset incompat_features")
MOST_LEGS = 64
# The level and the layout of md that the superblocks of each type of segment have; raid10's counts near copies, too.
KINDS: Dict[bytes, Tuple[str, int]] = {
    b"raid0": ("raid0", 0), b"raid0_meta": ("raid0", 0), b"raid1": ("raid1", 0), b"raid10": ("raid10", NEAR),
    b"raid10_near": ("raid10", NEAR), b"raid4": ("raid5", 4), b"raid5": ("raid5", 2), b"raid5_ls": ("raid5", 2),
    b"raid5_rs": ("raid5", 3), b"raid5_la": ("raid5", 0), b"raid5_ra": ("raid5", 1), b"raid5_n": ("raid5", 5),
    b"raid6": ("raid6", 8), b"raid6_zr": ("raid6", 8), b"raid6_nr": ("raid6", 9), b"raid6_nc": ("raid6", 10),
    b"raid6_n_6": ("raid6", 5), b"raid6_ls_6": ("raid6", 18), b"raid6_rs_6": ("raid6", 19),
    b"raid6_la_6": ("raid6", 16), b"raid6_ra_6": ("raid6", 17)}
# Where the bitmap of what is being written lies in the volume of a superblock.
BITMAP_AT = 4096
NEXT, OTHERS = "activate it with lvm2", "give the disks of the other legs"
NEWER = "nothing tells whether a leg is newer: leave its disk out to take the other one ({})"
APART = ("{} and {} were written apart from each other, as one says that the other failed, which says nothing of that: "
         "leave the disk of one of them out")
LEFT_BEHIND = "its disk is flagged MISSING: the group went on without it, so that it is stale"
SPLIT_OFF = "it was split off, and the others went on without it"
MAY_BE_OLD = "it lacks legs that may have been written to since without those that are here, so that this may be older"
ODD = "its superblock has other chunks than the text, or a layout that isn't followed: " + NEXT


class Legs:
    """The legs of a segment: the volumes of each, and their superblocks, or why one can't be read: its disk isn't
    there, or what is there is none of this leg."""

    def __init__(self, layout: Any, name: str, segment: Segment) -> None:
        self._plain: Callable[[bytes], Device] = layout.plain
        self._name, self._chunk, self._pairs = name, segment.stripe_size or 0, pairs_of(name, segment)
        # The superblocks say whether a reshape goes on, of which the type has a word.
        self._level, self._form = KINDS[(segment.kind or b"").partition(b"+")[0]]
        self._found: Dict[int, LegSuperblock] = {}
        self._missing: Dict[int, str] = {}
        self._faults: Dict[int, str] = {}
        # What the text itself says to be older than the others.
        self._left: Dict[int, str] = {}
        for leg, (meta, data) in enumerate(self._pairs):
            device = self._plain(meta) if meta else Missing(NEXT)
            volume = layout.group.volumes.get(data)
            try:
                status = volume.node.values(b"status") if meta and volume else []
                if meta and layout.lies_on(data, layout.left_behind):
                    self._left[leg] = f"{shown(data)}: {LEFT_BEHIND}"
                elif b"VISIBLE" in status and b"WRITE" not in status:
                    self._left[leg] = f"{shown(data)}: {SPLIT_OFF}"
                else:
                    self._found[leg] = self._superblock_of(device, leg)
            except Gap as gap:
                lacking = self._missing if layout.lies_on(meta, layout.absent) else self._faults
                lacking[leg] = f"{shown(meta)}: {gap.why}"

    def device(self, size: int) -> Device:
        """So many bytes of the segment, from the legs that are there and up to date. Refuses it where their superblocks
        don't tell which these are, and a size that such legs can't have."""
        count = len(self._pairs)
        if not self._found and self._level != "raid0":
            whys = "; ".join([*self._faults.values(), *self._missing.values(), *self._left.values()])
            raise Refusal(self._name, whys + ": give the disks of all legs" * bool(self._faults))
        best = self._best()
        self._check_agreement(best)
        legs = [self._leg(leg, best) for leg in range(count)]
        if self._level == "raid0":
            return self._striped(legs, size)
        sets = self._sets()
        if self._faults and self._can_run({**self._faults, **self._missing}):
            raise Refusal(self._name, NEWER.format(next(iter(self._faults.values()))))
        if self._level in PARITY:
            return self._rows(legs, best, size)
        return self._striped([self._mirror(each, legs, best, size // len(sets)) for each in sets], size)

    def read_of(self) -> str:
        """The legs that are read, with their events; all that have a superblock, where it is a matter of the text."""
        best = self._best()
        read = {leg: it.events for leg, it in self._found.items() if not self._stale(leg, best)}
        return f"{self._name.rpartition('/')[2]}:" + ("+".join(f"{leg}={it}" for leg, it in read.items()) or ANY)

    def _best(self) -> int:
        """The freshest leg: of those with as many events the one that knows more of what failed."""
        ages = {leg: (found.events, bin(found.failed_devices).count("1")) for leg, found in self._found.items()}
        return max(ages, key=lambda leg: ages[leg], default=0)

    def may_be_old(self) -> str:
        """What is said of legs that are read while others, which may be newer, aren't here; or nothing."""
        return f"{self._name}: {MAY_BE_OLD}" if self._found and self._can_run(self._missing) else ""

    def _sets(self) -> List[range]:
        """The legs that are copies of each other."""
        count = len(self._pairs)
        copies = {"raid1": count, "raid10": self._found[self._best()].layout - NEAR}.get(self._level, 1)
        return [range(first, first + copies) for first in range(0, count, copies)]

    def _can_run(self, legs: Iterable[int]) -> bool:
        """Whether these legs may have run on without the others."""
        sets = self._sets()
        return sum(not set(legs).isdisjoint(each) for each in sets) >= len(sets) - PARITY.get(self._level, 0)

    def _superblock_of(self, meta: Device, leg: int) -> LegSuperblock:
        """The superblock that a leg of this number has; a Gap where it has none."""
        found = LegSuperblock(*FORM.unpack(meta.read(0, FORM.size)))
        if found.magic != MAGIC:
            raise Gap(meta.name, "it has no superblock of dm-raid")
        if found.compat_features & V190 and (found.flags or found.reshape_position != CLEAN or found.delta_disks):
            raise Refusal(self._name, f"it is being reshaped: {NEXT}")
        if (found.num_devices, found.array_position, f"raid{found.level}") != (len(self._pairs), leg, self._level):
            raise Gap(meta.name, "its superblock is of another array, or of another place in it")
        copies = found.layout - NEAR
        is_near = self._level == "raid10" and 1 < copies <= found.num_devices and found.num_devices % copies == 0
        has_chunks = self._level == "raid1" or 0 < self._chunk == found.stripe_sectors
        if not (is_near or found.layout == self._form) or not has_chunks or found.incompat_features \
                or found.compat_features not in (0, V190):
            raise Refusal(self._name, ODD)
        return found

    def _stale(self, leg: int, best: int) -> Optional[str]:
        """Why a leg with a superblock isn't to be read, or None."""
        events, newest = self._found[leg].events, self._found[best].events
        if events + 1 < newest:
            return f"it is stale: its superblock has {events} events, and another one {newest}"
        return "another leg says that it failed" if self._failed(best, leg) else None

    def _failed(self, one: int, other: int) -> bool:
        """Whether the superblock of a leg says that another one failed."""
        return one in self._found and self._found[one].failed_devices >> other & 1 == 1

    def _is_rebuilt(self, leg: int) -> bool:
        """Whether a leg was being filled, so that it has the first bytes alone."""
        return leg in self._found and self._found[leg].disk_recovery_offset != CLEAN

    def _check_agreement(self, best: int) -> None:
        """Refuses legs of which each says that the other failed, or one that says it of another that is as new."""
        fresh = {leg for leg in self._found if not self._stale(leg, best)}
        for one, other in itertools.permutations(self._found, 2):
            is_sure = self._failed(other, one) or {one, other} <= fresh and not self._is_rebuilt(other)
            if self._failed(one, other) and is_sure:
                raise Refusal(self._name, APART.format(*(shown(self._pairs[leg][1]) for leg in sorted((one, other)))))
        if len({found.data_offset for found in self._found.values() if found.compat_features}) > 1:
            raise Refusal(self._name, f"its superblocks say several places of its data: {NEXT}")

    def _leg(self, leg: int, best: int) -> Device:
        """The data of a leg, as far as it is to be read."""
        data, found = self._pairs[leg][1], self._found.get(leg)
        if not found and self._level == "raid0":
            return self._plain(data)
        why = self._stale(leg, best) if found else self._faults.get(leg)
        if why or not found:
            told = self._left.get(leg) or f"{shown(data)}: {why or self._missing[leg]}"
            return Missing(f"{told}: {OTHERS}" if leg not in self._missing else told)
        device, start = self._plain(data), found.data_offset * SECTOR if found.compat_features else 0
        holes = [(found.disk_recovery_offset * SECTOR, ALL)] if self._is_rebuilt(leg) else []
        why = f"{shown(data)}: it was being rebuilt: {OTHERS}"
        return Part(device.name, device, start, device.size - start, holes, why)

    def _mirror(self, legs: Sequence[int], data: Sequence[Device], best: int, size: int) -> Device:
        """Legs that are copies of each other. Where they weren't alike yet, the first one that was there is read."""
        resync = self._found[best].array_resync_offset
        sound = (leg for leg in legs if not self._failed(best, leg) and not self._is_rebuilt(leg))
        first, end = next(sound, legs[0]), resync * SECTOR * (self._level == "raid1")
        why = f"{shown(self._pairs[first][1])} was being copied to the other legs: give the disk of that one"
        holes = {leg: [] if resync == CLEAN or leg == first else [(end, ALL)] for leg in legs}
        return Copies(self._name, [Part(data[leg].name, data[leg], 0, size, holes[leg], why) for leg in legs], size)

    def _rows(self, legs: Sequence[Device], best: int, size: int) -> Device:
        """Chunks with parity. Where that may be old, as of what was being written last, it isn't believed. But what was
        written while a leg was out stays marked, and is right."""
        found, numbered = self._found[best], enumerate(legs)
        gone = [leg for leg, data in numbered if isinstance(data, Missing) or self._is_rebuilt(leg)]
        doubtful = [(found.array_resync_offset * SECTOR, ALL)]
        if found.array_resync_offset == CLEAN:
            was_out = gone and all(self._failed(best, leg) or self._is_rebuilt(leg) for leg in gone)
            marked = [] if was_out else marked_in(self._plain(self._pairs[best][0]), BITMAP_AT)
            doubtful = [(0, ALL)] if marked is None else marked
        shape = Shape(self._level, len(legs), LAYOUTS[self._level][found.layout], self._chunk)
        self._check_even(shape.data, size)
        return Rows(self._name, shape, legs, size, doubtful)

    def _striped(self, columns: Sequence[Device], size: int) -> Device:
        """Columns side by side, as a table says them."""
        if len(columns) == 1:
            return columns[0]
        self._check_even(len(columns), size)
        made = Tables()
        places = [word for column in columns for word in (made.disk(column), "0")]
        made.add("legs", [tables.Line(0, size // SECTOR, "striped", [str(len(columns)), str(self._chunk), *places])])
        return MappedDevice(self._name, made, "legs")

    def _check_even(self, columns: int, size: int) -> None:
        """Refuses a segment that so many columns don't divide."""
        if not self._chunk or size % (columns * self._chunk * SECTOR):
            raise Refusal(self._name, f"it isn't divided evenly by its stripes, so that no kernel takes it: {NEXT}")


def pairs_of(name: str, segment: Segment) -> List[Tuple[bytes, bytes]]:
    """The volumes of each leg: that of its superblock, if it has one, and that of its data."""
    key, count = (b"raid0_lvs", b"stripe_count") if segment.kind == b"raid0" else (b"raids", b"device_count")
    names = [value for value in segment.node.values(key) if isinstance(value, bytes)]
    pairs = [(b"", data) for data in names] if segment.kind == b"raid0" else list(zip(names[::2], names[1::2]))
    told = segment.node.value(b"stripe_count" if segment.kind == b"raid0_meta" else count, int)
    if not 1 < len(pairs) <= MOST_LEGS or len(pairs) != told:
        raise Refusal(name, f"its text doesn't say its legs: {NEXT}")
    return pairs


def numbers_in(segment: Segment, legs: int) -> Optional[Callable[[int, int], Optional[int]]]:
    """What says which chunk is in a row of a leg, or None where it has parity; None if the text doesn't say it."""
    level, form = KINDS.get(segment.kind or b"", ("", 0))
    if level in PARITY and legs > PARITY[level] and not segment.node.child(b"reshape_count"):
        return Shape(level, legs, LAYOUTS[level][form], segment.stripe_size or 0).number
    copies = {"raid0": 1, "raid10": segment.node.value(b"data_copies", int) or 2}.get(level, 0)
    return (lambda leg, row: row * (legs // copies) + leg // copies) if copies > 0 and legs % copies == 0 else None
