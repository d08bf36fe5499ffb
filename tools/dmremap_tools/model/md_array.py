"""md arrays: which members count, and the bytes of the array, also where members are missing."""

import functools
from typing import Dict, Iterable, Iterator, List, NoReturn, Optional, Sequence, Tuple

from dmremap_tools.base import SECTOR, Refusal, quoting, tables
from dmremap_tools.model import md_chunks, md_superblock
from dmremap_tools.model.device import (Agreed, Copies, Device, Doubt, Extent, Missing, Part, Run, blocks_of, copied,
                                        cut, joint)
from dmremap_tools.model.mapping import MappedDevice, Tables
from dmremap_tools.model.md_superblock import NAMES, Member

# Sectors of a chunk, and members of an array that is followed.
MOST_CHUNK, MOST_MEMBERS = 1 << 21, 384
START = "start it by `mdadm --assemble --readonly`"
NO_CHUNK = "its members have no whole chunk: " + START
KNOWN = ("left-symmetric", "left-symmetric-6")
NO_RULE = "no rule is known for parity of the layout {}: give the missing member"
NONE_IN_SYNC = "of its members only {} is here, which is a spare, or was being filled: give the other members"
APART = ("its members were written to apart from each other, as the superblocks of each side say that the other one "
         "failed: give the images of one side alone ({})")
UNSYNCED = ("member {} of {} is missing, from which the others were being filled, and nothing tells whether that had "
            "come here: give its image, or, if all had been filled before, start the array without it on copies (mdadm "
            "--assemble --run)")
# The bits of a member that doesn't have all data.
NOT_ALL = md_superblock.RECOVERING | md_superblock.REPLACEMENT | md_superblock.FROM_BITMAP


def put_together(members: Sequence[Member]) -> "Array":
    """The array of some members. Where two sides of it ran apart, its bytes are those that are the same on both."""
    sides = list(sides_of(members))
    first, *others = map(Array, sides)
    if not others:
        return first
    which = " or ".join(" and ".join(each.device.name for each in side) for side in sides)
    why, devices = Doubt(APART.format(which)), [side.device for side in (first, *others) if side.device]
    first.device, first.apart = Agreed(first.label, devices, why) if len(devices) == len(sides) else None, why
    first.why = None if first.device else why
    apart_from = [member for side in others for member in side.members]
    first.members, first.stale = first.members + apart_from, first.stale + apart_from
    return first


def sides_of(members: Sequence[Member]) -> Iterator[List[Member]]:
    """The members of an array, freshest first. Those that ran apart from these, so that each says that the other isn't
    in the array any more, are sides of their own."""
    waiting = sorted(members, key=lambda it: (-it.superblock.events, it.superblock.number, it.device.name))
    while waiting:
        apart = [member for member in waiting if lacks(waiting[0], member) and lacks(member, waiting[0])]
        yield [member for member in waiting if member not in apart]
        waiting = apart


def lacks(member: Member, other: Member) -> bool:
    """Whether a member with a place says that another one has none."""
    mine, number = member.superblock, other.superblock.number
    return mine.role is not None and number < len(mine.roles) and mine.roles[number] >= md_superblock.NO_PLACE


class Array(md_chunks.Shape):
    """An array of members with one id, by their superblocks, the freshest first. `device` has its bytes, unless `why`
    says why nobody can say them; `apart` says that they ran apart from others."""

    def __init__(self, members: Sequence[Member]) -> None:
        self.members, self.best, self.tables = list(members), members[0], Tables()
        superblock, layout, chunk = self.best.superblock, self.best.superblock.layout, self.best.superblock.chunk
        level = NAMES.get(superblock.level, f"level {superblock.level}")
        copies = md_chunks.CopyLayout(layout & 0xFF, layout >> 8 & 0xFF, bool(layout >> 16 & 1))
        named, used = md_chunks.LAYOUTS.get(level, {}).get(layout, ""), superblock.used // chunk if chunk else 0
        super().__init__(level, superblock.places, named, chunk, used, *[copies] * (level == "raid10"))
        self.identity = superblock.array.hex()
        self.label = f"md:{superblock.name.rpartition(':')[2] or self.identity}"
        self.by_role, self._filling = {}, {}  # type: Dict[int, Member], Dict[int, Member]
        self.stale: List[Member] = []
        self.why, self.apart = None, None  # type: Optional[str], Optional[str]
        self.device: Optional[Device] = None
        try:
            self._sort_members()
            self._check_supported()
            self.device = self._made()
        except Refusal as refusal:
            self.why = refusal.why

    @property
    def missing(self) -> int:
        """How many members are missing."""
        return self.count - len(self.by_role)

    @property
    def may_be_old(self) -> bool:
        """Whether so many members are missing that these may have run on without those that are here."""
        copies = max(self.copies.near * self.copies.far, 1)
        return self.missing >= (1 if self.level == "raid1" else -(-self.data // copies))

    @functools.cached_property
    def note(self) -> Optional[str]:
        """What is to be said of its bytes: why nobody can say them, or what of them isn't known."""
        if self.why or self.apart or not self.device:
            return self.why or self.apart
        return self.device.lack(0, self.device.size) if self.missing else None

    def give_up(self, why: str) -> None:
        """Says why nobody can say its bytes."""
        self.device, self.why = None, why

    def _sort_members(self) -> None:
        """Those with the most events, or one less, count, in the role that the freshest superblock gives them. Of one
        that was being filled what it has counts where no other one is there."""
        best, twice = self.best.superblock, None
        for member in self.members:
            superblock = member.superblock
            role = best.roles[superblock.number] if superblock.number < len(best.roles) else md_superblock.NO_PLACE
            is_fresh = superblock.events + 1 >= best.events and role < self.count
            if is_fresh and superblock.features & NOT_ALL == md_superblock.RECOVERING:
                self._filling.setdefault(role, member)
            if not is_fresh or superblock.features & NOT_ALL:
                self.stale.append(member)
            elif role in self.by_role:
                both = f"{self.by_role[role].device.name} and {member.device.name}"
                twice = f"{both} are both its member {role}: give one of them"
            else:
                self.by_role[role] = member
        if twice:
            self.refuse(twice)
        if not self.by_role:
            self.refuse(NONE_IN_SYNC.format(quoting.some([member.device.name for member in self.members], " and ")))

    def refuse(self, why: str) -> NoReturn:
        raise Refusal(self.label, why)

    def _check_supported(self) -> None:
        """Refuses what isn't followed."""
        superblock, copies = self.best.superblock, self.copies.near * self.copies.far
        if superblock.level not in NAMES:
            self.refuse(f"an md array of {superblock.level}, which nothing here follows: {START}")
        if superblock.features & md_superblock.RESHAPING:
            self.refuse("it is being reshaped, so its chunks lie in two layouts: assemble copies of its members with "
                        "mdadm")
        if superblock.features & md_superblock.JOURNAL:
            self.refuse(f"it has a journal, which may hold newer bytes than its members: {START}")
        if self.level not in ("raid1", "linear") and not 0 < self.chunk <= MOST_CHUNK:
            self.refuse(f"its superblock has no size of chunks: {START}")
        if self.count > MOST_MEMBERS:
            self.refuse(f"it has more than {MOST_MEMBERS} members, which isn't followed: {START}")
        if self.level == "raid10" and (superblock.layout >> 17 or not 0 < copies <= self.count):
            self.refuse(f"no layout of raid10 that is known: {superblock.layout}: {START}")
        if not self.is_known:
            self.refuse(f"no layout of {self.level} that is known: none: {START}")
        if self.level in (*md_chunks.PARITY, "raid10") and not self.sectors:
            self.refuse(NO_CHUNK)

    def _made(self) -> Optional[Device]:
        """The bytes of the array, by what its members are known to have."""
        size, resync = self.best.superblock.used * SECTOR, min(each.superblock.resync for each in self.by_role.values())
        self._dirty = md_superblock.unsynced(self.best, resync)
        self._data = [self._data_of(role) for role in range(self.count)]
        if self.level == "raid1":
            # The freshest first, as one event less is let pass. Where they aren't in step, the first one's bytes count.
            first = self.source(range(self.count))
            order = sorted(self.by_role, key=lambda role: (role != first, -self.by_role[role].superblock.events, role))
            order += [role for role in sorted(self._filling) if role not in self.by_role]
            copies = [(self._data[role], [] if role == first else self._dirty) for role in order]
            why = self.unsynced(first)
            return Copies(self.label, [Part(it.name, it, 0, it.size, holes, why) for it, holes in copies], size)
        # Where all members are there, a table that can say it does.
        length = self.chunks * self.chunk * SECTOR
        is_whole = self.is_tabled and not self.missing and not any(
            member.lack(0, length) for member in self._data if self.level not in ("linear", "raid0"))
        if self.level in md_chunks.PARITY and not is_whole:
            # Of md's own layouts of raid6 these have a document of their parity; LVM's have one.
            unknown = None if self.level != "raid6" or self.layout in KNOWN else NO_RULE.format(self.layout)
            return md_chunks.Rows(self.label, self, self._data, self.sectors * SECTOR, self._dirty, unknown)
        if self.level == "raid10" and not is_whole:
            return CopiedChunks(self, self._data, self._dirty)
        self.tables.add("array", list(self.lines()) or self.refuse(NO_CHUNK))
        return MappedDevice(self.label, self.tables, "array")

    def source(self, roles: Iterable[int]) -> Optional[int]:
        """Of the members with these roles the first that is in the array, from which others are filled."""
        return next((role for role in roles if role in self.best.superblock.roles), None)

    def unsynced(self, role: Optional[int]) -> str:
        """Why bytes that may not have been copied from a member aren't known."""
        return Doubt(UNSYNCED.format(role, self.label))

    def length(self, member: Member) -> int:
        """The sectors of a member that are the array's."""
        return member.superblock.length if self.level in ("linear", "raid0") else member.superblock.used

    def _data_of(self, role: int) -> Device:
        """The data of a member, without what its log says it lacks, and what wasn't filled yet."""
        member, name = self.by_role.get(role) or self._filling.get(role), f"member {role} of {self.label}"
        if not member:
            return Missing(f"{name} is missing: give its image", 1 << 62)
        first, length = member.superblock.start * SECTOR, self.length(member) * SECTOR
        runs = [(start - first, end - first) for start, end in md_superblock.bad_blocks(member)]
        why = f"{name} lacks these bytes, as its log of bad blocks says: give the other members"
        if role not in self.by_role:
            runs.append((member.superblock.filled * SECTOR, length))
            why = f"{name} is missing, and {member.device.name} was being filled in its place: give its image"
        return Part(name, member.device, first, length, joint(runs), why)

    def disk_words(self, role: int, row: int = 0) -> List[str]:
        """A member's disk, and a sector of its data, as words of a line."""
        return [self.tables.disk(self._data[role]), str(row)]

    def whole_chunk_sectors(self, role: int) -> int:
        """The sectors of a member of linear or raid0 that make whole chunks; one that is missing is refused."""
        if role not in self.by_role:
            self.refuse(f"member {role} of {self.label} is missing, and nothing else has its bytes: give its image")
        length = self.by_role[role].superblock.length
        return length - length % (self.chunk or 1)

    def lines(self, copies: Sequence[int] = (0,)) -> Iterator[tables.Line]:
        """The lines of raid4 and raid10, of the first of these copies that is there for each column; of linear, member
        after member; and of raid0, rows over all members, then rows over those that are longer, and so on."""
        if self.level in ("raid4", "raid10"):
            columns = [[self.place(it, copy) for copy in copies] for it in range(self.data // self.copies.near)]
            found = [next((it for it in column if it[0] in self.by_role), column[0]) for column in columns]
            if self.sectors:
                yield self.striped(0, self.sectors, [role for role, _ in found], found[0][1] * self.chunk)
            return
        size = {role: self.whole_chunk_sectors(role) for role in range(self.count)}
        row = start = 0
        for role in size if self.level == "linear" else ():
            yield tables.Line(start, size[role], "linear", self.disk_words(role))
            start += size[role]
        for end in sorted(set(size.values()) - {0}) if self.level != "linear" else ():
            longer = [role for role in size if size[role] > row]
            if row and self.layout not in ("original", "alternate") and len(longer) > 1:
                self.refuse("members of several lengths, and no layout that is said: write it by `mdadm --assemble "
                            "--update=layout-original`, or -alternate for one that was written to since Linux 3.14")
            # The original layout goes on with the number of the chunk in the array.
            turn = start // self.chunk % len(longer) if self.layout == "original" else 0
            yield self.striped(start, (end - row) * len(longer), longer[turn:] + longer[:turn], row)
            start, row = start + (end - row) * len(longer), end

    def striped(self, start: int, length: int, roles: Sequence[int], row: int) -> tables.Line:
        """A line of whole rows over the members of these roles."""
        spots = [word for role in roles for word in self.disk_words(role, row)]
        if len(roles) == 1:
            return tables.Line(start, length, "linear", spots)
        if len(roles) > tables.MOST_COLUMNS:
            self.refuse(f"more than {tables.MOST_COLUMNS} columns, which dmremap doesn't take: {START}")
        return tables.Line(start, length, "striped", [str(len(roles)), str(self.chunk), *spots])


class CopiedChunks(Device):
    """Chunks that have copies on several members (raid10). Those in `dirty` runs may not be in step."""

    def __init__(self, array: Array, members: Sequence[Device], dirty: Sequence[Run]) -> None:
        super().__init__(array.label, array.sectors * SECTOR)
        self._array, self._members, self._dirty, self._chunk = array, members, dirty, array.chunk * SECTOR

    def _copies_of(self, number: int) -> Iterator[Tuple[int, int]]:
        """The roles of the members that have a chunk, and where, in bytes."""
        for copy in range(self._array.copies.near * self._array.copies.far):
            role, row = self._array.place(number, copy)
            yield role, row * self._chunk

    @functools.cached_property
    def is_whole(self) -> bool:  # type: ignore[override]
        """Where each member has all of its bytes or none, as many chunks as there are members tell it."""
        length = self._array.chunks * self._chunk
        whole = [role for role, member in enumerate(self._members) if member.lack(0, length) is None]
        numbers = range(min(self._array.count, self.size // self._chunk))
        return not self._dirty and all(any(role in whole for role, _ in self._copies_of(it)) for it in numbers)

    def _extents(self, start: int, size: int) -> Iterator[Extent]:
        """Each part of a chunk from the first of its copies that is there and in step."""
        for begin, end, run in cut(self._dirty, start, start + size):
            for number, offset, count in blocks_of(begin, end - begin, self._chunk):
                copies = list(self._copies_of(number))
                first = self._array.source(role for role, _ in copies) if run else None
                places = [(self._members[role], at + offset) for role, at in copies if first in (None, role)]
                if first is not None and first not in self._array.by_role:
                    places = [(Missing(self._array.unsynced(first)), 0)]
                yield from copied(places, count)
