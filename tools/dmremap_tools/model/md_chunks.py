"""Where an md array keeps its chunks: the role and the row of each, and the data of rows with parity. What a missing
one had is computed from the others: P is the sum of a row's data, Q that of g^d D_d in GF(2^8) by 0x11d, with g = 2."""

import bisect
import functools
import itertools
import operator
from typing import Dict, Iterator, List, NamedTuple, Optional, Sequence, Tuple

from dmremap_tools.base import SECTOR, quoting
from dmremap_tools.model.device import ALL, Copies, Device, Extent, Gap, Missing, Run, blocks_of, lacking

# How many chunks of a row are parity.
PARITY = {"raid4": 1, "raid5": 1, "raid6": 2}
# The layouts of each level by their numbers. Those that end in -6 have the second parity on the last device.
RAID5 = dict(enumerate(("left-asymmetric", "right-asymmetric", "left-symmetric", "right-symmetric", "parity-first",
                        "parity-last")))
LAYOUTS: Dict[str, Dict[int, str]] = {
    "raid0": {1: "original", 2: "alternate"}, "raid5": RAID5,
    "raid6": {**RAID5, 8: "ddf-zero-restart", 9: "ddf-N-restart", 10: "ddf-N-continue",
              **{16 + number: f"{name}-6" for number, name in RAID5.items() if number < 5}}}
POLYNOMIAL = 0x11D
UNCLEAN = "the array wasn't shut down cleanly, so that its parity may be old: give the missing member"
# The layout of raid10: how many near copies, how many far ones, and whether these lie in the next row.
CopyLayout = NamedTuple("CopyLayout", [("near", int), ("far", int), ("is_offset", bool)])
# The roles of a row: those of its data in their order, of P, and in raid6 of Q, and which power of g each has there.
Row = NamedTuple("Row", [("data", List[int]), ("parity", int), ("syndrome", Optional[int]), ("powers", Dict[int, int])])


class Shape:
    """How an array of so many members lays out its chunks, of so many sectors, and so many of them on each member."""

    def __init__(self, level: str, count: int, layout: str, chunk: int, chunks: int = 0,
                 copies: CopyLayout = CopyLayout(1, 1, False)) -> None:
        self.level, self.count, self.layout, self.chunk, self.chunks = level, count, layout, chunk, chunks
        self.copies, self.data = copies, count - PARITY.get(level, 0)
        self.is_known = level not in ("raid5", "raid6") or layout in LAYOUTS[level].values()

    @property
    def sectors(self) -> int:
        """The length of an array whose chunks have copies or parity."""
        near, far, _ = self.copies
        return self.chunks // far * self.data // near * self.chunk

    @property
    def is_tabled(self) -> bool:
        """Whether a table can say where its chunks lie."""
        near, far, is_offset = self.copies
        is_odd = self.count % near or far > 1 and (near > 1 or is_offset)
        return self.level not in ("raid5", "raid6") and not is_odd

    def place(self, number: int, copy: int = 0) -> Tuple[int, int]:
        """The role and the row of a chunk. In raid10 the far copies of each near one have consecutive numbers."""
        if self.level != "raid10":
            row, column = divmod(number, self.data)
            return role_of(self.level, self.layout, self.count, row, column), row
        near, far, is_offset = self.copies
        row, role = divmod(number * near, self.count)
        at, turn = divmod(copy, far)
        row = (row * far if is_offset else row) + (role + at) // self.count
        return (role + at + turn * near) % self.count, row + turn * (1 if is_offset else self.chunks // far)

    def row(self, row: int) -> Row:
        """Q follows P, but in DDF's last layout; the powers go up from the device after Q, in DDF from the first on."""
        data = [self.place(row * self.data + column)[0] for column in range(self.data)]
        parity, *rest = (role for role in range(self.count) if role not in data)
        if not rest:
            return Row(data, parity, None, {})
        is_around, is_swapped = (parity, rest[0]) == (0, self.count - 1), self.layout == "ddf-N-continue"
        if is_around != is_swapped and not self.layout.endswith("-6"):
            parity, rest = rest[0], [parity]
        order = sorted(data, key=lambda role: (role - rest[0]) % self.count)
        is_of_ddf = self.layout.startswith("ddf")
        return Row(data, parity, rest[0], {role: role if is_of_ddf else power for power, role in enumerate(order)})

    def number(self, role: int, row: int) -> Optional[int]:
        """The number of the chunk of data that a member has in a row, or None where that has parity there."""
        data = self.row(row).data
        return row * self.data + data.index(role) if role in data else None


def role_of(level: str, layout: str, count: int, row: int, column: int) -> int:
    """The role of a column of data in a row, beside one of parity, or beside two that follow each other."""
    if layout.endswith("-6"):
        # That of raid5, with the second parity on the last device.
        level, layout, count = "raid5", layout[:-2], count - 1
    parities, turn = PARITY[level], (row + 1 if layout == "ddf-N-restart" else row) % count
    if level == "raid4" or layout == "parity-last":
        return column
    if layout == "parity-first":
        return column + parities
    if layout == "ddf-N-continue":
        return (count - turn + column) % count
    parity = count - 1 - turn if layout.startswith(("left", "ddf-N")) else turn
    if layout.endswith("-symmetric"):
        return (parity + parities + column) % count
    # Of two of which the first is on the last device the second is on the first one.
    return column + (1 if parity + parities > count else parities * (column >= parity))


class Rows(Device):
    """The data of an array with parity, of members that may be missing; in their `doubtful` runs parity may be old.
    `unknown` says why nothing is computed from it at all."""

    def __init__(self, name: str, shape: Shape, members: Sequence[Device], size: int, doubtful: Sequence[Run],
                 unknown: Optional[str] = None) -> None:
        super().__init__(name, size)
        self.shape, self.members, self.doubtful, self.unknown = shape, members, doubtful, unknown
        # The data of each member, or what is computed in their place.
        self._columns = [Copies(name, [member, Computed(self, role)], ALL) for role, member in enumerate(members)]
        self._chunk = shape.chunk * SECTOR

    @functools.cached_property
    def _edges(self) -> List[int]:
        """Where members begin or end to lack bytes, or their parity to be old, with their first byte and their end."""
        size = -(-self.size // self.shape.data)
        runs = [run for member in self.members for run in lacking(member, size)] + list(self.doubtful)
        return sorted({0, size, *(edge for run in runs for edge in run if edge < size)})

    def parts(self, start: int, size: int) -> Iterator[Tuple[int, int, int]]:
        """The parts of chunks in some bytes of a member: the row of each, its first byte there, and how many."""
        for row, offset, count in blocks_of(start, size, self._chunk):
            at = row * self._chunk + offset
            within = self._edges[bisect.bisect_right(self._edges, at):bisect.bisect_left(self._edges, at + count)]
            for begin, end in zip([at, *within], [*within, at + count]):
                yield row, begin, end - begin

    @functools.cached_property
    def _lack_of_members(self) -> Optional[str]:
        """What the members lack of all. Between edges rows come again after as many of them as there are members."""
        for begin, end in zip(self._edges, self._edges[1:]):
            blocks = blocks_of(begin, end - begin, self._chunk)
            for row, offset, count in itertools.islice(blocks, self.shape.count + 1):
                columns = (self._columns[role] for role in self.shape.row(row).data)
                why = next(filter(None, (column.lack(row * self._chunk + offset, count) for column in columns)), None)
                if why:
                    return why
        return None

    def lack(self, start: int, size: int) -> Optional[str]:
        is_known = (start, size) == (0, self.size) or self._lack_of_members is None and start + size <= self.size
        return self._lack_of_members if is_known else super().lack(start, size)

    def _extents(self, start: int, size: int) -> Iterator[Extent]:
        for number, offset, count in blocks_of(start, size, self._chunk):
            role, row = self.shape.place(number)
            yield from self._columns[role].extents(row * self._chunk + offset, count)


class Computed(Device):
    """What a member that is missing had, as far as it was data, computed from the others."""

    def __init__(self, rows: Rows, role: int) -> None:
        super().__init__(f"{rows.members[role].name}, computed")
        self._rows, self._shape, self._members, self._role = rows, rows.shape, rows.members, role

    def lack(self, start: int, size: int) -> Optional[str]:
        """Why some of its bytes can't be computed, or None."""
        try:
            for part in self._rows.parts(start, size):
                self._gone(*part)
            return None
        except Gap as gap:
            return gap.why

    def _extents(self, start: int, size: int) -> Iterator[Extent]:
        """In parts, as of a chunk some sectors may be computed and others not."""
        for part in self._rows.parts(start, size):
            try:
                self._gone(*part)
                yield Extent(self, *part[1:])
            except Gap as gap:
                yield Extent(Missing(gap.why), 0, part[2])

    def load(self, start: int, size: int) -> bytes:
        return b"".join(self._solved(*part) for part in self._rows.parts(start, size))

    def _gone(self, row: int, at: int, count: int) -> List[int]:
        """The roles that are missing in a row; a Gap where they can't be computed."""
        if any(begin < at + count and at < end for begin, end in self._rows.doubtful):
            raise Gap(self.name, f"{self._members[self._role].name}, and {UNCLEAN}")
        whys = enumerate(member.lack(at, count) for member in self._members)
        lacks = {role: why for role, why in whys if why is not None}
        if len(lacks) > self._shape.count - self._shape.data:
            raise Gap(self.name, quoting.some(list(lacks.values()), "; "))
        if self._rows.unknown:
            raise Gap(self.name, f"{lacks[self._role]}: {self._rows.unknown}")
        return list(lacks)

    def _solved(self, row: int, at: int, count: int) -> bytes:
        """So many bytes of the missing member, from one in this row on, computed from the members that are there.
        Raises Gap where these don't suffice."""
        roles, gone = self._shape.row(row), self._gone(row, at, count)
        have = {role: self._members[role].read(at, count) for role in range(self._shape.count) if role not in gone}
        lost = [role for role in gone if role in roles.data]
        if len(lost) == 1 and roles.parity in have:
            return sum_in_field([have[role] for role in have if role != roles.syndrome])
        data, mine = [role for role in roles.data if role in have], roles.powers[self._role]
        products = (multiplied(have[role], roles.powers[role]) for role in data)
        syndrome = sum_in_field([have[roles.syndrome or 0], *products])
        if len(lost) == 1:
            return multiplied(syndrome, -mine)
        # g^x D_x + g^y D_y = syndrome and D_x + D_y = both, so D_x = (syndrome + g^y both) / (g^x + g^y).
        other = next(roles.powers[role] for role in lost if role != self._role)
        both = sum_in_field([have[roles.parity], *(have[role] for role in data)])
        return multiplied(sum_in_field([syndrome, multiplied(both, other)]), -LOGARITHMS[POWERS[mine] ^ POWERS[other]])


def sum_in_field(parts: Sequence[bytes]) -> bytes:
    """The sum of bytes in GF(2^8), place by place."""
    total = functools.reduce(operator.xor, (int.from_bytes(part, "little") for part in parts))
    return total.to_bytes(len(parts[0]), "little")


def multiplied(content: bytes, power: int) -> bytes:
    """Bytes times a power of g, which may be negative, place by place."""
    return content.translate(products_of(power % 255))


@functools.lru_cache(None)
def products_of(power: int) -> bytes:
    """What each byte is times a power of g."""
    return bytes([0] + [POWERS[(LOGARITHMS[value] + power) % 255] for value in range(1, 256)])


POWERS = [1]
while len(POWERS) < 255:
    POWERS.append(POWERS[-1] << 1 ^ (POLYNOMIAL if POWERS[-1] & 0x80 else 0))
LOGARITHMS = {value: power for power, value in enumerate(POWERS)}
