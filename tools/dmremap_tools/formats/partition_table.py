"""The partitions of a whole disk, by its GPT (UEFI specification, chapter 5), or by its MBR and the tables inside its
extended partitions, numbered as Linux does."""

import struct
import zlib
from collections import namedtuple
from typing import List, NamedTuple, Optional

from dmremap_tools.base import SECTOR, Refusal
from dmremap_tools.formats.disk_image import Readable

GPT = b"EFI PART"
# A GPT lies in the second sector, of which a disk may have either size.
GPT_SECTORS = (512, 4096)
# How many bytes of entries are read.
MOST_ENTRIES = 1 << 20
# How long the header is and its sum, where it is and the other copy, the first and the last usable sector, and of the
# entries: where they begin, how many there are, how long each is, and their sum.
HEADER = struct.Struct("<12xLL4xQQQQ16xQLLL")
# The type of a partition, its first sector and its last.
ENTRY = struct.Struct("<16s16xQQ")
# An MBR has four entries from here on, and these two bytes after them.
MBR_ENTRIES, MBR_ENTRY, MBR_MAGIC = 446, struct.Struct("<B3xB3xLL"), b"\x55\xaa"
EXTENDED, PROTECTIVE = (0x05, 0x0F, 0x85), 0xEE
# The numbers of partitions inside extended ones, and how many tables without any may follow each other.
FIRST_LOGICAL, LAST_LOGICAL, MOST_EMPTY = 5, 255, 100
# The number that Linux gives a partition, and where its bytes are on the disk.
Partition = NamedTuple("Partition", [("number", int), ("start", int), ("size", int)])
# An entry of an MBR: its first byte, the type of a partition, its first sector, and its sectors.
PartitionEntry = NamedTuple("PartitionEntry", [("flags", int), ("kind", int), ("start", int), ("size", int)])
# A partition table: its kind, which copy was read of a GPT, the bytes of a sector, its partitions, what it takes
# itself: starts and ends in bytes, how it is damaged, and the end of the disk, if it says that.
Table = namedtuple("Table", "kind copy sector partitions taken fault end", defaults=(None, None))


def table_of(image: Readable, sector: int = SECTOR) -> Optional[Table]:
    """The partition table of a disk, or None where it has none. As with Linux, an MBR that doesn't say that there is a
    GPT goes before what is left of one. It counts in sectors of so many bytes; where a GPT lies says that."""
    entries = _entries_in(image.read(0, SECTOR))
    # It is none where an entry doesn't begin with 0 or 0x80, or all are empty.
    is_mbr = any(it.size for it in entries) and not any(it.flags & 0x7F for it in entries)
    is_protective = is_mbr and any(it.kind == PROTECTIVE for it in entries)
    if is_mbr and not is_protective:
        return _mbr_of(image, entries, sector)
    table = next(filter(None, (_gpt_at(image, it, it, "first") for it in GPT_SECTORS)), None)
    if not table and not is_protective and all(image.read(it, len(GPT)) != GPT for it in GPT_SECTORS):
        return None
    table = table or backup_of(image)
    if not table:
        raise Refusal(image.path, "both copies of its partition table (GPT) are damaged: "
                      "repair it in a copy with gdisk, or cut the partition out with dd")
    return table


def backup_of(image: Readable) -> Optional[Table]:
    """The second copy of a GPT, which lies in the last sectors of a disk, or None where it isn't sound."""
    places = ((image.size // it * it - it, it) for it in GPT_SECTORS)
    return next(filter(None, (_gpt_at(image, place, it, "backup") for place, it in places if place > it)), None)


def _gpt_at(image: Readable, place: int, sector: int, copy: str) -> Optional[Table]:
    """The GPT whose header is at this byte, or None where it or its entries aren't sound."""
    cut_off = Refusal(image.path, "the image of a whole disk, which ends before its partition table (GPT) does: "
                      "take more of the disk")
    header = image.read(place, sector)
    if not header.startswith(GPT):
        return None
    if len(header) < sector:
        raise cut_off
    (size, header_sum, belongs, other, first_usable, last_usable, start, count, length,
     entries_sum) = HEADER.unpack_from(header)
    is_sound = 92 <= size <= sector and zlib.crc32(header[:16] + bytes(4) + header[20:size]) == header_sum
    if not is_sound or belongs * sector != place or length < 128 or count * length > MOST_ENTRIES:
        return None
    entries = image.read(start * sector, count * length)
    if len(entries) < count * length:
        raise cut_off
    if zlib.crc32(entries) != entries_sum:
        return None
    found = (ENTRY.unpack_from(entries, place * length) for place in range(count))
    partitions = [Partition(number, first * sector, (last - first + 1) * sector)
                  for number, (kind, first, last) in enumerate(found, 1) if any(kind) and first <= last]
    taken = [(0, first_usable * sector), ((last_usable + 1) * sector, image.size)]
    return Table("GPT", copy, sector, partitions, taken, None, (max(other, belongs) + 1) * sector)


def _mbr_of(image: Readable, entries: List[PartitionEntry], size: int) -> Table:
    """The partitions of an MBR, whatever their type, and those inside all of its extended ones, as far as the image
    goes. All of them count in sectors of so many bytes. What a table inside says of partitions counts from itself, and
    what it says of the next table from the first. As with Linux, its third and fourth entry count only inside of the
    extended partition, as they may be garbage."""
    runs = [(number, it.start, it.size) for number, it in enumerate(entries, 1) if it.size and it.kind not in EXTENDED]
    starts, seen, following = [0], set(), FIRST_LOGICAL
    for outer in (it for it in entries if it.size and it.kind in EXTENDED):
        table: Optional[PartitionEntry] = outer
        empty = 0
        while table and table.start not in seen and empty < MOST_EMPTY:
            seen.add(table.start)
            inside = _entries_in(image.read(table.start * size, SECTOR))
            starts += [table.start] if inside else []
            first = following
            for place, entry in enumerate(inside):
                start = table.start + entry.start
                is_inside = entry.start + entry.size <= table.size and start + entry.size <= outer.start + outer.size
                is_one = entry.size and entry.kind not in EXTENDED and (place < 2 or is_inside)
                if is_one and following <= LAST_LOGICAL:
                    runs.append((following, start, entry.size))
                    following += 1
            empty = empty + 1 if following == first else 0
            tables = (it for it in inside if it.size and it.kind in EXTENDED)
            table = next((it._replace(start=outer.start + it.start) for it in tables), None)
    partitions = [Partition(number, start * size, count * size) for number, start, count in runs]
    return Table("MBR", "", size, partitions, [(it * size, it * size + SECTOR) for it in starts])


def _entries_in(sector: bytes) -> List[PartitionEntry]:
    """The four entries of a sector with an MBR, or none."""
    if len(sector) < SECTOR or sector[-2:] != MBR_MAGIC:
        return []
    return list(map(PartitionEntry._make, MBR_ENTRY.iter_unpack(sector[MBR_ENTRIES:-2])))
