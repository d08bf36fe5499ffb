"""The superblocks of members of md arrays, as linux/raid/md_p.h has them: metadata 0.90, and 1.0 to 1.2. Nothing of one
is believed that its sum doesn't confirm, or that says that it lies elsewhere."""

import itertools
import struct
from typing import Iterator, List, NamedTuple, Optional, Sequence, Tuple

from dmremap_tools.base import SECTOR, Refusal
from dmremap_tools.formats import partition_table
from dmremap_tools.model.device import Device, Lenient, Run, joint

MAGIC = 0xA92B4EFC
BEGINNING = struct.pack("<LL", MAGIC, 1)
LINEAR, STRIPED, MIRRORED = -1, 0, 1
# The layout of raid10 without far copies, besides the number of near ones.
NEAR = 1 << 8
NAMES = {LINEAR: "linear", STRIPED: "raid0", MIRRORED: "raid1", 4: "raid4", 5: "raid5", 6: "raid6", 10: "raid10"}
# Versions 1.x: the fields before the table of roles, where their sum is, and for how many roles there is room.
FIRST, SUM_AT, MOST_BYTES = struct.Struct("<8xL4x16s32s8xlLQLLl28xQQQQL21xBHl8xQQLL32x"), 216, 4096
MOST_ROLES = (MOST_BYTES - FIRST.size) // 2
# Roles from here on are none: a spare, a faulty member, a journal.
NO_PLACE = 0xFFF0
# Bits of their feature map: a bitmap, a member that is being filled, a reshape, bad blocks, a member that is being
# replaced, one that is being filled by the bitmap, a journal, and the layout of raid0 that is said.
BITMAP, RECOVERING, RESHAPING, BAD_BLOCKS, REPLACEMENT, FROM_BITMAP = 0x1, 0x2, 0x4, 0x8, 0x10, 0x80
JOURNAL, LAYOUT_SAID = 0x200, 0x1000
# Those that don't change where data lies.
HARMLESS = BITMAP | BAD_BLOCKS | LAYOUT_SAID
CLEAN = (1 << 64) - 1
# A bitmap: its magic, the id of its array, the count of events, how many sectors it speaks of, its state, and the bytes
# of each bit; and where these begin.
BITMAP_FORM, BITMAP_MAGIC, BITMAP_STALE, BITS_AT = struct.Struct("<4s4x16sQ8xQLL"), b"bitm", 0x2, 256
MOST_BITS = 1 << 25
# Version 0.90: it lies in the last 64 KiB of a member that begin at a multiple of that, and has the bytes of a page.
OLD, OLD_ROOM, OLD_MINOR, OLD_RESHAPING = "0.90", 1 << 16, 90, 91
# The versions that lie behind their data, which begins where the member does.
AT_END = (OLD, "1.0")
# The word where it says what the device itself is, and the bits there that say whether it has all data.
OLD_SELF, OLD_ACTIVE, OLD_FAULTY = 992, 0b110, 0b1001
MOST_DEVICES, BAD_LOG = 4096, "{}: its log of bad blocks is damaged: leave that out to take what the others have"
# A superblock: its version, and where it lies in the member; the array, its level, layout, sectors of a chunk and
# number of places; the first sector of this member's data, how many it has, and how many the array uses of each; how
# often the array had changed; the number of the member, its place, if it has one, and the place of each number; the
# bits of its feature map; the array's name; up to which sector it is in sync; the power of two of sectors in which its
# log of bad blocks counts, how many sectors that has, and where; where its bitmap is, in sectors from here on; and up
# to which sector of its data a member that is being filled has been.
Superblock = NamedTuple("Superblock", [
    ("version", str), ("at", int), ("array", bytes), ("level", int), ("layout", int), ("chunk", int), ("places", int),
    ("start", int), ("length", int), ("used", int), ("events", int), ("number", int), ("role", Optional[int]),
    ("roles", Tuple[int, ...]), ("features", int), ("name", str), ("resync", int), ("bad_log", Tuple[int, int, int]),
    ("bitmap", int), ("filled", int)])
# A device with a superblock.
Member = NamedTuple("Member", [("device", Device), ("superblock", Superblock)])


def has_all(superblock: Superblock) -> bool:
    """Whether a member has all data of its array, one byte after the other."""
    is_near = superblock.level == 10 and superblock.layout == NEAR | superblock.places
    return is_near or superblock.level == MIRRORED or superblock.places == 1 and superblock.level in (LINEAR, STRIPED)


def found_in(device: Device) -> Tuple[List[Superblock], List[Tuple[int, bytes]]]:
    """A device's sound superblocks; and where something begins as one and isn't sound, with the id of its array."""
    found = list(_found(Lenient(device), device.size))
    return [each for _, _, each in found if each], [(at, content[16:32]) for at, content, each in found if not each]


def outermost(found: Sequence[Superblock], size: int) -> List[Superblock]:
    """Of a device's sound superblocks the one that owns its bytes, or those of which nothing tells which one does. One
    whose data is longer, or ends before a superblock at the end of them, belongs to what is made of the device."""
    fitting = [each for each in found if each.start + each.length <= size // SECTOR] or list(found)
    last = max((each for each in fitting if each.version in AT_END), key=lambda each: each.at, default=None)
    return [each for each in fitting
            if last is None or each is last or each.version in AT_END or (each.start + each.length) * SECTOR > last.at]


def unsynced(member: Member, resync: int) -> List[Run]:
    """The runs of bytes, in raid10 the array's and else those of a member's data, whose copies or parity may be older
    than the data: what the member's bitmap marks, or all from the sector on up to which the last resync came."""
    superblock, first, has_bitmap = member.superblock, resync * SECTOR, member.superblock.features & BITMAP
    place = superblock.at + superblock.bitmap * SECTOR
    marked = marked_in(member.device, place, superblock) if has_bitmap and resync != CLEAN else None
    runs = [(0, CLEAN * SECTOR)] if marked is None else marked
    return [(max(begin, first), end) for begin, end in runs if end > first]


def marked_in(device: Device, at: int, superblock: Optional[Superblock] = None) -> Optional[List[Run]]:
    """The runs of bytes that the bitmap at a byte marks as being written, or None where no bitmap is whole, or it is
    older than a superblock, or another array's."""
    content = Lenient(device).read(at, BITMAP_FORM.size).ljust(BITMAP_FORM.size, b"\0")
    magic, array, events, sectors, state, chunk = BITMAP_FORM.unpack(content)
    is_its = not superblock or array == superblock.array and events >= superblock.events and not state & BITMAP_STALE
    count = -(-sectors * SECTOR // chunk) if magic == BITMAP_MAGIC and is_its and chunk else 0
    bits = Lenient(device).read(at + BITS_AT, -(-count // 8)) if count <= MOST_BITS else b""
    if not count or len(bits) < -(-count // 8):
        return None
    return joint((bit * chunk, (bit + 1) * chunk) for bit in range(count) if bits[bit // 8] >> bit % 8 & 1)


def bad_blocks(member: Member) -> List[Run]:
    """The runs of bytes of a member that its log says it lacks. One with an entry for no sector is refused."""
    superblock, (shift, size, offset) = member.superblock, member.superblock.bad_log
    if not superblock.features & BAD_BLOCKS:
        return []
    content = member.device.read(superblock.at + offset * SECTOR, size * SECTOR)
    used = itertools.takewhile(lambda entry: entry[0] != CLEAN, struct.iter_unpack("<Q", content))
    runs = [((it >> 10 << shift) * SECTOR, ((it >> 10) + (it & 0x3FF) << shift) * SECTOR) for it, in used]
    if any(begin == end for begin, end in runs):
        raise Refusal(member.device.name, BAD_LOG.format(member.device.name))
    return runs


def _found(image: Lenient, size: int) -> Iterator[Tuple[int, bytes, Optional[Superblock]]]:
    """Each place at which a superblock begins, what is there, and the superblock, if it is sound."""
    sectors = size // SECTOR
    for version, sector in (("1.0", (sectors - 16) & ~7), ("1.1", 0), ("1.2", 8)):
        content = image.read(sector * SECTOR, MOST_BYTES) if sector >= 0 else b""
        is_one = content.startswith(BEGINNING)
        if is_one and not (version == "1.0" and _is_of_partition(image, content, sector)):
            yield sector * SECTOR, content, _first_version(content, version, sector)
    at = size // OLD_ROOM * OLD_ROOM - OLD_ROOM
    content = image.read(at, MOST_BYTES) if at >= 0 else b""
    for order in "<>":
        if content[:8] == struct.pack(order + "LL", MAGIC, 0):
            yield at, content, _old_version(content, order, at)


def placed(content: bytes, at: int) -> Optional[Tuple[int, Superblock]]:
    """The sound superblock of version 1.x at this byte of a disk, and the byte at which the member's data begins."""
    sector = _summed(content)
    found = None if sector is None else _first_version(content, {0: "1.1", 8: "1.2"}.get(sector, "1.0"), sector)
    return (at - found.at + found.start * SECTOR, found) if found else None


def _sum(content: bytes, order: str) -> int:
    """The sum of all words, with what goes over added."""
    total = sum(word for word, in struct.iter_unpack(order + "L", content + bytes(-len(content) % 4)))
    return (total & 0xFFFFFFFF) + (total >> 32) & 0xFFFFFFFF


def _is_of_partition(image: Lenient, content: bytes, sector: int) -> bool:
    """Whether a superblock of version 1.0 at the end of a disk is a partition's, by where it says that it lies."""
    begin = (sector - (_summed(content) or sector)) * SECTOR
    try:
        tables = [partition_table.table_of(image, each) for each in partition_table.GPT_SECTORS] if begin > 0 else []
    except Refusal:
        return False
    return any(begin == partition.start for table in tables if table for partition in table.partitions)


def _summed(content: bytes) -> Optional[int]:
    """The sector at which a superblock of version 1.x says that it lies, or None where its sum is wrong."""
    *_, stored, most = fields = FIRST.unpack_from(content.ljust(FIRST.size, b"\0"))
    size = FIRST.size + 2 * most
    summed = content[:SUM_AT] + bytes(4) + content[SUM_AT + 4:size]
    return fields[11] if most <= MOST_ROLES and len(content) >= size and _sum(summed, "<") == stored else None


def _first_version(content: bytes, version: str, sector: int) -> Optional[Superblock]:
    """A superblock of version 1.x at this sector of a member, or None where it isn't sound."""
    if _summed(content) != sector:
        return None
    (features, array, name, level, layout, used, chunk, count, bitmap, start, length, _, filled, number, shift,
     log_size, log_offset, events, resync, _, most) = FIRST.unpack_from(content)
    size = FIRST.size + 2 * most
    is_placed = start >= sector + -(-size // SECTOR) if version != "1.0" else start + length <= sector
    if not is_placed or not 0 < count <= MOST_DEVICES or start + length > 1 << 55:
        return None
    roles = struct.unpack_from(f"<{most}H", content, FIRST.size)
    role = roles[number] if number < most and roles[number] < NO_PLACE else None
    name = name.split(b"\0", 1)[0].decode("utf-8", "replace")
    return Superblock(version, sector * SECTOR, array, level, layout, chunk, count, start, length, used, events, number,
                      role, roles, features, name, resync, (shift, log_size, log_offset), bitmap, filled)


def _old_version(content: bytes, order: str, at: int) -> Optional[Superblock]:
    """A superblock of version 0.90 at this byte, whose words are in this order, or None where it isn't sound."""
    if len(content) < MOST_BYTES:
        return None
    words = struct.unpack(f"{order}{MOST_BYTES // 4}L", content)
    is_sound = _sum(content[:38 * 4] + bytes(4) + content[39 * 4:], order) == words[38]
    if not is_sound or words[2] not in (OLD_MINOR, OLD_RESHAPING) or not 0 < words[10] <= MOST_DEVICES:
        return None
    low, high = words[39:41] if order == "<" else words[40:38:-1]
    level, = struct.unpack_from(order + "l", content, 7 * 4)
    number, role, state = words[OLD_SELF], words[OLD_SELF + 3], words[OLD_SELF + 4]
    is_active = state & OLD_ACTIVE == OLD_ACTIVE and not state & OLD_FAULTY and role < words[10]
    array = struct.pack(">4L", words[5], *words[13:16])
    features = RESHAPING if words[2] == OLD_RESHAPING else 0
    return Superblock(OLD, at, array, level, words[64], words[65] // SECTOR, words[10], 0, at // SECTOR, 2 * words[8],
                      high << 32 | low, number, role if is_active else None, (), features, "", CLEAN, (0, 0, 0), 0, 0)
