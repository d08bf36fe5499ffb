"""Images of physical volumes of LVM2 and of whole disks, made from their formats for the tests of the scripts."""

import struct
import zlib

import lvm_texts

SECTOR = 512
MAGIC = b" LVM2 x[5A%r0N*>"
# Where the first metadata area of a physical volume lies.
FIRST = 4096
TIME = b"creation_time = 1700000000\t# Tue Nov 14 22:13:20 2023\n"
# What a GPT calls a partition of LVM, and any identity of one.
LVM, IDENTITY = bytes.fromhex("79d3d6e607f5c244a23c238f2a3df928"), b"an identity of 16"[:16]


def checksum(content):
    """The CRC-32 of LVM2, which is that of zlib but for its first value and its last step."""
    return zlib.crc32(content, 0xF597A6CF ^ 0xFFFFFFFF) ^ 0xFFFFFFFF


def patched(content, *parts, unit=1):
    """Some bytes, or so many zeros, with others at places, which count units of so many bytes."""
    made = bytearray(content)
    for at, part in parts:
        made[at * unit:at * unit + len(part)] = part
    return bytes(made)


def damaged(content, *places):
    """Some bytes, of which those at some places are others."""
    return patched(content, *((at, bytes([content[at] ^ 1])) for at in places))


def text_of_area(group, identity, number):
    """What lvm2 writes into an area: the group first, and a NUL at the end."""
    head, body = group.replace(b"segment_count", b"creation_time = 1700000001\n      segment_count").split(b"vg0 {\n")
    return b'vg0 {\nid = "%s"\nseqno = %d\n' % (identity, number) + body + head + TIME + b"\0"


def one_volume(*physicals):
    """The text of a group `g`, whose volume `v` is the first extent of the first of these physical volumes. Each is its key, its
    path, its sectors, those before its extents, and perhaps its id."""
    listed = [lvm_texts.physical(key, path, size, start, (size - start) // 8, *('id = "%s"' % it for it in identity))
              for key, path, size, start, *identity in physicals]
    held = lvm_texts.volume("v", lvm_texts.striped(0, 1, (physicals[0][0], 0)))
    fields = 'id = "%s"' % lvm_texts.dashed("theone".ljust(32, "x")), "seqno = 1", 'status = ["RESIZEABLE", "READ", "WRITE"]'
    return lvm_texts.group("g", 8, listed, [held], *fields) + lvm_texts.HEAD


def label(areas, place=1, size=64 << 20, is_used=True, identity=b"anidentityof32bytesforthislabel0", version=2):
    """The sector with the label, which lists metadata areas. What it says of its use counts from this version on of its extension."""
    lists = struct.pack("<4Q", 1 << 20, 0, 0, 0) + b"".join(struct.pack("<QQ", *it) for it in areas) + bytes(16)
    body = struct.pack("<L8s32sQ", 32, b"LVM2 001", identity, size)
    body = (body + lists + struct.pack("<LL", version, is_used)).ljust(SECTOR - 20, b"\0")
    return b"LABELONE" + struct.pack("<QL", place, checksum(body)) + body


def area(text, offset=SECTOR, start=FIRST, size=4096, others=(), flags=0, version=1):
    """A metadata area with a text at this offset, and others that its header doesn't name."""
    ring = bytearray(size)
    for at, it in [*others, (offset, text)]:
        for place, byte in enumerate(it, at):
            ring[place if place < size else place - size + SECTOR] = byte
    locations = struct.pack("<QQLL", offset, len(text), checksum(text), flags) if text or flags else b""
    body = (MAGIC + struct.pack("<LQQ", version, start, size) + locations).ljust(SECTOR - 4, b"\0")
    ring[:SECTOR] = struct.pack("<L", checksum(body)) + body
    return bytes(ring)


def volume(*areas, length=0, **label_fields):
    """A physical volume with metadata areas, which are pairs of a start and the bytes, from its first byte on."""
    places = [(start, len(content)) for start, content in areas]
    end = max([length, FIRST] + [sum(it) for it in places])
    return patched(end, (SECTOR, label(places, **label_fields)), *areas)


def mbr(*entries):
    """A sector with a partition table, whose entries are a type, a first sector and a number of sectors."""
    packed = b"".join(struct.pack("<B3xB3xLL", 0, *it) for it in entries)
    return (bytes(446) + packed).ljust(510, b"\0") + b"\x55\xaa"


def gpt(*entries, sector=SECTOR, damage=None, last=99, entry=128):
    """The first sectors of a disk with a GPT, whose entries are a first and a last sector; an empty one is none.
    `damage` is a byte that isn't what it was, `last` the last sector of the disk, `entry` the bytes of an entry."""
    table = gpt_table(entries, entry)
    head = gpt_header(table, 1, last, 2, entry).ljust(sector, b"\0")
    disk = mbr((0xEE, 1, last)).ljust(sector, b"\0") + head + table
    return disk if damage is None else damaged(disk, damage)


def gpt_table(entries, size=128):
    """The entries of a GPT."""
    table = b"".join((LVM + IDENTITY + struct.pack("<QQ", *it) if it else b"").ljust(size, b"\0") for it in entries)
    return table.ljust(128 * 128, b"\0")


def gpt_header(table, place, other, at, entry=128):
    """The header of a GPT in one sector, which has its other copy in another, and whose entries begin at a third."""
    usable = max(place, other) - 1 - len(table) // SECTOR
    fields = struct.pack("<QQQQ16sQLLL", place, other, 34, usable, IDENTITY, at, len(table) // entry, entry, zlib.crc32(table))
    header = b"EFI PART" + struct.pack("<LL", 0x10000, 92)
    return header + struct.pack("<LL", zlib.crc32(header + bytes(8) + fields), 0) + fields


def with_backup(disk, *entries, sector=SECTOR):
    """A disk with the second copy of its GPT behind it."""
    table, end = gpt_table(entries), len(disk) // sector
    last = end + len(table) // sector
    return disk + table + gpt_header(table, last, 1, end).ljust(sector, b"\0")


def md_member(data, start, place=0, level=0, **fields):
    """A member of an md array of version 1.1 or 1.2, by the place of its superblock, whose data begins in this sector."""
    content = md_superblock(place // SECTOR, level, start=start, length=len(data) // SECTOR, **fields)
    return (bytes(place) + content).ljust(start * SECTOR, b"\0") + data


def md_end_member(data, level=1, **fields):
    """A member of version 1.0, whose superblock lies in the last sectors, from one with a number that eight divides."""
    sector = -(-len(data) // SECTOR // 8) * 8 + 8
    content = md_superblock(sector, level, length=len(data) // SECTOR, **fields)
    return data.ljust(sector * SECTOR, b"\0") + content.ljust(16 * SECTOR, b"\0")


def md_superblock(sector, level, start=0, length=0, count=2, events=7, role=0, features=0, array=b"an array of disks"[:16], roles=(0, 1, 2, 3)):
    """A superblock of version 1.x that says that it lies in this sector."""
    size = 256 + 2 * len(roles)
    content = bytearray(size)
    struct.pack_into("<LLL4x16s", content, 0, 0xA92B4EFC, 1, features, array)
    struct.pack_into("<lLQLL", content, 72, level, 0, length, 16, count)
    struct.pack_into("<QQQ8xL", content, 128, start, length, sector, role)
    struct.pack_into("<Q8xLL", content, 200, events, 0, len(roles))
    struct.pack_into("<%dH" % len(roles), content, 256, *roles)
    return md_summed(content, 216)


def md_old_member(data, level=1, count=2, events=7, role=0, state=6, order="<", minor=90):
    """A member of version 0.90, whose superblock begins the last whole 64 KiB."""
    words = [0] * 1024
    words[0], words[2], words[5], words[8], words[10] = 0xA92B4EFC, minor, 77, len(data) // 1024, count
    words[7] = level & 0xFFFFFFFF
    words[39 if order == "<" else 40] = events
    words[65], words[992], words[995], words[996] = 8192, role, role, state
    content = md_summed(bytearray(struct.pack(order + "1024L", *words)), 38 * 4, order)
    return data.ljust(-(-len(data) // 65536) * 65536, b"\0") + content.ljust(65536, b"\0")


def md_summed(content, at, order="<"):
    """A superblock with its sum at this byte: that of all its words, with what goes over added."""
    total = sum(struct.unpack("%s%dL" % (order, len(content) // 4), content[:len(content) // 4 * 4])) + int.from_bytes(content[len(content) // 4 * 4:], "little")
    struct.pack_into(order + "L", content, at, (total & 0xFFFFFFFF) + (total >> 32) & 0xFFFFFFFF)
    return bytes(content)
