"""Which layer owns which bytes of a pile of images: members of arrays, tables, labels and containers that say so of the same
ones, what is left over of earlier ones, and signatures that nothing follows. Neither the order nor the names of images decide."""

import os
import random
import shutil
import struct

import containers
import models
import piles
import physical_volumes
import tool_calls
from dmremap_tools.formats import disk_image, luks_header, signatures
from dmremap_tools.model.device import Image, Lenient
from piles import A, B, DATA, EXTENT, MIB, SECTOR, content_of, disk, empty_pile, extents_of, linear, member, named, pile, text, volume
from physical_volumes import damaged, patched
from plain_model import parity_legs

HOME = [volume("home", "h", linear(0, 5, ("pv0", 3)))]
ROOT = [volume("root", "r", linear(0, 5, ("pv0", 3)))]
OLD, NEW = disk("a", A, text("old", "g", 4, "a", *HOME)), disk("b", B, text("new", "k", 3, "b", *ROOT))
OLD_BYTES, NEW_BYTES = extents_of(A, 3, 5), extents_of(B, 3, 5)

# What the last sectors of members of three controllers have, whose sums are 0x55 + 0xAA, 1 and 0.
VIA = b"\x55\xaa".ljust(50, b"\0") + b"\xff"
JMICRON = b"JM" + struct.pack("<H", (1 - 0x4D4A) & 0xFFFF)
SILICON = struct.pack("<H", 0x10000 - 0x2F00).ljust(0x60, b"\0") + b"\0\0\0\x2f"


def sectors(content):
    return len(content) // SECTOR


def with_mbr(content, *parts):
    """A disk with an MBR over what it has: partitions, each with its first sector."""
    end = max(first * SECTOR + len(part) for first, part in parts)
    table = physical_volumes.mbr(*((0x8E, first, sectors(part)) for first, part in parts))
    return patched(patched(content.ljust(end, b"\0"), *parts, unit=SECTOR), (440, table[440:]))


def orders(names):
    """Some orders of images."""
    dice = random.Random(len(names))
    return [list(names), list(reversed(names)), dice.sample(list(names), len(names))]


def in_any_order(tally, pile, label, images, volume_name, wanted, why=""):
    """A volume of some images is saved, or, where nothing is wanted, refused, whatever the order and the names of these are."""
    outcomes = set()
    for turn, order in enumerate(orders(sorted(images))):
        names = {name: name if turn == 0 else "%d-%s" % (len(order) - place, "x" * turn) for place, name in enumerate(order)}
        pile.remove(*os.listdir(pile.folder))
        for name, content in images.items():
            pile.put(names[name], content)
        got, saved = pile.save(volume_name, *[names[name] for name in order])
        outcomes.add((got.status, saved))
        tally.holds(label, saved == wanted and got.status == (wanted is None) and why in got.err.decode(), "order %s: %s, %r" % (order, got.status, got.err))
    tally.holds(label + ", in any order", len(outcomes) == 1, [(status, saved and len(saved)) for status, saved in outcomes])


def with_bitmap(content, dirty, bits=64, chunk=1, events=7):
    """A member of metadata 1.2 with a bitmap of one bit for each `chunk` sectors of its data, in which some are set."""
    made = bytearray(content)
    at, place = 8 * SECTOR, 24 * SECTOR
    fields = struct.pack("<4sL16sQQQLL", b"bitm", 4, bytes(content[at + 16:at + 32]), events, events, bits * chunk, 0, chunk * SECTOR)
    made[place:place + 256] = fields.ljust(256, b"\0")
    made[place + 256:place + 256 + bits // 8] = sum(1 << bit for bit in dirty).to_bytes(bits // 8, "little")
    struct.pack_into("<l", made, at + 96, (place - at) // SECTOR)
    struct.pack_into("<L", made, at + 8, 1)
    return summed(made, at)


def summed(image, at):
    """An image with the sum of the superblock 1.x at this byte."""
    made = bytearray(image)
    roles, = struct.unpack_from("<L", made, at + 220)
    made[at + 216:at + 220] = bytes(4)
    made[at:at + 256 + 2 * roles] = physical_volumes.md_summed(bytearray(made[at:at + 256 + 2 * roles]), 216)
    return bytes(made)


def test_resync(tally, pile):
    """Mirrors whose resync was broken off: the member from which others are filled is read, and what is in step of others."""
    data, other = content_of("in step", 64), content_of("not yet", 64)
    for level, layout in ((1, 0), (10, 0x102)):
        both = [member(content, level, number, (0, 1), 7, layout=layout, resync=0) for number, content in enumerate((data, other))]
        label = "a resync that was broken off, of level %d" % level
        in_any_order(tally, pile, label, {"a": both[0], "b": both[1]}, "md:array", data)
        in_any_order(tally, pile, label + ", the first member alone", {"a": both[0]}, "md:array", data)
        in_any_order(tally, pile, label + ", the second member alone", {"b": both[1]}, "md:array", None, "from which the others were being filled")
    part = data[:20 * SECTOR] + other[20 * SECTOR:]
    pile.put("half", member(part, 1, 1, (0, 1), 7, resync=20))
    got, saved = pile.save("md:array", "half", more=["--resume", "out.map"])
    tally.holds("what of a second member is in step", got.status == 4 and saved == part[:20 * SECTOR] + bytes(44 * SECTOR), "%s, %r" % (got.status, got.err))
    ran = with_bitmap(member(data, 1, 1, (0, 1), 7, resync=0), [])
    in_any_order(tally, pile, "a second member whose bitmap says that all is in step", {"b": ran}, "md:array", data)
    ran = with_bitmap(member(data, 1, 1, (0, 1), 7, resync=0), [5])
    in_any_order(tally, pile, "a second member of which a sector was being written", {"b": ran}, "md:array", None, "from which the others were being filled")
    late = with_bitmap(member(data, 1, 1, (0, 1), 7, resync=0), [], events=6)
    in_any_order(tally, pile, "a bitmap that is behind", {"b": late}, "md:array", None, "from which the others were being filled")
    failed = member(data, 1, 1, (0xFFFE, 1), 9, resync=0)
    in_any_order(tally, pile, "a second member that ran on after the first failed", {"b": failed}, "md:array", data)


def test_apart(tally, pile):
    """Halves that ran apart: what is the same on both is given."""
    one, other = bytearray(content_of("both", 64)), bytearray(content_of("both", 64))
    other[40 * SECTOR:41 * SECTOR] = b"x" * SECTOR
    halves = {name: member(bytes(content), 1, number, roles, events) for name, number, content, roles, events in (
        ("a", 0, one, (0, 0xFFFE), 20), ("b", 1, other, (0xFFFE, 1), 20))}
    in_any_order(tally, pile, "halves that ran apart", halves, "md:array", None, "were written to apart from each other")
    for name, content in halves.items():
        wanted = bytes(one if name == "a" else other)
        in_any_order(tally, pile, "one of the halves", {name: content}, "md:array", wanted)
    same = dict(halves, b=member(bytes(one), 1, 1, (0xFFFE, 1), 23))
    in_any_order(tally, pile, "halves that ran apart and have the same", same, "md:array", bytes(one))
    stale = dict(halves, b=member(bytes(other), 1, 1, (0, 1), 17))
    in_any_order(tally, pile, "a half that was away", stale, "md:array", bytes(one))


def test_filled(tally, pile):
    """Members that were being rebuilt: not read where others are, alone refused without a fault, and read as far as they were filled
    where another one is missing."""
    data = content_of("array", 128)
    legs = parity_legs(data, 5, 2, 3, 8)
    def filling(content, level, number, roles, up_to, layout=0):
        made = bytearray(member(content[:up_to * SECTOR].ljust(64 * SECTOR, b"?"), level, number, roles, 7, layout=layout))
        struct.pack_into("<L", made, 8 * SECTOR + 8, 2)
        struct.pack_into("<Q", made, 8 * SECTOR + 152, up_to)
        return summed(made, 8 * SECTOR)
    members = {"m%d" % number: member(leg, 5, number, (0, 1, 2), 7, layout=2) for number, leg in enumerate(legs)}
    half = dict(members, m2=filling(legs[2], 5, 2, (0, 1, 2), 24, layout=2))
    in_any_order(tally, pile, "raid5 with a member that was being rebuilt", half, "md:array", data)
    for name, content in half.items():
        pile.put(name, content)
    got, saved = pile.save("md:array", "m0", "m2", more=["--resume", "out.map"])
    tally.holds("raid5 as far as a member was rebuilt", got.status == 4 and saved[:48 * SECTOR] == data[:48 * SECTOR], "%s, %r" % (got.status, got.err))
    alone = filling(data, 1, 1, (0, 1), 24)
    in_any_order(tally, pile, "a half of a mirror that was being rebuilt", {"b": alone}, "md:array", None, "was being filled")
    pile.put("pv", OLD)
    pile.put("b", alone)
    found = pile.scan("b", "pv")
    tally.holds("what is beside it", named(found["groups"], "name", "old").get("state") == "complete", found)


def test_last_partition(tally, pile):
    """A member with metadata 1.0 or 0.90 in the last partition of a disk, which ends with that."""
    last = member(content_of("x", 2048), 1, 0, (0, 1), 4, size=2048, version=0)
    in_any_order(tally, pile, "a group beside a member at the end of the disk", {"sda": with_mbr(b"", (2048, NEW), (8192, last))}, "new/root", NEW_BYTES)
    other = {"o%d" % number: member(content_of("y", 64), 1, number, (0, 1), 7, name=b"other") for number in range(2)}
    sda = {"sda": with_mbr(b"", (2048, NEW), (8192, last))}
    in_any_order(tally, pile, "the same beside a sound array", dict(sda, **other), "new/root", NEW_BYTES)
    in_any_order(tally, pile, "that member", dict(sda, **other), "md:array", content_of("x", 2048))
    old = physical_volumes.md_old_member(content_of("x", 2048).ljust(MIB, b"\0"), 1)
    in_any_order(tally, pile, "a group beside a member with metadata 0.90", {"sda": with_mbr(b"", (2048, NEW), (8192, old))}, "new/root", NEW_BYTES)


def test_left_over(tally, pile):
    """What is left over of an earlier use of a disk: a label, superblocks and a second header of LUKS."""
    disk_with_both = {"sda": with_mbr(OLD, (4096, NEW))}
    in_any_order(tally, pile, "a partition of a disk with an old label", disk_with_both, "new/root", NEW_BYTES)
    in_any_order(tally, pile, "an old label below a table", disk_with_both, "old/home", None, "a partition table (MBR) as well")
    found = pile.scan()
    tally.holds("both groups are told", {row["name"] for row in found["groups"]} == {"new", "old"}, found)
    image, = pile.images()
    asked = "".join("%s %d 1\n" % (image, first) for first in (4096 + DATA + 24, DATA + 24))
    got = tool_calls.call(pile.top, ["owner", "--program", pile.program.path, image], given=asked, folder=pile.folder)
    tally.holds("who has their sectors", b"old/home" not in got.out and b"new/root" in got.out, (got.out, got.err))
    room = bytes(8192 * SECTOR)
    raid5 = {"m%d" % number: member(room, 5, number, (0, 1, 2), 7, layout=2, size=len(room) // SECTOR) for number in range(3)}
    in_any_order(tally, pile, "a partition of what was a member", dict(raid5, m0=with_mbr(raid5["m0"], (2048, NEW))), "new/root", NEW_BYTES)
    tally.holds("an array without it, in which is nothing", pile.scan()["arrays"] == [], pile.scan()["arrays"])
    torn = damaged(with_mbr(raid5["m0"], (2048, NEW)), 8 * SECTOR + 100)
    in_any_order(tally, pile, "a partition behind a damaged superblock", {"sda": torn}, "new/root", NEW_BYTES)
    second = patched(OLD, (16384, containers.version_2()[16384:32768]))
    in_any_order(tally, pile, "a physical volume over an old container", {"sda": second}, "old/home", OLD_BYTES)


def test_nested(tally, pile):
    """Arrays on arrays, where the inner superblock is seen on the outer members too."""
    inner = [member(content_of("leg %d" % number, 64), 0, number, (0, 1), 3, name=b"inner") for number in range(2)]
    outer = {"%s%d" % (name, leg): member(content, 1, leg, (0, 1), 5, size=sectors(content), version=0, name=name.encode())
             for name, content in zip("pq", inner) for leg in range(2)}
    legs = [content_of("leg %d" % number, 64) for number in range(2)]
    whole = b"".join(leg[at:at + 8 * SECTOR] for at in range(0, 64 * SECTOR, 8 * SECTOR) for leg in legs)
    in_any_order(tally, pile, "stripes over mirrors", outer, "md:inner", whole)
    in_any_order(tally, pile, "stripes over a mirror and a disk", {"a": inner[0], "q0": outer["q0"], "q1": outer["q1"]}, "md:inner", whole)
    stale = dict(outer, q1=member(bytes(len(inner[1])), 1, 1, (0, 1), 2, size=sectors(inner[1]), version=0, name=b"q"))
    in_any_order(tally, pile, "stripes over a mirror with a stale half", stale, "md:inner", whole)


def test_signatures(tally, pile):
    """Signatures of what nothing follows: what is found there is told, and refused; one in the midst of it says nothing."""
    for label, place, magic in (("DDF", -SECTOR, b"\xde\x11\xde\x11"), ("IMSM", -2 * SECTOR, b"Intel Raid ISM Cfg Sig. 1.1"),
                                ("Adaptec", -SECTOR, b"\x37\xfc\x4d\x1e"), ("VIA", -SECTOR, VIA),
                                ("dm-integrity", 0, b"integrt\0"), ("bcache", 0x1008, bytes.fromhex("0800000000000000 0100000000000000 c68573f64e1a45ca8265f57f48ba6d81"))):
        for where, content in (("", OLD + bytes(MIB)), (" below a table", with_mbr(bytes(8192 * SECTOR), (2048, OLD)))):
            if label == "bcache" and not where:
                # It would lie on a metadata area.
                continue
            cleared = 440 if where and 0 <= place < SECTOR else 0
            made = patched(content, (0, bytes(cleared)), (place % len(content), magic))
            in_any_order(tally, pile, label + where, {"sda": made}, "old/home", None, "a signature of")
            found = pile.scan()
            tally.holds(label + where + ", told", [row["name"] for row in found["groups"]] == ["old"], found)
    inside = disk("a", A[:-SECTOR] + b"\xde\x11\xde\x11".ljust(SECTOR, b"\0"), text("old", "g", 4, "a", *HOME))
    in_any_order(tally, pile, "a signature within a volume", {"sda": inside}, "old/home", OLD_BYTES)


def test_own_signatures(tally, pile):
    """Signatures that are found where there is no wipefs, and those whose sums are wrong, which are none."""
    for kind, place, magic, is_summed in (
            ("adaptec_raid_member", -SECTOR, b"\x37\xfc\x4d\x1e", False), ("hpt45x_raid_member", -11 * SECTOR, b"\xf3\x16\x78\x5a", False),
            ("drbd", 60 - 8 * SECTOR, b"\x83\x74\x02\x6b", False), ("drbd", 60 - 8 * SECTOR, b"\x83\x74\x02\x6d", False), ("ubi", 0, b"UBI#", False),
            ("zfs_member", 0x4014, b"\0\0\0\x07version", False), ("zfs_member", 0x44014, b"\0\0\0\x07version", False),
            ("drbdmanage_control_volume", 0, b"$DRBDmgr=q", False), ("VMFS_volume_member", MIB, b"\x0d\xd0\x01\xc0", False),
            ("via_raid_member", -SECTOR, VIA, True), ("jmicron_raid_member", -SECTOR, JMICRON, True),
            ("silicon_medley_raid_member", -SECTOR, SILICON, True)):
        at = place % (2 * MIB)
        image = patched(2 * MIB, (at, magic))
        told = kinds_in(pile, image)
        tally.holds(kind, told == [kind], told)
        told = kinds_in(pile, damaged(image, at + 3)) if is_summed else []
        tally.holds(kind + " with another sum", told == [], told)


def kinds_in(pile, image):
    """What the signatures are of that are looked for in an image without wipefs."""
    pile.put("sda", image)
    return [each.kind for each in signatures.signatures_in(Lenient(Image(os.path.join(pile.folder, "sda"))))]


def test_lengths(tally, pile):
    """Physical volumes that are about so long as several disks, or longer than one beside another of its length: stripes."""
    long = text("old", "g", 4, "a", *HOME, extents=2 * 64 + 256)
    half = physical_volumes.volume((physical_volumes.FIRST, physical_volumes.area(long, SECTOR, size=64 * 1024, others=[(SECTOR, long)])),
                                   length=DATA * SECTOR, identity=b"a" * 32, size=2 * (DATA * SECTOR + len(A))) + A
    in_any_order(tally, pile, "one of two stripes", {"sda": half}, "old/home", None, "one of the stripes of a controller")
    third = physical_volumes.volume((physical_volumes.FIRST, physical_volumes.area(long, SECTOR, size=64 * 1024, others=[(SECTOR, long)])),
                                    length=DATA * SECTOR, identity=b"a" * 32, size=(DATA * SECTOR + len(A)) * 3 // 2) + A
    in_any_order(tally, pile, "a disk that is cut off", {"sda": third}, "old/home", OLD_BYTES)
    in_any_order(tally, pile, "the same beside one of its length", {"sda": third, "sdb": bytes(len(third))}, "old/home", None, "one of the stripes")


def test_headless(tally, pile):
    """A physical volume without its first sectors, whose metadata area lies at its end."""
    known, size = text("old", "g", 4, "a", *HOME), DATA * SECTOR + len(A)
    node = known.replace(b"dev_size = %d" % (DATA + 64 * EXTENT), b"dev_size = %d" % (DATA + 64 * EXTENT + 128))
    ring = physical_volumes.area(node, SECTOR, size=64 * 1024, others=[(SECTOR, node)], start=size)
    in_any_order(tally, pile, "a physical volume without a label", {"sda": bytes(DATA * SECTOR) + A + bytes(ring)}, "old/home", OLD_BYTES)


def test_containers(tally, pile):
    """Containers of LUKS: where cryptsetup says that data begins and how much there is, or what is wrong. Without it, they are told alone."""
    room, whole, two = bytes(containers.DATA + 2 * MIB), containers.version_2(), containers.version_2(segments=2)
    gone, bad, short = "its first header is gone", "cryptsetup can't read its header", "it ends before the data of its container does"
    for label, content, version, start, sectors, why in (
            ("version 1", containers.version_1(), 1, 2048, None, None), ("version 2", whole, 2, 256, None, None),
            ("version 2 of a fixed size", containers.version_2(size="4096"), 2, 256, 8, None), ("a newer second header", containers.version_2(second=262144, sequences=(3, 4)), 2, 512, None, None),
            ("a second header alone", bytes(4096) + whole[4096:], 2, None, None, gone), ("two headers that are damaged", damaged(whole, 300, containers.SIZE + 300), 2, None, None, bad),
            ("one that is encrypted anew", two, 2, None, None, bad), ("no segments", containers.version_2(json=b"{}"), 2, None, None, bad),
            ("data elsewhere", containers.version_2(json=containers.text_of(data=0)), 2, 0, None, None)):
        pile.put("sda", content + room[len(content):])
        if containers.is_read():
            found = [(row["version"], row["start"], row["sectors"], (row["why"] or "").startswith(why or "") and bool(row["why"]) == bool(why)) for row in pile.scan("sda")["luks"]]
            tally.holds("a container of " + label, found == [(version, start, sectors, True)], "%s, %s" % (found, pile.scan("sda")["luks"]))
        luks_header.CRYPTSETUP = "a program that isn't here"
        found = [(row["version"], row["start"], row["why"].split(":")[0]) for row in pile.scan("sda")["luks"]]
        luks_header.CRYPTSETUP = "cryptsetup"
        told = gone + ", and a second one is there" if why == gone else "its header isn't looked into"
        tally.holds("a container that nobody reads, of " + label, found == [(version, None, told)], found)
    for label, header in (("version 1", containers.version_1()), ("version 2", whole)) if containers.is_read() else ():
        pile.put("sda", header.ljust(65536, b"\0")[:1 << 20])
        row = (pile.scan("sda")["luks"] or [{"why": "none is found"}])[0]
        tally.holds("a device that is too small, of " + label, (row["why"] or "").startswith(short), row)


def test_kinds(tally, pile):
    """Names of what is like something else."""
    bcache = bytes.fromhex("c68573f64e1a45ca8265f57f48ba6d81")
    for name, wanted, places in (("bcache", "bcache", [(0x1008, b"\x08" + bytes(7)), (0x1018, bcache)]),
            ("bcachefs", "bcachefs", [(0x1008, b"\x99" * 8), (0x1018, bytes.fromhex("c68573f666ce90a9d96a60cf803df7ef"))]),
            ("an old bcachefs", "bcachefs", [(0x1008, b"\x99" * 8), (0x1018, bcache)]),
            ("iso9660", "iso9660", [(0x8001, b"CD001"), (0x8801, b"CD001")]),
            ("UDF", "udf", [(0x8001, b"BEA01"), (0x8801, b"NSR02")]),
            ("a disc that is both", "udf", [(0x8001, b"CD001"), (0x8801, b"CD001"), (0x9001, b"BEA01"), (0x9801, b"NSR03")]),
            ("ZFS", "zfs", [(0x4014, b"\0\0\0\x07version")]),
            ("squashfs", "squashfs", [(0, b"hsqs"), (28, b"\4\0")]),
            ("swap", "swap", [(4086, b"SWAPSPACE2")]),
            ("swap of pages of 32 KiB", "swap", [(32758, b"SWAPSPACE2")]),
            ("the memory of a machine that sleeps", "swsuspend", [(4086, b"S1SUSPEND")]),
            ("the same before a swap area", "swsuspend", [(0, bytes.fromhex("edc302e99856e50c")), (4086, b"SWAPSPACE2")]),
            ("squashfs 3", "squashfs3", [(0, b"hsqs"), (28, b"\3\0")])):
        pile.put("sda", patched(MIB, *places))
        found = disk_image.file_system_of(Lenient(Image(os.path.join(pile.folder, "sda"))))
        tally.holds(name, found == wanted, found)
    for name, at, content in (("Sun", 508, b"\xda\xbe"), ("SGI", 0, b"\x0b\xe5\xa9\x41"), ("Apple", 512, b"PM\0\0"), ("BSD", 512, b"WEV\x82")):
        pile.put("sda", patched(MIB, (at, content)))
        whys = [row["why"] for row in pile.scan("sda")["images"][0]["holds"]]
        tally.holds("a table of " + name, "partition table (%s) that isn't followed" % name in whys[0], whys)


def test_tables_within(tally, pile):
    """A table of another kind in a partition of an MBR, while what begins the disk looks like a file system: both are told."""
    image = with_mbr(b"", (2048, patched(MIB, (512, b"WEV\x82"))))
    pile.put("sda", patched(image, (0x400, struct.pack("<2L48x2s42xL", 16, 64, b"\x53\xef", 0).ljust(0x80, b"\0"))))
    row = pile.scan("sda")["images"][0]
    whys = [each["why"] for each in row["holds"] if each["partition"] == 1]
    tally.holds("BSD in a partition", row["table"] and "partition table (BSD) that isn't followed" in whys[0], row)


class ShuffledPile(piles.Pile):
    """A pile that saves all volumes twice: the other time with its images under other names, and in another order."""

    def __init__(self, tally, program, top, folder):
        super().__init__(program, top, folder)
        self.tally = tally

    def save(self, volume, *images, more=()):
        given = list(images or self.images())
        folder = os.path.join(self.folder, "out.names")
        os.makedirs(folder)
        others = [os.path.join(folder, "%02d-%d" % (len(given) - place, place)) for place in range(len(given))]
        for name, other in zip(given, others):
            os.link(os.path.join(self.folder, name), other)
        outcome = super().save(volume, *reversed(others))
        shutil.rmtree(folder)
        got, saved = super().save(volume, *images, more=more)
        if not more and not any(volume.startswith((name, "./" + name)) for name in given):
            same = (outcome[0].status, outcome[1]) == (got.status, saved)
            self.tally.holds("%s of %s, in another order" % (volume, given), same, (outcome[0].status, outcome[0].err, got.status, got.err))
        return got, saved


def test_orders(tally, pile):
    """The arrays of other tests, saved in two orders under two names each."""
    for check in (models.test_arrays, models.test_nested, models.test_lost_superblocks, models.test_legs):
        shuffled = empty_pile(tally, "orders")
        check(tally, ShuffledPile(tally, shuffled.program, shuffled.top, shuffled.folder))
