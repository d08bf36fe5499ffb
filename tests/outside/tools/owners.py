"""The command `owner`: who has each sector of images that are made here. What it says of a volume's sector is compared with the
bytes that are there; no sector is without an answer, and nobody has only what nothing claims."""

import os
import shutil
import struct

import containers
import piles
import physical_volumes
from dmremap_tools.base import program
from piles import A, DATA, EXTENT, HIDDEN, SECTOR, content_of, disk, extents_of, linear, member, pile, segment, text, volume
from physical_volumes import damaged, gpt, mbr, patched
from plain_model import parity_legs
from tool_calls import samples

UNMAPPED = b"no map was given: only what the images lack counts as missing\n"


def asked(pile, given, *words):
    """What the command prints, or why it doesn't."""
    images = words or pile.images()
    got = piles.tool_calls.call(pile.top, ["owner", "--program", pile.program.path, *images], given=given, folder=pile.folder)
    if got.status == 0 and "--map" not in words:
        got.err = got.err[:-len(UNMAPPED)] if got.err.endswith(UNMAPPED) else got.err + b"nothing is said of maps"
    return got


def lines_of(pile, name, *images):
    """The lines about all of an image: the first sector, how many, and the steps."""
    sectors = len(pile.read(name)) // SECTOR
    got = asked(pile, "%s 0 %d\n" % (name, sectors), *images)
    rows = []
    for line in got.out.decode().splitlines():
        place, *steps = line.split(" = ")
        _, first, count = place.rsplit(" ", 2)
        rows.append((int(first), int(count), steps))
    return got, sectors, rows


def agrees(tally, title, pile, name, contents, *images):
    """Each sector of an image has an answer, and where that is a sector of one of these contents, it has its bytes. Returns the
    sectors of each content that were found, and what is said besides."""
    got, sectors, rows = lines_of(pile, name, *images)
    here = pile.read(name)
    answered, wrong, found, besides = set(), [], {}, {}
    for first, count, steps in rows:
        answered.update(range(first, first + count))
        besides[steps[-1].rsplit(" ", 1)[0] if steps[-1].rsplit(" ", 1)[-1].isdigit() else steps[-1]] = (first, count)
        for step in steps:
            what, _, number = step.rpartition(" ")
            if what in contents:
                start = int(number)
                found.setdefault(what, set()).update(range(start, start + count))
                if here[first * SECTOR:(first + count) * SECTOR] != contents[what][start * SECTOR:(start + count) * SECTOR]:
                    wrong.append((first, count, step))
    is_so = got.status == 0 and answered == set(range(sectors)) and not wrong
    tally.holds(title, is_so, "status %s, %r, wrong %s, unanswered %s" % (got.status, got.err, wrong[:3], sorted(set(range(sectors)) - answered)[:3]))
    return found, besides


def laid(size, *parts):
    """The image of a disk of so many sectors, with parts from other sectors on."""
    return patched(size * SECTOR, *parts, unit=SECTOR)


PARTED = [
    ("a GPT", gpt((64, 71), (128, 255)), {1: (64, 8), 2: (128, 128)}),
    ("a GPT of 4096-byte sectors", gpt((8, 8), (16, 31), sector=4096), {1: (64, 8), 2: (128, 128)}),
    ("an MBR", mbr((0x83, 8, 8), (0x8E, 16, 100)), {1: (8, 8), 2: (16, 100)}),
    ("an extended partition", laid(256, (0, mbr((5, 16, 100), (0x8E, 8, 8))), (16, mbr((0x8E, 4, 16)))), {2: (8, 8), 5: (20, 16)}),
    ("a partition of type 0", mbr((0, 8, 8), (0x8E, 16, 100)), {1: (8, 8), 2: (16, 100)}),
    ("two extended partitions", laid(256, (0, mbr((5, 16, 16), (0x8E, 128, 64), (0xF, 64, 64))), (16, mbr((0x8E, 4, 4))), (64, mbr((0, 4, 16)))),
     {2: (128, 64), 5: (20, 4), 6: (68, 16)}),
    ("three logical partitions", laid(256, (0, mbr((5, 16, 90), (0x8E, 128, 64))), (16, mbr((0x83, 4, 4), (5, 16, 20))), (32, mbr((0x83, 4, 8), (5, 40, 20))),
                                      (56, mbr((0x83, 1, 2)))), {2: (128, 64), 5: (20, 4), 6: (36, 8), 7: (57, 2)}),
    # A third entry within an extended partition counts where it lies inside, and the table that comes next may be the first.
    ("a third entry", laid(256, (0, mbr((5, 16, 90), (0x8E, 128, 64))), (16, mbr((5, 16, 20), (0x83, 1, 2), (0x83, 4, 2), (0x83, 8, 2000))),
                           (32, mbr((0x83, 1, 1), (0, 0, 0), (0x83, 4, 17), (0x83, 4, 16)))), {2: (128, 64), 5: (17, 2), 6: (20, 2), 7: (33, 1), 8: (36, 16)}),
    ("extended partitions that lead to each other", laid(256, (0, mbr((5, 16, 90), (0x8E, 128, 64))), (16, mbr((0x83, 1, 2), (5, 16, 20))),
                                                         (32, mbr((0x83, 1, 1), (5, 0, 20)))), {2: (128, 64), 5: (17, 2), 6: (33, 1)}),
]


def test_tables(tally, pile):
    """Partitions where their tables say that they are."""
    for name, image, wanted in PARTED:
        pile.put("disk", image.ljust(256 * SECTOR, b"\0"))
        _, _, rows = lines_of(pile, "disk")
        found = {int(steps[0].split(" ")[0][len("disk:"):]): (first, count) for first, count, steps in rows if steps[0].startswith("disk:")}
        tally.holds("the partitions of " + name, found == wanted, "%s and not %s" % (found, wanted))


LABELLED = physical_volumes.volume((4096, physical_volumes.area(b"x {\n}\n\0")), length=64 << 9)
SWAP = (bytes(4086) + b"SWAPSPACE2").ljust(64 << 9, b"\0")
DAMAGED = "cryptsetup can't read its header of LUKS: restore it in a copy by `cryptsetup luksHeaderRestore`"
PARITY = physical_volumes.md_member(LABELLED, 16, 4096, level=5, count=3)
ARRAY = b"an array of disk".hex()
HELD = [
    ("a GPT", laid(400, (0, gpt((64, 127), (128, 191), (300, 350), last=399)), (64, SWAP), (128, LABELLED), (260, b"boot")),
     ["disk 0 34 = GPT", "disk 34 30 = nobody", "disk 64 64 = disk:1 0 = swap",
      "disk 128 1 = disk:2 0 = unknown: the metadata area at byte 4096: its text doesn't begin as that of a group",
      "disk 129 1 = disk:2 1 = label of LVM", "disk 136 8 = disk:2 8 = metadata area of LVM",
      "disk 192 108 = unknown: no partition has it, and yet something is written there", "disk 300 51 = disk:3 0 = unknown: nothing is found in it"]),
    ("an MBR", laid(200, (0, mbr((5, 20, 90), (0x8E, 120, 64))), (20, mbr((0x83, 4, 4), (5, 16, 20))), (36, mbr((0x83, 4, 8))), (120, LABELLED)),
     ["disk 0 1 = MBR", "disk 1 19 = nobody", "disk 20 1 = MBR", "disk 24 4 = disk:5 0 = unknown: nothing is found in it", "disk 36 1 = MBR",
      "disk 121 1 = disk:2 1 = label of LVM", "disk 184 16 = nobody"]),
    ("a GPT that is damaged", laid(100, (0, gpt((64, 71), damage=512 + 60))), ["disk 0 100 = unknown: both copies of its partition table (GPT) are damaged: repair it in a copy with gdisk, or cut the partition out with dd"]),
    ("a member of an array with parity", PARITY, ["disk 0 16 = superblock of md:%s, with what it keeps free" % ARRAY, "disk 17 1 = md:%s 1 = label of LVM" % ARRAY,
                                                  "disk 48 16 = parity of md:" + ARRAY]),
    *([("a container", containers.version_1() + SWAP, ["disk 0 2048 = LUKS1 header", "disk 2048 64 = LUKS1 data, encrypted"]),
       ("a container whose header is damaged", damaged(containers.version_2()[:1 << 14], 300), ["disk 0 32 = LUKS2 container: " + DAMAGED]),
       ("a container whose data is elsewhere", containers.version_2(json=containers.text_of(data=0)) + bytes(1 << 16), ["disk 0 128 = LUKS2 header"])]
      if containers.is_read() else []),
    ("nothing that is known", b"x" * (64 << 9), ["disk 0 64 = unknown: nothing is found in it"]),
    ("nothing", bytes(64 << 9), ["disk 0 64 = unknown: nothing is found in it"]),
    ("swap", bytes(4086) + b"SWAPSPACE2" + bytes(4096), ["disk 0 16 = swap"]),
    ("an image of another form", b"QFI\xfb".ljust(1024, b"\0"), ["disk 0 2 = unknown: it is an image of qcow2: convert it with qemu-img convert -O raw"]),
]


def test_held(tally, pile):
    """What is there beside groups."""
    for name, image, wanted in HELD:
        pile.put("disk", image)
        got, sectors, rows = lines_of(pile, "disk")
        lines = got.out.decode().splitlines()
        missing = [line for line in wanted if not any(other.startswith(line) for other in lines)]
        covered = {sector for first, count, _ in rows for sector in range(first, first + count)}
        tally.holds("who has sectors of " + name, got.status == 0 and not missing and covered == set(range(sectors)), "%s missing of %s, %r" % (missing, lines, got.err))


def test_words(tally, pile):
    """How sectors are asked for: lines, bytes, a kernel's log, a map; what ends after the image, and what isn't there."""
    pile.put("a disk", laid(100, (0, mbr((0x83, 8, 8)))))
    inside = "a disk %d %d = a disk:1 %d = unknown: nothing is found in it\n"
    for given, words, wanted in [
            ("a disk 9\n", [], inside % (9, 1, 1)), ("a disk 9 2\n", [], inside % (9, 2, 1)),
            ("a disk 1 1\n", ["--sector-size", "4096"], inside % (8, 8, 0)), ("a disk:1 1\n", [], "a disk:1 1 1 = unknown: nothing is found in it\n"),
            ("a disk 98 4\n", [], "a disk 98 2 = nobody\na disk 100 2 = unknown: a disk ends at byte 51200: give an image of the whole disk\n")]:
        tally.same("who has %r %s" % (given, words), asked(pile, given, "a disk", *words), 0, wanted)
    os.rename(os.path.join(pile.folder, "a disk"), os.path.join(pile.folder, "sda"))
    got = asked(pile, "[ 1.5] I/O error, dev sda, sector 9 op 0x0:(READ)\n[ 1.6] x\n", "sda")
    tally.same("who has a sector of a kernel's log", got, 0, "sda 9 1 = sda:1 1 = unknown: nothing is found in it\n", "left out: lines of a kernel's log that name no sector: 1\n")
    shutil.copy(os.path.join(pile.folder, "sda"), os.path.join(pile.folder, "sdb.img"))
    for name in ("sda", "sdb"):
        got = asked(pile, "[ 1.5] I/O error, dev %s, sector 9 op 0x0:(READ)\n" % name, "sda", "sdb.img")
        tally.same("who has a sector of %s by a kernel's log" % name, got, 0, "{0} 9 1 = {0}:1 1 = unknown: nothing is found in it\n".format({"sdb": "sdb.img"}.get(name, name)))
    shutil.copy(os.path.join(pile.folder, "sda"), os.path.join(pile.folder, "sdb.raw"))
    got = asked(pile, "[ 1.5] I/O error, dev sdb, sector 9 op 0x0:(READ)\n", "sdb.raw", "sdb.img")
    tally.same("who has a sector of one of two", got, 1, "", "dmremap-tools owner: standard input:1: several images may be sdb, give one: sdb.raw, sdb.img\n")
    pile.remove("sdb.img", "sdb.raw")
    pile.put("map", b"0x0 ?\n0x0 0x1200 +\n0x1200 0x100 -\n0x1300 0xB500 +\n")
    tally.same("who has what a map lacks", asked(pile, "", "sda", "--map", "sda=map"), 0, "sda 9 1 = sda:1 1 = unknown: nothing is found in it\n")
    for given, why in [("sdb 1\n", "sdb: no image is called so, and no partition or array of one: see `scan` for their names"), ("sda\n", "standard input:1: give IMAGE FIRST or IMAGE FIRST COUNT, and not: sda"),
                       ("sda 1 0\n", "standard input:1: give IMAGE FIRST or IMAGE FIRST COUNT, and not: sda 1 0"), ("sda 1 x\n", "standard input:1: give IMAGE FIRST or IMAGE FIRST COUNT, and not: sda 1 x")]:
        tally.same("who has %r" % given, asked(pile, given, "sda"), 1, "", "dmremap-tools owner: %s\n" % why)
    tally.holds("a map of no image", asked(pile, "", "sda", "--map", "sdb=map").status == 2, "it is taken")


def test_files(tally, pile):
    """From a sector to the file: on a volume of LVM, on a partition, and in an opened container, whose length has to fit."""
    for name in ("a.img", "b.img", "c.img", "home.img"):
        shutil.copy(os.path.join(samples(pile.top), name), pile.folder)
    file_system, images = pile.read("home.img"), ("a.img", "b.img", "c.img", "--files")
    if not program.found("debugfs").startswith("/"):
        tally.skip("files of sectors", "there is no debugfs")
        return
    found = [line for line in asked(pile, "c.img 46 4\na.img 1 1\n", *images).out.decode().splitlines()]
    both = ["c.img 46 4 = vg/home 54 = /old/%s.txt" % it for it in ("copy", "list")]
    tally.holds("files on a volume", found == [*both, "a.img 1 1 = GPT"], found)
    disk = laid(2048, (0, mbr((0x83, 64, len(file_system) // SECTOR), (0x83, 512, 1536)))).ljust(2048 * SECTOR, b"\0")
    pile.put("sdb.img", patched(disk, (64 * SECTOR, file_system)))
    found = asked(pile, "[ 1.5] I/O error, dev sdb, sector %d op 0x0:(READ)\n" % (64 + 54), "sdb.img", "--files").out.decode().splitlines()
    tally.holds("a file on a partition", [it.rsplit(" = ", 1)[-1] for it in found] == ["/old/copy.txt", "/old/list.txt"] and "= sdb.img:1 54 = ext2 = " in found[0], found)
    if not containers.is_read():
        tally.skip("files in an opened container", "there is no cryptsetup")
        return
    data = len(file_system) // SECTOR
    pile.put("sdc.img", patched(laid(64, (0, mbr((0x83, 64, 2048 + data)))).ljust((64 + 2048 + data) * SECTOR, b"\0"), (64 * SECTOR, containers.version_1())))
    given, words = "sdc.img %d 4\nsdc.img 70 1\n" % (64 + 2048 + 54), ("sdc.img", "home.img", "--files", "--opened", "sdc.img:1=home.img")
    wanted = ["sdc.img %d 4 = sdc.img:1 %d = home.img 54 = ext2 = /old/%s.txt" % (64 + 2048 + 54, 2048 + 54, it) for it in ("copy", "list")]
    found = asked(pile, given, *words).out.decode().splitlines()
    tally.holds("files in an opened container", found == [*wanted, "sdc.img 70 1 = sdc.img:1 6 = LUKS1 header"], found)
    pile.put("home.img", file_system + bytes(16 * SECTOR))
    why = "dmremap-tools owner: home.img: it has %d sectors, and the data of sdc.img:1 %d: give the device that cryptsetup opened\n" % (data + 16, data)
    tally.same("an opened device of another length", asked(pile, given, *words), 1, "", why)
    tally.tells("what is no container", asked(pile, given, "sdc.img", "home.img", "--opened", "home.img=home.img"), 1, "", "no LUKS container begins it")
    tally.tells("no opened image", asked(pile, given, "sdc.img", "home.img", "--opened", "sdc.img:1"), 2, "", "--opened: not NAME=IMAGE")


def test_groups(tally, pile):
    """Volumes that nobody activated; what is free, was once taken, or isn't known, as the text is lost, damaged or of another time."""
    known = text("vg0", "g", 4, "ab", *piles.PLAIN)
    pile.put("one", disk("a", A, known))
    pile.put("two", disk("b", piles.B, known))
    contents = {"vg0/home": piles.HOME, "vg0/wide-one": piles.WIDE}
    found = {}
    for name in ("one", "two"):
        here, besides = agrees(tally, "volumes on " + name, pile, name, contents)
        found = {what: found.get(what, set()) | here[what] for what in contents}
        tally.holds("the rest of " + name, set(besides) - set(contents) == {"label of LVM", "metadata area of LVM", "physical volume of vg0, outside of its extents", "free in vg0"}, besides)
    tally.holds("all sectors of both", all(found[what] == set(range(len(contents[what]) // SECTOR)) for what in contents), found)
    free = "two %d 1\n" % (DATA + 63 * EXTENT)
    tally.same("what is free", asked(pile, free), 0, "two %d 1 = free in vg0\n" % (DATA + 63 * EXTENT))
    place = DATA + 3 * EXTENT
    later = text("vg0", "g", 5, "a", volume("other", "o", linear(0, 1, ("pv0", 40))))
    pile.put("one", disk("a", A, text("vg0", "g", 4, "a", piles.PLAIN[0].replace('"pv1", 0', '"pv0", 30')), later))
    tally.same("what was once taken", asked(pile, "one %d 2\n" % place, "one"), 0, "one %d 2 = free in vg0\none %d 2 = vg0/home, removed\n" % (place, place))
    sound = disk("a", A, known)
    odd = text("vg0", "g", 4, "a", volume("odd", "o", segment(0, 1, "newer", 'there = ["pv0", 3]')))
    nowhere = text("vg0", "g", 4, "a", volume("odd", "o", linear(0, 1, ("pv7", 3))))
    for name, image, why in (
            ("a text that is damaged", damaged(sound, sound.rindex(b"seqno = 4")), "unknown: the metadata area at byte 4096: the sum of its text is wrong"),
            ("a type that isn't known", disk("a", A, odd), "unknown: no volume of vg0 has it, but nothing is known of the type newer of odd"),
            ("a segment that lies nowhere", disk("a", A, nowhere), "unknown: no volume of vg0 has it, but segment1 of odd names no place"),
            ("a text that doesn't name its disk", disk("c", A, known), "unknown: the current text of vg0 doesn't name this physical volume"),
            ("a physical volume without a text", disk("a", A, known, is_current=False), "unknown: nothing says to which group this physical volume belongs")):
        pile.put("one", image)
        got = asked(pile, "one %d 1\n" % place, "one")
        tally.holds(name, got.status == 0 and got.out.decode().startswith("one %d 1 = %s" % (place, why)), got.out)


def test_ladder(tally, pile):
    """Volumes on each other in circles, and with more ways up than can be told."""
    def mirror(name, *lowers):
        legs = ", ".join('"%s", 0' % lower for lower in lowers)
        return volume(name, "c", segment(0, 4, "mirror", "mirrors = [%s]" % legs))
    pile.put("disk", disk("a", A, text("vg0", "g", 4, "a", mirror("x", "y"), mirror("y", "x", "x", "pv0"))))
    got = asked(pile, "disk %d 1\n" % DATA)
    tally.holds("volumes that lie on themselves", got.status == 0 and got.out.count(b"\n") < 100 and b"unknown: it lies on itself" in got.out, got.out[:200])
    steps = [mirror("%s%d" % (name, number), *(["x%d" % (number - 1), "y%d" % (number - 1)] if number else ["pv0"])) for number in range(30) for name in "xy"]
    pile.put("disk", disk("a", A, text("vg0", "g", 4, "a", *steps)))
    got = asked(pile, "disk %d 1\n" % DATA)
    tally.tells("too many ways up", got, 1, err=b"sector %d: too many ways lead up from there" % DATA)


def test_layers(tally, pile):
    """Snapshots with what their stores have, one that is being merged, pvmove, raid of LVM."""
    new = [(number, content_of("new %d" % number, piles.CHUNK)) for number in (7, 0, 19)]
    data = patched(A, (20, piles.store(new)), (30, piles.store(new[:2])), unit=EXTENT * SECTOR)

    def record(number, origin, of, key):
        return volume("snapshot%d" % number, str(number), segment(0, 5, "snapshot", "chunk_size = %d" % piles.CHUNK, 'origin = "%s"' % origin, '%s = "%s"' % (key, of)), status=HIDDEN)
    moved = volume("pvmove0", "p", segment(0, 5, "mirror", "mirror_count = 2", "extents_moved = 5", 'mirrors = ["pv0", 50, "pv0", 55]'), status='"READ", "WRITE", "PVMOVE", "LOCKED"')
    raid = volume("five", "v", segment(0, 2, "raid5_ls", "device_count = 3", "stripe_size = 8", "region_size = 1024",
                                       'raids = ["m0", "d0", "m1", "d1", "m2", "d2"]'))
    legs = [volume(kind + str(number), str(3 * place + number), linear(0, 1, ("pv0", 40 + 3 * place + number)), status=HIDDEN)
            for place, kind in enumerate("md") for number in range(3)]
    known = text("vg0", "g", 9, "a", volume("home", "h", linear(0, 5, ("pv0", 0))), volume("old", "o", linear(0, 5, ("pv0", 20)), status=HIDDEN), record(0, "home", "old", "cow_store"),
                 volume("back", "b", linear(0, 5, ("pv0", 10))), volume("into", "i", linear(0, 5, ("pv0", 30)), status=HIDDEN), record(2, "back", "into", "merging_store"),
                 moved, volume("moving", "m", linear(0, 5, ("pvmove0", 0))), volume("odd", "d", segment(0, 2, "vdo", 'vdo_pool = "hidden"')),
                 volume("hidden", "q", linear(0, 1, ("pv0", 60)), status=HIDDEN), raid, *legs)
    pile.put("disk", disk("a", data, known))
    size, home = piles.CHUNK * SECTOR, extents_of(data, 0, 5)
    back = patched(extents_of(data, 10, 5), *new[:2], unit=size)
    old = patched(home, *new, unit=size)
    contents = {"vg0/home": home, "vg0/old": old, "store of vg0/old": extents_of(data, 20, 5)}
    found, _ = agrees(tally, "a snapshot and its origin", pile, "disk", contents)
    tally.holds("all sectors of both", all(found.get(what) == set(range(40)) for what in contents), found)
    at = (DATA + 30 * EXTENT) * SECTOR
    _, _, rows = lines_of(pile, "disk")
    steps = {" = ".join(each) for first, _, each in rows if DATA + 30 * EXTENT <= first < DATA + 35 * EXTENT}
    tally.holds("the store of one that is being merged", any(step.startswith("store of vg0/into") and "= vg0/back 14" in step for step in steps) and back and at, steps)
    for place, wanted in ((50, "vg0/pvmove0 0 = vg0/moving 0"), (55, "vg0/pvmove0 0 = vg0/moving 0"), (60, "vg0/hidden 0 = part of vg0/odd"), (40, "vg0/m0 0 = superblock of vg0/five"),
                          (43, "vg0/d0 0 = vg0/five 0"), (44, "vg0/d1 0 = vg0/five 8"), (45, "vg0/d2 0 = parity of vg0/five")):
        first = DATA + place * EXTENT
        got = asked(pile, "disk %d 1\n" % first)
        tally.same("who has extent %d" % place, got, 0, "disk %d 1 = %s\n" % (first, wanted))


def test_pools(tally, pile):
    """Blocks of a pool and of a cache, and what is kept of them."""
    _, _, contents = piles.put_pools(pile)
    found, besides = agrees(tally, "thin volumes and a cached one", pile, "disk", contents)
    tally.holds("their sectors", found.get("vg0/one") == {*range(0, 16), *range(32, 64)} and found.get("vg0/quick") == set(range(64)), found)
    tally.holds("what pools keep", {"metadata of vg0/pool, below one, two, none", "data of vg0/pool, below one, two, none", "cache of vg0/quick"} <= set(besides), besides)


def test_arrays(tally, pile):
    """Members of arrays of each level: each sector of data is where the array has it."""
    data = content_of("array", 128)
    chunks = [data[at:at + 8 * SECTOR] for at in range(0, len(data), 8 * SECTOR)]
    five, six = parity_legs(data, 5, 2, 3, 8), parity_legs(data, 6, 2, 4, 8)
    even, odd = (b"".join(chunks[leg::2]) for leg in range(2))
    near, far = [even, even, odd, odd], [even + odd, odd + even]
    for name, level, layout, legs, size in (
            ("raid5", 5, 2, five, 64), ("raid6", 6, 2, six, 64), ("raid10 near", 10, 0x102, near, 64), ("raid10 far", 10, 0x201, far, 128),
            ("raid1", 1, 0, [data, data], 128), ("raid0", 0, 1, [even, odd], 0),
            # The rest of a chunk isn't data of the array.
            ("raid5 of 60 sectors", 5, 2, five, 60)):
        roles, found, count = tuple(range(len(legs))), set(), 112 if size == 60 else 128
        for number, leg in enumerate(legs):
            pile.put("m%d" % number, member(leg, level, number, roles, 7, layout=layout, size=size))
        for number in roles:
            contents = {"md:array": data[:count * SECTOR]}
            here, besides = agrees(tally, "member %d of %s" % (number, name), pile, "m%d" % number, contents)
            found |= here.get("md:array", set())
            tally.holds("what it keeps", "superblock of md:array, with what it keeps free" in besides, besides)
        tally.holds("all sectors of " + name, found == set(range(count)), sorted(set(range(count)) - found)[:5])
        pile.remove(*("m%d" % number for number in roles))
    for number, leg in enumerate(five):
        pile.put("m%d" % number, member(leg, 5, number, (0, 1, 2), 7 - 4 * (number == 1), layout=2))
    got = asked(pile, "m1 70\n")
    tally.holds("a stale member", b"a member of md:array that is stale" in got.out, got.out)
    pile.put("m1", struct.pack("<L", 0) * 4096)
    found, _ = agrees(tally, "members beside one that is lost", pile, "m0", {"md:array": data})
    tally.holds("their sectors", found["md:array"], found)
    for number in range(2):
        leg = b"".join(chunks[number::2])
        pile.put("bad%d" % number, member(leg, 0, number, (0, 1), 7, layout=1, size=0, bad=[(70, 3)] * number))
    got = asked(pile, "bad1 64 64\n", "bad0", "bad1")
    tally.holds("a member of raid0 with bad blocks", b"bad1 72 8 = md:array 24 = " in got.out and b"superblock" not in got.out, got.out)
