"""Runs over the images of a volume group's disks, FORMAT `images`: what their heads say, each refusal of a head at its
edges, and that stores are read in the same images."""

import os
import struct

import physical_volumes
import store_lists
from harness import become_nobody
from piles import DATA, EXTENT, identity, linear, segment, text, volume

SECTOR = 512
MEMBER = struct.pack("<L", 0xA92B4EFC)
HOME = volume("home", "h", linear(0, 5, ("pv0", 3)), linear(5, 2, ("pv1", 0)))
TEXT = text("vg0", "g", 4, "ab", HOME)
ASKED, ANSWER = "R vg0-home 0 56\n", "1 R %s 2072 40\n1 R %s 2048 16\n"
# An origin, its snapshot with a store of 6 extents, and the group's text of them.
SNAPSHOT = [volume("base", "o", linear(0, 2, ("pv0", 0))), volume("snap", "s", linear(0, 6, ("pv0", 8))),
            volume("snapshot0", "t", segment(
                0, 2, "snapshot", "chunk_size = 8", 'origin = "base"', 'cow_store = "snap"'))]
LOST = text("vg0", "g", 4, "ab", volume("home", "h", linear(0, 99, ("pv0", 3))))


def disk(letter, *areas, extents=64, **label):
    """The image of a physical volume with these metadata areas, which stand one after the other."""
    places, at = [], physical_volumes.FIRST
    for make in areas:
        places.append((at, make(at)))
        at += len(places[-1][1])
    size = (DATA + extents * EXTENT) * SECTOR
    return physical_volumes.volume(*places, length=size, **{"identity": identity(letter), "size": size, **label})


def area(content=TEXT, offset=SECTOR, size=65536, **more):
    return lambda at: physical_volumes.area(content, offset, start=at, size=size, **more)


def changed(content, at, new):
    return content[:at] + new + content[at + len(new):]


def summed(content, at, new, sector=SECTOR, skip=20, place=16):
    """The same in a sector whose sum is made anew: of a label, or of an area's header."""
    content = changed(content, at, new)
    total = physical_volumes.checksum(content[sector + skip:sector + SECTOR])
    return changed(content, sector + place, struct.pack("<L", total))


def headed(at, new, content=None):
    """A disk whose area has other bytes in its header."""
    first = physical_volumes.FIRST
    return summed(content or disk("a", area()), first + at, new, first, 4, 0)


def paths_of(program, images):
    """The text of a list of these images, which are bytes, or paths."""
    rows = []
    for number, (name, image) in enumerate(images):
        rows.append("%s %s\n" % (name, image if isinstance(image, str) else program.file("image%d" % number, image)))
    return "".join(rows)


def mapped(program, images, asked=ASKED, *more, command="map", **how):
    words = [command, "images", program.file("paths", paths_of(program, images)), *more]
    return program.run(words, given=asked, folder=program.folder, **how)


PAIR = [("sda", disk("a", area())), ("sdb", disk("b", area()))]


def test_maps(tally, program):
    tally.same("two disks", mapped(program, PAIR), 0, ANSWER % ("sda", "sdb"))
    tally.same("in the other order", mapped(program, PAIR[::-1]), 0, ANSWER % ("sda", "sdb"))
    tally.same("the first alone", mapped(program, PAIR[:1]), 0, ANSWER % ("sda", "/dev/b"))
    tally.same("the second alone", mapped(program, PAIR[1:]), 0, ANSWER % ("/dev/a", "sdb"))
    names = [("/dev/b", PAIR[0][1]), ("/dev/a", PAIR[1][1])]
    tally.same("names that the text has otherwise", mapped(program, names), 0, ANSWER % ("/dev/b", "/dev/a"))
    for place in range(4):
        image = disk("a", area(), place=place)
        image = changed(image, SECTOR, bytes(SECTOR)) if place != 1 else image
        label = physical_volumes.label([(4096, 65536)], place, len(image), identity=identity("a"))
        image = changed(image, place * SECTOR, label)
        tally.same("a label in sector %d" % place, mapped(program, [("sda", image)]), 0, ANSWER % ("sda", "/dev/b"))
    for size in 0, 511, 1 << 63:
        image = summed(PAIR[0][1], SECTOR + 64, struct.pack("<Q", size))
        tally.same("a header that says %d bytes" % size, mapped(program, [("sda", image)]), 0, ANSWER % ("sda", "/dev/b"))
    tally.same("a longer image", mapped(program, [("sda", PAIR[0][1] + bytes(512))]), 0, ANSWER % ("sda", "/dev/b"))
    image = disk("a", area(TEXT.replace(b"/dev/a", b"/dev/md0")))
    tally.same("a leg that is listed as its array", mapped(program, [("/dev/md0", image)]), 0, ANSWER % ("/dev/md0", "/dev/b"))
    unused = changed(PAIR[0][1], 0, physical_volumes.mbr((0x8E, 8, 0)))
    tally.same("a partition table without sectors", mapped(program, [("sda", unused)]), 0, ANSWER % ("sda", "/dev/b"))
    other = changed(PAIR[0][1], 0, physical_volumes.mbr((0x8E, 8, 100)).replace(bytes(447), bytes(446) + b"\1", 1))
    tally.same("a boot sector that is no table", mapped(program, [("sda", other)]), 0, ANSWER % ("sda", "/dev/b"))
    two = changed(PAIR[0][1], 0, physical_volumes.label([(4096, 65536)], 0, 1 << 20, identity=identity("z")))
    tally.same("the first of two labels", mapped(program, [("sda", two)]), 1, "", told("sda", "foreign"))


def test_parts(tally, program):
    """A disk that is a part of a file which goes on behind it: what lies past the part's end isn't there."""
    image, first = PAIR[0][1], physical_volumes.FIRST
    part = program.file("part", bytes(1048576) + image + image) + "?offset=1048576"
    for length, word in ((len(image), ""), (len(image) + SECTOR, ""), (SECTOR, "read"), (first, "read"), (first + SECTOR, "read"),
                         (len(image) - SECTOR, "ends")):
        got = mapped(program, [("sda1", "%s&length=%d" % (part, length)), PAIR[1]])
        wanted = (1, "", told("sda1", word)) if word else (0, ANSWER % ("sda1", "sdb"))
        tally.same("a part of %d bytes" % length, got, *wanted)
    tally.same("an offset alone", mapped(program, [PAIR[1], ("sda1", part)]), 1, "", "dmremap: paths: field at 2\n")


def test_commands(tally, program):
    table = "vg0-home: 0 40 linear sda 2072\nvg0-home: 40 16 linear sdb 2048\n"
    tally.same("table", mapped(program, PAIR, "", command="table"), 0, table)
    concise = "vg0-home,,,rw,0 40 linear sda 2072,40 16 linear sdb 2048\n"
    tally.same("concise", mapped(program, PAIR, "", command="concise"), 0, concise)
    tally.same("check", mapped(program, PAIR, "", command="check"), 0, "devices 1\ndisks 2\ndepth 1\ntidy\n")
    tally.same("replay", mapped(program, PAIR, "W vg0-home 0 1\nR vg0-home 0 2\n", command="replay"), 0,
               "1 wrote 1 0 1\n2 wrote 1 0 1\n2 old sda 2073 1\n")
    tally.same("metadata", mapped(program, PAIR, "", command="metadata"), 0, TEXT[:-1].decode())
    for command in ("map", "table", "concise", "check", "replay", "metadata"):
        got = mapped(program, [("sda", bytes(8192))], command=command)
        tally.same("%s of a disk without a label" % command, got, 1, "", told("sda", "label"))
        got = mapped(program, [("sda", disk("a", area(LOST)))], command=command)
        answer = [0, LOST[:-1].decode()] if command == "metadata" else [1, "", "dmremap: source: extents at 27\n"]
        tally.same("%s of a text that is refused" % command, got, *answer)
        got = program.run([command, "images", program.file("paths", "sda\n")], given=ASKED)
        tally.same("%s of a bad list" % command, got, 1, "", "dmremap: paths: syntax at 1\n")
        got = program.run([command, "images", "missing"], given=ASKED)
        tally.same("%s of no list" % command, got, 1, "", "dmremap: paths: read\n")


def said(letter, field):
    """The text with another field of a physical volume."""
    device = b'device = "/dev/%s"\n' % letter.encode()
    return TEXT.replace(device, device + field.encode() + b"\n")


def told(name, word):
    return "dmremap: disk %s: %s\n" % (name, word)


def test_refused(tally, program):
    full = disk("a", area())
    first, size = physical_volumes.FIRST, 65536
    pairs = struct.pack("<2Q", 1, 1) * 27
    rows = [
        ("an empty image", b"", "read"),
        ("one sector", full[:SECTOR], "read"),
        ("no label", changed(full, SECTOR, b"X"), "label"),
        ("a label of another sector", summed(full, SECTOR + 8, b"\2"), "label"),
        ("a label with another sum", changed(full, SECTOR + 16, b"XXXX"), "label"),
        ("a label of another type", summed(full, SECTOR + 24, b"LVM1"), "label"),
        ("a header before the label's end", summed(full, SECTOR + 20, b"\x1f"), "label"),
        ("a header past the sector", summed(full, SECTOR + 20, struct.pack("<L", 473)), "label"),
        ("a label in sector 4", changed(bytes(2048) + full[2048:], 2048, physical_volumes.label([], 4)), "label"),
        ("lists without an end", summed(full, SECTOR + 72, pairs), "header"),
        ("an area inside a sector", disk("a") and summed(full, SECTOR + 104, struct.pack("<Q", first + 1)), "header"),
        ("an area with another sum", changed(full, first, b"XXXX"), "header"),
        ("an area with another magic", headed(4, b"X"), "header"),
        ("an area of another version", headed(20, b"\2"), "header"),
        ("an area that begins elsewhere", headed(24, struct.pack("<Q", first + 512)), "header"),
        ("a ring longer than its area", headed(32, struct.pack("<Q", size + 1)), "header"),
        ("a text before the ring", headed(40, struct.pack("<Q", 511)), "header"),
        ("a text past the ring", headed(40, struct.pack("<Q", size)), "header"),
        ("a text longer than its ring", headed(48, struct.pack("<Q", size - 511)), "header"),
        ("a text with another sum", headed(56, b"XXXX"), "text"),
        ("a text with another byte", changed(full, first + 600, b"X"), "text"),
        ("a text that ends with another byte", disk("a", area(TEXT[:-1] + b"X")), "text"),
        ("a text of 1,048,577 bytes", disk("a", area(TEXT.rjust(1048577, b"\n"), size=1 << 21), extents=512), "long"),
        ("`LVM2 001` alone before the label", changed(full, 24, b"LVM2 001"), "label"),
        ("a partition table", changed(full, 0, physical_volumes.mbr((0x8E, 8, 100))), "partitions"),
        ("a GPT", physical_volumes.gpt((34, 90)).ljust(len(full), b"\0"), "partitions"),
        ("a member of an array of version 1.1", changed(full, 0, MEMBER), "array"),
        ("a member of an array of version 1.2", changed(full, 4096, MEMBER), "array"),
        ("three areas", disk("a", area(), area(), area()), "header"),
        ("a disk that was missing", disk("a", area(said("a", 'flags = ["X", "MISSING"]'))), "missing"),
        ("a disk that was an array", disk("a", area(TEXT.replace(b"/dev/a", b"/dev/md/x:0"))), "array"),
        ("an image without its last sector", full[:-1], "ends"),
        ("an image of its metadata alone", full[:physical_volumes.FIRST + size], "ends"),
        ("another text in a second area", disk("a", area(), area(TEXT.replace(b"= 4", b"= 5"))), "differ"),
        ("an id of no physical volume", disk("c", area()), "foreign"),
        ("no metadata", disk("a"), "foreign"),
    ]
    for name, image, word in rows:
        tally.same(name, mapped(program, [("sda", image)]), 1, "", told("sda", word))
    for name, end in ("the area's first sector", first), ("a sector of the text", first + 1024):
        tally.same("%s is missing" % name, mapped(program, [("sda", full[:end])]), 1, "", told("sda", "read"))


def test_groups(tally, program):
    """Faults of a disk beside another one, and which of several is told."""
    later = area(text("vg0", "g", 5, "ab", HOME))
    other = area(text("vg1", "k", 4, "c", volume("home", "h", linear(0, 5, ("pv0", 3)))))
    for name, images, disk_told, word in [
            ("a stale disk", [PAIR[0], ("sdb", disk("b", later))], "sdb", "differ"),
            ("a disk of another group", [PAIR[0], ("sdc", disk("c", other))], "sdc", "differ"),
            ("one image twice", [PAIR[0], PAIR[1], ("sdc", PAIR[0][1])], "sdc", "twice"),
            ("a disk without a text, of no group", [PAIR[0], ("sdc", disk("c"))], "sdc", "foreign"),
            ("the first of two", [("x", bytes(8192)), ("y", b"")], "x", "label"),
            ("the other order", [("y", b""), ("x", bytes(8192))], "y", "read"),
            ("an end before a missing one", [PAIR[0], ("sdb", disk("b", area(said("b", 'flags = ["MISSING"]')))[:-512])], "sdb", "differ"),
            ("the first end", [("sda", PAIR[0][1][:-512]), ("sdb", PAIR[1][1][:-512])], "sda", "ends"),
            ("the second end", [PAIR[0], ("sdb", PAIR[1][1][:-512])], "sdb", "ends"),
            ("a foreign disk before one that can't be read", [("sdc", disk("c", area())), ("y", b"")], "y", "read")]:
        tally.same(name, mapped(program, images), 1, "", told(disk_told, word))
    got = mapped(program, [PAIR[0], ("sdb", disk("b"))])
    tally.same("a disk without a text, of the group", got, 0, ANSWER % ("sda", "sdb"))
    got = mapped(program, [("same", PAIR[0][1]), ("same", PAIR[1][1])])
    tally.same("two disks of one name", got, 1, "", "dmremap: source: twice at 14\n")
    tally.same("no disk", mapped(program, []), *told_of(program, b""))
    lost = [("sda", disk("a", area(LOST)))]
    tally.same("a text that is refused", mapped(program, lost), *told_of(program, LOST[:-1]))
    got = mapped(program, lost + [("c", disk("c"))])
    tally.same("a foreign disk of a text that is refused", got, 1, "", told("c", "foreign"))


def told_of(program, content):
    got = program.run(["map", "lvm", program.file("text", content)])
    return got.status, got.out, got.err


def test_rings(tally, program):
    """A text that goes round its ring, and areas beside it."""
    size = len(TEXT) + 512 + 100
    for offset in (512, 513, 611, 612, 613, 1024, size - 513, size - 512, size - 1):
        got = mapped(program, [("sda", disk("a", area(TEXT, offset, size)))])
        tally.same("a text at %d in a ring of %d bytes" % (offset, size), got, 0, ANSWER % ("sda", "/dev/b"))
    got = mapped(program, [("sda", disk("a", area(TEXT, 512, len(TEXT) + 512)))])
    tally.same("a ring that is full", got, 0, ANSWER % ("sda", "/dev/b"))
    for name, more in (("the same", area()), ("an ignored", area(b"x", flags=1)), ("an empty", area(b""))):
        for order in (1, -1):
            got = mapped(program, [("sda", disk("a", *[area(), more][::order]))])
            tally.same("%s area beside it" % name, got, 0, ANSWER % ("sda", "/dev/b"))
    for content in (TEXT[:-1], TEXT.rjust(1048576, b"\n")):
        got = mapped(program, [("sda", disk("a", area(content, size=1 << 21), extents=512))])
        tally.same("a text of %d bytes" % len(content), got, 0, ANSWER % ("sda", "/dev/b"))
    for cut in range(0, 40):
        got = mapped(program, [("sda", PAIR[0][1][:cut * 256])])
        is_told = got.status == 1 and got.out == b"" and got.err.decode() in (told("sda", "read"), told("sda", "ends"))
        tally.holds("an image of %d bytes" % (cut * 256), is_told, "status %s, %r" % (got.status, got.err))


def unreadable(program, content):
    """What can't be opened or read as an image: what it is, its path, and how it is run."""
    folder, pipe = os.path.join(program.folder, "folder"), os.path.join(program.folder, "image.pipe")
    os.makedirs(folder, exist_ok=True)
    if not os.path.exists(pipe):
        os.mkfifo(pipe)
    secret = program.file("secret.img", content)
    os.chmod(secret, 0)
    return [("a folder", folder, {}), ("a pipe", pipe, {}), ("no file", "missing", {}), ("an empty file", "/dev/null", {}),
            ("a file that may not be read", secret, {"before": become_nobody})]


def test_files(tally, program):
    """What can't be opened or read as an image, and many images."""
    for name, path, how in [*unreadable(program, PAIR[0][1]), ("a device of characters", "/dev/zero", {})]:
        tally.same("%s as an image" % name, mapped(program, [("sda", path)], **how), 1, "", told("sda", "read"))
    many = [("d%d" % number, "missing") for number in range(2000)]
    tally.same("2,000 images", mapped(program, many), 1, "", "dmremap: paths: limit at 1025\n")
    tally.same("1,024 images", mapped(program, many[:1024]), 1, "", told("d0", "read"))
    # The requests aren't read from an image, which a closed standard input leaves its number.
    asked = disk("a", area())[512:]
    image = program.file("asked", ASKED.encode().ljust(512, b"\n") + asked)
    got = mapped(program, [("sda", image)], before=lambda: os.close(0))
    tally.same("a closed standard input", got, 4, "", "dmremap: requests: read\n")


def test_stores(tally, program):
    """The stores of snapshots in the same images, earlier requests, and the status."""
    known = text("vg0", "g", 4, "ab", *SNAPSHOT)
    at = (DATA + 8 * EXTENT) * SECTOR
    asked = "R vg0-snap 0 16\n"
    fresh = disk("a", area(known))
    used = physical_volumes.patched(fresh, *((at + place, part) for place, part in store_lists.parts(8, [(1, 2)])))
    cow = DATA + 8 * EXTENT + 16
    both = "1 R sda 2048 8\n1 R sda %d 8\n" % cow
    state = "vg0-snap: 0 16 snapshot 24/48 16\n"
    tally.same("a fresh store", mapped(program, [("sda", fresh)], asked), 0, "1 R sda 2048 16\n")
    tally.same("a used store", mapped(program, [("sda", used)], asked), 0, both)
    tally.same("its status", mapped(program, [("sda", used)], asked, "--status"), 0, both + state)
    earlier = program.file("earlier", "W vg0-snap 0 1\n")
    got = mapped(program, [("sda", used)], asked, "--before", earlier)
    tally.same("after earlier requests", got, 0, "1 R sda %d 8\n1 R sda %d 8\n" % (cow + 8, cow))
    got = mapped(program, [("sda", used)], asked, "--before", program.file("earlier", "W vg0-snap 0\n"))
    tally.same("after earlier requests that are bad", got, 1, "", "dmremap: before: form at 1\n")
    got = mapped(program, [("sda", used)], "R vg0-snap 0 16\nW vg0-snap 9 1\nR vg0-snap 8 2\n", command="replay")
    tally.same("a replay from a used store", got, 0,
               "1 old sda 2048 8\n1 old sda %d 8\n2 wrote 2 9 1\n3 old sda %d 1\n3 wrote 2 9 1\n" % (cow, cow))
    bad = changed(used, at, b"X")
    got = mapped(program, [("sda", bad)], asked, command="replay")
    tally.same("a replay from a store that is refused", got, 1, "", "dmremap: store vg0-snap: magic\n")
    for name, more in ("a store that is refused", []), ("before earlier requests", ["--before", "missing"]):
        tally.same(name, mapped(program, [("sda", bad)], asked, *more), 1, "", "dmremap: store vg0-snap: magic\n")
    other = text("vg0", "g", 4, "ba", *SNAPSHOT)
    got = mapped(program, [("sda", disk("a", area(other)))], asked)
    tally.same("a store on a disk without an image", got, 1, "", "dmremap: store vg0-snap: missing\n")
