"""The command `save` by tables: volumes that are put together from images, with what is missing told, as a map of ddrescue,
by which a later run goes on."""

import contextlib
import errno
import os
import random
import re
import signal
import subprocess
import sys
import time

import physical_volumes
import tool_calls
from tool_calls import read
from tool_streams import mutated

SECTOR = 512


@contextlib.contextmanager
def unreadable(*bad):
    """Lets no read of these sectors of a disk succeed, as where the disk is damaged."""
    read_at = os.pread

    def read_checked(descriptor, size, at):
        if any(at < 512 * it.stop and 512 * it.start < at + size for it in bad):
            raise OSError(errno.EIO, os.strerror(errno.EIO))
        return read_at(descriptor, size, at)

    os.pread = read_checked
    try:
        yield
    finally:
        os.pread = read_at


TABLE = "v: 0 16 striped 2 4 a 8 b 0\nv: 16 8 zero\nv: 24 8 linear b 32\nv: 32 8 error\nv: 40 8 linear c 0\n"
DISKS = "a 64\nb 64\nc 64\n"
# For each sector of the volume the disk and the sector there, or None for zeros.
HOMES = [("ab"[at // 4 % 2], (8, 0)[at // 4 % 2] + at // 8 * 4 + at % 4) for at in range(16)]
HOMES += [None] * 8 + [("b", 32 + at) for at in range(8)] + [None] * 8 + [("c", at) for at in range(8)]


class Disks:
    """Images of the disks, below names that they haven't in the tables."""

    def __init__(self, program):
        self.program = program
        self.content = {name: os.urandom(64 * SECTOR) for name in "abc"}
        self.paths = {name: program.file("save/image %s" % name, content) for name, content in self.content.items()}
        self.words = ["--program", program.path, "--paths", program.file("save/paths", "".join("%s %s\n" % it for it in self.paths.items()))]
        self.source = ["table", program.file("save/table", TABLE), program.file("save/disks", DISKS)]

    def target(self, name):
        return os.path.join(self.program.folder, "save", name)

    def save(self, top, target, *words):
        return tool_calls.call(top, ["save", *self.words, "v", self.target(target), *self.source, *words])

    def volume(self, without=""):
        """What the volume has, where some disks are missing."""
        homes = [it if it and it[0] not in without else None for it in HOMES]
        return b"".join(self.content[it[0]][it[1] * SECTOR:(it[1] + 1) * SECTOR] if it else bytes(SECTOR) for it in homes)


LOST = "%d sectors of the file from %d on can't be read\n"
FAILS, CUT = "reads fail there, as the tables say", "%s ends at byte %d"


def test_volumes(tally, program, top):
    """A whole volume, of which a line is an error; and once more without that line. What isn't all there is refused, unless it may
    have gaps."""
    disks = Disks(program)
    refused(tally, top, disks, "an error", FAILS)
    tally.same("a volume that may have gaps", disks.save(top, "gaps", "--allow-missing"), 0, "", "v: %s\n" % FAILS + LOST % (8, 32))
    tally.holds("what it has", read(disks.target("gaps")) == disks.volume(), "it is another")
    program.file("save/table", TABLE.replace("error", "zero"))
    tally.same("a volume without an error", disks.save(top, "sound"), 0)
    tally.holds("what it has", read(disks.target("sound")) == disks.volume(), "it is another")
    with unreadable(range(3, 4)):
        tally.same("a volume of which a sector can't be read", disks.save(top, "damaged"), 4, "", LOST % (1, 7) + LOST % (1, 43))
    with open(disks.paths["b"], "r+b") as file:
        file.truncate(36 * SECTOR)
    refused(tally, top, disks, "a short disk", CUT % (disks.paths["b"], 36 * SECTOR))
    os.unlink(disks.paths["b"])
    refused(tally, top, disks, "a missing disk", disks.paths["b"] + ": No such file or directory")


def refused(tally, top, disks, name, why):
    """What isn't all there is refused, and there is no file."""
    tally.same("a volume with " + name, disks.save(top, "refused"), 1, "", "dmremap-tools save: v: %s; or give --resume MAP to save the rest: the map says then "
               "what is missing\n" % why)
    tally.holds("what that leaves", not os.path.exists(disks.target("refused")), "it is there")


MAP = """\
# Of v of %d sectors, from %s
# Mapfile. Created by dmremap-tools save
# current_pos  current_status  current_pass
0x%08X     %s               1
#      pos        size  status
"""


def said_of(disks, top, *words):
    """What the first line of a map says that a run makes: the sectors and the ids."""
    target, rescue = (disks.target(name) for name in ("said of", "said of.map"))
    disks.save(top, "said of", *words, "--resume", rescue)
    sectors, ids = re.match(r"# Of v of ([0-9]+) sectors, from (.*)\n", read(rescue).decode()).groups()
    for path in target, rescue:
        os.unlink(path)
    return int(sectors), ids


def test_gaps(tally, program, top):
    """A disk that is missing, and sectors that can't be read: holes, a map of ddrescue, and a run that goes on by it."""
    disks = Disks(program)
    sectors, ids = said_of(disks, top)
    os.rename(disks.paths["c"], disks.paths["c"] + ".away")
    with open(disks.paths["b"], "r+b") as file:
        file.truncate(36 * SECTOR)
    gone = "%s: No such file or directory" % disks.paths["c"]
    missing, why = "missing: c: %s\n" % gone, "v: %s\n" % FAILS
    with unreadable(range(9, 10)):
        got = disks.save(top, "begun", "--resume", disks.target("map"))
    tally.same("a volume with gaps", got, 4, "", why + LOST % (1, 1) + missing + LOST % (20, 28))
    areas = [(0, 1, "+"), (1, 1, "-"), (2, 26, "+"), (28, 12, "-"), (40, 8, "?")]
    text = "".join("0x%08X  0x%08X  %s\n" % (SECTOR * at, SECTOR * count, it) for at, count, it in areas)
    # What can't be read has no id: of sectors in which ids are, and of a disk that isn't there.
    lacking = re.sub("([abc]):[0-9a-f]+", r"\1:?", ids)
    tally.holds("its map", read(disks.target("map")).decode() == MAP % (sectors, lacking, SECTOR, "?") + text, read(disks.target("map")))
    os.rename(disks.paths["c"] + ".away", disks.paths["c"])
    program.file("save/image b", disks.content["b"])
    program.file("save/table", TABLE.replace("error", "zero"))
    # What is finished isn't read again.
    with unreadable(range(0, 1)):
        got = disks.save(top, "begun", "--resume", disks.target("map"))
    tally.same("a volume that goes on", got, 4, "", LOST % (1, 40))
    tally.same("a volume that is finished", disks.save(top, "begun", "--resume", disks.target("map")), 0)
    tally.holds("what it has", read(disks.target("begun")) == disks.volume(), "it is another")
    text = "0x%08X  0x%08X  +\n" % (0, SECTOR * 48)
    tally.holds("its last map", read(disks.target("map")).decode() == MAP % (sectors, ids, SECTOR * 48, "+") + text, read(disks.target("map")))


WHOLE = "dmremap-tools save: %s: the image of a whole disk (%s), and p has %d sectors: give the partition that it is, as IMAGE?offset=BYTES&length=BYTES\n"


def test_whole_disks(tally, program, top):
    """Images with partition tables: of a disk that is as long as DISKS says, or that ends too early, and of one that is given for
    a partition."""
    gpt, mbr = physical_volumes.gpt((40, 95), last=128), physical_volumes.mbr((0x8E, 40, 56))
    end = physical_volumes.with_backup(bytes(96 * SECTOR), (40, 95))
    damaged = physical_volumes.gpt((40, 95), damage=SECTOR + 60)
    for name, image, size, kind in (
            ("a disk", gpt.ljust(129 * SECTOR, b"x"), 129, None), ("a partition", gpt.ljust(129 * SECTOR, b"x"), 56, "GPT"),
            ("the head of a disk", gpt, 129, None), ("a partition, by the head of its disk", gpt, 56, "GPT"),
            ("a disk with an MBR", mbr.ljust(96 * SECTOR, b"x"), 96, None), ("a partition below an MBR", mbr.ljust(96 * SECTOR, b"x"), 56, "MBR"),
            ("a partition, by a backup", end, 56, "GPT"), ("a partition below a damaged table", damaged.ljust(129 * SECTOR, b"x"), 56, "GPT"),
            ("the head of a disk with a damaged table", damaged[:8 * SECTOR], 56, None),
            ("what has no table", bytes(129 * SECTOR), 56, None)):
        path, target = program.file("save/disk", image), os.path.join(program.folder, "save", "of disk")
        words = [program.file("save/table", "v: 0 8 linear p 0\n"), program.file("save/disks", "p %d\n" % size)]
        listed = program.file("save/paths", "p %s\n" % path)
        got = tool_calls.call(top, ["save", "--program", program.path, "--paths", listed, "v", target, "table", *words])
        tally.same("saving from " + name, got, 1 if kind else 0, "", WHOLE % (path, kind, size) if kind else "")
        if not kind and tally.holds("a file from " + name, os.path.exists(target), "it isn't there"):
            tally.holds("what is saved from " + name, read(target) == image[:8 * SECTOR], "it is another")
            os.unlink(target)
    path = program.file("save/disk", gpt.ljust(40 * SECTOR, b"\0") + bytes(range(256)) * 112)
    listed = program.file("save/paths", "p %s?offset=%d&length=%d\n" % (path, 40 * SECTOR, 56 * SECTOR))
    for form, more in (("table", [program.file("save/disks", "p 56\n")]), ("lvm", [])):
        source = program.file("save/source", "v: 0 8 linear p 0\n" if more else physical_volumes.one_volume(("p", "", 56, 0)))
        target = os.path.join(program.folder, "save", "of partition " + form)
        got = tool_calls.call(top, ["save", "--program", program.path, "--paths", listed, "v" if more else "g-v", target, form, source, *more])
        tally.same("saving from a partition by its place, " + form, got, 0)
        tally.holds("what is saved from it", os.path.exists(target) and read(target) == bytes(range(256)) * 16, "it is another")


IDENTITIES = [it.ljust(32, b"x") for it in (b"first", b"other")]
OWN, OTHER = ("%s-xxxx-xxxx-xxxx-xxxx-xxxx-xxxxxx" % it for it in ("firstx", "otherx"))
OF_VOLUME = physical_volumes.one_volume(("p", "", 56, 0, OWN))
PHYSICAL, BESIDE = (physical_volumes.volume(length=56 * SECTOR, identity=it) for it in IDENTITIES)
BOTH = "the disk has a partition table (MBR) as well, which was made later, so that others may have written there: to take it as it was, take the table out " \
       "of a copy (dd if=/dev/zero of=COPY count=1 conv=notrunc)"
UNLABELLED = "the image of a whole disk (GPT), none of whose partitions (1) has a sound label: give the partition that it is, as IMAGE?offset=BYTES&length=BYTES"


def test_labels(tally, program, top):
    """Disks of which labels don't say which part is meant, so that its place has to: one with both a partition table and a
    label, one whose partition has none, one with a label elsewhere, and the head of one."""
    mbr, gpt = physical_volumes.mbr((0x8E, 40, 56)), physical_volumes.gpt((40, 95), last=199).ljust(40 * SECTOR, b"\0")
    below, above = (mbr + it[SECTOR:40 * SECTOR] for it in (BESIDE, PHYSICAL))
    plain = bytes(range(256)) * 112
    for name, image, begin, what in (
            ("both", above + BESIDE, None, BOTH), ("a partition beside a label", below + PHYSICAL, 40, None),
            ("a label beside a partition", above + BESIDE, 0, None),
            ("another label", below + PHYSICAL, 0, "it isn't p, whose id is %s, but has the id %s: give the path of that" % (OWN, OTHER)),
            ("no label", gpt + plain, None, UNLABELLED), ("a partition without a label", gpt + plain, 40, None),
            ("a label elsewhere", gpt + plain + bytes(8 * SECTOR) + PHYSICAL, None, UNLABELLED),
            ("a volume elsewhere", gpt + plain + bytes(8 * SECTOR) + PHYSICAL, 104, None),
            ("the head of a disk", physical_volumes.mbr((0x83, 8, 8), (0x8E, 400, 56)) + bytes(99 * SECTOR), None,
             UNLABELLED.replace("GPT", "MBR").replace("1", "1, 2"))):
        path, target = program.file("save/disk", image), os.path.join(program.folder, "save", "of label")
        listed = program.file("save/paths", "p %s%s\n" % (path, "" if begin is None else "?offset=%d&length=28672" % (begin * SECTOR)))
        source = program.file("save/source", OF_VOLUME)
        got = tool_calls.call(top, ["save", "--program", program.path, "--paths", listed, "g-v", target, "lvm", source])
        tally.same("saving by labels, " + name, got, 1 if what else 0, "", "dmremap-tools save: %s: %s\n" % (path, what) if what else "")
        if not what and tally.holds("a file by labels, " + name, os.path.exists(target), "it isn't there"):
            tally.holds("what is saved by labels, " + name, read(target) == image[begin * SECTOR:(begin + 8) * SECTOR], "it is another")
            os.unlink(target)
    words = [program.file("save/table", "v: 0 8 linear p 0\n"), program.file("save/disks", "p 64\n")]
    for keys, size in (("offset=999999999999999488&length=4096", 0), ("offset=512&length=1024", 1024)):
        listed, target = program.file("save/paths", "p %s?%s\n" % (path, keys)), os.path.join(program.folder, "save", "past " + keys)
        got = tool_calls.call(top, ["save", "--program", program.path, "--paths", listed, "v", target, "table", *words])
        tally.same("saving from the part " + keys, got, 1, "", "dmremap-tools save: v: %s ends at byte %d; or give --resume MAP to save the rest: the map says "
                   "then what is missing\n" % (path, size))
    for keys in ("offset=512", "length=512", "offset=512&length=0", "offset=511&length=512", "offset=512&length=513", "offset=512&size=512",
                 "length=512&offset=512", "offset=1000000000000000000&length=512"):
        listed, target = program.file("save/paths", "p %s?%s\n" % (path, keys)), os.path.join(program.folder, "save", "of no part")
        got = tool_calls.call(top, ["save", "--program", program.path, "--paths", listed, "v", target, "table", *words])
        tally.same("saving from no part, %s" % keys, got, 1, "", "dmremap-tools save: %s:1: not a part of a file, give PATH?offset=BYTES&length=BYTES, "
                   "both multiples of 512: p %s?%s\n" % (listed, path, keys))


def test_edges(tally, program, top):
    """Sectors that can't be read on both sides of the end of what is read at once."""
    at_once = 2048
    content = os.urandom(3 * at_once * SECTOR)
    program.file("edges/image", content)
    program.file("edges/table", "v: 0 %d linear a 0\n" % (3 * at_once))
    folder = os.path.dirname(program.file("edges/disks", "a %d\n" % (3 * at_once)))
    program.file("edges/paths", "a image\n")
    for number, bad in enumerate((range(at_once - 1, at_once + 2), range(at_once - 1, at_once), range(at_once, at_once + 1), range(2 * at_once - 3, 2 * at_once + 3))):
        with unreadable(bad):
            got = tool_calls.call(top, ["save", "--program", program.path, "--paths", "paths", "--resume", "m%d" % number, "v", "out%d" % number, "table", "table", "disks"],
                                  folder=folder)
        tally.same("what can't be read at %s" % bad, got, 4, "", LOST % (len(bad), bad.start))
        wanted = content[:bad.start * SECTOR] + bytes(len(bad) * SECTOR) + content[bad.stop * SECTOR:]
        tally.holds("what is saved around %s" % bad, read(os.path.join(folder, "out%d" % number)) == wanted, "it is another")


def test_refusals(tally, program, top):
    """A target that is there, or can't be made; a map of another file; a command that dmremap refuses."""
    disks = Disks(program)
    program.file("save/there", "")
    os.symlink("behind", disks.target("link"))
    said, own = "dmremap-tools save: %s\n", "# Of v of %d sectors, from %s\n" % said_of(disks, top)
    new = "give a new name as --resume, and another OUT"
    rows = [
        ("there", [], 1, "%s: it is there already: give another name, or remove it first" % disks.target("there")),
        ("link", [], 1, "%s: it is there already: give another name, or remove it first" % disks.target("link")),
        ("/dev/full", [], 1, "/dev/full: it is a device or a pipe: give the name of a new file"),
        ("no/where", [], 5, "%s: No such file or directory" % disks.target("no/where")),
        ("new", ["--resume", program.file("save/m", "x\n")], 1, "%s:1: not a map of ddrescue: give another file as --resume" % disks.target("m")),
        ("new", ["--resume", program.file("save/m2", own + "0x0 ?\n0x0 0x200 +\n")], 1, "%s: a map of another file than one of 24576 bytes: %s" % (disks.target("m2"), new)),
        ("new", ["--resume", program.file("save/m4", "0x0 ?\n0x0 0x6000 ?\n")], 1,
         "%s: it doesn't say of which volume it is, as those do that save writes: %s" % (disks.target("m4"), new)),
        ("new", ["--resume", program.file("save/m5", own.replace("v", "w") + "0x0 ?\n0x0 0x6000 ?\n")], 1,
         "%s: it is the map of w of 48 sectors, and this is v of 48: %s" % (disks.target("m5"), new)),
        ("new", ["--resume", program.file("save/m6", own.replace("a:", "a:0") + "0x0 ?\n0x0 0x6000 ?\n")], 1,
         "%s: it is the map of v of 48 sectors, from other images, and this is v of 48: %s" % (disks.target("m6"), new)),
        ("new", ["--resume", program.file("save/m3", own + "0x0 ?\n0x0 0x6000 ?\n")], 1,
         "%s: the map says that it was begun, and it isn't there: give a --resume that isn't there either" % disks.target("new")),
        ("there", ["--resume", disks.target("m3")], 1, "%s: it isn't the file that was begun: it has 0 bytes and not 24576: give that, or another --resume" % disks.target("there")),
        ("new", ["--resume", disks.target("")], 5, "%s: Is a directory" % disks.target("")),
        ("new", ["--resume", disks.target("link")], 5, "%s: No such file or directory" % disks.target("link")),
        ("new", ["--resume", "/proc/none"], 5, "/proc/none: No such file or directory"),
    ]
    packed = program.file("save/packed", b"\xfd7zXZ\0")
    program.file("save/path", "a %s\n" % packed)
    program.file("save/table", TABLE.replace("error", "zero"))
    got = tool_calls.call(top, ["save", "--program", program.path, "--paths", disks.target("path"), "v", disks.target("new"), *disks.source])
    tally.tells("an image that is compressed", got, 1, err="packed: it is compressed (xz): unpack it; or give --resume")
    listed = program.file("save/path", "a x\n/dev/b y\n")
    got = tool_calls.call(top, ["save", "--program", program.path, "--paths", listed, "v", disks.target("new"), *disks.source])
    tally.same("a path of no disk", got, 1, "", said % "%s: no disk is called /dev/b: give a name that the tables have" % listed)
    odd = [program.file("save/" + it, b"\xef\xbb\xbf" + read(path).replace(b"\n", b"\r\n")) for it, path in zip(("t", "d"), disks.source[1:])]
    got = tool_calls.call(top, ["save", *disks.words, "v", disks.target("new"), "table", *odd])
    tally.same("saving by texts with carriage returns", got, 0)
    tally.holds("what it has", read(disks.target("new")) == disks.volume(), "it is another")
    os.unlink(disks.target("new"))
    got = tool_calls.call(top, ["save", *disks.words, "v", disks.target("new"), *disks.source[:2]])
    tally.same("saving without DISKS", got, 2, "", "usage: VOLUME TARGET FORMAT FILE [DISKS]\n" + said % "give DISKS, or leave it out with lvm")
    for name, words, status, message in rows:
        tally.same("saving as %s with %s" % (name, words), disks.save(top, name, *words), status, "", said % message)
        tally.holds("what is left of " + name, name in ("there", "/dev/full") or not os.path.exists(disks.target(name)), "it is there")
    tally.holds("what is behind the link", not os.path.exists(disks.target("behind")), "it was made")
    got = tool_calls.call(top, ["save", *disks.words, "w", disks.target("new"), *disks.source])
    tally.same("saving no device", got, 1, "", said % "%s: no device w: `dmremap table` prints their names" % disks.source[1])
    dies = program.file("save/dies", '#!/bin/sh\n[ "$1" = map ] && kill -9 $$\nexec %s "$@"\n' % program.path)
    os.chmod(dies, 0o755)
    got = tool_calls.call(top, ["save", "--program", dies, *disks.words[2:], "v", disks.target("new"), *disks.source])
    tally.same("saving by a dmremap that dies", got, 1, "", said % "%s: no answer (status -9): see what `dmremap-tools explain` says" % dies)
    tally.holds("what that leaves", not os.path.exists(disks.target("new")), "it is there")
    for more in (["-"], ["new", "--resume", "-"]):
        got = tool_calls.call(top, ["save", *disks.words, "v", *more[:1], *disks.source, *more[1:]], folder=os.path.dirname(disks.target("new")))
        tally.same("saving to standard output: %s" % more, got, 2, "", said % "'-' is no file to write: give it a name")
        tally.holds("what that leaves", not os.path.exists(disks.target("-")) and not os.path.exists(disks.target("new")), "it is there")
    table = program.file("save/wrong", "v: 0 8 linear d 0\n")
    got = tool_calls.call(top, ["save", *disks.words, "v", disks.target("new"), "table", table, disks.source[2]])
    tally.same("saving what doesn't load", got, 1, "", "dmremap: source: unknown at 1\n" + said % "%s: it ends with status 1: see what it said" % program.path)


READ_TOO = "%s: it is read, too: give another file to write"


def test_outputs(tally, program, top):
    """A target or a map that is one of the disks, or both of which are one; and names and links that stand in the way of neither."""
    disks = Disks(program)
    program.file("save/table", TABLE.replace("error", "zero"))
    whole = program.file("save/images", b"")
    image, said = disks.paths["a"], "dmremap-tools save: %s\n"
    os.link(image, disks.target("image"))
    program.file("save/long", "v: 0 64 linear b 0\n")
    long, begun = ["table", disks.target("long"), disks.source[2]], disks.target("begun map")
    tool_calls.call(top, ["save", *disks.words, "v", disks.target("begun long"), *long, "--resume", begun])
    program.file("save/begun map", read(begun).replace(b"  +\n", b"  ?\n"))
    rows = [
        ("the map as its target", "one", ["--resume", disks.target("../save/one")], "%s: two outputs can't be one file: give another name" % disks.target("one")),
        ("the map over a disk", "one", ["--resume", image], READ_TOO % image),
        ("the map over a table", "one", ["--resume", disks.source[1]], READ_TOO % disks.source[1]),
    ]
    for name, target, words, message in rows:
        tally.same("saving with " + name, disks.save(top, target, *words), 2, "", said % message)
        tally.holds("what is left of it", not os.path.exists(disks.target("one")) and read(image) == disks.content["a"], "it is another")
    for target in "image a", "image":
        got = tool_calls.call(top, ["save", *disks.words, "v", disks.target(target), *long, "--resume", begun])
        tally.same("saving over %s, of another disk" % target, got, 2, "", said % READ_TOO % disks.target(target))
        tally.holds("what is left of the disk", read(image) == disks.content["a"], "it is another")
    os.unlink(whole)
    # What was named beside the map.
    precious = program.file("save/precious", "precious\n")
    os.symlink(precious, disks.target("linked.new"))
    os.rename(image, disks.target("a disk.new"))
    program.file("save/paths", "a %s\nb %s\nc %s\n" % (disks.target("a disk.new"), disks.paths["b"], disks.paths["c"]))
    for name, target, to in (("a target called so", "beside.new", "beside"), ("a disk called so", "two", "a disk"), ("a link called so", "three", "linked")):
        tally.same("saving with a map, and " + name, disks.save(top, target, "--resume", disks.target(to)))
        is_so = read(disks.target(target)) == disks.volume() and read(disks.target("a disk.new")) == disks.content["a"]
        tally.holds("what it leaves", is_so and read(precious) == b"precious\n", "something is another")
    os.symlink("precious", disks.target("link there"))
    got = disks.save(top, "link there")
    tally.holds("a volume over a link", got.status == 1 and read(precious) == b"precious\n", "%s, %r" % (got.status, got.err))


SLOW = """#!/bin/sh
[ "$1" = map ] || exec %s "$@"
%s "$@" | { head -n 1; head -n 1 > /dev/null; echo >> "$0.begun"; exec sleep 60 2> /dev/null; }
"""


def test_ends(tally, program, top):
    """A save that is told to end, or fails: no target is left, nor anything beside it, but with a map both, from which it goes on."""
    disks = Disks(program)
    program.file("save/table", TABLE.replace("error", "zero"))
    slow = program.file("save/slow", SLOW % (program.path, program.path))
    os.chmod(slow, 0o755)
    folder = os.path.dirname(disks.target("it"))
    before = set(os.listdir(folder))
    for number, status in ((signal.SIGTERM, 143), (signal.SIGHUP, 129), (signal.SIGINT, 130)):
        for with_map in [], ["--resume", disks.target("its map")]:
            words = ["save", "--program", slow, *disks.words[2:], "v", disks.target("it"), *disks.source, *with_map]
            ran = subprocess.Popen([sys.executable, os.path.join(top, tool_calls.TOOL), *words], stderr=subprocess.PIPE, start_new_session=True)
            while not os.path.exists(slow + ".begun") and ran.poll() is None:
                time.sleep(0.01)
            ran.send_signal(number)
            err = ran.communicate()[1]
            with contextlib.suppress(ProcessLookupError):
                os.killpg(ran.pid, signal.SIGKILL)
            name = "a save that gets %s, %s" % (number.name, "with a map" if with_map else "without one")
            tally.holds(name, (ran.returncode, err) == (status, b""), "%s, %r" % (ran.returncode, err))
            left = set(os.listdir(folder)) - before - {"slow.begun"}
            tally.holds("what it leaves", left == ({"it", "its map"} if with_map else set()), "there is %s" % left)
            os.unlink(slow + ".begun")
            if with_map:
                tally.same("going on", disks.save(top, "it", *with_map))
                tally.holds("what it has then", read(disks.target("it")) == disks.volume(), "it is another")
                for it in left:
                    os.unlink(disks.target(it))


TRIES = 150


def test_mutations(tally, program, top):
    """Inputs with random changes: a file, or a refusal in words after which there is none."""
    disks = Disks(program)
    own = "# Of v of %d sectors, from %s\n" % said_of(disks, top)
    texts = {"paths": read(os.path.join(program.folder, "save/paths")), "map": own.encode() + b"0x0 ?\n0x0 0x2000 +\n0x2000 0x4000 ?\n"}
    words = ["save", "--program", program.path, "--paths", "paths", "v", "out", *disks.source]
    dice = random.Random(1)
    for number in range(TRIES):
        more, changed = ([], "paths") if number % 2 else (["--resume", "map"], dice.choice(["paths", "map"]))
        for name, text in texts.items():
            program.file("changed/" + name, mutated(text, dice) if name == changed else text)
        out = program.file("changed/out", bytes(0x6000))
        if number % 2:
            os.remove(out)
        got = tool_calls.call(top, [*words, *more], folder=os.path.dirname(out))
        is_so = got.status in (0, 1, 4) and (not number % 2 or os.path.exists(out) == (got.status == 0))
        tally.holds("save with changed %s" % changed, is_so, "status %s, %r" % (got.status, got.err[-300:]))
