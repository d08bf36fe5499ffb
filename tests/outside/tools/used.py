"""Snapshots that were written to, as the tools read them: `layout --device` by stores that are made here. What a kernel finds in such stores
is compared by tests/kernel, and what dmremap does with them by `stored`."""

import importlib
import os
import random

import tool_streams
from harness import run, text_of
from store_lists import SECTOR, store
from tool_calls import TOOL, call

CHUNK = 8
TABLE = "o: 0 64 snapshot-origin base\ns: 0 64 snapshot base cow P 8\n"
DISKS = "base 64\ncow 160\nlost 64\n"
PAIRS = [(3, 2), (0, 3)]
USED = "0 8 cow 24\n8 16 base 8\n24 8 cow 16\n32 32 base 32\n"
FRESH = "0 64 base 0\n"
TOLD = "s: its store has 2 chunks\n"
PATHS = ["--paths", "paths"]
NEXT = "; --paths says where disks are"
CHANGES = 80


class Stores:
    """Calls of the command in a folder of its own, over a stack and the image of a store."""

    def __init__(self, tally, program, top):
        self.tally, self.program, self.top = tally, program, top
        self.folder = os.path.dirname(program.file("used/image", store(PAIRS)))
        self.put("table", TABLE)
        self.put("disks", DISKS)
        self.put("paths", "cow image\n")

    def put(self, name, content):
        self.program.file("used/" + name, content)

    def call(self, words, source, device="s"):
        return call(self.top, ["layout", "--program", self.program.path, *words, "--device", device, *source], folder=self.folder)

    def same(self, name, out, err=TOLD, words=PATHS, source=("table", "table", "disks"), device="s"):
        self.tally.same("used: " + name, self.call(words, source, device), 0, out, err)

    def refused(self, name, why, words=PATHS, source=("table", "table", "disks"), device="s", told=""):
        self.tally.same("used: " + name, self.call(words, source, device), 1, "", "%s%s layout: %s\n" % (told, TOOL, why))


def test_states(case):
    case.same("a store with two chunks", USED)
    case.same("the origin", FRESH, "", device="o")
    for name, content, out, count in (
            ("a store of zeros", bytes(80 * SECTOR), FRESH, "0 chunks"), ("a store without pairs", store([]), FRESH, "0 chunks"),
            ("a store with one", store(PAIRS[:1]), "0 24 base 0\n24 8 cow 16\n32 32 base 32\n", "1 chunk"),
            ("a store that is valid by another number", store(PAIRS, valid=2), USED, "2 chunks")):
        case.put("image", content)
        case.same(name, out, "s: its store has %s\n" % count)
    case.put("image", store(PAIRS))
    case.same("a fresh one", FRESH, "", ["--fresh"])
    case.same("a fresh one whose disks are somewhere", FRESH, "", ["--fresh", *PATHS])
    case.put("k.table", TABLE.replace(" P ", " K "))
    case.same("kind K, which is laid out as P", USED, source=("table", "k.table", "disks"))
    case.put("n.table", TABLE.replace(" P ", " N "))
    case.same("kind N as fresh", FRESH, "", ["--fresh"], ("table", "n.table", "disks"))
    case.refused("kind N", "the store of s: it isn't persistent, so no disk says what is in it; --fresh takes it as new", source=("table", "n.table", "disks"))
    # Past the first area: the image has three.
    case.put("many.table", "s: 0 80 snapshot base cow P 1\n")
    case.put("many.disks", "base 80\ncow 80\n")
    case.put("image", store([(it ^ 1, 2 + it + it // 32) for it in range(70)], chunk=1, chunks=80))
    got = case.call(PATHS, ("table", "many.table", "many.disks"))
    rows = got.out.decode().splitlines()
    is_so = got.status == 0 and [rows[0], rows[33], rows[68:]] == ["0 1 cow 3", "33 1 cow 35", ["68 1 cow 73", "69 1 cow 72", "70 10 base 70"]]
    case.tally.holds("used: three areas", is_so and got.err == b"s: its store has 70 chunks\n", "%r, %r" % (rows, got.err))
    case.put("image", store(PAIRS))


def test_refused(case):
    """Stores that dmremap refuses, each in words, and images that none is read from."""
    where, damaged = "the store of s: ", "which no kernel writes: it is damaged, was changed while it was read, or is another snapshot's" + NEXT
    belong = "look whether the disks, their places and the tables belong together" + NEXT
    unread = "its header or its list can't be read to its end: give whole images of the disks that it lies on" + NEXT
    for name, content, why in (
            ("no header", store(PAIRS, magic=7), "it begins neither as a store nor with zeros, and a kernel refuses it: " + belong),
            ("another version", store(PAIRS, version=2), "it isn't of version 1, and a kernel refuses it: " + belong),
            ("another chunk", store(PAIRS, said=16), "its chunks have another length than the tables say, and a kernel goes by the store: `od -An -tu4 -j12 -N4` "
             "of its first sector prints how many sectors they have, so write that there" + NEXT),
            ("a place left out", store([(3, 2), (0, 5)]), "its list has chunks in another order than that of their places, or more than there is room for, " + damaged),
            ("a free pair before others", store([(0, 0), (3, 2)]), "its list goes on behind a free place, " + damaged),
            ("a chunk past the end", store([(3, 2), (9, 3)]), "its list has a chunk past the end of the snapshot, " + damaged),
            ("a chunk twice", store([(3, 2), (3, 3)]), "its list has a chunk twice, " + damaged),
            ("a store that isn't valid", store(PAIRS, valid=0), "it is invalid, as it was full once: what the origin overwrote since is lost, and nothing of the "
             "snapshot is read; --fresh takes what the origin has"),
            ("an image without an area", store(PAIRS)[:8 * SECTOR + 100], unread)):
        case.put("image", content)
        case.refused(name, where + why)
    case.put("image", b"BZh" + store(PAIRS))
    case.refused("a compressed image", "image: it is compressed (bzip2): unpack it")
    case.put("image", store(PAIRS)[:20])
    case.refused("a short image", "image: it is too short: it has 20 bytes: give the image of a disk")
    case.put("image", store(PAIRS))
    missing = "a disk that its header or its list lies on isn't here (%s)" + NEXT
    case.put("away", "cow nothing\n")
    case.refused("no image", where + missing % "cow", ["--paths", "away"])
    case.refused("a store on a disk that isn't here", where + missing % "cow", [])
    os.mkfifo(os.path.join(case.folder, "pipe"))
    for path in "pipe", "/dev/zero":
        case.put("away", "cow %s\n" % path)
        case.refused("a store in " + path, path + ": neither a file nor a disk: give an image of the disk", ["--paths", "away"])
    case.put("away", "cow image?offset=100&length=512\n")
    case.refused("a place within a sector", "away:1: not a part of a file, give PATH?offset=BYTES&length=BYTES, both multiples of 512: "
                 "cow image?offset=100&length=512", ["--paths", "away"])
    case.put("away", "cows image\n")
    case.refused("a path of no disk", "away: no disk is called cows: give a name that the tables have", ["--paths", "away"])
    case.put("away", b"cow b\xff\n")
    os.symlink("image", os.path.join(os.fsencode(case.folder), b"b\xff"))
    case.refused("a path that isn't UTF-8", "%s: dmremap: paths: text at 1" % case.program.path, ["--paths", "away"])


def test_unloaded(case):
    """Snapshots and stores that dmremap loads no stack with: what it says is told; and others that do what was meant."""
    case.put("unloaded", "s: 0 32 snapshot base cow P 8\n")
    case.refused("a short one", "%s: it ends with status 1: see what it said" % case.program.path, source=("table", "unloaded", "disks"), told="dmremap: source: snapshot at 1\n")
    case.put("loaded.disks", DISKS + "longer 80\nlarge 4325379\n")
    for name, table, origin, kept in (("a short one", "b: 0 64 linear longer 0\ns: 0 64 snapshot /dev/mapper/b cow P 8\n", "longer", "cow"),
                                      ("other lines", "s: 0 64 snapshot base cow P 8\nu: 0 64 linear /dev/mapper/s 0\nu: 64 8 zero\n", "base", "cow"),
                                      ("what is lost of a store", "z: 0 32 linear cow 0\nz: 32 64 linear lost 0\ns: 0 64 snapshot base /dev/mapper/z P 8\n", "base", "cow"),
                                      ("too many places", "z: 0 160 linear large 0\ns: 0 64 snapshot base /dev/mapper/z P 8\n", "base", "large")):
        case.put("loaded", table)
        case.put("kept", kept + " image\n")
        case.same("in place of " + name, USED.replace("base", origin).replace("cow", kept), words=["--paths", "kept"], source=("table", "loaded", "loaded.disks"))


def test_places(case):
    """Stores that lie on devices: striped, and a group."""
    content = store(PAIRS)
    columns = [b"".join(content[at + 4 * column * SECTOR:at + 4 * (column + 1) * SECTOR] for at in range(0, len(content), 8 * SECTOR)) for column in (0, 1)]
    case.put("x.img", bytes(10 * SECTOR) + columns[0])
    case.put("y.img", b"x" * 1024 + columns[1])
    case.put("striped", "c: 0 160 striped 2 4 x 10 y 0\ns: 0 64 snapshot base /dev/mapper/c P 8\n")
    case.put("striped.disks", "base 64\nx 90\ny 80\n")
    case.put("striped.paths", "x x.img\ny y.img?offset=1024&length=40960\n")
    case.same("a store on two disks", "0 4 x 22\n4 4 y 12\n8 16 base 8\n24 4 x 18\n28 4 y 8\n32 32 base 32\n",
              words=["--paths", "striped.paths"], source=("table", "striped", "striped.disks"))
    # Of the area of the list, the first sectors lie on x and the others on y.
    case.put("striped.paths", "x x.img\ny away/y.img\n")
    case.refused("a store of whose disks another is away", "the store of s: a disk that its header or its list lies on isn't here (y)" + NEXT,
                 ["--paths", "striped.paths"], ("table", "striped", "striped.disks"))
    case.put("striped.paths", "x away/x.img\ny y.img\n")
    case.refused("a store of whose disks one is away", "the store of s: a disk that its header or its list lies on isn't here (x)" + NEXT,
                 ["--paths", "striped.paths"], ("table", "striped", "striped.disks"))
    case.put("group", text_of(os.path.join(case.top, "examples", "vg0-snapshot.backup")))
    case.put("sda1.img", b"")
    with open(os.path.join(case.folder, "sda1.img"), "r+b") as it:
        it.seek(206848 * SECTOR)
        it.write(store([(1001, 2), (7, 3)], chunks=2048))
    case.put("group.paths", "/dev/sda1 sda1.img\n")
    extents, told = "0 56 /dev/sda1 2048\n56 8 /dev/sda1 206872\n64 7944 /dev/sda1 2112\n8008 8 /dev/sda1 206864\n", "vg0-snap: its store has 2 chunks\n"
    got = case.call(["--paths", "group.paths"], ("lvm", "group"), "vg0-snap")
    case.tally.holds("used: a group", got.status == 0 and got.out.decode().startswith(extents) and got.err.decode() == told, "%r, %r" % (got.out[:200], got.err))
    case.put("hole.img", store(PAIRS)[:8 * SECTOR])
    case.put("hole", "c: 0 8 linear z 0\nc: 8 152 linear z 8\ns: 0 64 snapshot base /dev/mapper/c P 8\n")
    case.put("hole.disks", "base 64\nz 160\n")
    case.put("hole.paths", "z hole.img\n")
    case.refused("an area past an image's end", "the store of s: its header or its list can't be read to its end: give whole images of the disks that it lies on" + NEXT,
                 ["--paths", "hole.paths"], ("table", "hole", "hole.disks"))


def test_stacks(case):
    """Read-only snapshots, origins that fail, snapshots of snapshots, and stores that nothing is read through."""
    case.put("ro", "s,,,ro,0 64 snapshot base cow P 8\n")
    case.same("a read-only one", USED, source=("concise", "ro", "disks"))
    case.put("error", "z: 0 40 linear base 0\nz: 40 24 error\ns: 0 64 snapshot /dev/mapper/z cow P 8\n")
    case.put("image", store(PAIRS + [(6, 4)]))
    case.same("an origin that fails", "0 8 cow 24\n8 16 base 8\n24 8 cow 16\n32 8 base 32\n40 8 error\n48 8 cow 32\n56 8 error\n", "s: its store has 3 chunks\n",
              source=("table", "error", "disks"))
    case.put("image", store(PAIRS))
    case.put("upper", store([(1, 2)]))
    case.put("two", "t: 0 64 snapshot /dev/mapper/s cow2 P 8\ns: 0 64 snapshot base cow P 8\nu: 0 64 snapshot base none P 8\n")
    case.put("two.disks", DISKS + "cow2 160\nnone 160\n")
    case.put("two.paths", "cow image\ncow2 upper\n")
    two = {"words": ["--paths", "two.paths"], "source": ("table", "two", "two.disks")}
    case.same("a snapshot of one", "0 8 cow 24\n8 8 cow2 16\n16 8 base 16\n24 8 cow 16\n32 32 base 32\n", "t: its store has 1 chunk\n" + TOLD, device="t", **two)
    case.same("the lower one", USED, **two)
    case.put("image", store(PAIRS, valid=0))
    case.refused("one of which the lower is invalid", "the store of s: it is invalid, as it was full once: what the origin overwrote since is lost, and nothing of the "
                 "snapshot is read; --fresh takes what the origin has", device="s", **two)
    case.put("image", store(PAIRS))


def test_words(case):
    piped = ["bash", "-c", '"$@" --device s table <(cat table) <(cat disks)', "bash", os.path.join(case.top, TOOL), "layout", "--program", case.program.path, *PATHS]
    case.tally.same("used: over pipes", run(piped, folder=case.folder), 0, USED, TOLD)
    dies = case.program.file("used/dies", '#!/bin/sh\ncase "$*" in *--status) kill -9 $$;; esac\nexec %s "$@"\n' % case.program.path)
    os.chmod(dies, 0o755)
    got = call(case.top, ["layout", "--program", dies, *PATHS, "--device", "s", "table", "table", "disks"], folder=case.folder)
    case.tally.same("used: by a dmremap that dies", got, 5, "", "%s layout: %s: it was ended by signal 9\n" % (TOOL, dies))


def test_changed(case):
    """Random changes of the image of a store: an answer, or a refusal in words."""
    command = importlib.import_module("dmremap_tools.commands").find("layout")
    dice, content = random.Random(7), store(PAIRS)
    # The header and the list, where nearly all else is zeros.
    spots = [it for at in (0, CHUNK * SECTOR) for it in range(at, at + 40)]
    for number in range(CHANGES):
        changed = bytearray(content)
        for _ in range(dice.choice((1, 1, 2, 5))):
            changed[dice.choice(spots)] = dice.choice((0, 1, 2, 3, 8, 16, 255))
        case.put("image", bytes(changed[:dice.choice((len(content), len(content), dice.randrange(len(content))))]))
        why = tool_streams.fault_of(command, case.call(PATHS, ("table", "table", "disks")))
        case.tally.holds("used: change %d of an image" % number, not why, why)
    case.put("image", content)


def case(tally):
    """Stores of each state, and changed ones."""
    return Stores(tally, tally.program, tally.top)
