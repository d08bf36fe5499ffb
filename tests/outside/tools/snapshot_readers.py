"""Whatever reads through a snapshot: `save` and `layout --device`. Three snapshots of one origin were written to, and their
stores lie on devices of the stack. What each holds is put together here from the disks."""

import itertools
import os

import lvm2_rows
from tool_calls import TOOL, call, read
from store_lists import store

SECTOR, CHUNK, LENGTH = 512, 8, 64
# The lines of what lies below. The stores have room for a second area, which nobody has to read.
BELOW = ("base: 0 64 linear d 0\nc1: 0 2200 linear d 64\nc2: 0 40 linear d 2300\nc2: 40 2160 linear e 0\nc3: 0 2208 striped 2 4 d 2400 e 2200\n")
SNAPSHOTS = ["s%d: 0 64 snapshot /dev/mapper/base /dev/mapper/c%d P 8\n" % (it, it) for it in (1, 2, 3)]
PAIRS = {"s1": [(3, 2), (0, 3)], "s2": [(it, 9 - it) for it in range(7, 0, -1)], "s3": [(5, 2)]}
DISKS = "d 3600\ne 3400\n"
TOLD = {name: "%s: its store has %d chunk%s\n" % (name, len(pairs), "s" * (len(pairs) != 1)) for name, pairs in PAIRS.items()}
ASIDE = "snapshots"


def store_place(name, at):
    """The disk and the sector where a sector of a store lies."""
    if name == "s1":
        return "d", 64 + at
    if name == "s2":
        return ("d", 2300 + at) if at < 40 else ("e", at - 40)
    return "de"[at // 4 % 2], (2400, 2200)[at // 4 % 2] + at // 8 * 4 + at % 4


class Readers:
    """The disks in a folder, and what each device has."""

    def __init__(self, tally, program, top):
        self.tally, self.program, self.top = tally, program, top
        self.folder = os.path.dirname(program.file(ASIDE + "/table", "o: 0 64 snapshot-origin /dev/mapper/base\n" + BELOW + "".join(SNAPSHOTS)))
        self.put("disks", DISKS)
        self.put("paths", "d d.img\ne e.img\n")
        self.disks = {"d": bytearray(os.urandom(3600 * SECTOR)), "e": bytearray(os.urandom(3400 * SECTOR))}
        for name, pairs in PAIRS.items():
            head = store(pairs)[:2 * CHUNK * SECTOR]
            for at in range(2 * CHUNK):
                self.write(store_place(name, at), head[at * SECTOR:(at + 1) * SECTOR])
        self.save_disks()
        self.homes = {name: self.homes_of(name) for name in ("base", *PAIRS)}
        self.content = {name: b"".join(map(self.sector, homes)) for name, homes in self.homes.items()}

    def write(self, place, content):
        disk, at = place
        self.disks[disk][at * SECTOR:(at + 1) * SECTOR] = content

    def save_disks(self):
        for name, content in self.disks.items():
            self.put(name + ".img", bytes(content))

    def sector(self, place):
        disk, at = place
        return bytes(self.disks[disk][at * SECTOR:(at + 1) * SECTOR])

    def homes_of(self, name):
        """The disk and the sector where each sector of a device is read."""
        number_of = {old: place for old, place in PAIRS.get(name, ())}
        return [store_place(name, number_of[at // CHUNK] * CHUNK + at % CHUNK) if at // CHUNK in number_of else ("d", at) for at in range(LENGTH)]

    def put(self, name, content):
        return self.program.file("%s/%s" % (ASIDE, name), content)

    def read(self, name):
        return read(os.path.join(self.folder, name))

    def call(self, command, *words, given=""):
        return call(self.top, [command, "--program", self.program.path, *words], given, self.folder)

    def told(self, name):
        return TOLD.get(name, "")


SOURCE = ["table", "table", "disks"]
PATHS = ["--paths", "paths"]


# The stores of a group's snapshots: the extents that they lie on, and their pairs. All else of their areas is zeros.
OF_GROUP = {"one": (range(10, 20), [(5, 2)]), "two": ([*range(20, 24), *range(60, 66)], [(63, 2), (0, 3)]), "three": (range(30, 40), [(9, 2), (8, 3), (7, 4)])}


def test_group(case):
    """Three of one group, whose stores have room for more areas, in each order of the volumes: none is taken for fresh."""
    disk = bytearray(os.urandom(4096 * SECTOR))
    place_of = {name: [8 + 8 * extent + it for extent in extents for it in range(8)] for name, (extents, _) in OF_GROUP.items()}
    content = {}
    for name, (_, pairs) in OF_GROUP.items():
        head = store(pairs, chunk=1, chunks=80)
        for at in (0, 1, 34, 67):
            disk[place_of[name][at] * SECTOR:(place_of[name][at] + 1) * SECTOR] = head[at * SECTOR:(at + 1) * SECTOR]
        homes = [place_of[name][dict(pairs)[at]] if at in dict(pairs) else 8 + at for at in range(64)]
        content[name] = b"".join(bytes(disk[it * SECTOR:(it + 1) * SECTOR]) for it in homes)
    case.put("sda.img", bytes(disk))
    case.put("sda.paths", "/dev/sda sda.img\n")
    volumes = {"one": lvm2_rows.plain("one", 10, 10), "three": lvm2_rows.plain("three", 10, 30),
               "two": lvm2_rows.volume("two", lvm2_rows.striped(4, ("pv0", 20)), lvm2_rows.striped(6, ("pv0", 60)))}
    for order in itertools.permutations(OF_GROUP):
        records = [lvm2_rows.record("home", name, 8, number) for number, name in enumerate(order)]
        case.put("group", lvm2_rows.GROUP % "".join([lvm2_rows.plain("home", 8, 0), *[volumes[it] for it in order], *records]))
        for name, wanted in content.items():
            got = case.call("save", "--paths", "sda.paths", "g-" + name, "out", "lvm", "group")
            case.tally.holds("saving %s of a group in the order %s %s %s" % (name, *order), got.status == 0 and case.read("out") == wanted, got.err)
            remove(case, "out")


def test_saved(case):
    """What `save` makes of each, of a device on one, and of one whose store isn't read."""
    case.put("upper", "t: 0 20 linear /dev/mapper/s2 7\n" + BELOW + "".join(SNAPSHOTS))
    for name, wanted, words, told in (
            ("s1", case.content["s1"], [], TOLD["s1"]), ("s2", case.content["s2"], [], TOLD["s2"]), ("s3", case.content["s3"], [], TOLD["s3"]),
            ("t", case.content["s2"][7 * SECTOR:27 * SECTOR], [], TOLD["s2"]), ("base", case.content["base"], [], ""),
            ("s1", case.content["base"], ["--fresh"], "")):
        got = case.call("save", *PATHS, *words, name, "out", "table", "upper", "disks")
        case.tally.same("saving %s %s" % (name, words), got, 0, "", told)
        case.tally.holds("what %s %s has" % (name, words), case.read("out") == wanted, "it is another")
        remove(case, "out")


INVALID = "the store of s1: it is invalid, as it was full once: what the origin overwrote since is lost, and nothing of the snapshot is read; --fresh takes " \
          "what the origin has"
NOT_HERE = "the store of s1: a disk that its header or its list lies on isn't here (d); --paths says where disks are"


def test_not_read(case):
    """Snapshots that `save` can't read, nor `layout` (`used`): no file is made, and what is said leads on."""
    whole = bytes(case.disks["d"])
    case.put("invalid.img", whole[:64 * SECTOR] + store([], chunks=1, valid=0) + whole[(64 + CHUNK) * SECTOR:])
    case.put("invalid", "d invalid.img\ne e.img\n")
    for name, words, why in (("one that is invalid", ["--paths", "invalid"], INVALID), ("one whose disk isn't here", [], NOT_HERE)):
        got = case.call("save", *words, "s1", "out", *SOURCE)
        case.tally.same("saving " + name, got, 1, "", "%s save: %s\n" % (TOOL, why))
        case.tally.holds("what that leaves of " + name, case.read("out") is None, "it is there")


def remove(case, name):
    os.unlink(os.path.join(case.folder, name))


def test_extents(case):
    """Where snapshots lie: as the places of their sectors say."""
    for name in ("base", "s1", "s2", "s3"):
        wanted, homes = [], case.homes[name]
        for at, (disk, sector) in enumerate(homes):
            if wanted and wanted[-1][2] == disk and wanted[-1][3] + wanted[-1][1] == sector:
                wanted[-1][1] += 1
            else:
                wanted.append([at, 1, disk, sector])
        got = case.call("layout", *PATHS, "--device", name, *SOURCE)
        case.tally.same("the extents of " + name, got, 0, "".join("%d %d %s %d\n" % tuple(it) for it in wanted), case.told(name))
    case.put("lines", "v: 0 16 linear d 0\nv: 16 8 zero\nv: 24 1 linear d 16\nv: 25 1 linear e 17\nv: 26 2 error\nv: 28 2097152 linear f 0\nv: 2097180 2097152 zero\n")
    case.put("lines.disks", DISKS + "f 2097152\n")
    case.tally.same("extents of other lines", case.call("layout", "--device", "v", "table", "lines", "lines.disks"), 0,
                    "0 16 d 0\n16 8 zero\n24 1 d 16\n25 1 e 17\n26 2 error\n28 2097152 f 0\n2097180 2097152 zero\n")
    case.tally.same("extents of no device", case.call("layout", "--device", "w", "table", "lines", "lines.disks"), 1, "", TOOL + " layout: lines: no device w: `dmremap table` prints their names\n")


def case(tally):
    """Each command that reads."""
    return Readers(tally, tally.program, tally.top)
