"""Members of md arrays that are given as disks: of which one the bytes are the array's, by superblocks of all versions."""

import contextlib
import os

import physical_volumes
import tool_calls
from harness import Case
from lvm_texts import dashed
from physical_volumes import SECTOR, damaged, md_end_member, md_member, md_old_member, one_volume, patched
from tool_calls import TOOL, read

# The physical volumes of the group here, of which the first has the only volume.
NAME, OTHER, IDENTITY = "/dev/sda1", "/dev/sdb1", b"theonly".ljust(32, b"x")
BEGIN, COUNT = 128, 8
TEXT = one_volume(*(("pv%d" % number, name, 256, BEGIN, dashed(it.ljust(32, "x"))) for number, (name, it) in enumerate(((NAME, "theonly"), (OTHER, "theother")))))
CONTENT = b"".join((b"sector %d\n" % number * 512)[:512] for number in range(COUNT))
VOLUME = patched(physical_volumes.volume((4096, physical_volumes.area(b"x {\n}\n\0")), length=1 << 17,
                                         identity=IDENTITY, size=1 << 17), (BEGIN * SECTOR, CONTENT))
PARTS = "a member of an md array that isn't raid1, so that no member has all of a physical volume: give the images of all members to " \
        "`save GROUP/VOLUME OUT IMAGE..`, which puts it together"
CHANGING = "a member of an md array that is a spare, or is being filled or reshaped, so that it doesn't have the array's bytes: take another member"
BAD = "a member of an md array that has bad blocks, which a kernel reads from another one: take that"
DAMAGED = "its md superblock at byte %d is damaged: give the other members alone, or make the array anew on copies (mdadm --create --assume-clean)"
OLDER = "a member of an md array that was away when others changed: it has the count of events %d, and %s has %d: take that"
# What makes a member of each version, and where its data begins.
VERSIONS = [("0.90", md_old_member, 0), ("1.0", md_end_member, 0), ("1.1", lambda data, **how: md_member(data, 16, **how), 16),
            ("1.2", lambda data, **how: md_member(data, 2048, 4096, **how), 2048)]


class ArrayMembers(Case):
    """Each version and level, what isn't whole, halves of which one is older, and each command that takes places, in a folder
    with the metadata of a group."""

    def setUp(self):
        self.folder = os.path.dirname(self.program.file("members/text", TEXT))

    def call(self, *words):
        return tool_calls.call(self.top, list(words), folder=self.folder)

    def refuses(self, name, got, message, status=1, out=""):
        """It is refused with this message, perhaps after others."""
        lines = got.err.decode().splitlines()
        is_so = got.status == status and got.out.decode() == out and bool(lines) and lines[-1] == message
        self.holds(name, is_so, "%s, %r, %r" % (got.status, got.out, lines))

    def found(self, title, wanted, *images):
        """Whether the volume is saved out of images, each with its content, or with which message they are refused."""
        self.read(title, wanted, *(name for name, _ in images), made=images)

    def read(self, title, wanted, *places, made=()):
        """The same of places."""
        for name, content in made:
            self.program.file("members/" + name, content)
        self.program.file("members/paths", "".join("%s %s\n" % it for it in zip((NAME, OTHER), places)))
        with contextlib.suppress(FileNotFoundError):
            os.remove(os.path.join(self.folder, "out"))
        got = self.call("save", "--program", self.program.path, "--paths", "paths", "g-v", "out", "lvm", "text")
        if isinstance(wanted, str):
            self.refuses(title, got, "%s save: %s" % (TOOL, wanted), out="")
            return
        with contextlib.suppress(FileNotFoundError), open(os.path.join(self.folder, "out"), "rb") as out:
            self.holds(title, got.status == 0 and out.read() == CONTENT, "%s, %r" % (got.status, got.err))
            return
        self.holds(title, False, "%s, %r" % (got.status, got.err))

    def test_levels(self):
        """Of which levels a member is taken, and in which states."""
        for version, made, start in VERSIONS:
            for level, count, wanted in ((1, 2, None), (1, 1, None), (0, 1, None), (-1, 1, None), (0, 2, "a: " + PARTS),
                                         (-1, 2, "a: " + PARTS), (4, 3, "a: " + PARTS), (5, 3, "a: " + PARTS), (6, 4, "a: " + PARTS), (10, 2, "a: " + PARTS)):
                self.found("a member of level %d of %d, version %s" % (level, count, version), wanted, ("a", made(VOLUME, level=level, count=count)))
        for version, made, start in VERSIONS[1:]:
            for features, wanted in ((0x1, None), (0x2, "a: " + CHANGING), (0x4, "a: " + CHANGING), (0x8, "a: " + BAD), (0x200, "a: " + CHANGING)):
                self.found("a member with the features %x, version %s" % (features, version), wanted, ("a", made(VOLUME, level=1, features=features)))
            for role in (0xFFFF, 0xFFFE, 0xFFFD):
                spare = made(VOLUME, level=1, roles=(role, 0))
                self.found("a member with the role %x, version %s" % (role, version), "a: " + CHANGING, ("a", spare))
        for state, minor, wanted in ((0, 90, "a: " + CHANGING), (1, 90, "a: " + CHANGING), (7, 90, "a: " + CHANGING), (6, 91, "a: " + CHANGING)):
            self.found("a member in the state %d, version 0.%d" % (state, minor), wanted, ("a", md_old_member(VOLUME, state=state, minor=minor)))
        self.found("a member of another machine's order", "a: " + PARTS, ("a", md_old_member(VOLUME, level=5, count=3, order=">")))
        self.check_damaged()

    def check_damaged(self):
        """A superblock that isn't sound says nothing: a label at the beginning does, if the volume has no more than is here."""
        for version, made, start in VERSIONS:
            at = {"0.90": 1 << 17, "1.0": (1 << 17) + 4096, "1.1": 0, "1.2": 4096}[version]
            changed = damaged(made(VOLUME, level=1), at + (28 if version == "0.90" else 72))
            wanted = "a: " + DAMAGED % at if start else None
            self.found("a member whose superblock is damaged, version " + version, wanted, ("a", changed))
        for version, made, start, at, other in (("1.0", *VERSIONS[1][1:], (1 << 17) + 4096, (8, 16)), ("1.2", *VERSIONS[3][1:], 4096, (0, 2048))):
            moved = patched(made(VOLUME, level=1), (at, physical_volumes.md_superblock(other[0], 1, other[1], 16)))
            wanted = "a: " + DAMAGED % at if start else None
            self.found("a member whose superblock says another place, version " + version, wanted, ("a", moved))
        stale = patched(VOLUME.ljust(1 << 18, b"\0"), (4096, physical_volumes.md_superblock(8, 5, 300, 100)))
        self.found("a volume on what was a member", None, ("a", stale))

    def test_halves(self):
        """Of two halves of an array that differ in their counts, the older is refused by name; halves of other arrays don't matter."""
        for version, made, start in VERSIONS:
            older, newer = made(VOLUME, level=1, events=17), made(VOLUME, level=1, events=26, role=1)
            wanted = "a: " + OLDER % (17, "b", 26)
            self.found("an older half, version " + version, wanted, ("a", older), ("b", newer))
            self.found("an older half after the newer, version " + version, wanted, ("b", newer), ("a", older))
        other = md_member(bytes(1 << 16), 16, level=1, events=99, array=b"another array...")
        self.program.file("members/c", other)
        self.program.file("members/paths", "{0} {1}/a?offset=8192&length=131072\n/dev/sdb1 {1}/c?offset=8192&length=65536\n".format(NAME, self.folder))
        self.program.file("members/a", md_member(VOLUME, 16, level=1))
        self.program.file("members/table", "v: 0 8 linear %s 8\n" % NAME)
        self.program.file("members/disks", NAME + " 256\n/dev/sdb1 256\n")
        words = ["layout", "--program", self.program.path, "--paths", "paths", "--device", "v", "table", "table", "disks"]
        got = self.call(*words)
        self.holds("halves of two arrays", got.status == 0, got.err)
        self.program.file("members/b", md_member(VOLUME, 16, level=1, events=8))
        self.program.file("members/paths", "{0} {1}/a?offset=8192&length=131072\n/dev/sdb1 {1}/b\n".format(NAME, self.folder))
        got = self.call(*words)
        self.refuses("an older half among disks", got, "{0} layout: {1}/a: {2}".format(TOOL, self.folder, OLDER % (7, self.folder + "/b", 8)))

    def test_partitions(self):
        """Members on partitions, of which a disk may end with the superblock of its last one."""
        for version, made, start in VERSIONS:
            for level, wanted in ((1, None), (5, "a: " + PARTS)):
                part = made(VOLUME, level=level, count=2)
                disk = physical_volumes.mbr((0x83, 32, 8), (0xFD, 64, len(part) // SECTOR)).ljust(64 * SECTOR, b"\0") + part
                self.found("a member of level %d on a partition, version %s" % (level, version), wanted, ("a", disk))
        # The superblock of the last partition is where that of the disk would be, and the volume lies on the first one.
        last = md_old_member(bytes(1 << 16), level=5, count=3)
        disk = physical_volumes.mbr((0x8E, 128, 256), (0xFD, 384, len(last) // SECTOR)).ljust(128 * SECTOR, b"\0") + VOLUME + last
        self.read("a volume before a partition of an array", None, "a?offset=65536&length=131072", made=[("a", disk)])

    def test_places(self):
        """Each command that takes places, of a member of raid5 whose first chunk has the label, and of one of raid1."""
        self.program.file("members/table", "v: 0 8 linear %s 8\n" % NAME)
        self.program.file("members/disks", NAME + " 256\n")
        asked, source = ["--program", self.program.path, "--paths", "paths"], ["table", "table", "disks"]
        commands = {"save": ["save", *asked, "v", "out", *source],
            "layout": ["layout", *asked, "--device", "v", *source],
        }
        for level, start in ((5, 16), (5, 17), (5, 4), (1, 16)):
            self.program.file("members/a", md_member(VOLUME, 16, level=level, count=3))
            self.program.file("members/paths", "%s %s?offset=%d&length=131072\n" % (NAME, os.path.join(self.folder, "a"), start * SECTOR))
            for name, words in commands.items():
                with contextlib.suppress(FileNotFoundError):
                    os.remove(os.path.join(self.folder, "out"))
                got = self.call(*words)
                title = "%s at sector %d of a member of level %d" % (name, start, level)
                if level == 1:
                    self.holds(title, got.status == 0, "%s, %r" % (got.status, got.err))
                    continue
                is_so = got.status == 1 and PARTS in got.err.decode() and not os.path.exists(os.path.join(self.folder, "out"))
                self.holds(title, is_so, "%s, %r" % (got.status, got.err))

    def test_tables(self):
        """Tables that name members by their own paths, read them; those that name an array read the data alone."""
        contents = [bytes([65 + it]) * (16 * SECTOR) for it in range(2)]
        for place, content in enumerate(contents):
            self.program.file("members/m%d" % place, bytes(2048 * SECTOR) + md_member(content, 16, level=0, role=place))
        self.program.file("members/table", "v: 0 32 striped 2 16 /dev/sda1 16 /dev/sdb1 16\n")
        self.program.file("members/disks", "/dev/sda1 32\n/dev/sdb1 32\n")
        self.program.file("members/paths", "/dev/sda1 m0?offset=1048576&length=16384\n/dev/sdb1 m1?offset=1048576&length=16384\n")
        got = self.call("save", "--program", self.program.path, "--paths", "paths", "v", "out", "table", "table", "disks")
        self.holds("an array by its members", got.status == 0 and read(os.path.join(self.folder, "out")) == b"".join(contents), got.err)
        os.remove(os.path.join(self.folder, "out"))
        for version, made, start in VERSIONS:
            for level, place, message in ((1, start, ""), (5, 0, PARTS), (5, start, PARTS)) + ((1, 0, "/dev/md0 is an array, and this place is in a member "
                                          "of one whose data begins at byte %d: give that, as IMAGE?offset=BYTES&length=BYTES" % (start * SECTOR)),) * bool(start) + ((1, start + 8, "/dev/md0 is an "
                                          "array, and this place is in a member of one whose data begins at byte %d: give that, as IMAGE?offset=BYTES&length=BYTES"
                                          % (start * SECTOR)),):
                self.program.file("members/a", made(VOLUME, level=level, count=3))
                self.program.file("members/table", "v: 0 8 linear /dev/md0 8\n")
                self.program.file("members/disks", "/dev/md0 256\n")
                self.program.file("members/paths", "/dev/md0 a%s\n" % ("?offset=%d&length=131072" % (place * SECTOR) if place else ""))
                got = self.call("save", "--program", self.program.path, "--paths", "paths", "v", "out", "table", "table", "disks")
                title = "the disk of an array at sector %d of a member of level %d, version %s" % (place, level, version)
                if message:
                    self.refuses(title, got, "%s save: a: %s" % (TOOL, message))
                else:
                    self.holds(title, got.status == 0 and read(os.path.join(self.folder, "out")) == VOLUME[4096:8192], got.err)
                    os.remove(os.path.join(self.folder, "out"))
