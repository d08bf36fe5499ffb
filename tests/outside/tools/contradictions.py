"""What is here may be contradicted by what is here and can't be read, by what a text says of a volume, or by who else has its sectors:
it is refused by name then, and given where that is left out."""

import physical_volumes
import tool_calls
from lvm_raids import CHUNK, EACH, META, ROWS, Raid, put
from physical_volumes import patched
from piles import (A, B, DATA, EXTENT, HIDDEN, MIB, SECTOR, content_of, dashed, disk, extents_of, linear, member, pile, segment, store,
                   text, volume)
from plain_model import parity_legs

HOME = volume("home", "h", linear(0, 5, ("pv0", 3)))
NEW, OLD = extents_of(A, 3, 5), extents_of(B, 3, 5)
LEAVE_OUT = "leave that out to take what is here"


def in_partition(part, at=2048):
    """A disk with a GPT, and one partition that begins at this sector."""
    count = len(part) // SECTOR
    entry = at, at + count - 1
    return physical_volumes.with_backup(physical_volumes.gpt(entry, last=at + count + 32).ljust(at * SECTOR, b"\0") + part, entry)


def wiped(content, *runs):
    """Content with zeros in some runs of bytes, which may count from its end."""
    return patched(content, *((at % len(content), bytes(count)) for at, count in runs))


def test_halves(tally, pile):
    """A mirror's older half, beside a newer one of which nothing can be read: its superblock, in a partition, in a whole disk or at the
    end; the partition table, its first sectors, or the image to its end."""
    known = text("vg0", "g", 4, "a", HOME).replace(b"/dev/a", b"/dev/md0")
    inside = [disk("a", content, known) for content in (A, B)]
    size = len(inside[0]) // SECTOR
    new, old = (member(content, 1, number, (0, 1), 9 - 5 * number, size=size) for number, content in enumerate(inside))
    at_end, old_at_end = (member(content, 1, number, (0, 1), 9 - 5 * number, size=size, version=0) for number, content in enumerate(inside))
    whole = in_partition(new)
    for name, images in (
            ("a superblock of zeros", {"new": wiped(new, (4096, 4096))}), ("a superblock whose sum is wrong", {"new": patched(new, (4096 + 200, b"\xff"))}),
            ("a superblock of zeros in a partition", {"new": wiped(whole, (MIB + 4096, 4096))}),
            ("both GPT headers damaged", {"new": wiped(whole, (SECTOR, SECTOR), (-SECTOR, SECTOR))}), ("its first sectors gone", {"new": wiped(whole, (0, MIB + 8192))}),
            ("an image that ends within its superblock", {"new": whole[:MIB + 4096]}), ("an image without a sector", {"new": b""}),
            ("an image that is compressed", {"new": b"\xfd7zXZ\0" + new}), ("a superblock at the end gone", {"new": wiped(at_end, (-64 * SECTOR, 64 * SECTOR)), "old": old_at_end}),
            ("the same beside a partition table", {"new": wiped(whole, (MIB + 4096, 4096)), "old": in_partition(old)})):
        pile.hold({"old": old, **images})
        for volume_name in ("vg0/home", "md:array"):
            pile.refuses(tally, "an older half, beside " + name, volume_name, "new")
        pile.refuses(tally, "how it could be given, beside " + name, "md:array", LEAVE_OUT)
        got, saved = pile.save("vg0/home", "old")
        tally.holds("an older half alone, not " + name, got.status == 0 and saved == OLD and b"so that this may be older" in got.err, got.err)
    pile.hold({"new": new, "old": old})
    pile.holds(tally, "both halves", "vg0/home", NEW)
    pile.put("map", b"0x0 ?\n0x0 0x1000 +\n0x1000 0x1000 -\n0x2000 0x%x +\n" % (len(new) - 8192))
    got, _ = pile.save("vg0/home", "new", "old", more=["--map", "new=map"])
    tally.tells("a newer half whose map has a hole for its superblock", got, 1, err=LEAVE_OUT)
    pile.remove("map")
    pile.hold({"new": wiped(whole, (SECTOR, SECTOR), (-SECTOR, SECTOR))})
    tally.tells("a table that is damaged", pile.call("save", "vg9/home", "out", "new"), 1, err="new: both copies of its partition table (GPT) are damaged")


def test_damaged(tally, pile):
    """A newer half of other bytes, whose superblock has a wrong sum."""
    halves = [member(content_of(name, 64), 1, number, (0, 1), 9 - 5 * number) for number, name in enumerate(("new", "old"))]
    pile.hold({"new": patched(halves[0], (4096 + 200, b"\xff")), "old": halves[1]})
    pile.refuses(tally, "an older half beside it", "md:array", "new may be one with other data")


def test_parity(tally, pile):
    """raid5 with a member whose superblock can't be read: what is computed in its place may be other than what it has, as where writes
    failed, unless nothing is there. A log of bad blocks with an entry for no sector is damaged."""
    def put(data, version, **changes):
        legs = parity_legs(data, 5, 2, 3, 8)
        pile.hold({"m%d" % role: changes.get("m%d" % role, lambda it: it)(member(
            leg, 5, role, range(3), 7, layout=2, size=len(leg) // SECTOR, version=version, bad=[(70, 3)] * (not role))) for role, leg in enumerate(legs)})
    data = content_of("raid5", 2 * 3 * 8)
    for name, made, version, change in (
            ("of zeros", data, 2, lambda it: wiped(it, (4096, 4096))), ("whose sum is wrong", data, 2, lambda it: patched(it, (4096 + 200, b"\xff"))),
            ("of zeros behind the label", disk("a", A, text("vg0", "g", 4, "a", HOME)), 0, lambda it: wiped(it, (-64 * SECTOR, 64 * SECTOR)))):
        put(made, version, m0=change)
        pile.refuses(tally, "raid5 with a superblock " + name, "md:array", "m0 may be one with other data, as its md superblock can't be read: " + LEAVE_OUT)
    put(data, 2, m0=lambda it: bytes(len(it)))
    pile.holds(tally, "raid5 beside zeros", "md:array", data)
    put(data, 2, m0=lambda it: wiped(it, (16 * SECTOR, SECTOR)))
    pile.refuses(tally, "raid5 with a log of zeros", "md:array", "m0: its log of bad blocks is damaged")


def test_nested(tally, pile):
    """A mirror's only half, on an array of which one member's superblock is lost: that member isn't the half."""
    inside = disk("a", A, text("vg0", "g", 4, "a", HOME))
    half = member(inside, 1, 0, (0, 1), 9, size=len(inside) // SECTOR)
    parts = half[:2200 * SECTOR], half[2200 * SECTOR:]
    one, two = (member(part, -1, number, (0, 1), 7, chunk=0, name=b"below", version=0) for number, part in enumerate(parts))
    pile.hold({"one": one, "two": two})
    pile.holds(tally, "a mirror's half on two disks", "vg0/home", NEW)
    pile.hold({"one": wiped(one, (-64 * SECTOR, 64 * SECTOR)), "two": two})
    pile.refuses(tally, "one of two disks whose superblock is lost", "vg0/home", "it seems to be one member of an array whose md superblock is lost")


def test_copies(tally, pile):
    """A newer copy of a disk, whose head is zeros: the older one isn't given beside it; beside a disk of other bytes it is."""
    newer, older = (disk("a", content, text("vg0", "g", seqno, "a", HOME)) for content, seqno in ((patched(A, (0, B[:20 * SECTOR])), 5), (A, 4)))
    pile.hold({"old": older, "new": wiped(newer, (0, MIB))})
    pile.refuses(tally, "a disk beside a newer copy without its head", "vg0/home", "new may be a newer copy of old")
    pile.hold({"old": in_partition(older), "new": wiped(in_partition(newer), (0, 2 * MIB), (-MIB // 16, MIB // 16))})
    pile.refuses(tally, "the same in a partition, beside one without its table", "vg0/home", "new may be a newer copy of old:1")
    for name, image in (("that ends within its data", newer[:MIB + 30 * SECTOR]), ("of one sector", bytes(SECTOR)), ("without a byte", b"")):
        pile.hold({"old": older, "new": wiped(image, (0, min(len(image), 9 * SECTOR))) if image else image})
        pile.refuses(tally, "a disk beside an image " + name, "vg0/home", "new may be a newer copy of old")
    pile.hold({"old": older, "new": b"a text"})
    pile.holds(tally, "a disk beside a text", "vg0/home", NEW)
    pile.hold({"old": older, "new": bytes(MIB) + B + bytes(len(older) - MIB - len(B))})
    pile.holds(tally, "a disk beside another one without its head", "vg0/home", NEW)


def test_restored_label(tally, pile):
    """A disk whose label is zeros is taken by its text, but where the place of a partition table's copy can't be read. So is the place of a
    table, and one where a removed group may have its last text."""
    content, home = disk("a", A, text("vg0", "g", 4, "a", HOME)), volume("home", "h", linear(0, 5, ("pv0", 20)))
    gone = disk("a", A, text("vg0", "g", 3, "a", home), text("vg0", "g", 4, "a", HOME), text("vg0", "g", 5, "a"), is_current=False)
    unlabelled, later = wiped(content, (SECTOR, SECTOR)), gone.index(b"seqno = 4") // SECTOR * SECTOR
    for name, image, why, hole in (("a disk without its label", unlabelled, "no group is called vg0", len(content) - SECTOR),
                                   ("a disk", content, "where a later partition table may be", 0), ("a removed volume", gone, "a later one can't be read", later)):
        pile.hold({"disk": image})
        pile.holds(tally, name, "vg0/home", NEW)
        end = hole + (SECTOR if image is not gone else MIB // 32)
        pile.put("map", b"0x0 ?\n" + b"0x0 0x%x +\n" % hole * bool(hole) + b"0x%x 0x%x -\n" % (hole, end - hole) + b"0x%x 0x%x +\n" % (end, len(image) - end) * (end < len(image)))
        pile.refuses(tally, name + " that can't all be read", "vg0/home", why, "disk", more=["--map", "disk=map"])


def test_apart(tally, pile):
    """A disk in which nothing can be read, beside one whose group went on without another: by a text that names that no more, or flags it."""
    known, home = text("vg0", "g", 4, "ab", HOME), volume("home", "h", linear(0, 5, ("pv1", 3)))
    flagged = text("vg0", "g", 5, "ab", home).replace(b'device = "/dev/a"', b'device = "/dev/a"\nflags = ["MISSING"]')
    for name, later in (("was removed", text("vg0", "g", 5, "b", HOME)), ("is flagged MISSING", flagged)):
        pile.hold({"one": wiped(disk("a", A, known), (0, MIB)), "two": disk("b", B, known, later)})
        pile.refuses(tally, "a volume beside a disk that can't be read, where one " + name, "vg0/home", "one may be a disk of this group, which went on without one")
        pile.holds(tally, "the same without that, where one " + name, "vg0/home", OLD, "two")


def test_legs(tally, pile):
    """A mirror of LVM whose newer leg is on a disk that can't be read: its head, its superblock by a map, or what follows; raid10."""
    new, old = (content_of(name, ROWS * CHUNK) for name in ("new", "old"))
    raid = Raid("home", "raid1", new, [new, old], 1, 0)
    raid.each = {0: {"events": 30, "failed": 2}}
    put(pile, [raid])
    images = {name: pile.read(name) for name in pile.images()}
    pile.holds(tally, "both legs", "vg0/home", new)
    got, saved = pile.save("vg0/home", "diskb")
    tally.holds("an older leg alone", got.status == 0 and saved == old and b"home: it lacks legs" in got.err, got.err)
    for name, image in (("its head", wiped(images["diska"], (0, MIB // 2))), ("all behind its head", images["diska"][:DATA * SECTOR]), ("its label", wiped(images["diska"], (SECTOR, SECTOR)))):
        pile.hold({**images, "diska": image})
        pile.refuses(tally, "an older leg beside a disk without " + name, "vg0/home", "diska" if "behind" not in name else "leave its disk out to take the other one")
    pile.hold(images)
    pile.put("map", b"0x0 ?\n0x0 0x%x +\n0x%x 0x1000 -\n0x%x 0x%x +\n" % (DATA * SECTOR, DATA * SECTOR, DATA * SECTOR + 4096, len(images["diska"]) - DATA * SECTOR - 4096))
    got, _ = pile.save("vg0/home", "diska", "diskb", more=["--map", "diska=map"])
    tally.tells("an older leg beside one whose map has a hole for its superblock", got, 1, err="leave its disk out to take the other one")
    pile.remove("map")


def test_said(tally, pile):
    """What the text says of a volume: a leg or a store on a disk flagged MISSING, and a leg that was split off."""
    new, old = (content_of(name, ROWS * CHUNK) for name in ("new", "old"))
    raid, origin = Raid("home", "raid1", new, [new, old], 1, 0), bytearray(b"\xee" * EACH * EXTENT * SECTOR)
    put(pile, [raid])
    sound = {name: pile.read(name) for name in pile.images()}

    def changed(leg, old_words, new_words):
        """The disks with another text."""
        known = text("vg0", "g", 4, "ab", *raid.sections, extents=EACH).replace(old_words, new_words)
        pile.hold({"disk" + letter: disk(letter, sound["disk" + letter][DATA * SECTOR:], known) for letter in "ab"})
    for name, words in (("on a disk that is flagged MISSING", (b'device = "/dev/b"', b'device = "[unknown]"\nflags = ["MISSING"]')),
                        ("that was split off", (b'home_rimage_1 {\nid = "%s"\nstatus = ["READ", "WRITE"]' % dashed("i").encode(),
                                                b'home_rimage_1 {\nid = "%s"\nstatus = ["READ", "VISIBLE"]' % dashed("i").encode()))):
        changed(1, *words)
        pile.holds(tally, "a mirror beside a leg " + name, "vg0/home", new)
        pile.refuses(tally, "a leg alone " + name, "vg0/home", "the group went on without it" if "MISSING" in name else "the others went on without it", "diskb")
    pile.holds(tally, "that leg by its own name", "vg0/home_rimage_1", old, "diskb")
    record = volume("snapshot0", "0", segment(0, 2, "snapshot", "chunk_size = 2", 'origin = "home"', 'cow_store = "old"'))
    known = text("vg0", "g", 9, "ab", volume("home", "h", linear(0, 2, ("pv0", 0))), volume("old", "o", linear(0, 2, ("pv1", 0)), status=HIDDEN), record)
    for name, words in (("sound", known), ("on a disk that is flagged MISSING", known.replace(b'device = "/dev/b"', b'device = "/dev/b"\nflags = ["MISSING"]'))):
        pile.hold({"diska": disk("a", A, words), "diskb": disk("b", patched(B, (0, store([(1, content_of("c", 2))]))), words)})
        if name == "sound":
            pile.holds(tally, "a store", "vg0/old", patched(extents_of(A, 0, 2), (2 * SECTOR, content_of("c", 2))))
        else:
            pile.refuses(tally, "a store " + name, "vg0/old", "it or its origin is on a disk flagged MISSING")
        pile.holds(tally, "its origin", "vg0/home", extents_of(A, 0, 2))


def test_restored(tally, pile):
    """After vgcfgrestore, whose number is that of an older text, a volume that was dropped is given where no later one has its extents."""
    def at(time, *words):
        known = text(*words)
        return known[:known.index(b"creation_time")] + b"creation_time = %d\n\0" % (1800000000 + time)
    gone, other = volume("gone", "n", linear(0, 2, ("pv0", 30))), volume("other", "o", linear(0, 2, ("pv0", 20)))
    fresh, brief = volume("fresh", "f", linear(0, 2, ("pv0", 31))), volume("brief", "b", linear(0, 2, ("pv0", 20)))
    texts = [at(1, "vg0", "g", 2, "a", HOME), at(2, "vg0", "g", 3, "a", HOME, gone), at(3, "vg0", "g", 4, "a", HOME, gone, other), at(4, "vg0", "g", 3, "a", HOME)]
    pile.hold({"disk": disk("a", A, *texts)})
    for name, first in (("gone", 30), ("other", 20)):
        pile.holds(tally, "a volume that was dropped: " + name, "vg0/" + name, extents_of(A, first, 2))
    for name, more in (("a current one", [at(5, "vg0", "g", 4, "a", HOME, fresh)]),
                       ("one that is removed", [at(5, "vg0", "g", 4, "a", HOME, fresh), at(6, "vg0", "g", 5, "a", HOME, fresh, brief), at(7, "vg0", "g", 6, "a", HOME)])):
        pile.hold({"disk": disk("a", A, *texts, *more)})
        pile.refuses(tally, "a volume that was dropped, whose extents go to " + name, "vg0/gone", "belong to vg0/fresh since")
    pile.refuses(tally, "one whose extents a brief one had", "vg0/other", "belong to vg0/brief since")
    pile.holds(tally, "that one", "vg0/brief", extents_of(A, 20, 2))
    again = [at(4, "vg0", "g", 3, "a", HOME, gone, other), at(5, "vg0", "g", 4, "a", HOME, brief)]
    pile.hold({"disk": disk("a", A, *texts[:2], at(3, "vg0", "g", 4, "a", HOME), *again)})
    pile.holds(tally, "one that the restored text has, too", "vg0/gone", extents_of(A, 30, 2))


def test_rings(tally, pile):
    """vgimportclone leaves texts of the former group in the copy's ring, which its disk never had."""
    first = text("vg0", "g", 3, "a", HOME)
    extra = text("vg0", "g", 4, "a", HOME, volume("extra", "x", linear(0, 2, ("pv0", 40))))
    pile.hold({"one": disk("a", A, first), "copy": disk("b", B, first, extra, text("vg1", "z", 5, "b", HOME))})
    pile.refuses(tally, "a volume that a copy had", "vg0/extra", "no disk of it has its text", "one", "copy")
    pile.holds(tally, "the group's own volume", "vg0/home", NEW, "one", "copy")
    pile.hold({"one": disk("a", A, extra, text("vg0", "g", 5, "a", HOME))})
    pile.holds(tally, "a volume that the disk had", "vg0/extra", extents_of(A, 40, 2))


def test_labels(tally, pile):
    """A label that only looking through an image finds: in another physical volume, behind a member's superblock, in several images, in
    one whose sum others have, on what was an array or a volume as its text says, and in a volume that is here."""
    words = text("vg9", "y", 2, "z", HOME, extents=32)
    inner, *upper = (patched(disk("z", B[:32 * EXTENT * SECTOR], words.replace(b'"/dev/z"', name)), (MIB // 8, B[:MIB // 8]))
                     for name in (b'"/dev/z"', b'"/dev/md9"', b'"/dev/mapper/vg0-vm"'))
    size = -(-len(inner) // SECTOR // EXTENT)
    host = text("vg0", "g", 4, "a", volume("vm", "v", linear(0, 100, ("pv0", 0)), linear(100, size - 100, ("pv0", 120))), extents=size + 40)
    room = (size + 40) * EXTENT * SECTOR
    data = patched(room, (0, inner[:100 * EXTENT * SECTOR]), (120 * EXTENT * SECTOR, inner[100 * EXTENT * SECTOR:]))
    around, gap = disk("a", data, host), bytes(MIB)
    legs = parity_legs(inner.ljust(5 * MIB // 4, b"\0"), 5, 2, 3, 256)
    five = [gap + member(leg, 5, number, (0, 1, 2), 7, layout=2, chunk=256, size=len(leg) // SECTOR) + gap for number, leg in enumerate(legs)]
    bare = [gap + leg + gap for leg in legs]
    pile.hold({"disk": gap + inner + gap})
    pile.holds(tally, "a label that nothing has", "vg9/home", OLD)
    for name, images in (("in another physical volume", {"disk": gap + around}), ("in one without its label", {"disk": gap + wiped(around, (SECTOR, SECTOR))}),
                         ("in one of which the text alone is left", {"disk": gap + wiped(around, (SECTOR, SECTOR), (4096, SECTOR))}),
                         ("in a member of raid5", {"m0": five[0]}), ("in members of raid5", {"m%d" % number: image for number, image in enumerate(five)}),
                         ("in two images", {"one": gap + inner, "two": gap + gap + inner + gap}), ("in three images without superblocks", {"m%d" % number: image for number, image in enumerate(bare)}),
                         ("on an array", {"disk": gap + upper[0] + gap}), ("on a volume", {"disk": gap + upper[1] + gap}),
                         ("in a volume that is here", {"host": around, "disk": gap + inner[:-EXTENT * SECTOR] + gap})):
        pile.hold(images)
        pile.refuses(tally, "a label " + name, "vg9/home", "found by looking through")
        got, _ = pile.save("vg9/home")
        tally.holds("no way to a part of it, " + name, b"give one of them" not in got.err, got.err)
    pile.hold({"disk": gap + inner + gap})
    pile.put("map", b"0x0 ?\n0x0 0x1000 +\n0x1000 0x1000 -\n0x2000 0x%x +\n" % (len(gap + inner + gap) - 8192))
    pile.refuses(tally, "a label behind what can't be read", "vg9/home", "where another label may be", "disk", more=["--map", "disk=map"])
    pile.hold({"disk": gap + around})
    pile.holds(tally, "the volume that has it", "vg0/vm", inner.ljust(size * EXTENT * SECTOR, b"\0"))
    pile.hold({"m0": gap + member(inner, 1, 0, (0, 1), 7, size=len(inner) // SECTOR) + gap})
    pile.holds(tally, "a label in a mirror's only member", "vg9/home", OLD)


def test_resumed(tally, pile):
    """A run that goes on by --resume reads the members and the legs that the one before did."""
    data = [content_of(name, 64) for name in ("new", "old")]
    pile.hold({"m%d" % number: member(content, 1, number, (0, 1), 9 - 5 * number) for number, content in enumerate(data)})
    raid = Raid("home", "raid1", data[0][:ROWS * CHUNK * SECTOR], [content[:ROWS * CHUNK * SECTOR] for content in data], 1, 0)
    raid.each = {0: {"events": 30, "failed": 2}}
    for name, older in (("md:array", "m1"), ("vg0/home", "diskb")):
        if name == "vg0/home":
            pile.hold({})
            put(pile, [raid])
        size, both = len(pile.read(older)), pile.images()
        pile.put("bad", b"0x0 ?\n0x0 0x%x +\n0x%x 0x200 -\n" % (size - 512, size - 512))
        pile.put("half", b"0x0 ?\n0x0 0x%x +\n0x%x 0x1000 -\n0x%x 0x%x +\n" % ((at := (64 + 8) * SECTOR if "md" in name else (DATA + META * EXTENT + 8) * SECTOR), at, at + 4096, size - at - 4096))
        got, _ = pile.save(name, older, more=["--resume", "out.map", "--map", older + "=half"])
        tally.holds("a stale half with a map: " + name, got.status == 4, got.err)
        got = pile.call("save", name, "out", *both, "--resume", "out.map", "--map", older + "=half")
        tally.tells("both halves after it: " + name, got, 1, err="from other images")
        got = pile.call("save", name, "out", older, "--resume", "out.map", "--map", older + "=half")
        tally.tells("the same half again: " + name, got, 4)
        pile.remove("bad", "half", "out", "out.map")


def test_asked(tally, pile):
    """A snapshot that is refused counts once, however often `owner` asks for it."""
    stores = [volume("s%d" % number, "s", linear(0, 1, ("pv0", 40 + number)), status=HIDDEN) for number in range(2)]
    records = [volume("snapshot%d" % number, "n", segment(0, 2, "snapshot", "chunk_size = 2", 'origin = "home"', 'cow_store = "s%d"' % number)) for number in range(2)]
    content = patched(A, (40, store([], 0)), (41, store([(0, content_of("c", 2))])), unit=EXTENT * SECTOR)
    pile.hold({"disk": disk("a", content, text("vg0", "g", 4, "a", volume("home", "h", linear(0, 2, ("pv0", 0))), *stores, *records))})
    got = tool_calls.call(pile.top, ["owner", "--program", pile.program.path, "disk"], given="disk %d\n" % (DATA + 1) * 150, folder=pile.folder)
    tally.holds("many sectors of a group with an invalid snapshot", got.status == 0 and b"looked at together" not in got.out, f"{got.status}, {got.err}, {got.out[:300]}")
