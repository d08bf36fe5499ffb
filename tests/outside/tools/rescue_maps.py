"""Maps of ddrescue: what an image lacks by its map is taken from another copy or computed, or is missing and told, in each command;
and the map that `save` writes: which volume it is of, and that only one run goes on by it."""

import contextlib
import fcntl
import os
import shutil

import piles
import store_lists
import tool_calls
from piles import A, DATA, EXTENT, SECTOR, content_of, disk, extents_of, linear, member, pile, text, volume
from physical_volumes import patched
from plain_model import parity_legs

OTHER = "--map-of-other-length"
HOME = extents_of(A, 3, 5)
GROUP = text("vg0", "g", 4, "a", volume("home", "h", linear(0, 5, ("pv0", 3))), volume("next", "n", linear(0, 5, ("pv0", 8))))


def rescue(size, *lost):
    """A map of an image of so many sectors, without runs of these."""
    rows, at = [], 0
    for first, count in [*lost, (size, 0)]:
        rows += [(at, first, "+"), (first, first + count, "-")]
        at = first + count
    return ("0x0 ?\n" + "".join("0x%x 0x%x %s\n" % (SECTOR * begin, SECTOR * (end - begin), status) for begin, end, status in rows if begin < end)).encode()


def without(content, *lost):
    """The same with zeros where sectors are lost, as ddrescue leaves them."""
    return patched(content, *((first, bytes(count * SECTOR)) for first, count in lost), unit=SECTOR)


def put(pile, name, content, *lost):
    """An image and its map, and the words for it."""
    pile.put(name, without(content, *lost))
    pile.put("map." + name, rescue(len(content) // SECTOR, *sorted(lost)))
    return ["--map", "%s=map.%s" % (name, name)]


def test_copies(tally, pile):
    """Two members of a mirror, which lack different sectors: all of it is there, for each command."""
    content = disk("a", A, GROUP)
    start = 64 + DATA + 3 * EXTENT
    images = [member(content, 1, number, (0, 1), 7, size=len(content) // SECTOR) for number in range(2)]
    words = put(pile, "m0", images[0], (start + 2, 3), (start + 20, 1)) + put(pile, "m1", images[1], (start + 5, 4))
    for order in (["m0", "m1"], ["m1", "m0"]):
        got, saved = pile.save("vg0/home", *order, more=words)
        tally.holds("a mirror of two halves with gaps, %s" % order, got.status == 0 and saved == HOME, "status %s, %r" % (got.status, got.err))
        tally.same("what it lost", pile.call("lost", "vg0/home", *order, *words), 0, "0 sectors lost of 40\n")
        got = pile.call("tables", "vg0", *order, "--to", "out.made", *words)
        tally.tells("tables of it", got, 1,
                    err="no copy of md:array is whole, and no table can say which is read: use `save` or `serve`")
        got = pile.call("tables", "vg0", *order, "--to", "out.made", *words[:2])
        with open(os.path.join(pile.folder, "out.made", "PATHS"), encoding="utf-8") as listed:
            tally.holds("tables of it, of which a half is whole", got.status == 0 and listed.read().endswith("/m1\n"), "%s, %r" % (got.status, got.err))
        shutil.rmtree(os.path.join(pile.folder, "out.made"))
    given = [(word, "map") for word in words[1::2]]
    found, said = piles.served(pile, "vg0/home", "m0", lambda plugin: piles.taken(plugin, 0, len(HOME)), [("image", "m1"), *((key, value) for value, key in given)])
    tally.holds("a server of it", found == HOME, said)
    # The same sector of both.
    pile.put("map.m1", rescue(len(images[1]) // SECTOR, (start + 3, 1)))
    tally.same("a sector that both lost", pile.call("lost", "vg0/home", "m0", "m1", *words), 0, "1 sectors: no file system\n1 sectors lost of 40\n")
    pile.refuses(tally, "a volume of which both lack a sector", "vg0/home", "m1 lacks its bytes", "m0", "m1", more=words)


def test_gaps(tally, pile):
    """An image alone: what it lacks is told, and is a hole in what is saved; a sound volume beside it is whole."""
    content, first = disk("a", A, GROUP), DATA + 3 * EXTENT
    words = put(pile, "one", content, (first + 7, 2), (first + 9, 1))
    pile.refuses(tally, "a volume with a gap", "vg0/home", "one lacks its bytes %d to %d, as its map says; or give --resume MAP" % ((first + 7) * SECTOR, (first + 9) * SECTOR - 1), "one", more=words)
    got, saved = pile.save("vg0/next", "one", more=words)
    tally.holds("a volume beside it", got.status == 0 and saved == extents_of(A, 8, 5), got.err)
    lost = without(HOME, (7, 3))
    for more, status in (["--resume", "out.map"], 4), (["--allow-missing"], 0):
        got, saved = pile.save("vg0/home", "one", more=[*words, *more])
        tally.holds("a volume with a gap, %s" % more, got.status == status and saved == lost and b"3 sectors of the file from 7 on can't be read" in got.err, got.err)
    with open(os.path.join(pile.folder, "out.map"), encoding="utf-8") as rows:
        tally.holds("its map", [row.split() for row in rows][-3:] == [["0x00000000", "0x00000E00", "+"], ["0x00000E00", "0x00000600", "-"], ["0x00001400", "0x00003C00", "+"]], "it is another")
    tally.same("what it lost", pile.call("lost", "vg0/home", "one", *words), 0, "3 sectors: no file system\n3 sectors lost of 40\n")
    tally.same("what it lost without a map", pile.call("lost", "vg0/home", "one"), 0, "0 sectors lost of 40; no map was given (--map IMAGE=MAP): only sectors that the images lack\n")
    os.link(os.path.join(pile.folder, words[1].partition("=")[2]), os.path.join(pile.folder, "one.map"))
    got = pile.call("lost", "vg0/home", "one")
    tally.holds("the map beside it", got.status == 0 and got.err == b"with the maps that are here: dmremap-tools lost vg0/home one --map one=one.map\n", got.err)
    os.remove(os.path.join(pile.folder, "one.map"))
    got = pile.call("tables", "vg0", "one", "--to", "out.made", *words)
    tally.tells("tables of it", got, err="home: one lacks its bytes")
    found, said = piles.served(pile, "vg0/home", "one", lambda plugin: [piles.taken(plugin, at * SECTOR, SECTOR) for at in (6, 7, 9, 10)], [("map", words[1])])
    tally.holds("a server of it", found == [HOME[6 * SECTOR:7 * SECTOR], None, None, HOME[10 * SECTOR:11 * SECTOR]], said)
    os.link(os.path.join(pile.folder, "one"), os.path.join(pile.folder, "again"))
    tally.same("under another name", pile.call("lost", "vg0/home", "again", "one", *words), 0, "3 sectors: no file system\n3 sectors lost of 40\n")
    os.rename(os.path.join(pile.folder, "again"), os.path.join(pile.folder, "a=b"))
    tally.same("a path with an equals sign", pile.call("lost", "vg0/home", "a=b", "--map", "a=b=map.one"), 0, "3 sectors: no file system\n3 sectors lost of 40\n")


def test_lengths(tally, pile):
    """A map that begins or ends elsewhere than its image: refused in each command, unless it is said; then the rest wasn't read."""
    content = disk("a", A, GROUP)
    size, end = len(content) // SECTOR, DATA + 4 * EXTENT
    pile.put("one", content)
    cut = rescue(end)
    rows = [("that ends before it", cut, 32), ("that ends behind it", rescue(size + 8), 0), ("without a row", b"0x0 ?\n", None),
            ("that begins late", b"0x0 ?\n0x%x 0x%x +\n" % (end * SECTOR, (size - end) * SECTOR), None)]
    for name, rows_of, lost in rows:
        pile.put("out.map", rows_of)
        for command in (["lost", "vg0/home"], ["save", "vg0/home", "out"], ["serve", "vg0/home"], ["tables", "vg0", "--to", "out.made"], ["owner"]):
            got = pile.call(*command, "one", "--map", "one=out.map") if command[0] != "owner" else tool_calls.call(pile.top, ["owner", "one", "--map", "one=out.map"], folder=pile.folder)
            is_so = got.status == 1 and not got.out and b"out.map: it is of the bytes " in got.err and b", and one has %d: give the map of this image, or with --map-of-other-length" % len(content) in got.err
            is_so = is_so or command[0] == "serve" and b"nbdkit: it isn't here" in got.err
            tally.holds("%s with a map %s" % (command[0], name), is_so and not os.path.exists(os.path.join(pile.folder, "out")), "status %s, %r" % (got.status, got.err))
        got = pile.call("lost", "vg0/home", "one", "--map", "one=out.map", OTHER)
        if lost is not None:
            tally.same("a map %s that is meant" % name, got, 0, ("%d sectors: no file system\n" % lost) * bool(lost) + "%d sectors lost of 40\n" % lost)
        else:
            # The label wasn't read either.
            tally.tells("a map %s that is meant" % name, got, 1, err="no group is called vg0")


def test_unused(tally, pile):
    """Commands that take maps name those that lie beside the images, and weren't given; what is no map isn't one."""
    content = disk("a", A, GROUP)
    pile.put("one.img", content)
    pile.put("one.map", rescue(len(content) // SECTOR))
    pile.put("one.img.log", b"no map\n")
    for command, *words in (["save", "vg0/home", "out"], ["lost", "vg0/home"]):
        typed = "with the maps that are here: dmremap-tools %s one.img --map one.img=one.map\n" % " ".join([command, *words])
        tally.tells("%s beside a map" % command, pile.call(command, *words, "one.img"), 0, err=typed)
        if command == "save":
            os.unlink(os.path.join(pile.folder, "out"))
        got = pile.call(command, *words, "one.img", "--map", "one.img=one.map")
        tally.tells("%s with a map" % command, got, 0, err="")


def test_rows(tally, pile):
    """A raid5 without a member, of which another lacks one sector: that of the missing one is lost as well, and not the chunk."""
    data = content_of("array", 128)
    images = [member(leg, 5, number, (0, 1, 2), 7, layout=2) for number, leg in enumerate(parity_legs(data, 5, 2, 3, 8))]
    # In the first row the missing member has the parity, in the third row the one with the gap.
    for lacking, lost in ((3, 1), (8 + 3, 2), (16 + 3, 1)):
        words = put(pile, "m0", images[0], (64 + lacking, 1))
        pile.put("m1", images[1])
        tally.same("what a raid5 lost", pile.call("lost", "md:array", "m0", "m1", *words), 0, "%d sectors: no file system\n%d sectors lost of 128\n" % (lost, lost))
        got, saved = pile.save("md:array", "m0", "m1", more=[*words, "--allow-missing"])
        differ = [at for at in range(128) if (saved or b"")[at * SECTOR:(at + 1) * SECTOR] != data[at * SECTOR:(at + 1) * SECTOR]]
        tally.holds("what is saved of it", len(differ) == lost and not any(saved[at * SECTOR:(at + 1) * SECTOR].strip(b"\0") for at in differ), differ)


def test_owners(tally, pile):
    """Who has what a map lacks, of which a snapshot reads some from its origin."""
    known = text("vg0", "g", 4, "a", volume("home", "h", linear(0, 2, ("pv0", 3))), volume("snap", "s", linear(0, 4, ("pv0", 10)), status='"READ", "WRITE"'),
                 volume("snapshot0", "n", piles.segment(0, 2, "snapshot", "chunk_size = 4", 'origin = "home"', 'cow_store = "snap"')))
    content, at = bytearray(disk("a", A, known)), DATA + 3 * EXTENT + 2
    store = (DATA + 10 * EXTENT) * SECTOR
    content[store:store + 4096] = store_lists.store([], 4, 2)
    words = put(pile, "one", bytes(content), (at, 1))
    got = tool_calls.call(pile.top, ["owner", "--program", pile.program.path, "one", *words], folder=pile.folder)
    tally.same("who has a sector that a snapshot reads, too", got, 0, "one %d 1 = vg0/home 2\none %d 1 = vg0/home 2 = vg0/snap 2\n" % (at, at))
    # The list of the store wasn't read: nobody knows which chunks it has.
    words = put(pile, "one", bytes(content), (store // SECTOR + 4, 4), (at, 1))
    got = tool_calls.call(pile.top, ["owner", "--program", pile.program.path, "one", *words], folder=pile.folder)
    tally.tells("who has it if the store's list wasn't read", got, out="unknown: whether vg0/snap has it: ")
    pile.refuses(tally, "such a snapshot", "vg0/snap", "one lacks its bytes", "one", more=words)


def test_tables(tally, pile):
    """`save` by tables: a disk with a gap; one that a store lies on."""
    pile.put("sda", content_of("a", 56) + bytes(8 * SECTOR))
    pile.put("out.t", b"v: 0 16 linear sda 8\nw: 0 16 linear sda 40\ns: 0 16 snapshot /dev/mapper/w /dev/mapper/c P 4\nc: 0 8 linear sda 56\n")
    pile.put("out.d", b"sda 64\n")
    pile.put("out.map", rescue(64, (10, 2)))
    words = ["table", "out.t", "out.d", "--map", "sda=out.map"]
    got = pile.call("save", "v", "out", *words)
    tally.same("a volume of a disk with a gap", got, 1, "", "dmremap-tools save: v: sda lacks its bytes 5120 to 6143, as its map says; or give --resume MAP to save the rest: the map says "
               "then what is missing\n")
    got = pile.call("save", "v", "out", *words, "--allow-missing")
    tally.holds("the rest of it", pile.read("out") == without(content_of("a", 64)[8 * SECTOR:24 * SECTOR], (2, 2)), got.err)
    pile.remove("out")
    tally.same("a volume beside the gap", pile.call("save", "w", "out", *words), 0)
    pile.remove("out")
    got = pile.call("save", "s", "out", *words)
    tally.tells("a store on it", got, 1,
                err="sda: a store lies on it, which dmremap reads without its map: give GROUP/VOLUME and images")


def test_sources(tally, pile):
    """A map of another volume, or of other images: refused, and nothing changes; the same volume goes on, also by other names."""
    pile.put("one", disk("a", A, GROUP))
    first = ["out.map", "out"]
    tally.same("a first volume", pile.call("save", "vg0/home", "out", "one", "--resume", "out.map"), 0)
    kept = [pile.read(name) for name in first]
    for name, image, asked in (("another volume of that length", GROUP, "vg0/next"),
                               ("that of another text", GROUP.replace(b"seqno = 4", b"seqno = 5").replace(b'"pv0", 3', b'"pv0", 9'), "vg0/home")):
        pile.put("one", disk("a", A, image))
        got = pile.call("save", asked, "out", "one", "--resume", "out.map")
        tally.holds(name, got.status == 1 and b"out.map: it is the map of vg0/home of 40 sectors" in got.err and b"give a new name as --resume, and another OUT" in got.err, got.err)
        tally.holds("what that leaves", [pile.read(each) for each in first] == kept, "something else")
    pile.put("one", disk("a", A, GROUP))
    for asked in ("home", piles.dashed("g") + "/home"):
        tally.same("the same as " + asked, pile.call("save", asked, "out", "one", "--resume", "out.map"), 0)
    for number, name in enumerate(("one", "two")):
        pile.put(name, content_of("volume of %d" % number, 40))
    pile.remove("out", "out.map")
    tally.same("an image", pile.call("save", "one", "out", "one", "--resume", "out.map"), 0)
    os.rename(os.path.join(pile.folder, "two"), os.path.join(pile.folder, "one"))
    got = pile.call("save", "one", "out", "one", "--resume", "out.map")
    tally.tells("another image of that name", got, 1,
                err="it is the map of one of 40 sectors, from other images, and this is one of 40")


@contextlib.contextmanager
def beaten(path):
    """Lets another run put its map there just before this one does."""
    link = os.link

    def late(source, target, **how):
        if target.endswith(path):
            with open(target, "wb") as other:
                other.write(b"of another run")
        return link(source, target, **how)

    os.link = late
    try:
        yield
    finally:
        os.link = link


def test_turns(tally, pile):
    """Two runs by one map: the second is refused, and takes nothing away."""
    pile.put("one", disk("a", A, GROUP))
    told = "out.map: another save goes on by it, or began it just now: wait until that has ended, or give another name\n"
    with beaten("out.map"):
        got = pile.call("save", "vg0/home", "out", "one", "--resume", "out.map")
    tally.same("a map that another run began", got, 1, "", "dmremap-tools save: " + told)
    tally.holds("what that leaves", pile.read("out.map") == b"of another run" and sorted(os.listdir(pile.folder)) == ["one", "out.map"], os.listdir(pile.folder))
    pile.remove("out.map")
    pile.put("out", b"mine")
    got = pile.call("save", "vg0/home", "out", "one", "--resume", "out.map")
    tally.holds("a file that is there", got.status == 1 and not os.path.exists(os.path.join(pile.folder, "out.map")) and pile.read("out") == b"mine", got.err)
    pile.remove("out")
    tally.same("a map of this run", pile.call("save", "vg0/home", "out", "one", "--resume", "out.map"), 0)
    kept = [pile.read(name) for name in ("out", "out.map")]
    with open(os.path.join(pile.folder, "out.map"), "rb") as held:
        fcntl.flock(held, fcntl.LOCK_EX)
        tally.same("a map by which another run goes on", pile.call("save", "vg0/home", "out", "one", "--resume", "out.map"), 1, "", "dmremap-tools save: " + told)
    tally.holds("what that leaves", [pile.read(name) for name in ("out", "out.map")] == kept, os.listdir(pile.folder))
    tally.same("and once that has ended", pile.call("save", "vg0/home", "out", "one", "--resume", "out.map"), 0)


def test_again(tally, pile):
    """A run that goes on with fewer maps of images, which would take zeros for data, or with more, where zeros may have been taken."""
    content, first = disk("a", A, GROUP), DATA + 3 * EXTENT
    words = put(pile, "one", content, (first + 7, 2))
    again = ["save", "vg0/home", "out", "one", "--resume", "out.map"]
    tally.holds("a run with a map", pile.call(*again, *words).status == 4, "it ends otherwise")
    kept = [pile.read(name) for name in ("out", "out.map")]
    tally.same("going on without it", pile.call(*again), 1, "", "dmremap-tools save: out.map: it was begun with 1 maps of images: give them again as --map IMAGE=MAP\n")
    tally.holds("what that leaves", [pile.read(name) for name in ("out", "out.map")] == kept, "something else")
    # Meanwhile ddrescue read more.
    put(pile, "one", content, (first + 8, 1))
    tally.holds("going on with it", pile.call(*again, *words).status == 4 and pile.read("out") == without(HOME, (8, 1)), "it ends otherwise")
    put(pile, "one", content)
    tally.holds("going on with all", pile.call(*again, *words).status == 0 and pile.read("out") == HOME, "it ends otherwise")
    pile.remove("out", "out.map")
    put(pile, "one", content, (first + 7, 2))
    tally.same("a run without a map", pile.call(*again), 0)
    got = pile.call(*again, *words)
    why = b"out.map: it was begun without some map of an image, and what that lacks may be in OUT as zeros: give a new name as --resume, and another OUT\n"
    tally.holds("going on with one", got.status == 1 and got.err.endswith(why), got.err)
