"""Names that whoever wrote a disk chose, or that a path has: with a line feed, an escape, quotes, and what means a place in a file.
No command prints a line or a control character by one, and what `tables` writes is read as the file that was given."""

import os
import shutil

import containers
import piles
import store_lists
from piles import A, DATA, SECTOR, content_of, dashed, disk, linear, member, pile, segment, text, volume

ODD = ["two\nlines a 0 8", "esc\x1b[2Jape", "quo'te\"s\\", "image?offset=0", "\u202eright to left\x85"]
PLAIN = "plain"
GROUP = text("vg0", "g", 4, "a", volume("home", "h", linear(0, 5, ("pv0", 3))))


def with_fields(name):
    """A text whose strings have a name in them, as lvm2 writes them."""
    said = name.replace("\\", "\\\\").replace('"', '\\"').encode()
    fields = GROUP.replace(b'creation_host = "here"', b'creation_host = "%s"\ndescription = "%s"' % (said, said))
    fields = fields.replace(b'device = "/dev/a"', b'device = "%s"\ntags = ["%s"]' % (said, said))
    return fields.replace(b'id = "%s"\nstatus' % dashed("h").encode(), b'id = "%s"\nstatus' % said)


def mirror(name):
    return member(disk("a", A, GROUP), 1, 0, (0, 1), 7, size=len(disk("a", A, GROUP)) // SECTOR, name=name.encode())


# Where a name may stand: the images by their paths.
FIELDS = [
    ("the path of an image", lambda name: {name: disk("a", A, GROUP)}),
    ("the path of what isn't known", lambda name: {name: content_of("x", 64)}),
    ("the path of a member", lambda name: {name: mirror("array")}),
    ("the path of a container", lambda name: {name: containers.version_1() + bytes(64 * SECTOR)}),
    ("the name of an array", lambda name: {"disk": mirror(name)}),
    ("the id of a container", lambda name: {"disk": containers.version_1(uuid=name[:20]) + bytes(64 * SECTOR)}),
    ("the strings of a text", lambda name: {"disk": disk("a", A, with_fields(name))}),
    ("a type of a segment", lambda name: {"disk": disk("a", A, GROUP.replace(b'type = "striped"', b'type = "%s"' % name.replace('"', "").replace("\\", "").encode()))}),
]


def calls(pile, images, name):
    """What commands print of these images."""
    first = images[0]
    yield pile.call("scan", *images)
    yield pile.call("scan", "--json", *images)
    yield piles.tool_calls.call(pile.top, ["owner", "--program", pile.program.path, *images], given="%s 0 99\n" % first if "\n" not in first else "", folder=pile.folder)
    for asked in ("vg0/home", "vg0/none", "md:" + name, first, name + "/" + name):
        yield pile.call("lost", asked, *images)
        yield pile.call("save", asked, "out", *images)
        if os.path.exists(os.path.join(pile.folder, "out")):
            pile.remove("out")
    yield pile.call("tables", "vg0", *images, "--to", "made")
    shutil.rmtree(os.path.join(pile.folder, "made"), ignore_errors=True)
    for words in [], ["--list"]:
        got = piles.tool_calls.call(pile.top, ["metadata", *words, *images], folder=pile.folder)
        # Without --list the text itself is printed.
        yield got if words else piles.tool_calls.Outcome(got.status, b"", got.err)


def test_fields(tally, pile):
    """Each name in each field: as many lines as of a plain name, and no control character."""
    for where, images in FIELDS:
        lines = {}
        for name in [PLAIN, *ODD]:
            pile.hold(images(name))
            for number, got in enumerate(calls(pile, pile.images(), name)):
                said = (got.out + got.err).decode("utf-8", "surrogateescape")
                odd = [letter for letter in said if letter != "\n" and not letter.isprintable()]
                lines.setdefault(number, said.count("\n"))
                # A name may make a path, or a text, one that isn't taken.
                is_so = got.status in (0, 1, 2, 4) and not odd and (said.count("\n") <= max(lines[number], 1) or number == 1)
                tally.holds("%s is %r, call %d" % (where, name, number), is_so, "status %s, %r" % (got.status, said[-600:]))


def test_paths(tally, pile):
    """By the tables of an image, dmremap reads the store in it, and not in a file whose path is the beginning of its path; what no
    line of PATHS says is refused."""
    known = text("vg0", "g", 4, "a", volume("home", "h", linear(0, 2, ("pv0", 3))), volume("snap", "s", linear(0, 4, ("pv0", 10)), status='"READ", "WRITE"'),
                 volume("snapshot0", "n", segment(0, 2, "snapshot", "chunk_size = 4", 'origin = "home"', 'cow_store = "snap"')))
    image = bytearray(disk("a", A, known))
    store = (DATA + 10 * piles.EXTENT) * SECTOR
    # Chunk 1 was taken, and lies in the third place.
    image[store:store + 4096] = store_lists.store([(1, 2)], 4, 2)
    for name in ["image", "image?offset=0", "image?offset=512", "image?offset=0?offset=0", "two\nlines", os.fsdecode(b"\xff"), "sp ace ", "?offset=0"]:
        pile.hold({"image": bytes(len(image)), "image?offset=0": bytes(len(image)), name: image})
        got = pile.call("tables", "vg0", name, "--to", "made")
        made = os.path.join(pile.folder, "made")
        is_said = "\n" not in name and "\udcff" not in name
        if tally.holds("tables of %r" % name, got.status == (0 if is_said else 1) and os.path.exists(os.path.join(made, "PATHS")) == is_said, "status %s, %r" % (got.status, got.err)) and is_said:
            read = pile.program.run(["map", "images", os.path.join(made, "PATHS")], given="R vg0-snap 0 8\n")
            at = DATA + 3 * piles.EXTENT, DATA + 10 * piles.EXTENT + 8
            tally.same("a store in %r" % name, read, 0, "1 R disk0 %d 4\n1 R disk0 %d 4\n" % at)
        shutil.rmtree(made, ignore_errors=True)
    got = piles.tool_calls.call(pile.top, ["metadata", "image?offset=0"], folder=pile.folder)
    tally.same("the text of a file that is called as a place in another", got, 1, "", "dmremap-tools metadata: image?offset=0: a file is called so, and here it means "
               "a byte of image: give the file another name, or a link to it\n")
