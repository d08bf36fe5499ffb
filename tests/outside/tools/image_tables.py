"""`tables` of what layers compute: the program answers by them as `save` reads the bytes, and refuses to write. And names of
volumes as device-mapper has them."""

import os
import shutil

import piles
from piles import A, SECTOR, content_of, disk, empty_pile, member

LEVELS = [("raid0", 0, 3, 0), ("raid1", 1, 2, 0), ("raid4", 4, 3, 0), ("raid5", 5, 3, 2), ("raid6", 6, 4, 2), ("raid10", 10, 4, 0x102), ("far", 10, 3, 0x201)]


def check_tables(tally, pile, name, devices, images):
    """The tables of a group or an array: what is read of each device, by its name, is this; a write is an error."""
    folder = os.path.join(pile.folder, "made")
    shutil.rmtree(folder, ignore_errors=True)
    got = pile.call("tables", name, *images, "--to", "made")
    words = got.out.decode().split()
    if not tally.holds("tables of %s" % name, got.status == 0 and words[:2] == ["dmremap", "map"], "status %s, %r, %r" % (got.status, got.out, got.err)):
        return
    with open(os.path.join(folder, "PATHS"), encoding="utf-8") as listed:
        paths = dict(line.rstrip("\n").split(" ", 1) for line in listed)
    for device, content in devices.items():
        answers = pile.program.run(words[1:], given="R %s 0 %d\n" % (device, len(content) // SECTOR), folder=pile.folder)
        found = b""
        for _, what, *rest in (line.split() for line in answers.out.decode().splitlines()):
            if what == "zero":
                found += bytes(int(rest[0]) * SECTOR)
            else:
                with open(paths[rest[0]], "rb") as image:
                    image.seek(int(rest[1]) * SECTOR)
                    found += image.read(int(rest[2]) * SECTOR)
        tally.holds("what is read of %s by its tables" % device, found == content, "%r, %r" % (answers.out[:300], answers.err))
        answers = pile.program.run(words[1:], given="W %s 0 8\n" % device, folder=pile.folder)
        tally.holds("what is written of %s" % device, answers.out == b"1 error 8\n" or device == "md:raid0", answers.out)


def test_arrays(tally, pile):
    """Arrays of each level, whole and less a member, if each chunk is there."""
    for name, level, count, layout in LEVELS:
        data = [content_of("%s %d" % (name, role), 64) for role in range(count)]
        data = [data[0]] * count if level == 1 else data
        images = {"%s%d" % (name, role): member(it, level, role, range(count), 5, layout=layout, name=name.encode()) for role, it in enumerate(data)}
        for path, content in images.items():
            pile.put(path, content)
        got = pile.call("save", "md:" + name, "out", *images)
        if tally.holds("the array " + name, got.status == 0, got.err):
            check_tables(tally, pile, "md:" + name, {"md:" + name: pile.read("out")}, list(images))
            os.unlink(os.path.join(pile.folder, "out"))
        got = pile.call("tables", "md:" + name, *list(images)[1:], "--to", "less")
        is_whole = name in ("raid1", "raid10", "far")
        tally.holds("%s less one" % name, got.status == (0 if is_whole else 1) and os.path.exists(os.path.join(pile.folder, "less")) == is_whole, got.err)
        shutil.rmtree(os.path.join(pile.folder, "less"), ignore_errors=True)
        pile.remove(*images)


def test_pools(tally, pile):
    """Thin and cached volumes."""
    _, _, volumes = piles.put_pools(pile)
    check_tables(tally, pile, "vg0", {name.replace("/", "-"): content for name, content in volumes.items()}, ["disk"])
    tally.tells("one that isn't in the pool", pile.call("tables", "vg0", "disk", "--to", "again"), 0, err="left out: none: the pool's metadata has no device 3")
    shutil.rmtree(os.path.join(pile.folder, "again"))
    pile.remove("disk")


def test_names(tally, pile):
    """A volume by the names that its device has, and one of which the name is that of another's device."""
    known = piles.text("vg-0", "g", 4, "a", piles.volume("my-home", "h", piles.linear(0, 4, ("pv0", 0))))
    pile.put("disk", disk("a", A, known))
    wanted = piles.extents_of(A, 0, 4)
    for name in ("vg-0/my-home", "/dev/vg-0/my-home", "/dev/mapper/vg--0-my--home", "vg--0-my--home", "my-home"):
        pile.holds(tally, "a volume by " + name, name, wanted, "disk")
    for name in ("/dev/mapper/my-home", "vg-0-my-home", "/dev/vg--0/my--home", "vg--0--my--home"):
        pile.refuses(tally, "a volume by " + name, name, "`scan` lists what is there", "disk")
    tally.tells("lost sectors of it", pile.call("lost", "/dev/vg-0/my-home", "disk"), 0, "0 sectors lost of")
    twice = piles.text("a", "g", 4, "a", piles.volume("b", "b", piles.linear(0, 4, ("pv0", 0))), piles.volume("a-b", "c", piles.linear(0, 4, ("pv0", 8))))
    pile.put("disk", disk("a", A, twice))
    pile.refuses(tally, "a volume and a device of one name", "a-b", "a volume is called so, and so is the device of another: say a/b", "disk")
    pile.holds(tally, "the volume", "a/a-b", piles.extents_of(A, 8, 4), "disk")


def pile(tally):
    """An empty folder for images."""
    return empty_pile(tally, "image_tables")
