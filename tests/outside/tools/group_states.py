"""Groups whose disks don't agree, over images that are made here: forks of which a side's label or metadata header is damaged,
disks that were away, areas that lvm2 keeps no text in, copies of a disk, and rings full of older texts."""

import itertools
import os
import random

import physical_volumes
from physical_volumes import damaged
from piles import A, B, DATA, EXTENT, HIDDEN, SECTOR, dashed, disk, extents_of, identity, linear, named, pile, segment, text, volume

FIRST = HEADER = physical_volumes.FIRST
LABEL = SECTOR


def home(first, name="home", letter="h", on="pv0"):
    return volume(name, letter, linear(0, 5, (on, first)))


def sides():
    """A group of two disks that were changed apart from each other: both sides made a volume of one name."""
    base = [text("vg0", "g", number, "ab", home(3, "both"), *[home(3, "old", "o", "pv1")] * (number == 2)) for number in (1, 2)]
    one = [*base, text("vg0", "g", 3, "a", home(3, "both")), text("vg0", "g", 4, "a", home(3, "both"), home(30), home(50, "mine", "m"))]
    other = [*base, text("vg0", "g", 3, "b", home(40), home(20, "yours", "y"))]
    return disk("a", A, *one), disk("b", B, *other)


def test_forks(tally, pile):
    """A fork, sound, and with each disk's label, header or both damaged, in both orders: what one side alone has is given, if
    its text can be read, and what both have is refused, with the name of the image whose text can't be."""
    sound = sides()
    for image, content in zip(("one", "two"), sound):
        pile.put(image, content)
    pile.refuses(tally, "a volume of both sides", "vg0/home", "both sides have a volume of this name", "one", "two")
    mine = (("mine", extents_of(A, 50, 5)), ("yours", extents_of(B, 20, 5)))
    for hurt in (0, 1):
        left, gone = mine[1 - hurt], mine[hurt]
        pile.put(("one", "two")[hurt], damaged(sound[hurt], LABEL + 40))
        pile.refuses(tally, "a fork with a damaged label, what both have", "vg0/home", "both sides have a volume of this name", "one", "two")
        for volume_name, content in mine:
            pile.holds(tally, "a fork with a damaged label, what one side has", "vg0/" + volume_name, content)
        header, current = range(HEADER, HEADER + SECTOR), sound[hurt].rindex(b"vg0 {\nid")
        for what, places in (("header", header), ("label and header", [LABEL + 40, HEADER + 8]),
                             ("header and current text", [*header, *range(current, current + 400)])):
            name = "a fork with a damaged %s of disk %d" % (what, hurt)
            pile.put(("one", "two")[hurt], damaged(sound[hurt], *places))
            for order in (("one", "two"), ("two", "one")):
                group = named([group for group in pile.scan(*order)["groups"] if group["state"] != "removed"], "name", "vg0")
                is_told = any(note.startswith(("one", "two")[hurt]) for note in group.get("notes", []))
                tally.holds(name, group.get("state") in ("forked", "missing") and is_told, group)
                if "text" not in what:
                    pile.refuses(tally, name + ", what both have", "vg0/home", "%s is of this group, too" % ("one", "two")[hurt], *order)
                    pile.holds(tally, name + ", what is left", "vg0/" + left[0], left[1], *order)
                    tally.holds(name + ", its state", group.get("state") == "forked", group)
            got, _ = pile.save("vg0/" + gone[0], "one", "two")
            tally.holds(name + ", what only it has", got.status == 1, got.err)
            got = pile.call("tables", "vg0", "one", "two", "--to", "out")
            tally.holds("tables of " + name, got.status == 1 and not os.path.exists(os.path.join(pile.folder, "out")), got.err)
        pile.put(("one", "two")[hurt], sound[hurt])


def test_members(tally, pile):
    """A disk that the text names, whose metadata can't be read: its ring has the current text, an older one, a later one or none."""
    texts = [text("vg0", "g", number, "ab", home(3), *[home(20, "late", "l", "pv1")] * (number > 3)) for number in range(1, 7)]
    pile.put("one", disk("a", A, *texts[:5]))
    late = extents_of(B, 20, 5)
    for name, kept, state, is_given in (("the current text", texts[:5], "complete", True), ("older texts", texts[:4], "missing", False), ("a later text", texts[:6], "missing", False),
                                        ("no text", [], "missing", False)):
        content = disk("b", B, *kept) if kept else damaged(disk("b", B, texts[0]), *range(HEADER + SECTOR, HEADER + SECTOR + 4096))
        pile.put("two", damaged(content, *range(HEADER, HEADER + SECTOR)))
        group = named(pile.scan()["groups"], "name", "vg0")
        tally.holds("a disk whose ring has " + name, (group.get("state"), any("two" in note for note in group["notes"])) in ((state, True), ("forked", True)), group)
        if is_given:
            pile.holds(tally, "a volume on it", "vg0/late", late)
        else:
            pile.refuses(tally, "a volume on a disk whose ring has " + name, "vg0/late", "two ")
    pile.put("two", disk("b", B, *texts[:2]))
    pile.holds(tally, "a volume on a disk that was away", "vg0/late", late)


def test_unused(tally, pile):
    """A disk on which lvm2 keeps no text hides nothing of a removed volume; what a move leaves isn't a volume."""
    older = text("vg0", "g", 3, "ab", home(3), home(20, "gone", "n"), home(30, "pvmove0_mimage_0", "p"))
    ring = physical_volumes.area(b"", 0, size=64 * 1024, flags=1)
    pile.put("one", disk("a", A, older, text("vg0", "g", 4, "ab", home(3))))
    pile.put("two", physical_volumes.volume((HEADER, ring), length=DATA * SECTOR, identity=identity("b"), size=DATA * SECTOR + len(B)) + B)
    group = named(pile.scan()["groups"], "name", "vg0")
    tally.holds("a disk without a text", (group.get("state"), [row["name"] for row in group.get("volumes", [])]) == ("complete", ["home", "gone"]), group)
    pile.holds(tally, "a removed volume beside it", "vg0/gone", extents_of(A, 20, 5))


def test_ways(tally, pile):
    """What is said of a mirror's images, of a disk without a label, and of two copies of a disk."""
    legs = [volume("m_mimage_%d" % leg, "ij"[leg], linear(0, 5, ("pv0", 10 * leg)), status=HIDDEN) for leg in range(2)]
    mirror = volume("m", "m", segment(0, 5, "mirror", "mirror_count = 2", 'mirrors = ["m_mimage_0", 0, "m_mimage_1", 0]'))
    older, newer = text("vg0", "g", 3, "a", home(3)), text("vg0", "g", 4, "a", home(3), mirror, *legs)
    pile.put("one", disk("a", A, older, newer))
    pile.refuses(tally, "a mirror", "vg0/m", "save vg0/m_mimage_0, or if it was in sync vg0/m_mimage_1")
    pile.holds(tally, "its image", "vg0/m_mimage_0", extents_of(A, 0, 5))
    pile.put("two", disk("a", A, older))
    for order in (("one", "two"), ("two", "one")):
        pile.refuses(tally, "two copies of a disk", "vg0/home", "one and two both are the physical volume %s: give one of them (one has the newest text, with the seqno 4)" % dashed("a"), *order)
    pile.remove("two")


def test_unlabelled(tally, pile):
    """A disk whose label is gone or damaged: of a group of one disk it is known by its text, and of others the text is told."""
    known = text("vg0", "g", 4, "a", home(3))
    sound = disk("a", A, text("vg0", "g", 3, "a", home(3), home(20, "gone", "n")), known)
    longer = known.replace(b"dev_size = %d" % (DATA + 64 * EXTENT), b"dev_size = %d" % (DATA + 64 * EXTENT + 16))
    at_end = bytes(DATA * SECTOR) + A + physical_volumes.area(longer, SECTOR, start=len(sound), size=16 * SECTOR)
    for name, image in (("gone", bytes(FIRST) + sound[FIRST:]), ("damaged", damaged(sound, LABEL + 40)), ("gone with the first area", at_end)):
        pile.put("one", image)
        pile.holds(tally, "a disk whose label is " + name, "vg0/home", extents_of(A, 3, 5))
    two = text("vg0", "g", 4, "ab", home(3))
    other = disk("b", B, two)
    pile.put("one", damaged(disk("a", A, two), LABEL + 150))
    pile.put("two", other)
    pile.holds(tally, "a disk whose damaged label has its id", "vg0/home", extents_of(A, 3, 5))
    for name, images, why in (
            ("beside another of its group", {"one": damaged(disk("a", A, two), LABEL + 40), "two": other}, "isn't in these images, unless one is its disk"),
            ("of a group of two, alone", {"one": damaged(disk("a", A, two), LABEL + 40)}, "one: the label in sector 1 has a wrong sum: `metadata` prints a text of vg0 (seqno 4)"),
            ("under other bytes", {"one": b"other" * 100 + sound[500:512] + bytes(SECTOR) + sound[2 * SECTOR:]}, "one: there is no label in the first four sectors: `metadata` prints"),
            ("of a longer disk", {"one": damaged(sound[:-SECTOR], LABEL + 40)}, "one: the label in sector 1 has a wrong sum: `metadata` prints"),
            ("beside a copy of it", {"one": damaged(sound, LABEL + 40), "two": sound}, "one and two both are the physical volume"),
            ("that is a copy of one of two disks", {"one": disk("a", A, two), "two": other, "three": damaged(disk("a", A, two), LABEL + 40)}, "three is of this group, too")):
        pile.hold(images)
        pile.refuses(tally, "a disk without a label, " + name, "vg0/home", why)


def test_many(tally, pile):
    """A ring with hundreds of older texts, of one group and of many: a few programs are asked, and each volume is told."""
    count, asked, log = 300, os.path.join(pile.folder, "out-program"), os.path.join(pile.folder, "out-log")
    with open(asked, "w", encoding="ascii") as script:
        script.write('#!/bin/sh\necho >> %s\nexec %s "$@"\n' % (log, pile.program.path))
    os.chmod(asked, 0o755)
    for name, texts in (("of many groups", [(text("vg%d" % number, "g", number, "a", home(number % 60)).replace(b"gggggg-", b"g%05d-" % number)) for number in range(1, count)]),
                        ("of one group", [text("vg0", "g", number, "a", home(number % 60, "v%d" % number).replace("hhhhhh-", "h%05d-" % number)) for number in range(1, count)])):
        at, places = SECTOR, []
        for each in [*texts, text("vg0", "z" if "many" in name else "g", count, "a", home(55, "new", "n"))]:
            places.append((at, each))
            at += -(-len(each) // SECTOR) * SECTOR
        ring = physical_volumes.area(places[-1][1], places[-1][0], size=(DATA - 16) * SECTOR, others=places)
        pile.put("disk", physical_volumes.volume((HEADER, ring), length=DATA * SECTOR, identity=identity("a"), size=DATA * SECTOR + len(A)) + A)
        got = pile.call("scan", "--program", asked, "disk")
        with open(log, encoding="ascii") as calls:
            started = len(calls.readlines())
        os.unlink(log)
        tally.holds("older texts " + name, got.status == 0 and got.out.count(b"removed") >= count - 1 and started <= 6, f"{got.status}, {started} programs, {got.out[-300:]!r}")


def test_damage(tally, pile):
    """Random damage in labels, headers and rings of two disks of a group, and of a fork: what is given in any order of the
    images is the volume, and nothing fails but in words."""
    dice = random.Random(5)
    texts = [text("vg0", "g", number, "ab", home(3), home(20, "both", "b", "pv1")) for number in (1, 2, 3)]
    group = disk("a", A, *texts), disk("b", B, *texts[:2], texts[2])
    whole = {"home": {extents_of(A, 3, 5)}, "both": {extents_of(B, 20, 5)}}
    forked = {"home": {None}, "both": {extents_of(A, 3, 5)}}
    for number in range(60):
        sound, rights = (sides(), forked) if number % 2 else (group, whole)
        for image, content in zip(("one", "two"), sound):
            changed = bytearray(content)
            for _ in range(dice.randrange(4)):
                place = dice.choice((SECTOR + dice.randrange(160), HEADER + dice.randrange(80), HEADER + SECTOR + dice.randrange(6000)))
                changed[place] = dice.randrange(256)
            pile.put(image, bytes(changed))
        for name, right in rights.items():
            got = [pile.save("vg0/" + name, *order) for order in itertools.permutations(("one", "two"))]
            is_right = all(outcome.status in (0, 1) and (outcome.status == 1 or saved in right) for outcome, saved in got)
            tally.holds("a damaged disk", is_right and got[0][0].status == got[1][0].status, f"number {number}, {name}: {[(outcome.status, outcome.err[-200:]) for outcome, _ in got]}")
