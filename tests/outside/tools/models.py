"""The commands `scan`, `save`, `serve`, `lost` and `tables` over piles of images: what is found in them, and the bytes of volumes,
which are known as they were put there sector by sector."""

import importlib
import json
import os
import random
import re
import shutil
import signal
import subprocess

import physical_volumes
import store_lists
import tool_calls
from physical_volumes import damaged, patched
from piles import (A, B, CHUNK, DATA, EXTENT, HIDDEN, HOME, MIB, PLAIN, SECTION, SECTOR, TAG, WIDE, content_of,
                   dashed, disk, extents_of, identity, journal, leg_superblock, linear, member, named, pile,
                   put_pools, segment, served, store, striped, taken, text, volume)
from plain_model import parity_legs


def test_groups(tally, pile):
    """A group over two disks beside what is foreign; with one missing, and with one that is cut short; in two orders."""
    known = text("vg0", "g", 4, "ab", *PLAIN)
    pile.put("one", disk("a", A, known))
    pile.put("two", disk("b", B, known))
    pile.put("notes.txt", b"a text that speaks of LABELONE and LVM2 001\n" * 500)
    pile.put("holes", bytes(MIB))
    found = pile.scan()
    group = named(found["groups"], "name", "vg0")
    tally.holds("a group that is found", (group.get("state"), group.get("seqno"), group.get("id"), group.get("images")) == ("complete", 4, dashed("g"), ["one", "two"]), found)
    rows = [(row["name"], row["sectors"], row["kind"], row["state"], row["why"]) for row in group.get("volumes", [])]
    tally.holds("its volumes", rows == [("home", 56, "linear", "whole", None), ("wide-one", 64, "striped", "whole", None)], rows)
    pile.holds(tally, "a linear volume", "vg0/home", HOME)
    pile.holds(tally, "a striped volume, by the group's id", dashed("g") + "/wide-one", WIDE, "two", "notes.txt", "one", "holes")
    pile.holds(tally, "a volume without its group", "home", HOME)
    found = pile.scan("one", "holes")
    group = named(found["groups"], "name", "vg0")
    tally.holds("a group without a disk", group.get("state") == "missing" and all(row["why"] for row in group["volumes"]), found)
    pile.refuses(tally, "a volume on a missing disk", "vg0/home", "the physical volume %s isn't in these images" % dashed("b"), "one")
    before = pile.read("two")
    got = pile.call("save", "vg0/home", "two", "one")
    tally.tells("an image in place of OUT", got, 1, err="two is taken for OUT, and is there already; the physical volume")
    tally.holds("the image in place of OUT", pile.read("two") == before, "it was changed")
    got, saved = pile.save("vg0/home", "one", more=["--resume", "out.map"])
    pile.remove("out.map")
    tally.holds("the rest of one, with a map", got.status == 4 and saved == extents_of(A, 3, 5) + bytes(2 * EXTENT * SECTOR), "status %s, %r" % (got.status, got.err))
    pile.put("two", disk("b", B, known)[:(DATA + EXTENT) * SECTOR + 100])
    found = pile.scan()
    group = named(found["groups"], "name", "vg0")
    tally.holds("a group with a disk cut short", group.get("state") == "truncated", found)
    pile.refuses(tally, "a volume that is cut short", "vg0/home", "give an image of the whole disk")
    pile.put("two", disk("b", B, known))
    pile.put("copy", disk("b", B, known))
    pile.refuses(tally, "a disk and a copy of it", "vg0/home", "copy and two both are the physical volume")


def test_partitions(tally, pile):
    """A physical volume in a partition: of a GPT, of its backup, of an MBR, of one inside an extended one, of sectors of 4096
    bytes, and of none that is left."""
    lone = text("vg0", "g", 4, "a", volume("home", "h", linear(0, 5, ("pv0", 3))))
    inside = disk("a", A, lone)
    count = len(inside) // SECTOR
    first = physical_volumes.gpt((2048, 2048 + count - 1), last=2048 + count + 32).ljust(2048 * SECTOR, b"\0") + inside
    whole = physical_volumes.with_backup(first, (2048, 2048 + count - 1))
    logical = bytearray(physical_volumes.mbr((0x83, 8, 8), (0x05, 64, 4096 + count)).ljust(2112 * SECTOR, b"\0") + inside)
    logical[64 * SECTOR:65 * SECTOR] = physical_volumes.mbr((0x8E, 2048, count))
    big = -(-count // 8)
    wide = physical_volumes.gpt((40, 47), (2048, 2048 + count - 1), last=2048 + count, entry=256)
    for name, image, place, kind, copy in (
            ("a GPT", whole, 1, "GPT", "first"), ("the backup of a GPT", b"x" * 1024 + whole[1024:], 1, "GPT", "backup"),
            ("the backup alone", bytes(40 * SECTOR) + whole[40 * SECTOR:], 1, "GPT", "backup"),
            ("a GPT with entries of 256 bytes", wide.ljust(2048 * SECTOR, b"\0") + inside, 2, "GPT", "first"),
            ("an MBR", physical_volumes.mbr((0x83, 8, 8), (0x8E, 64, count)).ljust(64 * SECTOR, b"\0") + inside, 2, "MBR", ""),
            ("an extended partition", bytes(logical), 5, "MBR", ""),
            ("an MBR of 4096-byte sectors", physical_volumes.mbr((0x8E, 64, big)).ljust(64 * 4096, b"\0") + inside.ljust(big * 4096, b"\0"), 1, "MBR", ""),
            ("sectors of 4096 bytes", physical_volumes.gpt((64, 64 + big - 1), sector=4096, last=64 + big + 8).ljust(64 * 4096, b"\0") + inside.ljust(big * 4096, b"\0"),
             1, "GPT", "first")):
        pile.put("disk", image)
        found = pile.scan()
        row = found["images"][0] if found.get("images") else {}
        table = row.get("table") or {}
        tally.holds("what is told of " + name, (table.get("kind"), table.get("copy")) == (kind, copy) and
                    named(found["groups"], "name", "vg0").get("images") == ["disk:%d" % place], found)
        pile.holds(tally, "a volume below " + name, "vg0/home", extents_of(A, 3, 5))
        pile.holds(tally, "a partition of " + name, "disk:%d" % place, inside.ljust(big * 4096, b"\0") if "4096" in name else inside)
    pile.put("disk", b"no table\n" * 1000 + bytes(MIB - 9000) + inside)
    pile.holds(tally, "a volume that no table leads to", "vg0/home", extents_of(A, 3, 5))
    found = pile.scan()
    tally.holds("what is told of it", "looking through" in json.dumps(found["images"]), found)


def test_layers(tally, pile):
    """Snapshots, one that is invalid, one that is being merged; pvmove in progress; mirrors; what isn't followed."""
    new = [(number, content_of("new %d" % number, CHUNK)) for number in (7, 0, 19)]
    stores = (20, store(new)), (30, store(new, 0)), (40, store(new[:2]))
    data = patched(A, *stores, unit=EXTENT * SECTOR)
    def record(number, origin, of, key="cow_store"):
        return volume("snapshot%d" % number, str(number), segment(0, 5, "snapshot", "chunk_size = %d" % CHUNK, 'origin = "%s"' % origin, '%s = "%s"' % (key, of)),
                      status='"READ", "WRITE", "VISIBLE"' if key == "cow_store" else HIDDEN)
    moved = volume("pvmove0", "p", segment(0, 3, "mirror", "mirror_count = 2", "extents_moved = 3", 'mirrors = ["pv0", 50, "pv0", 55]'),
                   segment(3, 2, "mirror", "mirror_count = 2", "extents_moved = 0", 'mirrors = ["pv0", 53, "pv0", 58]'),
                   segment(5, 2, "mirror", "mirror_count = 2", "extents_moved = 1", 'mirrors = ["pv0", 60, "pv0", 62]'),
                   status='"READ", "WRITE", "PVMOVE", "LOCKED"')
    known = text("vg0", "g", 9, "a", volume("home", "h", linear(0, 5, ("pv0", 0))), volume("old", "o", linear(0, 5, ("pv0", 20)), status=HIDDEN), record(0, "home", "old"),
                 volume("full", "f", linear(0, 5, ("pv0", 30)), status=HIDDEN), record(1, "home", "full"),
                 volume("back", "b", linear(0, 5, ("pv0", 10))), volume("into", "i", linear(0, 5, ("pv0", 40)), status=HIDDEN), record(2, "back", "into", "merging_store"),
                 moved, volume("moving", "m", linear(0, 7, ("pvmove0", 0))), volume("odd", "d", segment(0, 2, "vdo", 'vdo_pool = "pool"')))
    pile.put("disk", disk("a", bytes(data), known))
    group = named(pile.scan()["groups"], "name", "vg0")
    rows = {row["name"]: row for row in group.get("volumes", [])}
    tally.holds("the volumes with layers", sorted(rows) == ["back", "full", "home", "moving", "odd", "old"], sorted(rows))
    told = {name: (row["kind"], row["state"], row["origin"], row["chunks_used"]) for name, row in rows.items()}
    tally.holds("what is told of snapshots", (told.get("old"), told.get("full")) == (("snapshot", "whole", "home", 3), ("snapshot", "invalid", "home", None)), told)
    over = lambda base, pairs: patched(base, *pairs, unit=CHUNK * SECTOR)
    pile.holds(tally, "an origin", "vg0/home", extents_of(data, 0, 5))
    pile.holds(tally, "a snapshot", "vg0/old", over(extents_of(data, 0, 5), new))
    pile.holds(tally, "an origin that is being merged into", "vg0/back", over(extents_of(data, 10, 5), new[:2]))
    moving = extents_of(data, 55, 3) + extents_of(data, 53, 2) + extents_of(data, 60, 2)
    pile.holds(tally, "a volume that is being moved", "vg0/moving", moving)
    pile.refuses(tally, "a snapshot that is invalid", "vg0/full", "save the origin instead")
    pile.refuses(tally, "a layer that isn't followed", "vg0/odd", "is of type vdo, which isn't followed")
    got = pile.call("tables", "vg0", "disk", "--to", "out")
    words = ["map", "table", "out/FILE", "out/DISKS", "--paths", "out/PATHS"]
    tally.holds("tables with snapshots", got.status == 0 and got.out.decode() == f"dmremap {' '.join(words)}\n", f"{got.out!r}, {got.err!r}")
    answers = pile.program.run(words, given="R vg0-old 0 40\n", folder=pile.folder)
    with open(os.path.join(pile.folder, "disk"), "rb") as image:
        read = b""
        for row in answers.out.decode().splitlines():
            image.seek(int(row.split()[3]) * SECTOR)
            read += image.read(int(row.split()[4]) * SECTOR)
    tally.holds("a snapshot by them", read == over(extents_of(data, 0, 5), new), f"{answers.out!r}, {answers.err!r}")


def test_stores(tally, pile):
    """Stores on two disks, of which one is missing or ends too soon: what the list and the chunks lie on has to be there, and no more. And
    lists that no kernel writes."""
    def made(count, chunk=1, wiped=(0, 0), key="cow_store", **head):
        """A snapshot with so many chunks in its store, of which six extents lie at the end of one disk and six on another, and its bytes.
        Some bytes of the store are wiped."""
        each, data = 32 * chunk, bytearray(A)
        pairs = [(number * 7 % (80 // chunk), 2 + number + number // each) for number in range(count)]
        content = bytearray(store_lists.store(head.pop("pairs", pairs), chunk, 96 // chunk, **head))
        wanted, size = bytearray(extents_of(A, 0, 10)), chunk * SECTOR
        for old, new in pairs:
            content[new * size:(new + 1) * size] = wanted[old * size:(old + 1) * size] = content_of("%d in %d" % (old, new), chunk)
        content[wiped[0]:wiped[1]] = bytes(wiped[1] - wiped[0])
        data[58 * EXTENT * SECTOR:] = content[:48 * SECTOR]
        record = volume("snapshot0", "0", segment(0, 10, "snapshot", "chunk_size = %d" % chunk, 'origin = "home"', '%s = "old"' % key))
        known = text("vg0", "g", 9, "ab", volume("home", "h", linear(0, 10, ("pv0", 0))),
                     volume("old", "o", linear(0, 6, ("pv0", 58)), linear(6, 6, ("pv1", 0)), status=HIDDEN), record)
        one = disk("a", bytes(data), known)
        pile.put("one", one)
        pile.put("two", disk("b", bytes(content[48 * SECTOR:]) + bytes(B[48 * SECTOR:]), known))
        return one, bytes(wanted)

    start = (DATA + 58 * EXTENT) * SECTOR
    for count in 0, 1, 31, 32, 33, 40, 50, 63, 64, 65, 70:
        one, wanted = made(count)
        pile.holds(tally, "a store of %d chunks" % count, "vg0/old", wanted)
        rows = {row["name"]: row["chunks_used"] for row in named(pile.scan()["groups"], "name", "vg0").get("volumes", [])}
        tally.holds("how many chunks it has", rows.get("old") == count, rows)
        if count <= 40:
            pile.holds(tally, "a store of %d chunks, without its second disk" % count, "vg0/old", wanted, "one")
        else:
            pile.refuses(tally, "a store of %d chunks, without its second disk" % count, "vg0/old", dashed("b"), "one")
        pile.put("cut", one[:start + 34 * SECTOR])
        if count < 32:
            pile.holds(tally, "a store of %d chunks on a disk that is cut" % count, "vg0/old", wanted, "cut", "two")
        else:
            pile.refuses(tally, "a store of %d chunks on a disk that is cut" % count, "vg0/old", "cut ends at byte", "cut", "two")
        pile.remove("cut")
    one, wanted = made(20, 2)
    pile.put("cut", one[:start + 3 * SECTOR])
    pile.refuses(tally, "a store whose chunks are cut", "vg0/old", "cut ends at byte", "cut", "two")
    pile.remove("cut")
    for name, why, head in (("no header", "neither as a store nor with zeros", {"magic": 7}), ("another version", "it isn't of version 1", {"version": 2}),
                            ("other chunks", "its chunks have another length", {"said": 2}), ("another order", "in another order", {"pairs": [(1, 3)]}),
                            ("a chunk past the end", "past the end", {"pairs": [(80, 2)]}), ("a chunk twice", "a chunk twice", {"pairs": [(1, 2), (1, 3)]}),
                            ("a header that says invalid", "the snapshot is invalid", {"valid": 0})):
        made(0, **head)
        pile.refuses(tally, "a store with " + name, "vg0/old", why)
        told = named(named(pile.scan()["groups"], "name", "vg0").get("volumes", []), "name", "old")
        tally.holds("what is told of it", told.get("state") == ("invalid" if "valid" in head else "not followed") and why in str(told.get("why")), told)
    _, wanted = made(0, wiped=(0, SECTOR))
    pile.holds(tally, "a store that is new", "vg0/old", wanted)
    for name, why, count, wiped in (("a lost header", "so that it isn't new", 3, (0, 4)), ("a lost sector", "so that it isn't new", 3, (0, SECTOR)),
                                    ("a lost entry", "goes on behind a free place", 5, (SECTOR + 16, SECTOR + 32)),
                                    ("half an entry", "goes on behind a free place", 5, (SECTOR + 72, SECTOR + 80)),
                                    ("a lost entry of its second area", "goes on behind a free place", 40, (34 * SECTOR + 16, 34 * SECTOR + 32))):
        made(count, wiped=wiped)
        pile.refuses(tally, "a store with " + name, "vg0/old", why)
        got = pile.call("tables", "vg0", "one", "two", "--to", "made")
        tally.holds("tables without it", got.status == 0 and b"left out: old: " in got.err and why.encode() in got.err, f"{got.status}, {got.err!r}")
        shutil.rmtree(os.path.join(pile.folder, "made"))
    many = [volume("s%d" % number, "s", linear(0, 1, ("pv0", 58)), status=HIDDEN) for number in range(101)]
    records = [volume("snapshot%d" % number, "n", segment(0, 1, "snapshot", "chunk_size = 3", 'origin = "home"', 'cow_store = "s%d"' % number)) for number in range(101)]
    pile.put("one", disk("a", A, text("vg0", "g", 9, "a", volume("home", "h", linear(0, 1, ("pv0", 0))), *many, *records)))
    whys = [row["why"] for row in named(pile.scan("one")["groups"], "name", "vg0").get("volumes", []) if row["kind"] == "snapshot"]
    tally.holds("more snapshots than are looked at", len(whys) == 101 and ["looked at together" in why for why in whys] == [False] * 100 + [True], whys)
    made(0, valid=0x4000001)
    pile.refuses(tally, "a store with a damaged header", "vg0/old", "says neither that it is valid")
    for count, wiped in ((0, (0, SECTOR)), (5, (SECTOR, 2 * SECTOR))):
        made(count, wiped=wiped, key="merging_store")
        pile.refuses(tally, "a merge whose store has no header, or no list", "vg0/home", "nothing tells whether the merge ended")


def test_levels(tally, pile):
    """Volumes on each other in many levels, as lines of tables and as mirrors, beside one that lies on a disk."""
    data = patched(A, *enumerate(map(leg_superblock, range(2))), unit=EXTENT * SECTOR)
    for kind, count, is_given in (("linear", 20, True), ("linear", 150, False), ("raid1", 20, True), ("raid1", 200, False)):
        lower = ["level%d" % number for number in range(1, count)] + ["lowest"]
        levels = [linear(0, 1, (name, 0)) if kind == "linear" else segment(0, 1, kind, "device_count = 2", 'raids = ["meta0", "%s", "meta1", "%s"]' % (name, name))
                  for name in lower]
        known = text("vg0", "g", 9, "a", volume("level0", "v", levels[0]), *(volume(name, "v", level, status=HIDDEN) for name, level in zip(lower, levels[1:])),
                     *(volume("meta%d" % number, "mn"[number], linear(0, 1, ("pv0", number)), status=HIDDEN) for number in range(2)),
                     volume("lowest", "l", linear(0, 1, ("pv0", 10))))
        pile.put("disk", disk("a", bytes(data), known))
        pile.holds(tally, f"what lies below {count} levels", "vg0/lowest", extents_of(A, 10, 1))
        if is_given:
            pile.holds(tally, f"{count} levels", "vg0/level0", extents_of(A, 10, 1))
        else:
            pile.refuses(tally, f"{count} levels", "vg0/level0", "in more than 40 levels")
            rows = {row["name"]: row["state"] for row in named(pile.scan()["groups"], "name", "vg0").get("volumes", [])}
            tally.holds("what is told of them", rows == {"level0": "not followed", "lowest": "whole"}, rows)


def test_legs(tally, pile):
    """A mirror of LVM over dm-integrity, whose journal has newer blocks; damaged journals and superblocks."""
    held = [(3, content_of("held", 1)), (17, content_of("kept", 1))]
    data = extents_of(A, 0, 5)
    wanted = patched(data, *held, unit=SECTOR)
    def leg(number):
        return [volume("image%d" % number, "ij"[number], segment(0, 5, "integrity", 'origin = "data%d"' % number, 'meta_dev = "tags%d"' % number, 'mode = "J"',
                                                                 "tag_size = %d" % TAG, "block_size = 512", 'internal_hash = "crc32c"'), status=HIDDEN),
                volume("data%d" % number, "de"[number], linear(0, 5, ("pv%d" % number, 0)), status=HIDDEN),
                volume("tags%d" % number, "tu"[number], linear(0, 7, ("pv%d" % number, 10)), status=HIDDEN),
                volume("meta%d" % number, "mn"[number], linear(0, 1, ("pv%d" % number, 20)), status=HIDDEN)]
    mirror = volume("home", "h", segment(0, 5, "raid1", "device_count = 2", "region_size = 8", 'raids = ["meta0", "image0", "meta1", "image1"]'))
    known = text("vg0", "g", 9, "ab", mirror, *leg(0), *leg(1))
    size = EXTENT * SECTOR
    def legged(number, change=None, superblock=None, base=A):
        head = leg_superblock(number) if superblock is None else superblock
        content = patched(base, (0, data), (10, journal(held)), (20, head), unit=size)
        content = content if change is None else damaged(content, 10 * size + change)
        pile.put("leg%d" % number, disk("ab"[number], content, known))
    block = 4096 + (SECTION + 9) * SECTOR
    legged(0)
    legged(1)
    pile.holds(tally, "a mirror over a journal", "vg0/home", wanted)
    for name, change, why in (("a block of a journal", block + 5, "of sector 17 is damaged"), ("a commit of a journal", block + 510, "section 1 of its journal is damaged"),
                              ("the counts of a journal", 10, "other sizes than the text")):
        legged(0, change)
        legged(1)
        pile.holds(tally, name + " damaged on a leg", "vg0/home", wanted)
        legged(1, change)
        pile.refuses(tally, name + " damaged on both", "vg0/home", why)
    legged(0)
    legged(1, superblock=bytes(4096))
    pile.refuses(tally, "a leg whose superblock is gone", "vg0/home", "leave its disk out to take the other one")
    pile.holds(tally, "the other leg", "vg0/home", wanted, "leg0")


def test_arrays(tally, pile):
    """Arrays whole and with members missing or stale, one of unequal members, and a group on one."""
    data = content_of("array", 128)
    legs = parity_legs(data, 5, 2, 3, 8)
    for number, leg in enumerate(legs):
        pile.put("m%d" % number, member(leg, 5, number, (0, 1, 2), 7, layout=2))
    pile.holds(tally, "raid5", "md:array", data)
    for number in range(3):
        others = [name for name in ("m0", "m1", "m2") if name != "m%d" % number]
        pile.holds(tally, "raid5 without member %d" % number, "md:array", data, *others)
    pile.refuses(tally, "raid5 of one member", "md:array", "is missing", "m1")
    # Two members lack sectors of one row, which aren't the same.
    for number, sector in ((0, 64 + 3), (1, 64 + 5)):
        at = sector * SECTOR
        pile.put("map%d" % number, b"0x0 ?\n0x0 0x%x +\n0x%x 0x200 -\n0x%x 0x%x +\n" % (at, at, at + SECTOR, 0x10000 - at - SECTOR))
    got = pile.call("lost", "md:array", "m0", "m1", "m2", "--map", "m0=map0", "--map", "m1=map1")
    tally.same("sectors that two members lack in one row", got, 0, "0 sectors lost of 128\n")
    pile.remove("map0", "map1")
    pile.put("m1", member(b"\xff" * len(legs[1]), 5, 1, (0, 1, 2), 3, layout=2))
    found = pile.scan()
    row = found["arrays"][0] if found["arrays"] else {}
    tally.holds("a stale member", (row.get("level"), row.get("members"), row.get("missing"), row.get("stale")) == ("raid5", ["m0", "m2"], 1, ["m1"]), found)
    pile.holds(tally, "raid5 with a stale member", "md:array", data)
    pile.put("m0", member(legs[0], 5, 0, (0, 1, 2), 7, layout=2, resync=0))
    pile.put("m2", member(legs[2], 5, 2, (0, 1, 2), 7, layout=2, resync=0))
    pile.refuses(tally, "raid5 with a member missing that wasn't shut down", "md:array", "wasn't shut down cleanly", "m0", "m2")
    pile.remove("m0", "m1", "m2")
    lone = text("vg0", "g", 4, "a", volume("home", "h", linear(0, 5, ("pv0", 3))))
    inside = disk("a", A, lone)
    count = len(inside) // SECTOR
    for number in range(2):
        pile.put("end%d" % number, member(inside, 1, number, (0, 1), 4, size=count, version=0))
    found = pile.scan()
    tally.holds("a group on a mirror whose superblocks are at the end", len(found["groups"]) == 1 and found["groups"][0]["images"] == ["md:array"], found)
    pile.holds(tally, "a volume on a mirror", "vg0/home", extents_of(A, 3, 5), "end1")
    pile.remove(*("end%d" % number for number in range(2)))
    halves = [content_of("zone %d" % number, 24 + 16 * number) for number in range(2)]
    copies = [content_of("copy %d" % number, 64) for number in range(2)]
    for number in (0, 3):
        pile.put("c%d" % number, member(copies[number // 2], 10, number, (0, 1, 2, 3), 7, layout=258))
    pile.holds(tally, "raid10 without two members", "md:array", striped(copies, 8))
    pile.refuses(tally, "raid10 without three", "md:array", "is missing", "c0")
    pile.remove(*("c%d" % number for number in (0, 3)))
    for number, half in enumerate(halves):
        pile.put("z%d" % number, member(half, 0, number, (0, 1), 0, layout=2, size=0))
    pile.holds(tally, "raid0 of unequal members", "md:array", striped([half[:24 * SECTOR] for half in halves], 8) + halves[1][24 * SECTOR:])
    pile.refuses(tally, "raid0 without a member", "md:array", "is missing", "z0")
    for number, half in enumerate(halves):
        pile.put("z%d" % number, member(half[:7 * SECTOR], 0, number, (0, 1), 0, layout=2, size=0))
    pile.refuses(tally, "raid0 without a whole chunk", "md:array", "its members have no whole chunk", "z0", "z1")


def test_nested(tally, pile):
    """Arrays of one member that lie in each other, in as many levels as are followed, and in one more."""
    wanted = content_of("inner", 64)
    for count in (8, 9):
        inner = wanted
        for number in range(count):
            inner = member(inner, -1, 0, (0,), 5, size=len(inner) // SECTOR, name=b"array%d" % number)
        pile.put("disk", inner)
        pile.holds(tally, "an array in others", "md:array1", member(wanted, -1, 0, (0,), 5, name=b"array0"))
        if count == 8:
            pile.holds(tally, "the innermost of 8", "md:array0", wanted)
        else:
            pile.refuses(tally, "the innermost of 9", "md:array0", "in 8 levels")
    pile.remove("disk")


def test_lost_superblocks(tally, pile):
    """Members whose superblock is damaged or gone: a mirror's other half may be older, and one member of raid0 isn't the disk."""
    base = text("vg0", "g", 4, "a", volume("home", "h", linear(0, 5, ("pv0", 3)))).replace(b"/dev/a", b"/dev/md0")
    inside, older = disk("a", A, base), disk("a", B, base)
    count = len(inside) // SECTOR
    new, old = member(inside, 1, 0, (0, 1), 9, size=count), member(older, 1, 1, (0, 1), 4, size=count)
    pile.put("new", new)
    pile.put("old", old)
    pile.holds(tally, "a mirror with a stale half", "vg0/home", extents_of(A, 3, 5))
    for place in (8 * SECTOR + 20, 8 * SECTOR + 200):
        pile.put("new", damaged(new, place))
        pile.refuses(tally, "a mirror whose newer half has a damaged superblock", "vg0/home", "leave that out to take what is here")
    pile.holds(tally, "the other half", "vg0/home", extents_of(B, 3, 5), "old")
    pile.refuses(tally, "the half with the damaged superblock alone", "vg0/home", "was on an array or on another volume, as a text says", "new")
    pile.put("new", bytes(64 * SECTOR) + new[64 * SECTOR:])
    pile.refuses(tally, "a mirror whose newer half has no superblock", "vg0/home", "new may be one with other data")
    pile.remove("old")
    pile.refuses(tally, "that half", "vg0/home", "was on an array or on another volume, as a text says")
    pile.remove("new")
    half = b"".join(inside[at:at + 256 * SECTOR] for at in range(0, len(inside), 512 * SECTOR))
    found = member(half, 0, 0, (0, 1), 0, layout=2, size=0, chunk=256)
    pile.put("half", bytes(64 * SECTOR) + found[64 * SECTOR:])
    pile.refuses(tally, "a member of raid0 without its superblock", "vg0/home", "one member of an array whose md superblock is lost")
    pile.put("half", damaged(found, 8 * SECTOR + 20))
    pile.refuses(tally, "a member of raid0 with a damaged one", "vg0/home", "one member of an array whose md superblock is lost")
    pile.put("half", half)
    pile.refuses(tally, "a member of raid0 whose end is cut off", "vg0/home", "one member of an array whose md superblock is lost")
    pile.remove("half")


def test_thin(tally, pile):
    """Thin volumes and a cached one, and metadata that is damaged."""
    data, known, contents = put_pools(pile)
    for name, content in contents.items():
        pile.holds(tally, "the volume " + name, name, content)
    pile.refuses(tally, "one that was deleted", "vg0/none", "has no device 3")
    for place, volume_name, why in ((3 * 4096 + 40, "one", "is damaged"), (20, "one", "is damaged"), (20 * EXTENT * SECTOR + 2 * 4096 + 50, "quick", "is damaged")):
        changed = bytearray(data)
        changed[place] ^= 1
        pile.put("disk", disk("a", bytes(changed), known))
        pile.refuses(tally, "metadata with a byte changed at %d" % place, "vg0/" + volume_name, why)
        if place == 3 * 4096 + 40:
            pile.holds(tally, "the other volume", "vg0/two", contents["vg0/two"])


def test_names(tally, pile):
    """Two groups of one name, sides of a fork, a group that was renamed, volumes and groups that were removed."""
    def lone(name, letter, seqno, disk_letter, *volumes):
        return text(name, letter, seqno, disk_letter, *volumes)
    home, other = volume("home", "h", linear(0, 5, ("pv0", 3))), volume("other", "o", linear(0, 2, ("pv0", 30)))
    pile.put("one", disk("a", A, lone("vg0", "g", 4, "a", home)))
    pile.put("two", disk("b", B, lone("vg0", "k", 4, "b", home, other)))
    pile.refuses(tally, "a name that two groups have", "vg0/home", dashed("g") + "/home")
    pile.holds(tally, "one of them by its id", dashed("k") + "/home", extents_of(B, 3, 5))
    pile.holds(tally, "a volume that one of them has", "vg0/other", extents_of(B, 30, 2))
    base = text("vg0", "g", 4, "ab", *PLAIN)
    pile.put("one", disk("a", A, base, lone("vg0", "g", 6, "a", home)))
    pile.put("two", disk("b", B, base, lone("vg0", "g", 5, "b", home), lone("vg0", "g", 6, "b", home, other)))
    found = pile.scan()
    tally.holds("a group that was forked", [row["state"] for row in found["groups"]] == ["forked", "forked"], found)
    pile.refuses(tally, "a name on both sides", "vg0/home", "give the images of one side alone (one or two)")
    pile.holds(tally, "a volume of one side", "vg0/other", extents_of(B, 30, 2))
    pile.holds(tally, "a side alone", "vg0/home", extents_of(A, 3, 5), "one")
    pile.put("two", disk("b", B, base))
    behind = text("vg0", "g", 5, "ab", *PLAIN, volume("later", "l", linear(0, 1, ("pv1", 40))))
    pile.put("one", disk("a", A, base, behind))
    found = pile.scan()
    tally.holds("a disk that is only behind", [(row["state"], row["seqno"]) for row in found["groups"]] == [("complete", 5)], found)
    newer = bytearray(disk("a", A, base, behind))
    newer[bytes(newer).rindex(b"extent_count")] ^= 1
    pile.put("one", bytes(newer))
    pile.refuses(tally, "a disk that is behind, where the newer text is damaged", "vg0/home", "has a later text, with the seqno 5, that isn't confirmed")
    pile.remove("two")
    first, second = lone("old", "g", 1, "a", home, other), lone("vg0", "g", 2, "a", home, other)
    third, fourth = lone("vg0", "g", 3, "a", other), lone("vg0", "g", 4, "a", other, volume("new", "n", linear(0, 1, ("pv0", 5))))
    pile.put("one", disk("a", A, first, second, third))
    found = pile.scan()
    row = found["groups"][0] if found["groups"] else {}
    tally.holds("a group that was renamed", row.get("name") == "vg0" and row.get("former_names") == ["old"], found)
    tally.holds("a volume that was removed", named(row.get("volumes", []), "name", "home").get("state") == "removed", found)
    pile.holds(tally, "what a removed volume has", "vg0/home", extents_of(A, 3, 5))
    damaged = bytearray(disk("a", A, first, second, third))
    damaged[bytes(damaged).rindex(b"seqno = 3")] ^= 1
    pile.put("one", bytes(damaged))
    for name in ("home", "other"):
        pile.refuses(tally, "a volume whose current text is damaged", "vg0/" + name, "a later one can't be read (one: the metadata area at byte 4096: ")
    pile.put("one", disk("a", A, first, second, third, fourth))
    pile.refuses(tally, "a removed volume that another one lies on", "vg0/home", "belong to vg0/new since")
    pile.put("one", disk("a", A, first, second, fourth))
    pile.refuses(tally, "a removed volume whose time is not known", "vg0/home", "the seqno 3")
    pile.put("one", disk("a", A, first, second, lone("vg0", "g", 3, "a"), is_current=False))
    found = pile.scan()
    tally.holds("a group that was removed", [(row["state"], row["seqno"]) for row in found["groups"]] == [("removed", 2)], found)
    pile.holds(tally, "a volume of it", "vg0/other", extents_of(A, 30, 2))
    os.rename(os.path.join(pile.folder, "one"), os.path.join(pile.folder, "other"))
    pile.refuses(tally, "a volume that is called as an image", "other", "say ./other, or vg0/other")
    pile.holds(tally, "the volume", "vg0/other", extents_of(A, 30, 2))
    pile.holds(tally, "the image", "./other", pile.read("other"))
    pile.refuses(tally, "no such volume", "vg0/nothing", "`scan` lists what is there")
    pile.refuses(tally, "no such group", "nowhere/home", "no group is called nowhere")


def test_areas(tally, pile):
    """A disk with two metadata areas, of which one is damaged, or behind."""
    home, other = volume("home", "h", linear(0, 5, ("pv0", 3))), volume("other", "o", linear(0, 2, ("pv0", 30)))
    older, old, new = text("vg0", "g", 3, "a", home, other), text("vg0", "g", 4, "a", home), text("vg0", "g", 5, "a", home, volume("new", "n", linear(0, 2, ("pv0", 30))))
    size, second = 64 * 1024, 512 * 1024
    def two(first_texts, second_texts, damaged=None):
        made = []
        for start, texts in ((physical_volumes.FIRST, first_texts), (second, second_texts)):
            at = [SECTOR * (1 + 4 * place) for place in range(len(texts))]
            made.append((start, bytearray(physical_volumes.area(texts[-1], at[-1], start=start, size=size, others=list(zip(at, texts))))))
        if damaged is not None:
            place, pattern = damaged
            content = made[place][1]
            content[bytes(content).rindex(pattern)] ^= 1
        pile.put("disk", physical_volumes.volume(*made, length=DATA * SECTOR, identity=identity("a"), size=DATA * SECTOR + len(A)) + A)
    for name, damaged in (("sound", None), ("damaged at the first", (0, b"seqno = 5")), ("damaged at the second", (1, b"extent_count")), ("without a header", (0, b"LVM2 x"))):
        two([older, old, new], [older, old, new], damaged)
        pile.holds(tally, "two areas, " + name, "vg0/home", extents_of(A, 3, 5))
        pile.refuses(tally, "a removed volume by two areas, " + name, "vg0/other", "belong to vg0/new since")
    two([older, old], [older, old, new])
    pile.holds(tally, "two areas, of which one is behind", "vg0/new", extents_of(A, 30, 2))
    for name, pattern in (("a later text", b"extent_count"), ("another text", b"seqno = 5")):
        two([older, old], [older, old, new], (1, pattern))
        for volume_name in ("home", "other"):
            pile.refuses(tally, "two areas, of which the newer one is damaged", "vg0/" + volume_name, "disk has " + name)
        got = pile.call("tables", "vg0", "disk", "--to", "made")
        tally.tells("tables by them", got, 1, err=b"disk has " + name.encode())
        got = tool_calls.call(pile.top, ["owner", "--program", pile.program.path, "disk"], given="disk %d\n" % (DATA + 60 * EXTENT), folder=pile.folder)
        tally.tells("what no volume has by them", got,
                    out=b"unknown: no volume of vg0 has it, but disk has " + name.encode())
    pile.remove("disk")


def test_saving(tally, pile):
    """A file that is an image; a map by which a run goes on; an image that is called as a format."""
    pile.put("one", disk("a", A, text("vg0", "g", 4, "a", volume("home", "h", linear(0, 5, ("pv0", 3))))))
    wanted = extents_of(A, 3, 5)
    size = len(wanted)
    before = pile.read("one")
    for name, words in (("as OUT", ["one"]), ("as MAP", ["out", "--resume", "one"])):
        got = pile.call("save", "vg0/home", *words[:1], "one", *words[1:])
        tally.holds("an image " + name, got.status in (1, 2) and pile.read("one") == before, "status %s, %r" % (got.status, got.err))
    pile.call("save", "vg0/home", "out", "one", "--resume", "map")
    own = pile.read("map").splitlines(True)[0]
    tally.holds("what a map is of", own.startswith(b"# Of vg0/home of 40 sectors, from %s " % dashed("h").encode()), own)
    pile.put("out", bytes(4096) + wanted[4096:8192] + bytes(size - 8192))
    pile.put("map", own + b"0x0 ?\n0x0 0x1000 ?\n0x1000 0x1000 +\n0x2000 0x%x ?\n" % (size - 0x2000))
    got = pile.call("save", "vg0/home", "out", "one", "--resume", "map")
    tally.holds("a run that goes on", got.status == 0 and pile.read("out") == wanted, got.err)
    pile.remove("out", "map")
    halves = text("vg1", "v", 4, "cd", volume("both", "h", linear(0, 5, ("pv0", 3)), linear(5, 5, ("pv1", 3))))
    pile.put("c", disk("c", A, halves))
    pile.put("d", disk("d", A, halves))
    begun = pile.call("save", "vg1/both", "out", "d", "--resume", "map")
    got = pile.call("save", "vg1/both", "out", "c", "--resume", "map")
    is_so = (begun.status, got.status) == (4, 0) and pile.read("out") == wanted * 2
    tally.holds("a run that goes on without the disk of what is there", is_so, got.err)
    pile.remove("c", "d", "out", "map")
    got = pile.call("save", "vg0/home", "out", "one", "--map", "map")
    is_kept = not any(os.path.exists(os.path.join(pile.folder, name)) for name in ("out", "map", "one=map"))
    tally.holds("a map of no image", got.status == 2 and b"give the one that save writes as --resume" in got.err and is_kept, got.err)
    os.rename(os.path.join(pile.folder, "one"), os.path.join(pile.folder, "table"))
    pile.holds(tally, "an image that is called as a format", "vg0/home", wanted, "./table")
    got = pile.call("save", "vg0/home", "out", "./table", "--fresh")
    tally.tells("a word of the other form", got, 2, err="--fresh is for FORMAT FILE")
    tally.tells("an image that isn't there", pile.call("scan", "nowhere"), 1, err="nowhere: No such file or directory")
    for part in "table:1", "table?offset=0&length=512":
        got, why = pile.call("scan", part), ": No such file or directory: give table, whose partitions are found\n"
        tally.tells("a partition in place of its image", got, 1, err=part + why)
    got = pile.call("scan", "nowhere:1")
    tally.tells("one of no image", got, 1, err="nowhere:1: No such file or directory\n")
    once = pile.program.file("once", '#!/bin/sh\n[ "$1" = map ] || exec {0} "$@"\nhead -n 1 | {0} "$@"\n'.format(pile.program.path))
    os.chmod(once, 0o755)
    pile.put("one", disk("a", A, text("vg0", "g", 4, "a", *(volume(name, name[0], linear(0, 5, ("pv0", 3)), segment(5, 1, "zero")) for name in ("home", "next")))))
    tally.tells("a dmremap that answers once", pile.call("scan", "--program", once, "one"), 0, "vg0/next", "")
    pile.put("short", bytes(74))
    tally.same("an image that is too short", pile.call("scan", "short"), 0, "short: foreign: it is too short: it has 74 bytes\n")


def test_files(tally, pile):
    """`tables` and `lost`: the program answers by the tables as the bytes lie; sectors that a map has as bad are lost, unless
    another disk has them."""
    known = text("vg-0", "g", 4, "ab", *PLAIN)
    pile.put("one", disk("a", A, known))
    pile.put("two", disk("b", B, known))
    got = pile.call("tables", "vg-0", "one", "two", "--to", "made")
    made = os.path.join(pile.folder, "made")
    tally.same("tables of a plain group", got, 0, "dmremap map images made/PATHS\n", "dmremap reads the text of vg-0 in its images\n")
    tally.holds("what is written of it", os.listdir(made) == ["PATHS"], os.listdir(made))
    with open(os.path.join(made, "PATHS"), encoding="utf-8") as listed:
        paths = dict(line.rstrip("\n").split(" ", 1) for line in listed)
    answers = pile.program.run(["map", "images", os.path.join(made, "PATHS")], given="R vg--0-home 0 56\nR vg--0-wide--one 0 64\n")
    read = {1: b"", 2: b""}
    for line in answers.out.decode().splitlines():
        number, _, name, start, count = line.split()
        with open(paths[name], "rb") as image:
            image.seek(int(start) * SECTOR)
            read[int(number)] += image.read(int(count) * SECTOR)
    tally.holds("what is read by them", read == {1: HOME, 2: WIDE}, answers.err)
    got = pile.call("tables", "vg-0", "one", "two", "--to", "made")
    tally.tells("tables that are there", got, 1, err="it is there already: give another folder, or remove it first")
    shutil.rmtree(made)
    whole = len(disk("a", A, known))
    bad = (DATA + 5 * EXTENT) * SECTOR
    pile.put("map", b"0x0 ?\n0x0 0x%x +\n0x%x 0x1000 -\n0x%x 0x%x +\n" % (bad, bad, bad + 0x1000, whole - bad - 0x1000))
    got = pile.call("lost", "vg-0/wide-one", "one", "two", "--map", "one=map")
    tally.same("a volume that lost nothing", got, 0, "0 sectors lost of 64\n")
    got = pile.call("lost", "vg-0/home", "one", "two", "--map", "one=map")
    tally.same("a volume without a file system", got, 0, "8 sectors: no file system\n8 sectors lost of 56\n")
    got = pile.call("lost", "vg-0/home", "one", "two", "--map", "three=map")
    tally.holds("a map of no image", got.status == 2, got.err)


def test_read(tally, pile):
    """A plain group is read by dmremap itself, and a terminal is told so. A volume with a map, one to go on with, and another group aren't;
    here what dmremap reads is changed on its way, or ends early."""
    known = text("vg-0", "g", 4, "ab", *PLAIN)
    images = {"one": disk("a", A, known), "two": disk("b", B, known)}
    pile.hold(images)
    changed = bytes((byte + 1) % 256 for byte in HOME)
    ways = {"changes": ("", "tr '\\000-\\377' '\\001-\\377\\000'"), "ends": ("--from 0", "head -c 5000")}
    for name, (form, way) in ways.items():
        script = '#!/bin/sh\ncase "$*" in read*"%s"*) {0} "$@" > /dev/null && {0} "$@" | %s;; *) exec {0} "$@";; esac\n'
        os.chmod(pile.program.file(name, script.format(pile.program.path) % (form, way)), 0o755)
    pile.put("map", b"0x0 ?\n0x0 0x400 +\n0x400 0x200 -\n0x600 0x%x +\n" % (len(images["one"]) - 0x600))
    other = text("vg-0", "g", 4, "ab", *PLAIN, volume("odd", "o", segment(0, 1, "error", "x = 1"), segment(1, 1, "thin-pool")))
    for name, way, content, wanted, more in (
            ("a plain group", "changes", images, changed, []), ("a plain group, that ends early once", "ends", images, HOME, []),
            ("one with a map of an image", "changes", images, HOME, ["--map", "one=map"]), ("one to go on with", "changes", images, HOME, ["--resume", "out.map"]),
            ("another group", "changes", {"one": disk("a", A, other), "two": disk("b", B, other)}, HOME, [])):
        pile.hold({**content, "map": pile.read("map")})
        here, there = os.openpty()
        path = os.path.join(pile.program.folder, way)
        got = tool_calls.call(pile.top, ["save", "--program", path, "vg-0/home", "out", "one", "two", *more], folder=pile.folder, stderr=there)
        os.close(there)
        told = b"".join(iter(lambda: reading(here), b""))
        os.close(here)
        is_told = (b"read by dmremap, proved" in told) == (name.startswith("a plain"))
        is_told = is_told and (b"no map was given" in told) == ("--map" not in more)
        tally.holds("what is read of " + name, got.status == 0 and pile.read("out") == wanted and is_told, (got.status, told))
        pile.remove("out", *["out.map"] * ("--resume" in more))
    pile.hold(images)
    tally.same("what else is told of a plain group", pile.call("save", "vg-0/home", "out", "one", "two"), 0)


def reading(descriptor):
    """What comes next of a terminal, or nothing at its end."""
    try:
        return os.read(descriptor, 65536)
    except OSError:
        return b""


# What mounts a file system, where one is known that can be mounted.
MOUNTS = {"ext2": "ro,loop", "ext3": "ro,loop,noload", "ext4": "ro,loop,noload", "xfs": "ro,loop,norecovery", "btrfs": "ro,loop", "luks": None, None: None}


def test_served(tally, pile):
    """`serve` refuses what can't be served, needs nbdkit, takes the place of nothing, and prints what fits the volume."""
    serve = importlib.import_module("dmremap_tools.images.serve")
    for system, options in MOUNTS.items():
        lines = serve.lines_of("s", system)
        shown = re.findall("^mount it: +mount -o (\\S+) disk/volume.img /mnt ", lines, re.M)
        tally.holds(f"how {system} is mounted", shown == [options] * bool(options) and "umount disk" in lines, lines)
    pile.put("one", disk("a", A, text("vg0", "g", 4, "a", volume("home", "h", linear(0, 5, ("pv0", 3))))))
    if not shutil.which("nbdkit"):
        tally.skip("serving a volume", "there is no nbdkit")
        return
    tally.tells("serving nothing", pile.call("serve", "vg0/nothing", "one"), 1, err="no such volume")
    if not shutil.which("nbdcopy") or subprocess.run(["nbdkit", "python", "--version"], capture_output=True).returncode:
        tally.skip("reading from a server", "there is no nbdcopy, or no plugin of nbdkit for Python")
        return
    words = [os.path.join(pile.top, "dmremap-tools"), "serve", "--program", pile.program.path, "--socket", "out.sock", "vg0/home", "one"]
    path = os.path.join(pile.folder, "out.sock")
    server = subprocess.Popen(words, stdout=subprocess.PIPE, cwd=pile.folder)
    uri = server.stdout.readline().decode().strip().strip("'")
    got = pile.call(*words[1:2], *words[4:])
    tally.tells("a socket that is there", got, 1, err="out.sock: it is there already: give another --socket, or end its server")
    subprocess.run(["nbdcopy", uri, "out"], cwd=pile.folder, check=False)
    server.terminate()
    status = server.wait(30)
    server.stdout.close()
    tally.holds("a copy from a server", pile.read("out") == extents_of(A, 3, 5), uri)
    tally.holds("how a server ends", status in (130, 143) and not os.path.exists(path), status)


def kill_children():
    """Kills the mappers of this process; how many there were."""
    killed = 0
    for number in filter(str.isdigit, os.listdir("/proc")):
        try:
            with open(f"/proc/{number}/stat", encoding="ascii", errors="replace") as file:
                name, _, rest = file.read().partition("(")[2].rpartition(")")
        except OSError:
            continue
        if name == "dmremap" and int(rest.split()[1]) == os.getpid():
            os.kill(int(number), signal.SIGKILL)
            killed += 1
    return killed


def test_plugin(tally, pile):
    """The plugin's own functions: odd reads and extents over several parts, of which one is missing; a child that is killed; stripes of a
    sector of which every other one is zeros, in bounded memory."""
    known = text("vg0", "g", 4, "a", volume("v", "v", linear(0, 1, ("pv0", 3)), linear(1, 1, ("pv0", 0)), segment(2, 1, "zero"), linear(3, 1, ("pv0", 63))),
                 volume("zeros", "z", segment(0, 4096, "zero")),
                 volume("w", "w", segment(0, 2, "striped", "stripe_count = 2", "stripe_size = 1", 'stripes = ["pv0", 8, "zeros", 0]')))
    content = disk("a", A, known)
    pile.put("one", content[:-4 * SECTOR])
    size = EXTENT * SECTOR
    whole = extents_of(A, 3, 1) + extents_of(A, 0, 1) + bytes(size) + extents_of(A, 63, 1)
    end = len(whole) - 4 * SECTOR
    spots = [(at, count) for at in (0, 1, size - 511, size - 1, size, size + 1, 2 * size - 3, end - 600) for count in (1, 511, 512, 1023, 4100)]
    found, said = served(pile, "vg0/v", "one", lambda plugin: [taken(plugin, *spot) for spot in spots])
    wanted = [whole[at:at + count] if -(-(at + count) // SECTOR) * SECTOR <= end else None for at, count in spots]
    tally.holds("odd reads over several parts", found == wanted, f"{[a == b for a, b in zip(found or [], wanted)]}, {said}")
    starts = (0, 1, size - 1, size + 1, 2 * size - 1, 2 * size + 1)
    found, said = served(pile, "vg0/v", "one", lambda plugin: [plugin.extents(1, 3 * size - at, at, 0) for at in starts])
    parts = [(0, size, 0), (size, 2 * size, 0), (2 * size, 3 * size, 3)]
    wanted = [[(max(at, begin), stop - max(at, begin), kind) for begin, stop, kind in parts if at < stop] for at in starts]
    tally.holds("extents from odd places", found == wanted, f"{found}, {said}")
    found, said = served(pile, "vg0/zeros", "one", lambda plugin: [taken(plugin, 0, 1), kill_children(), taken(plugin, 20000 * SECTOR, 3)])
    tally.holds("a server whose child was killed", found and found[0] == bytes(1) and found[1] and found[2] == bytes(3), f"{found}, {said}")
    found, said = served(pile, "vg0/w", "one", lambda plugin: plugin.extents(1, 2 * size, 0, 0))
    tally.holds("extents of stripes of a sector", found == [(at * SECTOR, SECTOR, 3 * (at % 2)) for at in range(2 * EXTENT)], f"{found and found[:3]}, {said}")


TRIES = 80


def test_hostile(tally, pile):
    """Images with random changes, also of texts whose sums are right: a refusal in words, or an answer, which is right unless the text
    itself says otherwise."""
    known = text("vg0", "g", 4, "ab", *PLAIN, volume("thin", "t", segment(0, 8, "thin", 'thin_pool = "wide-one"', "device_id = 1")))
    dice = random.Random(4)
    pile.put("two", disk("b", B, known))
    saved = 0
    words = [b"0", b"-1", b"18446744073709551615", b'"pv0"', b'"home"', b'"striped"', b'"thin"', b'"raid5"', b'"cache"', b"{", b"}", b"[", b"]", b"=", b'"', b""]
    for number in range(TRIES):
        changed = known[:-1].split(b" ")
        for _ in range(dice.randrange(1, 4)):
            changed[dice.randrange(len(changed))] = dice.choice(words)
        image = bytearray(disk("a", A, b" ".join(changed) + b"\0" if number % 2 else known))
        if not number % 2:
            for _ in range(4):
                image[dice.randrange(16 * SECTOR)] = dice.randrange(256)
        pile.put("one", bytes(image))
        tally.tells("scanning changed images %d" % number, pile.call("scan", "--json", "one"), err="")
        got, content = pile.save("vg0/home", "one", "two")
        is_so = got.status in (0, 1) and (content is not None) == (got.status == 0) and (number % 2 or content in (None, HOME))
        tally.holds("saving from changed images", is_so, "number %d: status %s, %r" % (number, got.status, got.err[-300:]))
        saved += content is not None
    tally.holds("how many could be saved", 0 < saved < TRIES, saved)
