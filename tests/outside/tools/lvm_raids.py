"""LVM's raids over images that are made here: each type with legs missing, in each layout as the plain model has it; legs that
fail, are rebuilt or in the first sync, and superblocks that don't agree."""

import itertools
import os
import random
import struct

import tool_calls
from dmremap_tools.base.refusal import Refusal
from dmremap_tools.model.pile import Pile as Images
from piles import CLEAN, DATA, EXTENT, HIDDEN, SECTOR, content_of, disk, leg_bitmap, linear, named, pile, segment, text, volume
from plain_model import PARITY_KINDS, parity_legs, stripe_of

# Sectors of a chunk, rows of chunks, extents of a leg's superblock and of its data, and those that a volume takes of a disk.
CHUNK, ROWS = 8, 6
META, LEG = 2, ROWS * CHUNK // EXTENT
EACH = META + LEG
# The types with parity: the layouts in their superblocks.
RAID5, RAID6 = ({kind: layout for kind, (of, layout) in PARITY_KINDS.items() if of == level} for level in (5, 6))


def superblock(count, leg, level, layout, **given):
    """A superblock of dm-raid, with its bitmap, in which the regions `dirty` were being written."""
    told = {"magic": 0x64526D44, "features": 1, "events": 20, "failed": 0, "recovered": CLEAN, "resync": CLEAN, "chunk": CHUNK if level != 1 else 0, "flags": 0,
            "reshape": CLEAN, "delta": 0, "offset": 0, "incompatible": 0, "dirty": (), **given}
    head = struct.pack("<4L4Q4LQ3Ll4Q24xL", told["magic"], told["features"], count, leg, told["events"], told["failed"], told["recovered"], told["resync"], level, layout,
                       told["chunk"], told["flags"], told["reshape"], level, layout, told["chunk"], told["delta"], 0, told["offset"], 0, 0, told["incompatible"])
    return head.ljust(4096, b"\0") + leg_bitmap(LEG * EXTENT, CHUNK, told["dirty"]).ljust(4096, b"\0")


class Raid:
    """A volume of legs, the n-th of a group: its sections, and what each of its legs has on a disk of its own."""

    def __init__(self, name, kind, content, legs, level, layout, place=0, **given):
        self.name, self.content, self.legs, self.given, self.place = name, content, legs, given, place
        self.count, self.level, self.layout, self.each = len(legs), level, layout, {}
        pairs = ["%s_%s_%d" % (name, part, leg) for leg in range(self.count) for part in ("rmeta", "rimage")]
        listed = pairs[1::2] if kind == "raid0" else pairs
        counted = "stripe_count" if kind.startswith("raid0") else "device_count"
        size = len(content) // SECTOR // EXTENT
        extra = ["reshape_count = %d" % given["reshaped"]] if "reshaped" in given else ["data_copies = %d" % (layout & 15)] if level == 10 else []
        extents = size + given.get("reshaped", 0) * {5: self.count - 1}.get(level, self.count)
        self.sections = [volume(name, name[-1], segment(0, extents, kind, "%s = %d" % (counted, self.count), "stripe_size = %d" % CHUNK, *extra,
                                                        "%s = [%s]" % ("raid0_lvs" if kind == "raid0" else "raids", ", ".join('"%s"' % each for each in listed))))]
        for leg in range(self.count):
            start = place * EACH
            self.sections += [volume(pairs[2 * leg], "m", linear(0, META, ("pv%d" % leg, start)), status=HIDDEN),
                              volume(pairs[2 * leg + 1], "i", linear(0, LEG, ("pv%d" % leg, start + META)), status=HIDDEN)]

    def put(self, disks):
        for leg, data in enumerate(self.legs):
            told = {key: value for key, value in {**self.given, **self.each.get(leg, {})}.items() if key != "reshaped"}
            meta = told["raw"] if "raw" in told else superblock(self.count, leg, self.level, self.layout, **told)
            at = self.place * EACH * EXTENT * SECTOR
            disks[leg][at:at + len(meta)] = meta
            begin = at + META * EXTENT * SECTOR
            disks[leg][begin:begin + len(data)] = data


def put(pile, raids, seqno=4):
    """The disks of a group with these volumes."""
    count = max(raid.count for raid in raids)
    size = (max(raid.place for raid in raids) + 1) * EACH
    disks = [bytearray(b"\xee" * size * EXTENT * SECTOR) for _ in range(count)]
    for raid in raids:
        raid.put(disks)
    letters = "abcdefgh"[:count]
    known = text("vg0", "g", seqno, letters, *(section for raid in raids for section in raid.sections), extents=size)
    for letter, content in zip(letters, disks):
        pile.put("disk" + letter, disk(letter, bytes(content), known))


def read(pile, name, images):
    """The bytes of a volume, or why they can't be given, without a process for each."""
    images = [os.path.join(pile.folder, image) for image in images]
    try:
        target = Images(images, pile.program.path).target("vg0/" + name)
        return target.device.lack(0, target.size) or target.device.read(0, target.size)
    except Refusal as refusal:
        return refusal.why


def parity_raids(kinds, level, count):
    for place, (kind, layout) in enumerate(kinds.items()):
        content = content_of(kind, ROWS * (count - level + 4) * CHUNK)
        yield Raid("v_" + kind, kind, content, parity_legs(content, level, layout, count, CHUNK), level, layout, place)


def copied_raids():
    """Raids without parity, with the sets of legs of which each has to have one."""
    for place, (kind, copies, count, level, layout) in enumerate((
            ("raid0", 1, 3, 0, 0), ("raid0_meta", 1, 3, 0, 0), ("raid1", 3, 3, 1, 0), ("raid10", 2, 4, 10, 258), ("raid10_near", 2, 2, 10, 258), ("raid10", 3, 6, 10, 259))):
        columns = count // copies
        content, size = content_of("%s %d" % (kind, place), ROWS * CHUNK * columns), CHUNK * SECTOR
        chunks = [content[at:at + size] for at in range(0, len(content), size)]
        legs = [b"".join(chunks[leg // copies::columns]) for leg in range(count)]
        yield Raid("v%d" % place, kind, content, legs, level, layout, place), [set(range(first, first + copies)) for first in range(0, count, copies)]


def test_missing(tally, pile):
    """Each type of raid whole, without each leg, and without each pair of legs: its bytes, or a refusal."""
    cases = [[(raid, lambda gone, most=most: len(gone) <= most) for raid in raids]
             for most, raids in ((1, parity_raids(RAID5, 5, 4)), (2, parity_raids(RAID6, 6, 5)), (1, parity_raids({"raid5_rs": 3}, 5, 3)), (2, parity_raids({"raid6_ls_6": 18}, 6, 6)))]
    cases.append([(raid, lambda gone, sets=sets: all(each - gone for each in sets)) for raid, sets in copied_raids()])
    for raids in cases:
        put(pile, [raid for raid, _ in raids])
        images = pile.images()
        for gone in (set(gone) for count in range(3) for gone in itertools.combinations(range(len(images)), count)):
            here = [image for leg, image in enumerate(images) if leg not in gone]
            opened = Images([os.path.join(pile.folder, image) for image in reversed(here)], pile.program.path)
            for raid, may_lack in raids:
                device = opened.target("vg0/" + raid.name).device
                why, is_given = device.lack(0, len(raid.content)), may_lack({leg for leg in gone if leg < raid.count})
                is_right = why is None and device.read(0, len(raid.content)) == raid.content if is_given else why is not None
                tally.holds("%s of %d without legs %s" % (raid.name, raid.count, sorted(gone)), is_right, why)
        pile.remove(*images)


FAILED, RECOVERED = {"failed": 2}, {"recovered": 24}
HALF = 24 * SECTOR


def test_states(tally, pile):
    """What superblocks say of legs, in both orders of the images: its bytes, or a refusal."""
    wanted, older = content_of("new", ROWS * CHUNK), content_of("old", ROWS * CHUNK)
    five = content_of("five", ROWS * CHUNK * 2)
    legs = parity_legs(five, 5, 2, 3, CHUNK)
    half = wanted[:HALF] + older[HALF:]
    bad = [legs[0], b"\xff" * len(legs[1]), legs[2]]

    def mirror(name, wants, data, each, gone=(), **given):
        check(name, wants, Raid("home", "raid1", wanted, data, 1, 0, **given), each, gone)

    def parity(name, wants, data, each, gone=(), **given):
        check(name, wants, Raid("home", "raid5", five, data, 5, 2, **given), each, gone)

    def check(name, wants, raid, each, gone):
        raid.each = each
        put(pile, [raid])
        images = [image for leg, image in enumerate(pile.images()) if leg not in gone]
        for order in (images, images[::-1]):
            got = read(pile, "home", order)
            tally.holds(name, got == wants if isinstance(wants, bytes) else isinstance(got, str) and wants in got, got[:200])
        pile.remove(*pile.images())

    both, fresh = [wanted, wanted], [wanted, older]
    mirror("a mirror", wanted, both, {})
    mirror("one of whose legs failed", wanted, fresh, {0: {**FAILED, "events": 21}})
    mirror("whose first leg failed", wanted, fresh[::-1], {1: {"failed": 1, "events": 21}})
    mirror("one of whose legs is stale", wanted, fresh, {0: {"events": 30}})
    mirror("whose first leg is stale", wanted, fresh[::-1], {1: {"events": 30}})
    mirror("whose legs were written apart", "were written apart from each other", fresh, {0: {"failed": 2}, 1: {"failed": 1}})
    mirror("whose legs were written apart for long", "were written apart from each other", fresh, {0: {"failed": 2, "events": 90}, 1: {"failed": 1}})
    mirror("one half of these", wanted, fresh, {0: {"failed": 2}, 1: {"failed": 1}}, gone=[1])
    mirror("one of whose legs says that it has failed, as it came back", wanted, fresh, {0: {"failed": 2, "events": 20}, 1: {"events": 21, "recovered": 0}})
    mirror("whose legs say so in part", "were written apart from each other", [wanted, older, older], {1: {"failed": 4}, 0: {"events": 21}})
    mirror("whose second leg is being filled", wanted, fresh, {1: {"recovered": 0}})
    mirror("whose first leg is being filled", wanted, fresh[::-1], {0: {"recovered": 0}})
    mirror("that leg alone", "it was being rebuilt", fresh, {1: {"recovered": 0}}, gone=[0])
    mirror("that leg alone when it was half filled", "it was being rebuilt", [wanted, half], {1: RECOVERED}, gone=[0])
    mirror("whose first sync goes on", wanted, [wanted, half], {}, resync=24)
    mirror("whose first sync begins, without its first leg", "was being copied to the other legs", fresh, {}, gone=[0], resync=0)
    mirror("whose first sync goes on, without its second leg", wanted, fresh, {}, gone=[1], resync=24)
    mirror("whose superblock is gone", "leave its disk out to take the other one", fresh, {1: {"raw": bytes(8192)}})
    mirror("whose superblock is of another leg", "leave its disk out to take the other one", fresh, {1: {"raw": superblock(2, 0, 1, 0)}})
    mirror("whose superblock has other features", "a layout that isn't followed", both, {1: {"features": 3}})
    mirror("whose superblock has features that nobody may pass over", "a layout that isn't followed", both, {1: {"incompatible": 1}})
    mirror("without both superblocks", "give the disks of all legs", both, {leg: {"raw": bytes(8192)} for leg in range(2)})
    parity("a raid5", five, legs, {})
    parity("one of whose legs failed", five, bad, {0: {**FAILED, "events": 21}, 2: {**FAILED, "events": 21}})
    parity("one of whose legs is stale", five, bad, {0: {"events": 30}, 2: {"events": 30}})
    parity("one of whose legs is stale, and another is missing", "it is stale", bad, {0: {"events": 30}, 2: {"events": 30}}, gone=[0])
    parity("one of whose superblocks is gone", five, bad, {1: {"raw": bytes(8192)}})
    parity("two of whose superblocks are gone", "leave its disk out", bad, {leg: {"raw": bytes(8192)} for leg in (0, 1)})
    parity("that was being written to", five, legs, {}, dirty=(2,))
    parity("that was being written to, without a leg", "wasn't shut down cleanly", legs, {}, gone=[1], dirty=(2,))
    parity("that was written to while a leg was out", five, bad, {0: {**FAILED, "events": 21}, 2: {**FAILED, "events": 21}}, dirty=(2,))
    parity("the same without that leg", five, bad, {0: {**FAILED, "events": 21}, 2: {**FAILED, "events": 21}}, gone=[1], dirty=(2,))
    parity("one of whose legs is half rebuilt", five, [legs[0], legs[1][:HALF] + bad[1][HALF:], legs[2]], {1: RECOVERED}, dirty=range(6))
    parity("the same without another leg", "it was being rebuilt", legs, {1: RECOVERED}, gone=[0])
    parity("whose first sync goes on", five, legs, {}, resync=8)
    parity("whose first sync goes on, without a leg", "wasn't shut down cleanly", legs, {}, gone=[2], resync=8)
    parity("that is being reshaped", "it is being reshaped", legs, {}, flags=1, reshape=64)
    parity("that gets another leg", "it is being reshaped", legs, {}, delta=1)
    parity("with chunks of another length", "other chunks than the text", legs, {}, chunk=16)
    parity("in another layout than the text's", "a layout that isn't followed", legs, {leg: {"raw": superblock(3, leg, 5, 0)} for leg in range(3)})
    moved = [b"\xff" * EXTENT * SECTOR + leg[:-EXTENT * SECTOR] for leg in parity_legs(five[:-2 * EXTENT * SECTOR] + bytes(2 * EXTENT * SECTOR), 5, 2, 3, CHUNK)]
    reshaped = Raid("home", "raid5", five[:-2 * EXTENT * SECTOR], moved, 5, 2, reshaped=1, offset=EXTENT)
    check("that was reshaped, so that its data begins later", reshaped.content, reshaped, {}, [])
    check("the same without a leg", reshaped.content, reshaped, {}, [0])
    check("whose superblocks say several places", "several places of its data", reshaped, {1: {"offset": 0}}, [])


def test_told(tally, pile):
    """What `scan` and `save` say of raids, in a process of their own: those whose legs are a table, and those that aren't."""
    raids = [raid for raid, _ in copied_raids()]
    put(pile, raids)
    rows = {row["name"]: (row["kind"], row["state"], row["sectors"]) for row in named(pile.scan()["groups"], "name", "vg0")["volumes"]}
    kinds = ("raid0", "raid0", "raid1", "raid10", "raid10", "raid10")
    tally.holds("what is told of raids", rows == {raid.name: (kind, "whole", len(raid.content) // SECTOR) for raid, kind in zip(raids, kinds)}, rows)
    for raid in raids:
        pile.holds(tally, "a raid, saved: %s" % raid.name, "vg0/" + raid.name, raid.content)
    pile.refuses(tally, "a raid0 without a leg", "vg0/v0", "isn't in these images", "diska", "diskc")
    pile.holds(tally, "a raid10 without two legs", "vg0/v3", raids[3].content, "diskd", "diska")


def test_owners(tally, pile):
    """Who has the sectors of legs, each of which says so itself, or has parity."""
    five, six = list(parity_raids(RAID5, 5, 4)), list(parity_raids({"raid6_zr": 8, "raid6_nc": 10, "raid6_la_6": 16}, 6, 5))
    for raids in (five, six, [raid for raid, _ in copied_raids()]):
        put(pile, raids)
        images, wanted, asked = pile.images(), [], []
        for raid in raids:
            for leg, data in enumerate(raid.legs):
                for row in range(ROWS):
                    sector = DATA + raid.place * EACH * EXTENT + META * EXTENT + row * CHUNK + 3
                    is_data = raid.level not in (5, 6) or leg in stripe_of(raid.level, raid.layout, raid.count, row)[0]
                    at = raid.content.index(data[(row * CHUNK + 3) * SECTOR:][:SECTOR]) // SECTOR if is_data else -1
                    asked.append("%s %d 1\n" % (images[leg], sector))
                    wanted.append("vg0/%s %d" % (raid.name, at) if at >= 0 else "parity of vg0/%s" % raid.name)
        got = tool_calls.call(pile.top, ["owner", "--program", pile.program.path, *images], given="".join(asked), folder=pile.folder)
        rows = got.out.decode().splitlines()
        odd = [(row, want) for row, want in zip(rows, wanted) if not row.endswith(want)]
        tally.holds("who has the sectors of raids", got.status == 0 and len(rows) == len(wanted) and not odd, f"{got.status}, {len(rows)} of {len(wanted)}, {odd[:3]}, {got.err[-200:]!r}")
        pile.remove(*images)


def test_damaged(tally, pile):
    """Random damage in superblocks and bitmaps: the right bytes, or a refusal in words."""
    dice = random.Random(11)
    five = content_of("five", ROWS * CHUNK * 2)
    raids = [Raid("v5", "raid5", five, parity_legs(five, 5, 2, 3, CHUNK), 5, 2), Raid("v1", "raid1", five[:ROWS * CHUNK * SECTOR], [five[:ROWS * CHUNK * SECTOR]] * 3, 1, 0, 1)]
    put(pile, raids)
    sound = {}
    for image in pile.images():
        sound[image] = pile.read(image)
    for number in range(60):
        for image, content in sound.items():
            changed = bytearray(content)
            for raid in raids:
                for _ in range(dice.randrange(3)):
                    changed[(DATA + raid.place * EACH * EXTENT) * SECTOR + dice.choice((dice.randrange(152), 4096 + dice.randrange(270)))] = dice.choice((0, 1, 2, 255, dice.randrange(256)))
            pile.put(image, bytes(changed))
        for raid in raids:
            got = read(pile, raid.name, dice.sample(sorted(sound), dice.randrange(2, 4)))
            tally.holds("damaged superblocks", isinstance(got, str) and got or got == raid.content, "number %d: %s of other bytes" % (number, raid.name))
