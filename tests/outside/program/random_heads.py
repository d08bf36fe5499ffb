"""Heads of physical volumes at random, sound ones and such with a few faults: the program's text or word is the one that a
reader finds who has docs/FORMATS.md alone, section 18.

    python3 tests/outside/program/random_heads.py COUNT [SEED [PROGRAM]]

compares COUNT groups of one to three disks, and prints what differs.
"""

import collections
import os
import random
import re
import struct
import sys
import tempfile

TOP = os.path.abspath(os.path.join(os.path.dirname(__file__), *[os.pardir] * 3))
if __name__ == "__main__":
    sys.path[:0] = [os.path.join(TOP, "tests", "outside", *names) for names in ((), ("program",), ("tools",))]

import images
from harness import Program
from piles import identity, text
from physical_volumes import MAGIC, checksum

SECTOR, FAR, MOST_TEXT = 512, 1 << 57, 1 << 20
WORDS = ("read", "partitions", "array", "label", "header", "long", "text", "differ", "twice", "foreign")
MEMBER = struct.pack("<L", 0xA92B4EFC)


# ---- the reader

class Refused(Exception):
    """A disk is refused, by this word."""


def number_at(content, at, size):
    return int.from_bytes(content[at:at + size], "little")


def sector_of(image, number):
    if len(image) // SECTOR <= number:
        raise Refused("read")
    return image[number * SECTOR:(number + 1) * SECTOR]


def look_for_others(image):
    """A partition table, and the superblock of an array."""
    first = sector_of(image, 0)
    entries = [first[at:at + 16] for at in range(446, 510, 16)]
    if first[510:] == b"\x55\xaa" and all(each[0] in (0, 0x80) for each in entries) and any(number_at(each, 12, 4) for each in entries):
        raise Refused("partitions")
    if MEMBER in (first[:4], sector_of(image, 8)[:4]):
        raise Refused("array")


def label_of(image):
    """The sector of the label, and where the header begins in it."""
    for number in range(4):
        content = sector_of(image, number)
        at, is_named = number_at(content, 20, 4), content[:8] == b"LABELONE"
        if content[24:32] != b"LVM2 001" or is_named and (number_at(content, 8, 8), number_at(content, 16, 4)) != (number, checksum(content[20:])):
            continue
        if is_named and 32 <= at <= 472:
            return content, at
        break
    raise Refused("label")


def areas_of(label, at):
    """The pairs of the second list."""
    pairs = [struct.unpack_from("<2Q", label, place) for place in range(at + 40, SECTOR - 15, 16)]
    ends = [place for place, (start, _) in enumerate(pairs) if start == 0]
    if len(ends) < 2 or ends[1] - ends[0] > 3:
        raise Refused("header")
    return pairs[ends[0] + 1:ends[1]]


def text_of(image, start, size):
    """The text of an area, which may be none."""
    if start % SECTOR or max(start, size) > FAR:
        raise Refused("header")
    header = sector_of(image, start // SECTOR)
    magic, version, begins, ring, offset, length, total, flags = struct.unpack_from("<16sL4Q2L", header, 4)
    if (number_at(header, 0, 4), magic, version, begins) != (checksum(header[4:]), MAGIC, 1, start) or ring > size:
        raise Refused("header")
    if flags % 2 or not offset:
        return b""
    if not SECTOR <= offset < ring or length > ring - SECTOR:
        raise Refused("header")
    if length > MOST_TEXT:
        raise Refused("long")
    if not length:
        raise Refused("text")
    places = [start + (offset + byte if offset + byte < ring else offset + byte - ring + SECTOR) for byte in range(length)]
    for number in {place // SECTOR for place in places}:
        sector_of(image, number)
    content = bytes(image[place] for place in places)
    if checksum(content) != total or content[-1] not in b"\0\n":
        raise Refused("text")
    return content[:-1] if content[-1] == 0 else content


def same_of(known, found):
    """The text of two, of which each may be none."""
    if known and found and known != found:
        raise Refused("differ")
    return known or found


def head_of(image):
    """The id and the text of a disk."""
    look_for_others(image)
    label, at = label_of(image)
    found = b""
    for area in areas_of(label, at):
        found = same_of(found, text_of(image, *area))
    return label[at:at + 32], found


def read(disks):
    """The ids and the text of disks, or the name and the word of the first that is refused."""
    ids, known = [], b""
    for name, image in disks:
        try:
            found, content = head_of(image)
            known = same_of(known, content)
            if found in ids:
                raise Refused("twice")
        except Refused as refused:
            return None, (name, str(refused))
        ids.append(found)
    return ids, known


def foreign_of(disks, ids, content):
    """The name of the first disk whose id no physical volume of a text has."""
    known = re.findall(rb'pv\d+ {\nid = "(.*)"', content)
    return next((name for (name, _), found in zip(disks, ids) if found not in [each.replace(b"-", b"") for each in known]), None)


# ---- what it reads

class Maker:
    """Makes disks. Most of what it says of one is right."""

    def __init__(self, dice):
        self.dice = dice
        self.texts = [text("vg0", "g", seqno, disks, images.HOME) for seqno, disks in ((4, "abc"), (5, "abc"), (4, "ab"))]

    def often(self, right, *wrong, odds=60):
        """What is right, or once in so many times what may be wrong."""
        return self.dice.choice(wrong) if self.dice.randrange(odds) == 0 else right

    def summed(self, at, content):
        """A sector with its sum at this byte, where there are zeros now; four more bytes of it don't count in a label."""
        body = content.ljust(SECTOR, b"\0")[:SECTOR]
        total = self.often(checksum(body[at + 4:]), 0, checksum(body))
        return body[:at] + struct.pack("<L", total) + body[at + 4:]

    def text(self):
        """One of the texts, or once in a while none, or what is no text of a group."""
        content = self.texts[self.often(0, 1, 2, odds=30)]
        return self.often(content, content, b"", b"\0", content[:-1], content[:-2], b"%d\n\0" % self.dice.getrandbits(99))

    def area(self, start):
        """A metadata area, and how long the label says that it is."""
        dice, content = self.dice, self.text()
        ring = len(content) + SECTOR + self.often(dice.choice((0, 1, 99, 3000)), -1)
        offset = dice.choice((SECTOR, SECTOR + 1, ring - 1, dice.randrange(SECTOR, max(ring, SECTOR + 1))))
        size = ring + self.often(dice.choice((0, 1, 512)), -1)
        made = bytearray(-(-ring // SECTOR) * SECTOR)
        for place, byte in enumerate(content, offset):
            made[place if place < ring else (place - ring + SECTOR) % len(made)] = byte
        length = len(content)
        if self.often(False, True):
            length, ring, size = self.often(MOST_TEXT + 1, MOST_TEXT), 2 * MOST_TEXT, 2 * MOST_TEXT
        fields = struct.pack(
            "<4x16sL4Q2L", self.often(MAGIC, b"?" + MAGIC[1:]), self.often(1, 0, 2), self.often(start, 0, start + SECTOR), ring,
            self.often(offset, 0, 511, ring), self.often(length, 0, length + 1, ring), self.often(checksum(content), 0),
            self.often(0, 1, 2, 3))
        made[:SECTOR] = self.summed(0, fields)
        return bytes(made), self.often(size, size + 512, FAR + 1)

    def disk(self, letter):
        """The image of a physical volume."""
        dice, number, image, pairs = self.dice, self.dice.randrange(4), bytearray(4096), [(1 << 20, 0), (0, 0)]
        for _ in range(dice.choice((0, 1, 1, 1, 1, 2, 2, 3))):
            content, size = self.area(len(image))
            pairs.append((self.often(len(image), len(image) + 1, len(image) + SECTOR, FAR + SECTOR), size))
            image += content
        pairs += self.often([(0, 0)], [])
        image += bytes(SECTOR * dice.randrange(1, 4))
        end = len(image)
        at = self.often(32, dice.randrange(28, 490))
        head = identity(letter) + struct.pack("<Q", dice.getrandbits(64))
        head += b"".join(struct.pack("<2Q", *pair) for pair in pairs)
        lead = struct.pack("<8sQ4xL8s", self.often(b"LABELONE", b"LABELTWO"), self.often(number, number + 1), at,
                           self.often(b"LVM2 001", b"LVM1 001"))
        # The sum of a label leaves out all before its own four bytes, and these.
        image[number * SECTOR:(number + 1) * SECTOR] = self.summed(16, lead.ljust(at, b"\xff")[:at] + head)
        if self.often(False, True, odds=20):
            image[446], image[458], image[510:512] = dice.choice((0, 0x80, 1)), dice.choice((0, 1, 1)), dice.choice((b"\x55\xaa", b"\xaa\x55"))
        if self.often(False, True):
            place = dice.choice((0, 8 * SECTOR))
            image[place:place + 4] = MEMBER
        if self.often(False, True):
            image[dice.randrange(end)] ^= 1 << dice.randrange(8)
        return bytes(image[:self.often(end, dice.randrange(end), end - 1, odds=12)])

    def disks(self):
        """The names and the images of a group's disks."""
        letters = self.dice.sample("abc", self.dice.choice((1, 2, 2, 3)))
        return [("d%d" % place, self.disk(self.often(letter, "a", "c", "z", odds=12))) for place, letter in enumerate(letters)]


# ---- the comparison

def compare(program, seed, count):
    """What differs of so many groups, and how often each word came, or a text."""
    maker, wrong, seen = Maker(random.Random(seed)), [], collections.Counter()
    for number in range(count):
        disks = maker.disks()
        ids, found = read(disks)
        listed = program.file("paths", images.paths_of(program, disks))
        told = (0, found, b"") if ids else (1, b"", images.told(*found).encode())
        outcomes = [(program.run(["metadata", "images", listed]), told)]
        # A text of a group is then looked through for the ids.
        foreign = ids and found + b"\0" in maker.texts and foreign_of(disks, ids, found)
        if foreign:
            outcomes.append((program.run(["check", "images", listed]), (1, b"", images.told(foreign, "foreign").encode())))
        for got, wanted in outcomes:
            if (got.status, got.out, got.err) != wanted:
                wrong.append((number, got.status, got.out[:40], got.err, wanted))
        seen["foreign" if foreign else "text" if ids and found else "none" if ids else found[1] if found[1] != "text" else "text refused"] += 1
    return wrong, seen


def test_heads(tally, program):
    tally.holds("the sum that FORMATS has", checksum(b"123456789") == 0x4991CF02, "it is another")
    wrong, seen = compare(program, 18, 500)
    tally.holds("500 groups at random", not wrong, "of %d the first are %s" % (len(wrong), wrong[:3]))
    missed = {*WORDS, "none"} - {*seen}
    tally.holds("their words", not missed, "none is %s" % missed)


if __name__ == "__main__":
    asked = sys.argv[1:]
    with tempfile.TemporaryDirectory() as own:
        path = asked[2] if len(asked) > 2 else os.path.join(TOP, "crates", "dmremap", "out", "dmremap")
        differing, counted = compare(Program(path, own), int(asked[1]) if len(asked) > 1 else 18, int(asked[0]))
    for row in differing:
        print(*row)
    print("%d differ of %s" % (len(differing), dict(counted)))
