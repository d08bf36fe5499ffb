"""Snapshots over disks that record each write, so that the power can be cut after any of them, and stores as others may leave
them."""

import random

from stacks import length_of, stack

MAGIC = 0x70416E53
# How many requests are carried out at once, where it is more than one, and after how many writes the kernel looks at a stack.
AT_ONCE, EVERY = 4, 16
ORIGIN, STORE = "o: 0 %d snapshot-origin base", "s: 0 %d snapshot base cow P %d"
SECOND = "t: 0 %d snapshot base cow2 P %d"

# Each with its disks, its lines, how many requests there are, and how long these may be.
PLAIN = [
    ("one", "base 512, cow 720 new", [ORIGIN % 512, STORE % (512, 8)], 60, (1, 3, 8, 17)),
    ("two", "base 512, cow 700 new, cow2 700 new", [ORIGIN % 512, STORE % (512, 16), SECOND % (512, 8)], 60, (1, 8, 16, 30)),
    ("three", "base 512, cow 700 new, cow2 700 new, cow3 700 new",
     [ORIGIN % 512, STORE % (512, 4), SECOND % (512, 16), "u: 0 512 snapshot base cow3 P 32"], 40, (1, 5, 32)),
    ("long-chunks", "base 2048, cow 2400 new, cow2 2300 new",
     [ORIGIN % 2048, STORE % (2048, 64), SECOND % (2048, 16)], 50, (1, 64, 100)),
    # Several areas: of 32 chunks and of 64 in small ones, and of 256.
    ("areas", "base 160, cow 170 new, cow2 180 new", [ORIGIN % 160, STORE % (160, 1), SECOND % (160, 2)], 100, (1, 2, 5)),
    ("areas-chunk8", "base 2400, cow 2424 new", [ORIGIN % 2400, STORE % (2400, 8)], 110, (20, 40, 70)),
    # Stores that run full, of which one ends where the next area would begin.
    ("full", "base 256, cow 112 new, cow2 208 new", [ORIGIN % 256, STORE % (256, 8), SECOND % (256, 8)], 40, (1, 3, 8, 12)),
    ("full-alone", "base 256, cow 120 new", [STORE % (256, 8)], 30, (1, 8, 12)),
    ("full-area", "base 64, cow 34 new", [STORE % (64, 1)], 40, (1, 2)),
    ("nested", "base 256, cow 300 new, cow2 300 new",
     [STORE % (256, 8), "t: 0 256 snapshot /dev/mapper/s cow2 P 4"], 50, (1, 4, 9)),
    ("origin-of-snapshot", "base 256, cow 300 new, cow2 300 new",
     [STORE % (256, 8), "o: 0 256 snapshot-origin /dev/mapper/s", "t: 0 256 snapshot /dev/mapper/s cow2 P 4"], 50, (1, 4, 9)),
    ("pieces", "base 200, base2 200, cow 160 new, cow_b 160",
     ["r: 0 101 linear base 9", "r: 101 155 linear base2 0", "c: 0 320 striped 2 4 cow 0 cow_b 0",
      "o: 0 256 snapshot-origin /dev/mapper/r", "s: 0 256 snapshot /dev/mapper/r /dev/mapper/c P 8"], 50, (1, 4, 9)),
]
AT_ONCE_TOO = ("one", "two", "long-chunks", "areas", "full", "pieces")

# Stores that no kernel of today leaves after requests through this table: the numbers of 4 bytes of some of their sectors.
STORES = [
    ("header-chunk", {0: [MAGIC, 1, 1, 16], 16: [1, 0, 2, 0]}),
    ("order", {0: [MAGIC, 1, 1, 8], 8: [3, 0, 3, 0, 1, 0, 2, 0]}),
    ("again", {0: [MAGIC, 1, 1, 8], 8: [1, 0, 2, 0, 1, 0, 3, 0]}),
    ("range", {0: [MAGIC, 1, 1, 8], 8: [1, 0, 2, 0, 8, 0, 3, 0]}),
    ("past-store", {0: [MAGIC, 1, 1, 8], 8: [1, 0, 20, 0]}),
    ("lost", {0: [MAGIC, 0, 1, 8], 8: [1, 0, 2, 0]}),
    ("version", {0: [MAGIC, 1, 2, 8], 8: [1, 0, 2, 0]}),
    ("magic", {0: [MAGIC + 1, 1, 1, 8], 8: [1, 0, 2, 0]}),
]
# A list that fills the last area, where the store has no room for another.
FULL_AREA = {0: [MAGIC, 1, 1, 1], 1: [it for place in range(32) for it in (place, 0, place + 2, 0)]}


def experiments():
    at_once = [it for it in PLAIN if it[0] in AT_ONCE_TOO]
    return ([requested("cut-" + it[0], 1, *it[1:]) for it in PLAIN]
            + [requested("cut-%s-at-once" % it[0], AT_ONCE, *it[1:]) for it in at_once]
            + [stored(name, "base 64, cow 160 new", STORE % (64, 8), sectors) for name, sectors in STORES]
            + [stored("full-area", "base 64, cow 34 new", STORE % (64, 1), FULL_AREA)])


def requested(name, at_once, disks, lines, count, lengths):
    """Writes of top devices; of those that are carried out at once, each is within a part of its device of its own."""
    found, dice = described(name, disks, *lines), random.Random(name)
    part, requests = length_of(found["devices"][-1]) // at_once, []
    for number in range(count):
        length = min(dice.choice(lengths), part)
        start = part * (number % at_once) + dice.randint(0, part - length)
        requests.append(["W", dice.choice(found["tops"]), start, length])
    return dict(found, requests=requests, at_once=at_once, every=EVERY)


def stored(name, disks, line, sectors):
    return dict(described("cut-store-" + name, disks, line), requests=[], stores=[["cow", *it] for it in sectors.items()])


def described(name, disks, *lines):
    """A stack with the names of its snapshots, and of the devices that no other line names."""
    found = stack(name, disks, *lines)
    words = {it["name"]: [word for line in it["lines"] for word in line.split(" ")] for it in found["devices"]}
    named = {word for it in words.values() for word in it}
    return dict(found, tops=[it for it in words if "/dev/mapper/" + it not in named],
                snapshots=[name for name, it in words.items() if it[2] == "snapshot"])
