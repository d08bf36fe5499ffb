"""Stacks with snapshots, and requests to them, one after the other."""

import random

from stacks import stack

RANDOM, SEED = 40, 77
# A snapshot in chunks of one sector, and a write to each of its first 33; an origin whose second half can't be read; an
# origin that is written, with one snapshot and with two.
OF_ONE_SECTOR, EACH = "s: 0 64 snapshot base cow P 1", ["W s %d 1" % it for it in range(33)]
OVER_ERROR = ["o: 0 8 linear base 0", "o: 8 8 error", "s: 0 16 snapshot /dev/mapper/o cow P 8"]
ONE = ["o: 0 32 snapshot-origin base", "s: 0 32 snapshot base cow P 8"]
TWO = ["o: 0 16 snapshot-origin base", "s: 0 16 snapshot base cow P 8", "t: 0 16 snapshot base cow2 P 4"]


def run(name, disks, lines, requests, read_only=()):
    """A stack with its requests, each as `W s 18 2`."""
    words = [it.split(" ") for it in requests]
    return dict(stack(name, disks, *lines, read_only=read_only),
                requests=[[it[0], it[1], int(it[2]), int(it[3])] for it in words])


def mixed_chunks():
    """Four snapshots of one origin, each with another chunk."""
    sizes = (4, 16, 8, 32)
    whole = ["R s%d 0 128" % it for it in (4, 8, 16, 32)]
    return run("origin-mixed-chunks", "base 128, c4 200 new, c8 200 new, c16 200 new, c32 260 new",
               ["o: 0 128 snapshot-origin base"] + ["s%d: 0 128 snapshot base c%d P %d" % (it, it, it) for it in sizes],
               ["W o 6 20"] + ["R s%d 0 32" % it for it in (4, 8, 16, 32)] + ["W s16 40 2", "W o 40 1", "R s4 32 32", "R s16 32 32"]
               + ["W o 0 128"] + whole + ["R o 0 128"])


# Last chunks that are cut short, places at the borders of areas, stores that run full, and odd origins and stores.
PLAIN = [
    run("short-chunk", "base 20, cow 64 new", ["s: 0 20 snapshot base cow P 8"],
        ["W s 18 2", "W s 18 2", "R s 14 6", "R s 0 20", "W s 16 4", "R s 0 20"]),
    run("area-border", "base 64, cow 64 new", [OF_ONE_SECTOR], EACH + ["R s 0 64"]),
    run("area-border-one-request", "base 64, cow 64 new", [OF_ONE_SECTOR], ["W s 0 33", "R s 0 64"]),
    # A store that ends where the second area would begin, one with room for that area and no place after it, and one more.
    run("area-cow34", "base 64, cow 34 new", [OF_ONE_SECTOR], EACH[:32] + ["R s 0 64"]),
    run("area-cow35", "base 64, cow 35 new", [OF_ONE_SECTOR], EACH[:32] + ["R s 0 64", "W s 32 1", "R s 0 64"]),
    run("area-cow36", "base 64, cow 36 new", [OF_ONE_SECTOR], EACH + ["R s 0 64", "W s 33 1", "R s 0 64"]),
    run("overflow", "base 32, cow 32 new", ["s: 0 32 snapshot base cow P 8"],
        ["W s 0 8", "W s 8 8", "R s 0 32", "W s 16 8", "R s 0 32", "W s 0 1"]),
    run("overflow-one-request", "base 32, cow 32 new", ["s: 0 32 snapshot base cow P 8"], ["W s 0 24", "R s 0 8"]),
    run("error-origin", "base 4, cow 32 new", ["o: 0 4 linear base 0", "o: 4 4 error", "s: 0 8 snapshot /dev/mapper/o cow P 8"],
        ["R s 0 8", "W s 0 1", "R s 0 1"]),
    # A write of a whole chunk whose sectors can't be read.
    run("error-origin-whole", "base 8, cow 64 new", OVER_ERROR,
        ["W s 8 8", "R s 0 16", "W s 9 1", "R s 0 16", "W s 0 1", "R s 0 16"]),
    run("zero-origin", "cow 32 new", ["o: 0 8 zero", "s: 0 8 snapshot /dev/mapper/o cow P 8"], ["W s 2 3", "R s 0 8"]),
    run("striped-store", "base 32, sdb 16 new, sdc 16",
        ["c: 0 32 striped 2 4 sdb 0 sdc 0", "s: 0 32 snapshot base /dev/mapper/c P 8"],
        ["W s 6 4", "R s 4 6", "R s 0 32", "W s 16 1", "R s 0 1"]),
    run("two", "base 16, cow 32 new, cow2 32 new", ["s: 0 16 snapshot base cow P 8", "t: 0 16 snapshot base cow2 P 8"],
        ["W s 0 1", "R t 0 1", "W t 8 1", "R s 0 16", "R t 0 16"]),
    run("nested", "base 16, cow 32 new, cow2 32 new",
        ["s: 0 16 snapshot base cow P 8", "t: 0 16 snapshot /dev/mapper/s cow2 P 8"],
        ["W s 0 2", "W t 1 1", "R t 0 16", "R s 0 16"]),
    run("past-the-end", "base 20, cow 64 new", ["s: 0 20 snapshot base cow P 8"], ["W s 16 8", "R s 0 20", "R s 16 8"]),
    # The origin is written beside its snapshot, and an origin that is read-only.
    run("untidy-under", "base 32, cow 64 new", ["l: 0 32 linear base 0", "s: 0 32 snapshot base cow P 8"],
        ["W l 0 4", "R s 0 8", "W s 2 1", "W l 0 8", "R s 0 8", "R l 0 8"]),
    run("ro-origin", "base 16, cow 64 new", ["o: 0 16 linear base 0", "s: 0 16 snapshot /dev/mapper/o cow P 8"],
        ["W s 3 2", "R s 0 16", "W o 0 1"], read_only="o"),
]

# Stores that aren't persistent, and the kind that goes on where a store is full.
KINDS = [
    run("n", "base 16, cow 16 new", ["s: 0 16 snapshot base cow N 8"], ["W s 8 1", "W s 0 1", "R s 0 16"]),
    run("n-overflow", "base 64, cow 24", ["s: 0 64 snapshot base cow N 8"],
        ["W s 8 1", "W s 0 1", "W s 60 2", "R s 0 64", "W s 16 1", "R s 0 64"]),
    run("po-overflow", "base 32, cow 32 new", ["s: 0 32 snapshot base cow PO 8"],
        ["W s 0 8", "W s 8 8", "W s 16 8", "R s 0 32", "W s 0 1"]),
]

# Origins that are written through a line `snapshot-origin`.
ORIGINS = [
    run("origin-two", "base 16, cow 32 new, cow2 16 new", TWO,
        ["W o 2 4", "W s 0 1", "W o 2 1", "R t 0 8", "W o 12 4", "R t 0 1", "R s 0 16", "R o 0 16"]),
    run("origin-partway", "base 16, cow 32 new, cow2 16 new", TWO, ["W o 0 4", "R s 0 8", "R o 0 8"]),
    run("ro-snapshot-served", "base 32, cow 64 new", ONE,
        ["W o 3 2", "R s 0 8", "W s 0 1", "W o 16 8", "R s 0 32", "R o 0 32"], read_only="s"),
    # A chunk that reads as an error, and zeros.
    run("origin-error-below", "base 8, cow 64 new",
        ["r: 0 8 linear base 0", "r: 8 8 error", "o: 0 16 snapshot-origin /dev/mapper/r", "s: 0 16 snapshot /dev/mapper/r cow P 4"],
        ["W o 0 1", "W o 9 1", "R s 0 8", "W o 5 1", "R s 0 1"]),
    run("origin-zero", "cow 64 new",
        ["z: 0 16 zero", "o: 0 16 snapshot-origin /dev/mapper/z", "s: 0 16 snapshot /dev/mapper/z cow P 8"],
        ["W o 0 1", "R s 0 16", "R o 0 16"]),
    mixed_chunks(),
    # The snapshot is made after its origin was last resumed; everywhere else the origin is resumed last, as LVM does.
    dict(run("origin-not-resumed", "base 64, cow 128 new", ["o: 0 64 snapshot-origin base", "s: 0 64 snapshot base cow P 8"],
             ["W o 6 20", "R s 0 64", "R o 0 64"]), no_resume=True),
    run("two-origins-of-one", "base 32, cow 64 new", ONE[:1] + ["p: 0 32 snapshot-origin base"] + ONE[1:],
        ["W o 0 1", "W p 8 1", "R s 0 32"]),
    run("origin-of-snapshot", "base 16, cow 64 new, cow2 64 new",
        ["s: 0 16 snapshot base cow P 8", "o: 0 16 snapshot-origin /dev/mapper/s", "t: 0 16 snapshot /dev/mapper/s cow2 P 8"],
        ["W o 0 1", "R t 0 16", "R s 0 16", "W t 8 1", "R t 0 16"]),
    run("over-linear-origin", "base 64, cow 64 new",
        ["r: 0 32 linear base 16", "o: 0 32 snapshot-origin /dev/mapper/r", "s: 0 32 snapshot /dev/mapper/r cow P 8"],
        ["W o 10 1", "W s 0 3", "R s 0 32", "R o 0 32"]),
]


def experiments():
    return [dict(it, name="snap-" + it["name"]) for it in PLAIN + KINDS + ORIGINS + areas() + chunks() + random_runs()]


def areas():
    """Chunks past the end of the first area, taken in a shuffled order."""
    found = []
    for chunk, count in ((2, 70), (4, 136), (8, 264)):
        order = list(range(count))
        random.Random(chunk).shuffle(order)
        found.append(run("area-chunk%d" % chunk, "base %d, cow %d new" % (count * chunk, (count + 6) * chunk),
                         ["s: 0 %d snapshot base cow P %d" % (count * chunk, chunk)],
                         ["W s %d 1" % (it * chunk + it % chunk) for it in order] + ["R s 0 %d" % (count * chunk)]))
    return found


def chunks():
    """Writes at the borders of chunks of many sizes, the last of them cut in half."""
    found = []
    for it in (8, 16, 32, 64, 128, 256, 1024):
        length, half = 6 * it - it // 2, it // 2
        found.append(run("chunk%d" % it, "base %d, cow %d new" % (length, 7 * it), ["s: 0 %d snapshot base cow P %d" % (length, it)],
                         ["W s %d 3" % (3 * it + 1), "W s %d 4" % (it - 2), "W s %d %d" % (5 * it, half), "R s %d 8" % (3 * it),
                          "R s %d 8" % (it - 4), "R s %d %d" % (5 * it, min(8, half)), "W s %d 1" % (4 * it + 5),
                          "R s %d 1" % (4 * it + 5), "W s %d 1" % (2 * it), "R s %d 1" % (2 * it)]))
    return found


def random_runs():
    dice = random.Random(SEED)
    return [random_run(dice, it) for it in range(RANDOM)]


def random_run(dice, number):
    """A snapshot of some kind of stack, whose store may run full, and requests to its top devices."""
    chunk = dice.choice([1, 2, 4, 8, 8, 16])
    count = dice.randint(3, 12)
    length = count * chunk - (dice.randint(0, chunk - 1) if dice.random() < 0.4 else 0)
    kind = dice.choice(["plain", "plain", "origin", "origin", "origin2", "nested", "stripedstore", "linorigin"])
    places = dice.randint(max(1, count - 3), count + 4)
    room = (2 + places + places // (32 * chunk)) * chunk + dice.choice([0, 0, chunk - 1, chunk // 2])
    disks = ["base %d" % (length + 8), "cow %d new" % room]
    lines, tops = random_origin(dice, kind, length, disks), ["s"]
    if kind in ("origin", "origin2", "linorigin"):
        lines.append("o: 0 %d snapshot-origin /dev/mapper/r" % length)
        tops.insert(0, "o")
    lines += random_store(dice, kind, length, chunk, room, disks)
    if kind in ("origin2", "nested"):
        lines.append(random_second(dice, kind, length, disks))
        tops = ["t"] if kind == "nested" else tops + ["t"]
    requests = random_requests(dice, tops, length, chunk)
    return run("random%02d-%s" % (number, kind), ", ".join(disks), lines, requests)


def random_origin(dice, kind, length, disks):
    """The lines of the origin `r`: of one linear line, or of two to two disks."""
    first = dice.randint(0, 8) if kind != "plain" else 3
    if kind != "linorigin":
        return ["r: 0 %d linear base %d" % (length, first)]
    cut = dice.randint(1, length - 1)
    disks.append("base2 %d" % length)
    return ["r: 0 %d linear base 0" % cut, "r: %d %d linear base2 %d" % (cut, length - cut, dice.randint(0, cut))]


def random_store(dice, kind, length, chunk, room, disks):
    """The line of the snapshot `s`, and that of its store where this is striped."""
    if kind != "stripedstore":
        return ["s: 0 %d snapshot /dev/mapper/r cow P %d" % (length, chunk)]
    size = dice.choice([1, 2, 4])
    room = (room // (2 * size) + 1) * 2 * size
    disks[1] = "cow %d new" % (room // 2)
    disks.append("cow_b %d" % (room // 2))
    return ["c: 0 %d striped 2 %d cow 0 cow_b 0" % (room, size), "s: 0 %d snapshot /dev/mapper/r /dev/mapper/c P %d" % (length, chunk)]


def random_second(dice, kind, length, disks):
    """The line of a second snapshot `t`, of the same origin or of the first snapshot."""
    chunk = dice.choice([1, 2, 4, 8])
    chunks = length // chunk + 1
    disks.append("cow2 %d new" % ((3 + chunks + chunks // (32 * chunk)) * chunk + chunk))
    return "t: 0 %d snapshot /dev/mapper/%s cow2 P %d" % (length, "r" if kind == "origin2" else "s", chunk)


def random_requests(dice, tops, length, chunk):
    found = []
    for _ in range(dice.randint(15, 35)):
        top = dice.choice(tops)
        start = dice.randint(0, length - 1)
        count = dice.randint(1, min(length - start, dice.choice([1, 3, chunk, 2 * chunk + 1])))
        found.append("%s %s %d %d" % (dice.choice("WWWR"), top, start, count))
    return found + ["R %s 0 %d" % (it, length) for it in tops]
