"""Stacks without snapshots. Each sector of each device in `tops` is read alone and written alone."""

import random

from stacks import length_of, stack

BIG = 1 << 50
RANDOM, SEED = 24, 20240607


def levels(name, line, tops):
    """32 devices on each other, of which some are looked at."""
    lines = ["d1: 0 8 linear sda 0"]
    lines += ["d%d: %s" % (it, line.replace("%d", str(it - 1))) for it in range(2, 33)]
    return dict(stack(name, "sda 8", *lines), tops={it: None for it in tops})


PLAIN = [
    stack("linear", "sda 150", "a: 0 100 linear sda 50"),
    stack("striped2-8", "sda 32, sdb 132", "a: 0 64 striped 2 8 sda 0 sdb 100"),
    stack("striped1-8", "sda 64", "a: 0 64 striped 1 8 sda 0"),
    stack("two-lines", "sda 20, sdb 20", "a: 0 10 linear sda 0", "a: 10 10 linear sdb 10",
          "b: 0 10 linear sda 0", "b: 10 10 linear sda 10"),
    stack("zero-mid", "sda 20", "a: 0 10 linear sda 0", "a: 10 5 zero", "a: 15 10 linear sda 10"),
    stack("error-end", "sda 10", "a: 0 10 linear sda 0", "a: 10 5 error"),
    stack("linear-many", "sda 300, sdb 200, sdc 64",
          "lv: 0 17 linear sdb 90", "lv: 17 64 linear sdc 0", "lv: 81 1 linear sda 299", "lv: 82 100 linear sda 33",
          "lv: 182 3 linear sdb 0", "lv: 185 50 linear sdb 3"),
    stack("striped2-16", "sda 128, sdb 160", "a: 0 256 striped 2 16 sda 0 sdb 32"),
    stack("striped3-8", "sda 96, sdb 100, sdc 200", "a: 0 288 striped 3 8 sda 0 sdb 4 sdc 101"),
    stack("striped3-16", "sda 96, sdb 96, sdc 96", "a: 0 288 striped 3 16 sdc 0 sda 0 sdb 0"),
    stack("striped4-128", "sda 512, sdb 512, sdc 512, sdd 512", "a: 0 2048 striped 4 128 sda 0 sdb 0 sdc 0 sdd 0"),
    stack("striped5-8", ", ".join("s%d %d" % (it, 80 + it) for it in range(5)),
          "a: 0 400 striped 5 8 " + " ".join("s%d %d" % (it, it) for it in range(5))),
    stack("striped5-128", ", ".join("s%d 256" % it for it in range(5)),
          "a: 0 1280 striped 5 128 " + " ".join("s%d 0" % it for it in range(5))),
    # Chunks of one sector, of no power of two, and odd ones.
    stack("striped2-1", "sda 8, sdb 9", "a: 0 16 striped 2 1 sda 0 sdb 1"),
    stack("striped3-12", "sda 36, sdb 36, sdc 37", "a: 0 108 striped 3 12 sda 0 sdb 0 sdc 1"),
    stack("striped2-5", "sda 25, sdb 30", "a: 0 50 striped 2 5 sda 0 sdb 5"),
    stack("striped-one-disk", "sda 200", "a: 0 128 striped 2 8 sda 0 sda 100"),
    stack("striped-offset-line", "sda 200, sdb 200, sdc 200",
          "a: 0 7 linear sda 3", "a: 7 96 striped 3 16 sda 100 sdb 0 sdc 50", "a: 103 8 zero",
          "a: 111 64 striped 2 8 sdb 100 sdc 9", "a: 175 5 error", "a: 180 10 linear sdc 190"),
    stack("stack3", "sda 400, sdb 400, sdc 400", "l1: 0 100 linear sda 10", "l1: 100 92 linear sdb 200",
          "l2: 0 192 linear sdc 100", "st: 0 384 striped 2 16 /dev/mapper/l1 0 /dev/mapper/l2 0",
          "top: 0 100 linear /dev/mapper/st 284", "top: 100 200 linear /dev/mapper/st 0"),
    stack("striped-over-striped", "s0 64, s1 64, s2 64, s3 64", "x: 0 128 striped 2 8 s0 0 s1 0",
          "y: 0 128 striped 2 16 s2 0 s3 0", "t: 0 256 striped 2 32 /dev/mapper/x 0 /dev/mapper/y 0"),
    stack("striped-over-error", "sda 64", "e: 0 32 error", "e: 32 32 zero", "t: 0 128 striped 2 8 sda 0 /dev/mapper/e 0"),
    levels("depth32-striped", "0 8 striped 2 1 /dev/mapper/d%d 0 /dev/mapper/d%d 4", ("d2", "d3", "d4", "d31", "d32")),
    levels("depth32-linear", "0 8 linear /dev/mapper/d%d 0", ("d32",)),
    # Read-only devices: beside a writable one, below one, above one, and over zeros and errors.
    stack("ro-linear", "sda 64", "a: 0 32 linear sda 0", "b: 0 32 linear sda 32", read_only="a"),
    stack("ro-under-rw", "sda 8", "a: 0 8 linear sda 0", "b: 0 8 linear /dev/mapper/a 0", read_only="a"),
    stack("rw-under-ro", "sda 8", "a: 0 8 linear sda 0", "b: 0 8 linear /dev/mapper/a 0", read_only="b"),
    stack("ro-zero-error", "sda 8", "a: 0 8 zero", "a: 8 8 error", "b: 0 16 linear /dev/mapper/a 0", read_only="a"),
]


def experiments():
    return [dict(it, name="map-" + it["name"], tops=tops_of(it)) for it in PLAIN + [big_offset(), names()] + random_stacks()]


def tops_of(it):
    """The devices that are looked at, each with its runs of sectors: all of them, where the stack says nothing else."""
    lengths = {device["name"]: length_of(device) for device in it["devices"]}
    tops = it.get("tops", {name: None for name in lengths})
    return [{"name": name, "runs": tops[name] or [[0, lengths[name]]]} for name in tops]


def big_offset():
    """A disk of the greatest length, of which some parts are there."""
    made = stack("big-offset", "big %d" % BIG, "a: 0 64 linear big %d" % (BIG - 64), "a: 64 64 linear big %d" % (BIG // 2 - 32),
                 "a: 128 64 linear big 0", "b: 0 %d linear big 0" % BIG)
    made["disks"][0]["labels"] = [[0, 64], [BIG // 2 - 32, 64], [BIG - 64, 64]]
    return dict(made, tops={"a": None, "b": [[0, 8], [BIG // 2 - 8, 16], [BIG - 8, 8]]})


def names():
    """The letters that a name may have."""
    return stack("names", "sda 64", "a#b+c-d.e:f=g@h_i: 0 8 linear sda 0", "vg0-lv--1: 0 8 linear sda 16",
                 "9:1: 0 8 linear sda 24", "x" * 127 + ": 0 8 linear sda 32")


def random_stacks():
    dice = random.Random(SEED)
    return [random_stack(dice, "random%02d" % it) for it in range(RANDOM)]


def random_stack(dice, name):
    """Up to six devices over up to six disks and over each other."""
    disks = ["sd%s %d" % ("abcdef"[it], dice.choice([64, 100, 256, 300, 777])) for it in range(dice.randint(2, 6))]
    lengths = {it.split(" ")[0]: int(it.split(" ")[1]) for it in disks}
    lines = []
    for number in range(dice.randint(1, 6)):
        at, device = 0, "v%d" % number
        for _ in range(dice.randint(1, 6)):
            length, target = random_line(dice, list(lengths.items()))
            if length:
                lines.append("%s: %d %d %s" % (device, at, length, target))
                at += length
        if at:
            lengths["/dev/mapper/" + device] = at
    return stack(name, ", ".join(disks), *lines)


def random_line(dice, lower):
    """The length and the target of a line over disks and devices; the length is 0 where no chunk fits."""
    target = dice.choice(["linear", "linear", "striped", "striped", "zero", "error"])
    if target in ("zero", "error"):
        return dice.randint(1, 24), target
    if target == "linear":
        name, end = dice.choice(lower)
        length = dice.randint(1, min(end, 90))
        return length, "linear %s %d" % (name, dice.randint(0, end - length))
    columns = dice.randint(1, 5)
    chunk = dice.choice([1, 2, 4, 8, 8, 16, 3, 7])
    chosen = [dice.choice(lower) for _ in range(columns)]
    room = min(end for _, end in chosen) // chunk
    if not room:
        return 0, ""
    rows = dice.randint(1, min(room, 8))
    ends = ["%s %d" % (name, dice.randint(0, end - rows * chunk)) for name, end in chosen]
    return rows * chunk * columns, "striped %d %d %s" % (columns, chunk, " ".join(ends))
