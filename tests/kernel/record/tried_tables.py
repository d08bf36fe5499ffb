"""Tables that the kernel takes or refuses."""

from stacks import stack

TWO = "sda 64, sdb 64"
SNAPSHOT = "base 64, cow 128 new"


def experiments():
    return lines() + stripes() + devices() + kinds() + snapshots() + stores() + origins() + spellings()


def lines():
    """Lengths, starts, and the arguments of lines."""
    one = [
        ("zero-arg", "", "0 8 zero x"), ("error-arg", "", "0 8 error x"), ("len0", TWO, "0 0 linear sda 0"),
        ("start-not-0", "", "8 8 zero"), ("range-linear", TWO, "0 64 linear sda 1"), ("linear-noargs", TWO, "0 8 linear sda"),
        ("linear-extra", TWO, "0 8 linear sda 0 1"), ("linear-hex-offset", TWO, "0 8 linear sda 0x8"),
        ("linear-offset-leading-0", TWO, "0 8 linear sda 010"), ("start-leading-0", TWO, "00 08 linear sda 0"),
        ("unknown-target", TWO, "0 8 nosuch"), ("unknown-disk", TWO, "0 8 linear nosuch 0"),
    ]
    one += [("len-2^%d" % it, "", "0 %d zero" % (1 << it)) for it in (50, 54, 55, 63)]
    two = [("len0-second", TWO, "0 8 linear sda 0", "8 0 zero"), ("gap", "", "0 8 zero", "9 8 zero"),
           ("overlap", "", "0 8 zero", "7 8 zero")]
    return [stack(name, disks, *("a: " + it for it in rest)) for name, disks, *rest in one + two]


def stripes():
    rows = [
        ("range-striped", "0 64 striped 2 8 sda 40 sdb 0"), ("striped-0", "0 8 striped 0 8"), ("striped-1", "0 8 striped 1 8 sda 0"),
        ("striped-chunk0", "0 8 striped 1 0 sda 0"), ("striped-chunk3", "0 6 striped 2 3 sda 0 sdb 0"),
        ("striped-len-not-n", "0 31 striped 2 1 sda 0 sdb 0"), ("striped-len-not-chunk", "0 60 striped 2 8 sda 0 sdb 0"),
        ("striped-extra-arg", "0 32 striped 2 8 sda 0 sdb 0 1"), ("striped-missing-arg", "0 32 striped 2 8 sda 0 sdb"),
    ]
    many = [stack("striped-%d" % it, "sda 64", "a: 0 %d striped %d 1 %s" % (it, it, " ".join(["sda 0"] * it))) for it in (129, 128)]
    return [stack(name, TWO, "a: " + line) for name, line in rows] + many


def devices():
    """Devices on themselves, on 39 others, and names."""
    deep = ["d1: 0 8 linear sda 0"] + ["d%d: 0 8 linear /dev/mapper/d%d 0" % (it, it - 1) for it in range(2, 41)]
    names = [("name-128", "x" * 128), ("name-127", "x" * 127), ("name-comma", "a,b"), ("name-space", "a b"),
             ("name-tilde", "a~b"), ("name-percent", "a%b")]
    return [stack("cycle-self", TWO, "a: 0 8 linear /dev/mapper/a 0"), stack("depth33", "sda 8", *deep),
            stack("same-name-twice", "", "a: 0 8 zero", "a: 0 8 error")] + [stack(name, "", it + ": 0 8 zero") for name, it in names]


def kinds():
    """What may stand for the kind of a store, and after the chunk."""
    rows = [("lower-p", "p 8"), ("Persistent", "Persistent 8"), ("PO", "PO 8"), ("N", "N 8"), ("lower-n", "n 8"), ("NO", "NO 8"),
            ("K", "K 8"), ("features", "P 8 1 discard_zeroes_cow"), ("0-features", "P 8 0")]
    return [stack("snap-" + name, SNAPSHOT, "s: 0 64 snapshot base cow " + it) for name, it in rows]


def snapshots():
    """Chunks and lengths of a snapshot, and what may stand beside it."""
    of_cow = "s: 0 64 snapshot base cow P "
    rows = [(it, SNAPSHOT, of_cow + str(it)) for it in (3, 1, 0)]
    rows += [(it, "base 64, cow %d new" % more, of_cow + str(it)) for it, more in ((2048, 16384), (65536, 262144))]
    return [stack("snap-chunk%d" % chunk, disks, line) for chunk, disks, line in rows] + [
        stack("snap-shorter", SNAPSHOT, "s: 0 32 snapshot base cow P 8"),
        stack("snap-longer", SNAPSHOT, "s: 0 128 snapshot base cow P 8"),
        stack("snap-two-lines", SNAPSHOT + ", cow2 64 new", "s: 0 32 snapshot base cow P 8", "s: 32 32 snapshot base cow2 P 8"),
        stack("snap-and-zero", SNAPSHOT, of_cow + "8", "s: 64 8 zero"),
    ]


def stores():
    """What may be a store, how short, and what it may hold."""
    on_device = "s: 0 8 snapshot base /dev/mapper/z P 1"
    return [
        stack("snap-store-is-origin", "base 64 new", "s: 0 64 snapshot base base P 1"),
        stack("snap-store-1-chunk", "base 64, cow 8 new", "s: 0 64 snapshot base cow P 8"),
        stack("snap-store-2-chunks", "base 64, cow 16 new", "s: 0 64 snapshot base cow P 8"),
        stack("snap-store-less", "base 64, cow 7 new", "s: 0 64 snapshot base cow P 8"),
        stack("snap-store-zero-dev", "base 8", "z: 0 64 zero", on_device),
        stack("snap-store-error-dev", "base 8", "z: 0 64 error", on_device),
        stack("snap-store-ro-dev", SNAPSHOT, "c: 0 128 linear cow 0", "s: 0 64 snapshot base /dev/mapper/c P 8", read_only="c"),
        stack("snap-store-shared", SNAPSHOT, "s: 0 64 snapshot base cow P 8", "t: 0 64 snapshot base cow P 8"),
        stack("snap-store-snapshot", SNAPSHOT + ", cow2 128 new", "s: 0 64 snapshot base cow P 8",
              "t: 0 64 snapshot base /dev/mapper/s P 8"),
        # A store that begins with neither a header nor zeros.
        stack("snap-store-old-magic", "base 64, cow 128", "s: 0 64 snapshot base cow P 8"),
        stack("store-over-origin", SNAPSHOT + ", b2 64", "o: 0 128 snapshot-origin cow", "s: 0 64 snapshot b2 /dev/mapper/o P 8"),
    ]


def origins():
    return [
        stack("origin-shorter", SNAPSHOT, "o: 0 32 snapshot-origin base"),
        stack("origin-longer", SNAPSHOT, "o: 0 128 snapshot-origin base"),
        stack("origin-two-lines", SNAPSHOT, "o: 0 32 snapshot-origin base", "o: 32 32 snapshot-origin base"),
        stack("origin-and-zero", SNAPSHOT, "o: 0 64 snapshot-origin base", "o: 64 8 zero"),
    ]


def spellings():
    """White space."""
    return [stack("two-trailing-spaces", "", "a: 0 8 zero  "), stack("two-spaces", TWO, "a: 0 8  linear sda  0"),
            stack("tab", TWO, "a: 0\t8 linear sda 0")]
