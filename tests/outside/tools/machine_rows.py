"""What `machine` makes of the texts of a machine: its words, its inputs, what it prints, what it says on standard error,
its status, and DISKS."""

NUMBERS = "base\t(253:0)\ncow\t(253:1)\nsnap\t(253:2)\norig\t(253:3)\n"
FRESH = "base: 0 16 linear \ncow: 0 64 linear \nsnap: 0 16 snapshot 16/64 16\norig: 0 16 snapshot-origin \n"
DISK = "8:1 1048576 sda1 sda\n"
SIZES = (DISK + "253:0 8192 dm-0 sda1\n253:1 32768 dm-1 sda1\n253:2 8192 dm-2 dm-0\n"
         "253:2 8192 dm-2 dm-1\n253:3 8192 dm-3 dm-0\n")
LOWER = "base: 0 16 linear 8:1 0\ncow: 0 64 linear 8:1 16\n"
ALL = LOWER + "snap: 0 16 snapshot 253:0 253:1 P 8\norig: 0 16 snapshot-origin 253:0\n"
LOWER_OUT = "base: 0 16 linear /dev/sda1 0\ncow: 0 64 linear /dev/sda1 16\n"
SNAP_OUT = "snap: 0 16 snapshot /dev/mapper/base /dev/mapper/cow P 8\n"
ORIG_OUT = "orig: 0 16 snapshot-origin /dev/mapper/base\n"
SDA1 = "/dev/sda1 2048\n"
NO_COPIES = ("kept: orig, without snap, which %s a snapshot of it: on the machine, a write to it also copies what it overwrites, "
             "which the answers don't show\n")
COPIED = "its store has copies, and nothing says of which chunks"
NO_STORE = "dmremap refuses it (store)"
WORDS = ["--disks", "disks"]


def machine(tables, output, message="", disks=SDA1, names=NUMBERS, status=FRESH, sizes=SIZES, more=()):
    return "machine", WORDS + list(more), [names, status, sizes, tables], output, message, 0, disks


def no_machine(tables, message, names=NUMBERS, status=FRESH, sizes=SIZES):
    return "machine", WORDS, [names, status, sizes, tables], "refused\n", message, 1, None


def without(why, tables, lower=LOWER_OUT, origin=ORIG_OUT, **how):
    """The snapshot is left out, and so are the copies for it."""
    return machine(tables, lower + origin, "left out: snap (%s)\n" % why + NO_COPIES % "is", **how)


def names_of(*names):
    """What `dmsetup ls` prints of devices with the numbers 253:1, 253:2 and so on."""
    return "".join("%s\t(253:%d)\n" % (name, minor) for minor, name in enumerate(names, 1))


def beside(line, kept, message="", disks=SDA1, sizes=DISK, names=names_of("a", "b")):
    """A device `a` with this line, beside a device `b` that is kept in any case."""
    return machine("a: %s\nb: 0 8 linear 8:1 0\n" % line, kept + "b: 0 8 linear /dev/sda1 0\n", message, disks, names, sizes=sizes)


def left(line, why, odd=None, **how):
    """That device is left out; before that it may be told that a length isn't sure."""
    odd = "left out: the length of %s, which has two, or no whole number of sectors\n" % odd if odd else ""
    return beside(line, "", odd + "left out: a (%s)\n" % why, **how)


SNAPSHOTS = [machine(ALL, LOWER_OUT + SNAP_OUT + ORIG_OUT),
    machine(ALL.replace("P 8", "N 8"), LOWER_OUT + SNAP_OUT.replace("P 8", "N 8") + ORIG_OUT, status=FRESH.replace("16/64 16", "0/64 0")),
    without(COPIED, ALL, status=FRESH.replace("16/64 16", "24/64 16")),
    without(COPIED, ALL, status=FRESH.replace("16/64 16", "Invalid")),
    machine(ALL, LOWER_OUT + SNAP_OUT + ORIG_OUT, status=FRESH.replace("16/64 16", "24/64 16"), more=["--store", "snap=cow.img"]),
    without("`dmsetup status` says nothing of it", ALL, status="base: 0 16 linear \n"),
    without("dmremap refuses it (field)", ALL.replace("P 8", "PO 8")),
    without("dmremap refuses it (snapshot)", ALL.replace("P 8", "P 12")),
    machine(ALL.replace("snapshot-origin 253:0", "snapshot-merge 253:0 253:1 P 8"), LOWER_OUT + SNAP_OUT,
            "left out: orig (snapshot-merge)\n"),
    # An origin that was extended under its snapshot, or under its own line.
    without("dmremap refuses it (snapshot)", ALL.replace("base: 0 16", "base: 0 24").replace("orig: 0 16", "orig: 0 24"),
            LOWER_OUT.replace("base: 0 16", "base: 0 24"), ORIG_OUT.replace("16", "24"),
            sizes=SIZES.replace("8192 dm-0", "12288 dm-0").replace("8192 dm-3", "12288 dm-3")),
    machine(ALL.replace("orig: 0 16", "orig: 0 8"), LOWER_OUT + SNAP_OUT, "left out: orig (dmremap refuses it (snapshot))\n",
            sizes=SIZES.replace("8192 dm-3", "4096 dm-3")),
    machine(ALL.replace("orig: 0 16", "orig: 0 16 zero \norig: 16 16"), LOWER_OUT + SNAP_OUT,
            "left out: orig (dmremap refuses it (snapshot))\n", sizes=SIZES.replace("8192 dm-3", "16384 dm-3")),
    # A part of the store is on a disk that is missing, also one level below; and a store that is read-only.
    without(NO_STORE, ALL.replace("cow: 0 64", "cow: 0 32 error \ncow: 32 32"), LOWER_OUT.replace("cow: 0 64", "cow: 0 32 error\ncow: 32 32")),
    machine("base: 0 16 linear 8:1 0\ncow: 0 64 linear 253:3 0\nsnap: 0 16 snapshot 253:0 253:1 P 8\norig: 0 64 error \n",
            "base: 0 16 linear /dev/sda1 0\ncow: 0 64 linear /dev/mapper/orig 0\norig: 0 64 error\n",
            "left out: snap (%s)\n" % NO_STORE, sizes=SIZES.replace("8192 dm-3", "32768 dm-3")),
    machine("base,,0,rw,0 16 linear 8:1 0;cow,,1,ro,0 64 linear 8:1 16;snap,,2,rw,0 16 snapshot 253:0 253:1 P 8\n",
            "base,,,rw,0 16 linear /dev/sda1 0;cow,,,ro,0 64 linear /dev/sda1 16\n",
            "left out: snap (%s)\n" % NO_STORE, names=NUMBERS.replace("orig\t(253:3)\n", "")),
    # A store that is left out is a disk.
    machine(ALL.replace("linear 8:1 16", "raid raid1 3 0 region_size 1024 1 - 8:1"),
            LOWER_OUT.split("\n")[0] + "\n" + SNAP_OUT.replace("/dev/mapper/cow", "/dev/dm-1") + ORIG_OUT,
            "left out: cow (raid), the disk /dev/dm-1\n", SDA1 + "/dev/dm-1 64\n"),
    # A store with as many chunks as dmremap takes, and with one more.
    machine(ALL.replace("P 8", "P 1").replace("0 64", "0 4325378"), (LOWER_OUT + SNAP_OUT + ORIG_OUT).replace("P 8", "P 1").replace("0 64", "0 4325378"),
            "", "/dev/sda1 8388608\n", sizes=SIZES.replace("8:1 1048576", "8:1 4294967296").replace("32768", "2214593536")),
    without("dmremap refuses it (limit)", ALL.replace("P 8", "P 1").replace("0 64", "0 4325379"), LOWER_OUT.replace("0 64", "0 4325379"),
            disks="/dev/sda1 8388608\n", sizes=SIZES.replace("8:1 1048576", "8:1 4294967296").replace("32768", "2214594048")),
    # Without its table a device may be a snapshot, but not where it is said that it has none.
    machine(ALL.replace("snap: 0 16 snapshot 253:0 253:1 P 8\n", ""), LOWER_OUT + ORIG_OUT, "left out: snap (no table)\n" + NO_COPIES % "may be"),
    machine(ALL.replace("snap: 0 16 snapshot 253:0 253:1 P 8\n", "snap: \n"), LOWER_OUT + ORIG_OUT, "left out: snap (no table)\n"),
]

CRYPT = "0 8 crypt aes-xts-plain64 :64:logon:cryptsetup:5d2a 0 8:1 "
ENCRYPTED = "encrypted: the sectors below a, whose lines of crypt are linear here\n"
TARGETS = [beside(CRYPT + "40", "a: 0 8 linear /dev/sda1 40\n", ENCRYPTED),
    beside(CRYPT + "40 3 allow_discards sector_size:4096 iv_large_sectors", "a: 0 8 linear /dev/sda1 40\n", ENCRYPTED),
    beside(CRYPT + "40\na: 8 8 zero ", "a: 0 8 linear /dev/sda1 40\na: 8 8 zero\n", ENCRYPTED),
    # A line of it that isn't whole is not shown, as it may have a key.
    left("0 8 crypt aes-xts-plain64 0123456789abcdef 0", "crypt"), left(CRYPT + "2041", "dmremap refuses it (range)"),
    # What lies on a device that is left out ends there; 253:10 is not 253:1.
    machine("a: 0 8 thin 8:1 7\nb: 0 8 linear 253:1 0\nb: 8 8 linear 253:10 4\nc: 0 16 zero \n",
            "b: 0 8 linear /dev/dm-1 0\nb: 8 8 linear /dev/mapper/c 4\nc: 0 16 zero\n", "left out: a (thin), the disk /dev/dm-1\n",
            "/dev/dm-1 8\n", names="a\t(253:1)\nb\t(253:2)\nc\t(253:10)\n",
            sizes="8:1 4096 sda \n253:1 4096 dm-1 sda\n253:2 8192 dm-2 dm-1\n253:10 8192 dm-10 \n"),
    left("0 8 linear 8:1 0\na: 8 8 thin 8:1 1", "thin"), left("0 8 linear 8:1 0 9", "dmremap refuses it (field)"),
    left("0 8 linear /dev/sda1 0", "0 8 linear /dev/sda1 0"),
    left("0 1125899906842625 zero ", "dmremap refuses it (limit)"), left("", "no table"),
    beside("0 8 striped 2 4 8:1 0 8:1 2044", "a: 0 8 striped 2 4 /dev/sda1 0 /dev/sda1 2044\n"),
    left("0 8 linear 8:2 0", "lsblk has no length of 8:2"), left("0 8 linear 253:1 0", "dmremap refuses it (cycle)"),
    machine("a: 0 8 linear 253:2 0\nb: 0 8 linear 253:1 0\nc: 0 8 zero \n", "a: 0 8 linear 253:2 0\nc: 0 8 zero\n",
            "left out: b (dmremap refuses it (cycle)), the disk 253:2\n", "253:2 8\n",
            names=names_of("a", "b", "c"), sizes="8:1 512 sda \n"),
    machine("".join("d%d: 0 8 linear %s 0\n" % (it, "253:%d" % (it - 1) if it > 1 else "8:1") for it in range(1, 35)),
            "".join("d%d: 0 8 linear %s 0\n" % (it, {1: "/dev/sda1", 34: "253:33"}.get(it, "/dev/mapper/d%d" % (it - 1)))
                    for it in range(1, 35) if it != 33), "left out: d33 (dmremap refuses it (deep)), the disk 253:33\n",
            SDA1 + "253:33 8\n", names=names_of(*["d%d" % it for it in range(1, 35)]), sizes=DISK),
]

# Names and lines that are not as they should be cost nothing but themselves.
NAMES = [
    machine("my disk: 0 8 zero \na: 0 8 linear 253:1 0\nb\\x20c: 0 8 zero \nd: e: 0 8 zero \n", "a: 0 8 linear /dev/dm-1 0\n",
            "left out: my disk (dmremap takes no such name), the disk /dev/dm-1\nleft out: b\\x20c (dmremap takes no such name)\n"
            "left out: d: e (dmremap takes no such name)\n", "/dev/dm-1 8\n", names=names_of("my disk", "a", "b\\x20c", "d: e"),
            sizes="8:0 512 sda \n253:1 4096 dm-1 \n"),
    machine("a,LVM-x,1,ro,0 8 striped 2 4 8:1 0 8:1 8;my disk,,2,rw,0 8 zero ;c,CRYPT-y,3,rw,0 8 crypt capi:xts(aes,sha256)-x y 0 8:1 0,8 8 zero ;"
            "empty,,4,rw;f\\,g\\;h,,5,rw,0 8 zero ;i,j,UU,6,rw,0 8 zero ;k;a,,7,rw,0 8 zero \n",
            "a,,,ro,0 8 striped 2 4 /dev/sda1 0 /dev/sda1 8;c,,,rw,0 8 linear /dev/sda1 0,8 8 zero\n",
            "left out: device 6 of 4, which `dmsetup ls` does not list: i,j,UU,6,rw,0 8 zero \n"
            "left out: device 7 of 4, which `dmsetup ls` does not list: k\n"
            "left out: device 8 of 4, which `dmsetup ls` does not list: a,,7,rw,0 8 zero \n"
            "left out: my disk (dmremap takes no such name)\n"
            "encrypted: the sectors below c, whose lines of crypt are linear here\n"
            "left out: empty (no table)\nleft out: f,g;h (dmremap takes no such name)\n"
            "left out: i,j (dmremap takes no such name)\nleft out: k;a (dmremap takes no such name)\n",
            names=names_of("a", "my disk", "c", "empty", "f,g;h", "i,j", "k;a"), sizes=DISK),
    machine("caf\u00e9: 0 8 zero \nb: 0 8 zero \n", "b: 0 8 zero\n", "left out: caf\u00e9 (dmremap takes no such name)\n", "",
            names=names_of("caf\u00e9", "b"), sizes=DISK),
    # The line of a device that appeared between two commands, a line of something else, and one with too much.
    beside("0 8 zero \nnew: 0 8 zero \nWhat is this?", "a: 0 8 zero\n",
           "left out: line 3 of 4: What is this?\nleft out: new, which `dmsetup ls` does not list\n"),
    beside("0 8 zero ", "a: 0 8 zero\n", "left out: line 1 of 1: Command failed.\n", names="Command failed.\n" + names_of("a", "b")),
    machine("a,,1,rw,0 8k zero ;b,,2,rw,0 8 zero \n", "b,,,rw,0 8 zero\n", "left out: a (a line of its table is none: 0 8k zero )\n", "",
            names=names_of("a", "b"), sizes=DISK),
    machine("a: 0 8 zero \n", "a: 0 8 zero\n", disks="", names="a\t(253, 1)\n", sizes=DISK),
]

NUMBERED = "a: 0 8 linear 8:1 0\n"
LENGTHS = [
    machine(ALL, LOWER_OUT + SNAP_OUT + ORIG_OUT, "left out: line 1 of 3: 11:0  sr0 \n", sizes="11:0  sr0 \n" + SIZES),
    # Where there is no name that can be a path, the disk has its number as its name.
    machine(NUMBERED, NUMBERED, "", "8:1 2048\n", names_of("a"), sizes="8:1 1048576\n"),
    machine(NUMBERED, NUMBERED, "", "8:1 2048\n", names_of("a"), sizes="8:1 1048576 sda,1 sda\n"),
    machine(NUMBERED, NUMBERED.replace("8:1", "/dev/cciss/c0d0"), "", "/dev/cciss/c0d0 2048\n", names_of("a"), sizes="8:1 1048576 cciss/c0d0 \n"),
    left("0 8 zero ", "lsblk and its table differ in its length", sizes=DISK + "253:1 8192 dm-1 \n"),
    # In sectors in place of bytes.
    left("0 8 zero ", "lsblk and its table differ in its length", sizes=DISK + "253:1 8 dm-1 \n", odd="253:1"),
    left("0 8 zero ", "lsblk and its table differ in its length", sizes=DISK + "253:1 4096 dm-1 \n253:1 8192 dm-1 \n", odd="253:1"),
    left("0 8 linear 8:2 0", "lsblk has no length of 8:2", sizes=DISK + "8:2 0 sda2 sda\n"),
    beside("0 8 linear 8:2 0", "a: 0 8 linear /dev/sdb 0\n", "", "/dev/sdb 1125899906842624\n" + SDA1, sizes=DISK + "8:2 576460752303423488 sdb \n"),
    left("0 8 linear 8:2 0", "dmremap refuses the disk 8:2 (limit)", sizes=DISK + "8:2 576460752303424000 sdb \n"),
    left("0 8 linear 8:2 0", "lsblk has no length of 8:2", sizes=DISK + "8:2 4097 sda2 sda\n", odd="8:2"),
]

STORES = [
    # A line without its words.
    machine("a: 0 8 linear \nb: 0 8 zero \n", "b: 0 8 zero\n", "left out: a (dmremap refuses it (field))\n", "", names=names_of("a", "b"), sizes=DISK),
    ("machine", WORDS + ["--store", "x=cow.img"], [NUMBERS, FRESH, SIZES, ALL], "refused\n", "--store: no snapshot x: give a name that LS has", 1, None),
    ("machine", WORDS + ["--store", "base=cow.img"], [NUMBERS, FRESH, SIZES, ALL], "refused\n", "--store: no snapshot base: give a name that LS has", 1, None),
]

# Texts with a byte order mark and carriage returns, and such as are no texts.
WRAPPED = [
    machine(ALL.replace("\n", "\r\n"), LOWER_OUT + SNAP_OUT + ORIG_OUT, names="\ufeff" + NUMBERS.replace("\n", "\r\n"),
            status=FRESH.replace("\n", "\r\n"), sizes=SIZES.replace("\n", "\r\n")),
    no_machine(ALL, "1: it is compressed (gzip): unpack it", names=b"\x1f\x8b\x08\0"),
    no_machine(ALL, "2: it is UTF-16: make it UTF-8 by `iconv -f UTF-16 -t UTF-8`", status=b"\xff\xfea\0"),
    no_machine(ALL, "3: it is no text: see by `file` what it is", sizes=b"8:1\0\n"),
    no_machine(b"BZh91AY", "4: it is compressed (bzip2): unpack it"),
]

REFUSED = [no_machine(ALL, "1: not what `dmsetup ls` prints of devices", names="No devices found\n"),
    no_machine(ALL, "1: not what `dmsetup ls` prints of devices", names=""),
    no_machine(ALL, "2: not what `dmsetup status` prints of devices", status="No devices found\n"),
    no_machine(ALL, "2: not what `dmsetup status` prints of devices", status=SIZES),
    no_machine(ALL, "3: not what `lsblk -brno MAJ:MIN,SIZE,KNAME,PKNAME` prints of devices", sizes="8:1 1M sda1 sda\n"),
    no_machine(ALL, "3: not what `lsblk -brno MAJ:MIN,SIZE,KNAME,PKNAME` prints of devices", sizes="sda1 8:1 1048576\n"),
    no_machine("No devices found\n", "4: not what `dmsetup table` prints of devices"),
    no_machine("0 16 linear 8:1 0\n", "4: not what `dmsetup table` prints of devices"),
    no_machine("base,,0,xx,0 16 linear 8:1 0\n", "4: not what `dmsetup table` prints of devices"),
    no_machine("a: 0 8 thin 8:1 0\n", "left out: a (thin)\n4: no device is left that dmremap can follow: see above what was left out", names=names_of("a")),
    no_machine("a,,1,rw,0 8 zero \nb,,2,rw,0 8 zero \n", "left out: device 1 of 4, which `dmsetup ls` does not list: a,,1,rw,0 8 zero "
               "\\nb,,2,rw,0 8 zero \nleft out: a (no table)\n4: no device is left that dmremap can follow: see above what was left out", names=names_of("a")),
]

ROWS = SNAPSHOTS + TARGETS + NAMES + LENGTHS + STORES + WRAPPED + REFUSED
