"""Texts of groups as lvm2 writes them, and what is made of them (`lvm2_texts`)."""

GROUP = """\
contents = "Text Format Volume Group"
version = 1

creation_host = "m"	# Linux m 6.1.0

g {
	id = "JZJx2m-c6Iv-pT6X-cI3a-vZDO-W1uu-0R2Gmb"
	status = ["RESIZEABLE", "READ", "WRITE"]
	flags = []
	extent_size = 8	# 4 Kilobytes

	physical_volumes {

		pv0 {
			device = "/dev/sda"	# Hint only

			dev_size = 4096	# 2 Megabytes
			pe_start = 8
			pe_count = 200
		}
	}

	logical_volumes {
%s	}
}
"""
DISK = "/dev/sda"
# A group without volumes at all has no section of them.
BARE = (GROUP % "").replace("\tlogical_volumes {\n\t}\n", "")


def volume(name, *segments, status='["READ", "WRITE", "VISIBLE"]', more=""):
    """A volume with segments, each of which is given by its extents, its type and what follows that."""
    text, at = "\n\t\t%s {\n\t\t\tstatus = %s\n%s\t\t\tsegment_count = %d\n" % (name, status, more, len(segments)), 0
    for number, (count, kind, lines) in enumerate(segments, 1):
        text += "\n\t\t\tsegment%d {\n\t\t\t\tstart_extent = %d\n\t\t\t\textent_count = %d\t# %d Kilobytes\n\n\t\t\t\ttype = \"%s\"\n%s\t\t\t}\n" \
                % (number, at, count, 4 * count, kind, lines)
        at += count
    return text + "\t\t}\n"


def striped(count, *columns, size=""):
    """A segment on these columns, each of which is what it lies on and an extent."""
    lines = "\t\t\t\tstripe_count = %d\n%s\n\t\t\t\tstripes = [\n" % (len(columns), size)
    lines += ",\n".join('\t\t\t\t\t"%s", %d' % it for it in columns) + "\n\t\t\t\t]\n"
    return count, "striped", lines


def plain(name, count, at, **more):
    """A volume of one piece of the disk."""
    return volume(name, striped(count, ("pv0", at)), **more)


def other(name, kind, lines="", count=4, **more):
    """A volume of another type."""
    return volume(name, (count, kind, lines), **more)


def record(origin, store, count=4, number=0, kind="cow_store", chunk=1):
    """The record of a snapshot."""
    return volume("snapshot%d" % number, (count, "snapshot", '\t\t\t\tchunk_size = %d\n\t\t\t\torigin = "%s"\n\t\t\t\t%s = "%s"\n'
                                          % (chunk, origin, kind, store)))


def listed(key, *names):
    """A list of a segment, as lvm2 writes it."""
    return "\n\t\t\t\t%s = [\n" % key + ",\n".join('\t\t\t\t\t"%s"' % it for it in names) + "\n\t\t\t\t]\n"


def gone(text):
    """The change that leaves a volume out."""
    return text, "\n" * text.count("\n")


def lines(name, count, at, device=None):
    """The table of a volume of one piece of the disk."""
    return "g-%s: 0 %d linear %s %d\n" % (device or name, 8 * count, DISK, 8 + 8 * at)


def snapshot(origin, store, count, at, store_count, store_at, chunk=1):
    """The tables of an origin and its snapshot."""
    return (lines(origin, count, at, origin + "-real"), "g-%s: 0 %d snapshot-origin /dev/mapper/g-%s-real\n" % (origin, 8 * count, origin),
            lines(store, store_count, store_at, store + "-cow"),
            "g-%s: 0 %d snapshot /dev/mapper/g-%s-real /dev/mapper/g-%s-cow P %d\n" % (store, 8 * count, origin, store, chunk))


OTHER = "left out: %s: its segment1 has the type %s"
RECORD = "left out: snapshot%d: the record of the snapshot %s"
KEPT = "kept: %s, without its snapshot %s: on a machine, a write to it also copies what it overwrites, which the answers don't show"
MIXED = ("left out: home: the snapshot %s is being merged into it, so that some of its sectors are older and some newer: go on when that is "
         "done (`lvs -o+copy_percent`)")
UNREAD = "left out: %s: %s, which dmremap doesn't read"
HOME, LINES = plain("home", 4, 0), lines("home", 4, 0)
RAID = other("r1", "raid1", "\t\t\t\tdevice_count = 1\n" + listed("raids", "r1_rmeta_0", "r1_rimage_0"))
PARTS = [plain("r1_rimage_0", 4, 10, status='["READ", "WRITE"]'), plain("r1_rmeta_0", 1, 14, status='["READ", "WRITE"]')]
PART_LINES = lines("r1_rimage_0", 4, 10) + lines("r1_rmeta_0", 1, 14)
SNAP = plain("snap", 2, 20)
R1 = ("r1 {", OTHER % ("r1", "raid1"))


def row(name, volumes, changes=(), messages=(), table="", text=None):
    return name, GROUP % "".join(volumes) if text is None else text, changes, messages, table


def other_types():
    """Volumes of types that are out of scope, as lvm2 writes them, each alone beside a plain one."""
    kinds = [
        ("raid5_ls", "\t\t\t\tdevice_count = 3\n\t\t\t\tmin_recovery_rate = 10\n" + listed("raids", "o_rmeta_0", "o_rimage_0")),
        ("mirror", '\t\t\t\tmirror_count = 1\n\t\t\t\tmirror_log = "o_mlog"\n\n\t\t\t\tmirrors = [\n\t\t\t\t\t"o_mimage_0", 0\n\t\t\t\t]\n'),
        ("thin-pool", '\t\t\t\tmetadata = "o_tmeta"\n\t\t\t\tpool = "o_tdata"\n\t\t\t\tmessage1 {\n\t\t\t\t\tcreate = "x"\n\t\t\t\t}\n'),
        ("cache-pool+METADATA_FORMAT", '\t\t\t\tpolicy = "smq"\n\t\t\t\tpolicy_settings {\n\t\t\t\t\tmigration_threshold=2048\n\t\t\t\t}\n'),
        ("vdo-pool", '\t\t\t\tdata = "o_vdata"\n\t\t\t\twrite_policy = auto\n'),
        ("later+NEW", "\t\t\t\tx = -1.5\n"),
    ]
    for kind, more in kinds:
        made = other("o", kind, more)
        yield row("a volume of the type " + kind, [made, HOME], [gone(made)], [("o {", OTHER % ("o", kind))], LINES)


# Volumes.

ON_RAID = volume("b", striped(4, ("pv0", 30)), striped(4, ("r1", 0)))
ABOVE = volume("c", striped(4, ("b", 0)))
MOVED = volume("home", striped(4, ("pvmove0", 0)), status='["READ", "WRITE", "VISIBLE", "LOCKED"]')
PVMOVE = other("pvmove0", "mirror", '\t\t\t\tmirror_count = 2\n\n\t\t\t\tmirrors = [\n\t\t\t\t\t"pv0", 0,\n\t\t\t\t\t"pv0", 40\n\t\t\t\t]\n',
               status='["READ", "WRITE", "PVMOVE", "LOCKED"]')
# As many sectors as chunks would have, and not as rows of them.
NO_ROWS = volume("u", striped(4, ("pv0", 30), ("pv0", 40), ("pv0", 50), size="\t\t\t\tstripe_size = 8\n"))
UNEVEN = volume("u", striped(3, ("pv0", 30), ("pv0", 40), ("pv0", 50), size="\t\t\t\tstripe_size = 16\n"))
EVEN = volume("u", striped(6, ("pv0", 30), ("pv0", 40), ("pv0", 50), size="\t\t\t\tstripe_size = 16\n"))
LONG = "l" * 126
FULL = "l" * 125
VOLUMES = [row("plain volumes", [HOME, plain("3way", 1, 9), plain("data.2+b", 1, 8)], (), (),
        LINES + lines("3way", 1, 9) + lines("data.2+b", 1, 8)), row("no volumes", (), (), (), "", BARE),
    row("a raid volume and its parts", [HOME, RAID] + PARTS, [gone(RAID)], [R1], LINES + PART_LINES),
    row("what lies on a raid volume", [ABOVE, ON_RAID, RAID, HOME], [gone(ABOVE + ON_RAID + RAID)],
        [("c {", "left out: c: it lies on the volume b"), ("b {", "left out: b: it lies on the volume r1"), R1], LINES),
    row("a volume that is being moved", [MOVED, PVMOVE, SNAP], [gone(MOVED + PVMOVE)],
        [("home {", "left out: home: it lies on the volume pvmove0"), ("pvmove0 {", OTHER % ("pvmove0", "mirror"))], lines("snap", 2, 20)),
    # A volume may have the key of a physical volume: on which a stripe lies, its key alone says.
    row("a volume called as a physical one", [plain("pv0", 2, 50), HOME], (), (), lines("pv0", 2, 50) + LINES),
    *(row("stripes that don't divide a volume", [HOME, each], [gone(each)],
          [("u {", "left out: u: its segment1 isn't divided evenly by its stripes, so that no kernel takes it")], LINES) for each in (UNEVEN, NO_ROWS)),
    row("stripes that divide one", [HOME, EVEN], (), (), LINES + "g-u: 0 48 striped 3 16 /dev/sda 248 /dev/sda 328 /dev/sda 408\n"),
    row("a name that no device can have", [plain(LONG, 1, 8), plain(FULL, 1, 9)], [gone(plain(LONG, 1, 8))],
        [(LONG + " {", "left out: %s..: dmremap refuses it (name)" % LONG[:100])], lines(FULL, 1, 9)),
    row("a volume without segments", [HOME, volume("e")], [gone(volume("e"))], [("e {", "left out: e: dmremap refuses it (empty)")], LINES),
    row("a hidden volume for locks, and one removed", [HOME, plain("lvmlock", 1, 9, status='["READ", "WRITE"]')], (), (),
        LINES + lines("lvmlock", 1, 9), (GROUP % (HOME + plain("lvmlock", 1, 9, status='["READ", "WRITE"]'))).replace(
            "\t}\n}\n", "\t}\n\n\thistorical_logical_volumes {\n\n\t\tgone {\n\t\t\torigin = \"-older\"\n\t\t}\n\t}\n}\n")),
] + list(other_types())

# Snapshots.

GOOD, MERGING = record("home", "snap"), record("home", "snap", kind="merging_store")
SECOND, OF_SECOND = plain("two", 2, 23), record("home", "two", number=1)
SHORT, OF_RAID, ON_RAID_STORE = record("home", "snap", 3), record("r1", "snap"), record("home", "r1")
SPARSE = other("s_vorigin", "zero", status='["READ"]')
NOTHING = other("none", "zero", count=2)
OF_NOTHING = record("home", "none")
SHOWN = snapshot("home", "snap", 4, 0, 2, 20)
APART, APART_LINES = plain("apart", 1, 60), lines("apart", 1, 60)
MERGING_GONE = "left out: snapshot0: the record of a snapshot that is being merged"
MERGED = [("home {", MIXED % "snap"), ("snap {", "left out: snap: it is being merged into home"), ("snapshot0 {", MERGING_GONE)]
RESIZED = [("home {", KEPT % ("home", "snap")),
           ("snap {", "left out: snap: it is a snapshot of home: dmremap refuses it (snapshot)"), ("snapshot0 {", RECORD % (0, "snap"))]
WIDE, FAR_GROUP = "l" * 121, "g" * 118
SNAPSHOTS = [row("a snapshot", [HOME, SNAP, GOOD], (), (), "".join(SHOWN)),
    row("a sparse volume", [SNAP, SPARSE, record("s_vorigin", "snap")], (), (),
        lines("snap", 2, 20, "snap-cow") + "g-snap: 0 32 snapshot /dev/mapper/g-s_vorigin-real /dev/mapper/g-snap-cow P 1\n"
        "g-s_vorigin-real: 0 32 zero\ng-s_vorigin: 0 32 snapshot-origin /dev/mapper/g-s_vorigin-real\n"),
    row("a snapshot that is being merged", [HOME, SNAP, MERGING, APART], [gone(HOME + SNAP + MERGING)], MERGED, APART_LINES),
    row("another snapshot of one that is being merged into", [APART, OF_SECOND, SECOND, HOME, SNAP, MERGING],
        [gone(OF_SECOND + SECOND + HOME + SNAP + MERGING)],
        [("snapshot1 {", RECORD % (1, "two")), ("two {", "left out: two: it is a snapshot of home, which is left out")] + MERGED, APART_LINES),
    row("a snapshot that is being merged, whose volume is gone", [HOME, MERGING, APART], [gone(HOME + MERGING)], MERGED[:1] + MERGED[2:], APART_LINES),
    row("a snapshot that is being merged into a volume that is gone", [SNAP, MERGING, APART], [gone(SNAP + MERGING)], MERGED[1:], APART_LINES),
    row("a snapshot that is being merged into a raid volume", [HOME, RAID, SNAP, record("r1", "snap", kind="merging_store")],
        [gone(RAID + SNAP + record("r1", "snap", kind="merging_store"))],
        [R1, ("snap {", "left out: snap: it is being merged into r1"), ("snapshot0 {", MERGING_GONE)], LINES),
    row("a snapshot that is being merged into what a number names", [HOME, SNAP, MERGING.replace('= "snap"', "= 5")],
        [gone(HOME), gone(MERGING.replace('= "snap"', "= 5"))],
        [("home {", MIXED % "snapshot0"), ("snapshot0 {", MERGING_GONE)], lines("snap", 2, 20)),
    row("a snapshot of an origin that was extended", [HOME, SNAP, SHORT], [gone(SNAP + SHORT)], RESIZED, LINES),
    row("one snapshot that is as long as the origin, and one that isn't", [HOME, SNAP, SECOND, SHORT, OF_SECOND], [gone(SNAP), gone(SHORT)],
        RESIZED, "".join(snapshot("home", "two", 4, 0, 2, 23))),
    row("a snapshot of a raid volume", [HOME, RAID, SNAP, OF_RAID], [gone(RAID + SNAP + OF_RAID)],
        [R1, ("snap {", "left out: snap: it is a snapshot of r1, which is left out"), ("snapshot0 {", RECORD % (0, "snap"))], LINES),
    row("a snapshot whose store is a raid volume", [HOME, RAID, ON_RAID_STORE], [gone(RAID + ON_RAID_STORE)],
        [("home {", KEPT % ("home", "r1")), R1, ("snapshot0 {", RECORD % (0, "r1"))], LINES),
    row("a snapshot whose store keeps nothing", [HOME, NOTHING, OF_NOTHING], [gone(NOTHING + OF_NOTHING)],
        [("home {", KEPT % ("home", "none")), ("none {", "left out: none: it is a snapshot of home: dmremap refuses it (store)"),
         ("snapshot0 {", RECORD % (0, "none"))], LINES),
    # What stands on it is known only after what comes later was looked at.
    row("a snapshot of what lies on a raid volume", [SNAP, record("b", "snap", 8), ON_RAID, RAID, HOME],
        [gone(SNAP + record("b", "snap", 8) + ON_RAID + RAID)],
        [("snap {", "left out: snap: it is a snapshot of b, which is left out"), ("snapshot0 {", RECORD % (0, "snap")),
         ("b {", "left out: b: it lies on the volume r1"), R1], LINES),
    row("a name that no layer can have", [plain(WIDE, 4, 0), SNAP, record(WIDE, "snap")], [gone(SNAP + record(WIDE, "snap"))],
        [(WIDE + " {", KEPT % (WIDE[:100] + "..", "snap")),
         ("snap {", "left out: snap: it is a snapshot of %s..: dmremap refuses it (name)" % WIDE[:100]),
         ("snapshot0 {", RECORD % (0, "snap"))], lines(WIDE, 4, 0)),
    # A record is no device, however long its name.
    row("a record whose name no device can have", (), (), (), "".join(snapshot("a", "b", 4, 0, 2, 20)).replace("g-", FAR_GROUP + "-"),
        (GROUP % (plain("a", 4, 0) + plain("b", 2, 20) + record("a", "b"))).replace("\ng {", "\n%s {" % FAR_GROUP)),
]

# Stores. dmremap counts 4,194,304 places for chunks in all. That many has a store of 4,210,690 chunks: two of them, and one
# after each 256 others, are no places.

FULL_STORE = 4210690
FAR = (GROUP % "%s").replace("dev_size = 4096", "dev_size = 999999999").replace("pe_count = 200", "pe_count = 99999999")
MANY = "left out: %s: it is a snapshot of home: dmremap refuses it (limit)"


def stores(*counts):
    """A group with an origin, and snapshots of it on stores of so many chunks of 8 sectors."""
    return [HOME] + [plain("abc"[it], count, 10 + it * 5000000) for it, count in enumerate(counts)] \
        + [record("home", "abc"[it], number=it, chunk=8) for it in range(len(counts))]


def far(volumes, *left):
    """The tables of those snapshots that are left, each of which is its number and its chunks."""
    made = [snapshot("home", "abc"[it], 4, 0, count, 10 + it * 5000000, 8) for it, count in left]
    return "".join(made[0][:2] + tuple(line for it in made for line in it[2:])), FAR % "".join(volumes)


FITTING, PASSING = stores(FULL_STORE), stores(1000, FULL_STORE, 3)
PLACES = [row("a store with as many places as dmremap counts", (), (), (), *far(FITTING, (0, FULL_STORE))),
    row("stores with too many places in all", (), [gone(PASSING[2]), gone(PASSING[5])],
        [("home {", KEPT % ("home", "b")), ("b {", MANY % "b"), ("snapshot1 {", RECORD % (1, "b"))],
        *far(PASSING, (0, 1000), (2, 3))),
]

# Physical volumes.

SIZE = "\t\t\tdev_size = 4096\t# 2 Megabytes\n"
GROWN = (GROUP % HOME).replace("dev_size = 4096", "dev_size = 1600")
AT_LEAST = "pv0 is at least 1608 sectors long, where its extents end"
NO_SIZE = "changed: dev_size: pv0 has none, and is at least 1608 sectors long, where its extents end"
NO_DEVICE = "changed: device: pv0 has none, so that the disk has this name"
DISKS = [row("a disk after pvresize", (), [("dev_size = 1600", "dev_size = 1608")],
        [("dev_size", "changed: dev_size: " + AT_LEAST + ", and not 1600")], LINES, GROWN),
    row("a disk that lacks a sector", (), [("dev_size = 1607", "dev_size = 1608")],
        [("dev_size", "changed: dev_size: " + AT_LEAST + ", and not 1607")], LINES, GROWN.replace("1600", "1607")),
    row("a disk as long as its extents", (), (), (), LINES, GROWN.replace("1600", "1608")),
    row("a disk without a size", (), [("pv0 {", "pv0 { dev_size = 1608")],
        [("pv0 {", NO_SIZE)], LINES, (GROUP % HOME).replace(SIZE, "")),
    row("a disk without a name", (), [("pv0 {", 'pv0 { device = ""')], [("pv0 {", NO_DEVICE)],
        LINES.replace(DISK, "pv0"), (GROUP % HOME).replace('\t\t\tdevice = "/dev/sda"\t# Hint only\n', "")),
    row("a disk with neither", (), [("pv0 {", 'pv0 { device = "" dev_size = 1608')],
        [("pv0 {", NO_DEVICE), ("pv0 {", NO_SIZE)],
        LINES.replace(DISK, "pv0"), (GROUP % HOME).replace(SIZE, "").replace('\t\t\tdevice = "/dev/sda"\t# Hint only\n', "")),
    row("a disk that is missing", (), (), (), LINES.replace(DISK, "pv0"),
        (GROUP % HOME).replace('"/dev/sda"', '"[unknown]"').replace("pe_start", 'flags = ["MISSING"]\n\t\t\tpe_start')),
    row("a disk of no sectors", (), [gone("\t\tpv1 {\n\t\t\tdev_size = 0\n\t\t\tpe_start = 0\n\t\t\tpe_count = 0\n\t\t}\n")],
        [("pv1 {", "left out: pv1: it has no sectors")], LINES,
        (GROUP % HOME).replace("\t}\n\n\tlogical", "\t\tpv1 {\n\t\t\tdev_size = 0\n\t\t\tpe_start = 0\n\t\t\tpe_count = 0\n\t\t}\n\t}\n\n\tlogical")),
]

# Parts of raid volumes, which lvm2 loads as writable.

PART = plain("r1_rimage_0", 4, 10, status='["READ"]')
ODD = plain("r1_rimage_0", 4, 10, status='"READ"')
EMPTY = plain("r1_rmeta_0", 1, 14, status="[]")
LOCKED = plain("r1_rmeta_0", 1, 14, status='["READ"]', more='\t\t\tflags = ["WRITE_LOCKED"]\n')
WRITABLE = "changed: status: %s is part of a raid volume, which lvm2 loads as writable"
RAID_PARTS = [row("parts of a raid volume that are read-only", [RAID, PART, EMPTY],
        [gone(RAID), ('["READ"]\n\t\t\tsegment_count', '["READ", "WRITE"]\n\t\t\tsegment_count'), ("status = []", 'status = ["WRITE"]')],
        [R1, ('status = ["READ"]', WRITABLE % "r1_rimage_0"), ("status = []", WRITABLE % "r1_rmeta_0")], PART_LINES),
    row("a part whose status is no list", [RAID, ODD], [gone(RAID), ('status = "READ"', 'status = ["READ", "WRITE"]')],
        [R1, ('status = "READ"', WRITABLE % "r1_rimage_0")], lines("r1_rimage_0", 4, 10)),
    row("a part whose status ends with a comma", [RAID, PART.replace('"READ"]', '"READ",]')],
        [gone(RAID), ('["READ",]\n\t\t\tsegment_count', '["READ", "WRITE"]\n\t\t\tsegment_count')],
        [R1, ('status = ["READ",]', WRITABLE % "r1_rimage_0")], lines("r1_rimage_0", 4, 10)),
    row("a part whose right to write is locked", [RAID, LOCKED], [gone(RAID)], [R1], lines("r1_rmeta_0", 1, 14)),
]

# The language.

TEXT = GROUP % HOME


def at(beginning, text=TEXT):
    """The number of the first line that begins with these words."""
    return 1 + [it.strip().startswith(beginning) for it in text.split("\n")].index(True)


def field(name, line, table=LINES):
    """A field that the volume gets before its segments, and that dmremap passes over."""
    return row("a field " + name, (), (), (), table, TEXT.replace("\t\t\tsegment_count", "\t\t\t%s\n\t\t\tsegment_count" % line))


def unread(line, number=None, key=None):
    """One that dmremap would stumble over."""
    name, text, _, _, table = field(line, line)
    why = "the number " + number if number else "a key that is no word"
    key = key or line.split(" ")[0].split("=")[0]
    return name, text, [("\t\t\t%s\n" % line, "\n")], [(line, UNREAD % (key, why))], table


def spelled(name, old, new, changes=(), messages=(), table=LINES):
    """A text with something in other words, which the copy has as dmremap reads it."""
    return row(name, (), changes, messages, table, TEXT.replace(old, new))


LANGUAGE = [field("with a list", 'tags = ["a", "b"]'), field("with a zero in front", "minor = 0007"),
    field("with an escape, a comment and a letter outside ASCII", 'x = "a \\" \\\\ { # \u00e9"'),
    *(field("that is written as " + each, each) for each in (
        "x = +1", "x = 00000000000000000001", "x = auto", "x = @a", "x = 'it\"s'", 'device_id = "a\\x20b"', 'x = ["a", ]', 'x = ["a" "b"]',
        "x = 1 y = 2", "x=1y=2")), unread("read_ahead = -1\t# None", "-1"), unread("x = [1, -2]", "-2"),
    unread("x = .5", ".5"), unread("x=1.", "1."), unread("creation_time = 18446744073709551615",
    "18446744073709551615"), unread("a:b = 1"), unread('"x y" = 1', key="x y"), unread("-x = 1"),
    spelled("a field behind another one", "pe_start", "x = 1 read_ahead = -1 pe_start", [("read_ahead = -1", "")],
            [("x = 1 ", UNREAD % ("read_ahead", "the number -1"))]),
    spelled("two fields without a space", "version = 1\n", "version=1x=2\n"),
    # C reads digits up to the first that is none of base 8.
    spelled("an octal number with other digits", "pe_count = 200\n", "pe_count = 03109\n"),
    spelled("a quote in single quotes", '"/dev/sda"', "'/dev/sd\"a'", table=LINES.replace(DISK, "pv0")),
    spelled("a backslash that stands for itself", '"/dev/sda"', '"/dev/sd\\a"', table=LINES.replace(DISK, "pv0")),
    spelled("a string over two lines", '"/dev/sda"', '"/dev/s\nda"', [('/dev/s\nda"', '/dev/s\ufffdda"\n')], table=LINES.replace(DISK, "pv0")),
    spelled("a description of several lines", "version = 1\n", 'version = 1\ndescription = "a\n{ # b"\n', [('a\n{ # b"', 'a\ufffd{ # b"\n')]),
    spelled("a word without quotes", '"striped"', "striped"),
    spelled("a type by its other name", '"striped"', '"linear"', [('"linear"', '"striped"')]),
    spelled("one value in place of a list", 'status = ["READ", "WRITE", "VISIBLE"]', 'status = "WRITE"'),
    spelled("a list of one value", '= "striped"', '= [ "striped" ]'),
    spelled("a comma that is missing", '"READ", "WRITE", "VISIBLE"', '"READ" "WRITE", "VISIBLE"'),
    spelled("a second group", "\t}\n}\n", "\t}\n}\nh { x = 1\n}\n", [("h { x = 1\n}", "\n")],
            [("h {", "left out: h: lvm2 reads one section of a text, the first")]),
    spelled("a section with such a field", "\textent_size", "\tx { y {\n\tz = -1 } }\n\textent_size", [("z = -1", "")],
            [("z = -1", UNREAD % ("z", "the number -1"))]),
    spelled("sections of many levels", "\textent_size", "\t" + "x { " * 15 + "y { } " + "} " * 15 + "\n\textent_size", [("y { } ", "")],
            [("x { ", UNREAD % ("y", "more than 16 sections in each other"))]),
]

# Bytes.

BYTES = [row("a byte order mark", (), [("\ufeff", "")], (), LINES, "\ufeff" + TEXT),
    row("a text from a metadata area, up to its NUL", (), [("\n\0rest {", "\n")], [("\0rest", "left out: the NUL here, and what comes after it")],
        LINES, TEXT + "\0rest {"),
    row("bytes that are no UTF-8", (), [(b"sto\xe9 \xff", "sto\ufffd \ufffd")], (), LINES,
        TEXT.encode().replace(b'"m"', b'"sto\xe9 \xff"').replace(b"Linux m", b"Linux m \xe9")),
    row("a disk whose name is no UTF-8", (), [(b"sd\xe9", "sd\ufffd")], (), LINES.replace(DISK, "pv0"), TEXT.encode().replace(b"/dev/sda", b"/dev/sd\xe9")),
]

ROWS = VOLUMES + SNAPSHOTS + PLACES + DISKS + RAID_PARTS + LANGUAGE + BYTES

# Texts that are refused, each with its messages from the name of the text on. What is put behind the text is in line `AFTER`.

AFTER = TEXT.count("\n") + 1
NO_GROUP = ": no metadata of a group: give a text of /etc/lvm/backup, or what `metadata` prints"


def after(name, more, message, line=0):
    return "the text of " + name, TEXT + more, ":%d: %s" % (AFTER + line, message)


def instead(name, old, new, message, line=0):
    return "the text of " + name, TEXT.replace(old, new), ":%d: %s" % (at(old.strip().split("\n")[0]) + line, message)


def no_number(old, new, number, place):
    """A number that dmremap needs and doesn't read: the field is left out, and the copy is refused at this line."""
    key = old.split(" ")[0]
    return "the text of " + new, TEXT.replace(old, new), (
        ":%d: %s\n: dmremap refuses the copy, whose lines have the same numbers (dmremap: source: field at %d): take an older text, from "
        "/etc/lvm/archive or by `metadata --list`" % (at(key), UNREAD % (key, "the number " + number), place))


REFUSED = [
    ("nothing", "", NO_GROUP),
    ("values alone", "contents = 1\n", NO_GROUP),
    ("another file of lvm2", "config {\n\tchecks = 1\n}\n", NO_GROUP),
    ("a raid volume alone", GROUP % RAID, ":%d: %s\n: nothing is left, as dmremap can follow none of its volumes: use `save`, `serve` or `machine`" % (at("home"), R1[1])),
    ("an end that is missing", TEXT[:-2], ":%d: the end is missing: g, line %d, isn't closed: take the text anew, from /etc/lvm/backup" % (AFTER - 1, at("g {"))),
    after("a brace too many", "}\n", "a brace that closes nothing: take the text anew, from /etc/lvm/backup"),
    after("a string without an end: take the text anew, from /etc/lvm/backup", 'x = "a\n', "a string without an end: take the text anew, from /etc/lvm/backup"),
    after("a string that a NUL cuts", 'x = "a\0"\n', "a string without an end: take the text anew, from /etc/lvm/backup"),
    after("a value that is missing", "x = }\n", "no value, take the text anew, from /etc/lvm/backup: }"),
    after("a value that the end lacks", "x =", "no value, take the text anew, from /etc/lvm/backup: the end"),
    after("a list in a list", "x = [[1]]\n", "no value, take the text anew, from /etc/lvm/backup: ["),
    after("a key alone", "x\ny = 1\n", "neither a brace nor an equals sign after x: take the text anew, from /etc/lvm/backup", 1),
    after("a sign in place of a key", "= 1\n", "no key, take the text anew, from /etc/lvm/backup: ="),
    after("a key that is empty", '"" = 1\n', 'a key that lvm2 never writes, take the text anew, from /etc/lvm/backup: ""'),
    after("a key of two parts", "a/b = 1\n", "a key that lvm2 never writes, take the text anew, from /etc/lvm/backup: a/b"),
    instead("a section that is there twice", "\tlogical", "\tlogical_volumes {\n\t}\n\tlogical",
            "logical_volumes is there twice, first in line %d: put the two together" % at("logical"), 2),
    instead("a field that is there twice", "\t\t\tpe_start", "\t\t\tpe_start = 16\n\t\t\tpe_start",
            "pe_start is there twice, first in line %d: put the two together" % at("pe_start"), 1),
    instead("a value and a section of one key", "\t\t\tsegment1", "\t\t\tsegment1 = 1\n\t\t\tsegment1",
            "segment1 is there twice, first in line %d: put the two together" % at("segment1"), 1),
    *(no_number("pe_start = 8", "pe_start = " + number, number, at("pv0")) for number in ("-8", "9223372036854775808", "-")),
    no_number("version = 1", "version = 1.0", "1.0", 1),
    ("a segment too many", TEXT.replace("segment_count = 1", "segment_count = 2"), 
     ":%d: home: segment_count isn't the number of its segments, 1: take the text anew, from /etc/lvm/backup" % at("home")),
    instead("a volume with a space in its name", "home {", '"my home" {', "no name that lvm2 gives, take the text anew, from /etc/lvm/backup: my home"),
    instead("a volume whose name begins with a hyphen", "home {", "-home {", "no name that lvm2 gives, take the text anew, from /etc/lvm/backup: -home"),
]
