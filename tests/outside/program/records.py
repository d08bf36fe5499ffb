"""Metadata of groups with snapshots: the devices of origins and stores, and what is refused of a record."""

import lvm_texts
from groups import with_line
from lvm_texts import HIDDEN, READABLE, WITH_SNAPSHOT as GROUP, snapshot, striped, volume

LINES = GROUP.splitlines(True)
# A volume, and a store and the record of a snapshot on it.
HEAD, ORIGIN, STORE, RECORD, TAIL = ("".join(LINES[begin:end]) for begin, end in ((0, 13), (13, 24), (24, 35), (35, 47), (47, None)))


def group(*volumes):
    """The text of a group of these volumes, the first of which begins in line 14."""
    return HEAD + "".join(volumes) + TAIL


# One more snapshot of lv0, which lies behind the first.
SECOND = STORE.replace("snap", "snap2").replace("25", "27") + RECORD.replace("snapshot0", "snapshot1").replace('"snap"', '"snap2"')

REAL = "vg0-lv0-real: 0 204800 linear /dev/sda1 2048\n"
OVER = "vg0-lv0: 0 204800 snapshot-origin /dev/mapper/vg0-lv0-real\n"
COW = "vg0-snap-cow: 0 16384 linear /dev/sda1 206848\n"
SNAP = "vg0-snap: 0 204800 snapshot /dev/mapper/vg0-lv0-real /dev/mapper/vg0-snap-cow P 8\n"
COW_2, SNAP_2 = COW.replace("snap", "snap2").replace("206848", "223232"), SNAP.replace("vg0-snap", "vg0-snap2")

STRIPED = STORE.replace("stripe_count = 1", "stripe_count = 2 stripe_size = 64").replace('25]', '25, "pv0", 30]')
PARTS = """\
    lv0 {
      status = ["READ", "WRITE", "VISIBLE"]
      segment_count = 2
      segment2 { start_extent = 20 extent_count = 5 type = "striped" stripe_count = 1 stripes = ["pv0", 60] }
      segment1 { start_extent = 0 extent_count = 20 type = "striped" stripe_count = 1 stripes = ["pv0", 0] }
    }
"""
# A whole group, and its tables.
TABLES = [
    ("a snapshot", GROUP, REAL + OVER + COW + SNAP),
    ("a record before its origin", group(RECORD, ORIGIN, STORE), REAL + OVER + COW + SNAP),
    ("a store before its origin", group(STORE, RECORD, ORIGIN), COW + SNAP + REAL + OVER),
    ("two snapshots of one origin", group(ORIGIN, STORE, RECORD, SECOND), REAL + OVER + COW + SNAP + COW_2 + SNAP_2),
    ("two records before all else", group(RECORD, RECORD.replace("snapshot0", "other").replace('"snap"', '"snap2"'),
                                          STORE.replace("snap", "snap2").replace("25", "27"), ORIGIN, STORE),
     COW_2 + SNAP_2 + REAL + OVER + COW + SNAP),
    ("a volume beside a snapshot", group(ORIGIN, STORE, RECORD, STORE.replace("snap", "lv-1").replace("25", "27")),
     REAL + OVER + COW + SNAP + "vg0-lv--1: 0 16384 linear /dev/sda1 223232\n"),
    ("a striped store", group(ORIGIN, STRIPED, RECORD),
     REAL + OVER + "vg0-snap-cow: 0 16384 striped 2 64 /dev/sda1 206848 /dev/sda1 247808\n" + SNAP),
    ("an origin of two segments", group(PARTS, STORE, RECORD),
     "vg0-lv0-real: 0 163840 linear /dev/sda1 2048\nvg0-lv0-real: 163840 40960 linear /dev/sda1 493568\n" + OVER + COW + SNAP),
    ("keys with hyphens", GROUP.replace("lv0", "lv-0").replace("snap {", "snap- {").replace('"snap"', '"snap-"'),
     (REAL + OVER + COW + SNAP).replace("lv0", "lv--0").replace("vg0-snap", "vg0-snap--")),
    ("a record whose key makes no name", GROUP.replace("snapshot0", "s" * 300), REAL + OVER + COW + SNAP),
    ("two groups of snapshots", group(ORIGIN, STORE, RECORD, ORIGIN.replace("lv0", "lv1").replace("0]", "30]"),
                                      SECOND.replace('"lv0"', '"lv1"')),
     REAL + OVER + COW + SNAP + REAL.replace("lv0", "lv1").replace("2048\n", "247808\n") + OVER.replace("lv0", "lv1")
     + COW_2 + SNAP_2.replace("lv0", "lv1")),
]

# Lines 15 (the origin), 26 (the store) and 37 (the record) that have a status without a right to write, those of them
# that have it among their flags, and which of the four devices are read-only.
READ_ONLY = [
    ((15,), (), (1,)),
    ((26,), (), (3,)),
    ((37,), (), ()),
    ((15, 26, 37), (), (1, 3)),
    ((15, 26, 37), (15,), (3,)),
    ((15, 26, 37), (26,), (1,)),
    ((15, 26, 37), (37,), (1, 3)),
    ((15, 26, 37), (15, 26, 37), ()),
]

# Lines of the group, what they are changed to, and the refusal.
REFUSED = [
    # What a record is to have.
    ([(43, "")], "field at 39"),
    ([(44, "")], "field at 39"),
    ([(45, "")], "field at 39"),
    ([(43, 'chunk_size = "8"')], "field at 43"),
    ([(44, "origin = 0")], "field at 44"),
    ([(45, 'cow_store = ["snap"]')], "field at 45"),
    ([(43, "chunk_size = 1125899906842625")], "limit at 43"),
    ([(43, "chunk_size = 1125899906842625"), (45, "cow_store = 1")], "field at 45"),
    ([(41, "extent_count = 137438953473"), (43, "chunk_size = 9223372036854775807")], "limit at 41"),
    ([(45, 'merging_store = "snap"')], "field at 39"),
    ([(42, 'type = "thin"')], "field at 42"),
    ([(31, 'type = "thin-pool"')], "field at 31"),
    # Fields of a snapshot are read in a volume of several segments too.
    ([(38, "segment_count = 2 segment2 { }"), (43, "")], "field at 39"),
    # Names of no volume.
    ([(44, 'origin = "lv1"')], "unknown at 39"),
    ([(45, 'cow_store = "pv0"')], "unknown at 39"),
    ([(44, 'origin = ""')], "unknown at 39"),
    ([(33, 'stripes = ["lv0", 25]'), (44, 'origin = "lv1"')], "unknown at 28"),
    ([(8, "dev_size = 1"), (44, 'origin = "lv1"')], "unknown at 39"),
    # How extents lie goes first.
    ([(40, "start_extent = 1"), (44, 'origin = "snapshot0"')], "extents at 39"),
    ([(41, "extent_count = 0")], "extents at 39"),
    # What a record can't be of, or on.
    ([(41, "extent_count = 24")], "snapshot at 39"),
    ([(44, 'origin = "snapshot0"')], "snapshot at 39"),
    ([(45, 'cow_store = "snapshot0"')], "snapshot at 39"),
    ([(45, 'cow_store = "lv0"')], "snapshot at 39"),
    ([(16, "segment_count = 0")], "snapshot at 39"),
    ([(38, 'segment_count = 2 segment2 { start_extent = 25 extent_count = 1 type = "error" }')], "snapshot at 39"),
    # What the load refuses, at the snapshot's line.
    ([(43, "chunk_size = 12")], "snapshot at 39"),
    ([(43, "chunk_size = 0")], "snapshot at 39"),
    ([(43, "chunk_size = 2048")], "snapshot at 39"),
    ([(31, 'type = "zero"')], "store at 39"),
    ([(27, "segment_count = 0")], "empty at 25"),
]

# The line of a second record's segment, behind the lines of the group.
LATER = RECORD.replace("snapshot0", "snapshot1")
WRONG_GROUPS = [
    ("one store of two records", group(ORIGIN, STORE, RECORD, LATER), "snapshot at 39"),
    ("a store that a later record has as its origin",
     group(ORIGIN, STORE, RECORD, LATER.replace('"lv0"', '"snap"').replace("25", "2").replace('"snap"\n      }', '"lv1"\n      }'),
           ORIGIN.replace("lv0", "lv1").replace("0]", "30]")), "snapshot at 39"),
    ("a store that an earlier record has as its origin",
     group(ORIGIN, STORE, LATER.replace('"lv0"', '"snap"').replace("25", "2").replace('"snap"\n      }', '"lv1"\n      }'), RECORD,
           ORIGIN.replace("lv0", "lv1").replace("0]", "30]")), "snapshot at 51"),
    ("a record of a record", group(ORIGIN, STORE, RECORD, SECOND.replace('"lv0"', '"snapshot0"')), "snapshot at 62"),
    ("a record in two segments makes no store faulty",
     group(ORIGIN, STORE, RECORD, LATER.replace("count = 1\n", "count = 2 segment2 { start_extent = 25 extent_count = 1 "
                                                "type = \"zero\" }\n")), "snapshot at 51"),
    ("a second segment before the first",
     group(ORIGIN, STORE, RECORD.replace("segment_count = 1\n", """segment_count = 2
      segment2 { start_extent = 25 extent_count = 25 type = "snapshot" chunk_size = 8 origin = "lv0" cow_store = "snap" }
""")), "snapshot at 39"),
]

# Keys of the origin (line 14), the store (25) and the record, how often their letter stands there, and the refusal.
NAMES = [
    (118, 119, 200, ""),
    (119, 119, 1, "name at 14"),
    (118, 120, 1, "name at 25"),
    (119, 120, 1, "name at 14"),
]

REQUESTS = [
    ("W vg0-lv0 0 1\nR vg0-snap 0 2\n", "1 copy /dev/sda1 2048 8 /dev/sda1 206864\n1 W /dev/sda1 2048 1\n2 R /dev/sda1 206864 2\n"),
    ("W vg0-snap 8 8\nR vg0-lv0 8 8\n", "1 copy /dev/sda1 2056 8 /dev/sda1 206864\n1 W /dev/sda1 206864 8\n2 R /dev/sda1 2056 8\n"),
]
STATUS = "1 copy /dev/sda1 2048 8 /dev/sda1 206864\n1 W /dev/sda1 2048 1\nvg0-snap: 0 204800 snapshot 24/16384 16\n"
REPLAY = ("W vg0-lv0 0 4\nR vg0-snap 0 8\nR vg0-lv0 0 8\n",
          "1 wrote 1 0 4\n2 old /dev/sda1 2048 8\n3 wrote 1 0 4\n3 old /dev/sda1 2052 4\n")

# As lvm2 writes it: an origin with two snapshots, the second of which was given less room.
BACKUP = lvm_texts.styled(lvm_texts.HEAD + lvm_texts.group("data", 8192, [lvm_texts.physical("pv0", "/dev/vdb", 1048576, 2048, 127)], [
    volume("mail", striped(0, 10, ("pv0", 0))), volume("monday", striped(0, 3, ("pv0", 10))), volume("tuesday",
    striped(0, 1, ("pv0", 13)), status=READABLE), volume("snapshot0", snapshot(10, 8, "mail", "monday"), status=HIDDEN),
    volume("snapshot1", snapshot(10, 64, "mail", "tuesday"), status=HIDDEN)]))
BACKUP_TABLES = ("data-mail-real,,,rw,0 81920 linear /dev/vdb 2048;"
    "data-mail,,,rw,0 81920 snapshot-origin /dev/mapper/data-mail-real;"
    "data-monday-cow,,,rw,0 24576 linear /dev/vdb 83968;"
    "data-monday,,,rw,0 81920 snapshot /dev/mapper/data-mail-real /dev/mapper/data-monday-cow P 8;"
    "data-tuesday-cow,,,rw,0 8192 linear /dev/vdb 108544;"
    "data-tuesday,,,ro,0 81920 snapshot /dev/mapper/data-mail-real /dev/mapper/data-tuesday-cow P 64\n")
# While lvm2 merges a snapshot, its record has another field; snapshots of thin volumes have no record.
BACKUP_REFUSED = [
    ('cow_store = "monday"', 'merging_store = "monday"', "field at 63"),
    ('type = "snapshot"', 'type = "thin"', "field at 67"),
]


def test_tables(tally, program):
    for name, text, tables in TABLES:
        path = program.file("records", text)
        tally.same("tables of " + name, program.run(["table", "lvm", path]), 0, tables)
        tally.same("check of " + name, program.run(["check", "lvm", path]), 0, report(tables))
    for lines, locked, read_only in READ_ONLY:
        text = GROUP
        for number in lines:
            flags = '["WRITE_LOCKED"]' if number in locked else "[]"
            text = with_line(text, number, 'status = ["READ", "VISIBLE"] flags = ' + flags)
        got = program.run(["concise", "lvm", program.file("records", text)])
        tally.same("read-only by lines %s, locked in %s" % (lines, locked), got, 0, concise(read_only))
    for origin, store, record, words in NAMES:
        text = GROUP.replace("lv0", "o" * origin).replace("snapshot0", "r" * record)
        text = text.replace("snap {", "c" * store + " {").replace('"snap"', '"%s"' % ("c" * store))
        got = program.run(["check", "lvm", program.file("records", text)])
        name = "keys of %d, %d and %d letters" % (origin, store, record)
        if words:
            tally.same(name, got, 1, "", "dmremap: source: %s\n" % words)
        else:
            tally.same(name, got, 0, report(REAL + OVER + COW + SNAP))
    text = group(STORE, RECORD, STORE.replace("snap", "c" * 124).replace("25", "27"), ORIGIN.replace("lv0", "o" * 119))
    text = text.replace('"lv0"', '"%s"' % ("o" * 119))
    got = program.run(["check", "lvm", program.file("records", text)])
    tally.same("a name between a store and its origin", got, 1, "", "dmremap: source: name at 37\n")


def test_refused(tally, program):
    for changes, words in REFUSED:
        text = GROUP
        for number, line in changes:
            text = with_line(text, number, line)
        got = program.run(["map", "lvm", program.file("records", text)], given="R vg0-lv0 0 8\n")
        tally.same("a snapshot with %r" % (changes,), got, 1, "", "dmremap: source: %s\n" % words)
    for name, text, words in WRONG_GROUPS:
        got = program.run(["table", "lvm", program.file("records", text)])
        tally.same(name, got, 1, "", "dmremap: source: %s\n" % words)


def test_requests(tally, program):
    path = program.file("records", GROUP)
    for requests, output in REQUESTS:
        tally.same("requests %r" % requests, program.run(["map", "lvm", path], given=requests), 0, output)
    got = program.run(["map", "lvm", "--status", path], given="W vg0-lv0 0 1\n")
    tally.same("how full a store of a group is", got, 0, STATUS)
    requests, output = REPLAY
    tally.same("a replay of a group with a snapshot", program.run(["replay", "lvm", path], given=requests), 0, output)
    got = program.run(["replay", "lvm", path], given="R vg0-lv0-real 0 8\n")
    tally.same("a layer is no top device", got, 3, "", "dmremap: request 1: not top\n")
    got = program.run(["map", "lvm", path], given="R vg0-snapshot0 0 8\n")
    tally.same("a record is no device", got, 3, "", "dmremap: request 1: unknown\n")


def test_backup(tally, program):
    got = program.run(["concise", "lvm", program.file("records", BACKUP)])
    tally.same("a full backup with snapshots", got, 0, BACKUP_TABLES)
    for old, new, words in BACKUP_REFUSED:
        text = BACKUP.replace(old, new, 1)
        got = program.run(["concise", "lvm", program.file("records", text)])
        tally.same("a full backup with " + new, got, 1, "", "dmremap: source: %s\n" % words)


def report(tables):
    """What a check tells of the devices of these tables, over one disk."""
    names = [line.split(":")[0] for line in tables.splitlines()]
    return "devices %d\ndisks 1\ndepth 2\ntidy\n" % len(set(names))


def concise(read_only):
    """The four devices in the concise form, of which these are read-only."""
    lines = (REAL + OVER + COW + SNAP).splitlines()
    return ";".join(line.replace(": ", ",,,%s," % ("ro" if at in read_only else "rw"), 1)
                    for at, line in enumerate(lines)) + "\n"
