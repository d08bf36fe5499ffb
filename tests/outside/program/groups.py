"""Metadata of volume groups: what volumes map to, and each word of a refusal. A row changes a line."""

from lvm_texts import BOTH, METADATA


def with_line(text, number, line):
    """A text with another line in place of the one of this number, counted from 1; 0 is no line."""
    lines = text.split("\n")
    return "\n".join([line if it == number else old for it, old in enumerate(lines, 1)])


READ, WRITE = "R vg0-lv0 0 8\n", "W vg0-lv0 0 8\n"
ON_DEVICE, ON_KEY = "1 R /dev/sda1 2048 8\n", "1 R pv0 2048 8\n"
WRITTEN = "1 W /dev/sda1 2048 8\n"

# A line of the group of two volumes, what it is changed to, the requests and their answers.
MAPPED = [
    (0, "", "W vg0-lv--1 0 8\n", "1 error 8\n"),
    (0, "", "R vg0-lv--1 120 16\n", "1 R /dev/sda1 206968 8\n1 R /dev/sda1 223232 8\n"),
    (0, "", "R vg0-lv0 204799 1\nR vg0-lv0 204800 1\n", "1 R /dev/sda1 206847 1\n2 error 1\n"),
    (15, 'status = ["READ", "WRITE_LOCKED", "VISIBLE"]', WRITE, WRITTEN),
    (15, "status = []", WRITE, "1 error 8\n"),
    (15, 'flags = ["WRITE_LOCKED"] status = ["READ", "VISIBLE"]', WRITE, WRITTEN),
    (15, 'status = ["READ", "VISIBLE"] flags = ["WRITE_LOCKED"]', WRITE, WRITTEN),
    (15, 'status = ["READ", "WRITE", "VISIBLE"] flags = []', WRITE, WRITTEN),
    (15, 'status = [] flags = [1, "PARTIAL", "WRITE_LOCKED", 2]', WRITE, WRITTEN),
    (15, 'status = ["READ", "VISIBLE"]', WRITE, "1 error 8\n"),
    (15, 'status = ["READ", "VISIBLE"] flags = []', WRITE, "1 error 8\n"),
    (15, 'status = ["READ", "VISIBLE"] flags = ["WRITE"]', WRITE, "1 error 8\n"),
    (15, 'status = ["READ", "VISIBLE"] flags = "WRITE_LOCKED"', WRITE, "1 error 8\n"),
    (15, 'status = ["READ", "VISIBLE"] flags = 1', WRITE, "1 error 8\n"),
    (15, 'status = ["READ", "VISIBLE"] flags { WRITE_LOCKED = 1 }', WRITE, "1 error 8\n"),
    (15, 'status = ["READ", "VISIBLE"] flags = ["WRITE_LOCKED"]', READ, ON_DEVICE),
    (20, 'type = "zero"', WRITE, "1 drop 8\n"),
    (20, 'type = "error"', READ, "1 error 8\n"),
    (21, 'stripe_count = 1 stripe_size = "x"', READ, ON_DEVICE),
    (22, 'stripes = ["pv0", 103]', READ, "1 R /dev/sda1 845824 8\n"),
    (7, 'device = "/dev/mapper/x"', READ, ON_KEY),
    (7, 'device = "sda1"', READ, ON_KEY),
    (7, 'device = "/dev/sd a"', READ, ON_KEY),
    (7, 'device = "/dev/sd\\\\a"', READ, ON_KEY),
    (7, 'device = "/dev/sd\u00e9"', READ, ON_KEY),
    (11, '} pv1 { device = "/dev/sda1" dev_size = 8 pe_start = 0 pe_count = 0 }', READ, ON_KEY),
    (11, '} pv1 { device = "/dev/sdb" dev_size = 8 pe_start = 0 pe_count = 0 }', READ, ON_DEVICE),
    (2, "version = 01 # \u00e9", READ, ON_DEVICE),
]

# A line of the group of one volume, what it is changed to, and the refusal.
REFUSED = [(number, line, words) for number, rows in [
    (1, [("", "field at 1"), ('contents = "Text Format"', "field at 1")]),
    (2, [("version = 1.0", "syntax at 2"), ("", "field at 1"), ("version = 2", "field at 2"),
         ('version = "1"', "field at 2"), ("version = 1 ?", "syntax at 2")]),
    (4, [("extent_size = 1125899906842624", "limit at 10"), ("", "field at 3"), ("extent_size = 0", "field at 4"),
         ("x{x{x{x{x{x{x{x{x{x{x{x{x{x{x{x{}}}}}}}}}}}}}}}}", "deep at 4"),
         ("extent_size = 1125899906842625", "limit at 4")]),
    (5, [("physical_volume {", "field at 3")]),
    (7, [('device = "/dev/sda1', "syntax at 7"), ("", "field at 6"), ("device = 1", "field at 7")]),
    (8, [("dev_size = 1125899906842625", "limit at 8"), ("dev_size = 1050623", "extents at 6"), ("", "field at 6")]),
    (9, [("pe_start = 00000000000000002048", "field at 9"), ('pe_start = "0"', "field at 9"),
         ("pe_start = 9223372036854775807", "limit at 9")]),
    (10, [("", "field at 6"), ("pe_count = 137438953473", "limit at 10"),
          ("pe_count = 9223372036854775807", "limit at 10")]),
    (11, [("} %s { device = \"x\" dev_size = 8 pe_start = 0 pe_count = 0 }" % ("a" * 256), "name at 11"),
          ('} pv1 { device = "" dev_size = 0 pe_start = 0 pe_count = 0 }', "empty at 11")]),
    (13, [("spare { } spare {", "twice at 13")]),
    (14, [("-lv {", "syntax at 14"), ("a" * 124 + " {", "name at 14")]),
    (15, [('status = "WRITE"', "field at 15"), ("", "field at 14"), ('status = ["WRITE", 1]', "field at 15")]),
    (16, [("segment_count = 2", "field at 14"), ("segment_count = 0", "empty at 14"), ("", "field at 14"),
          ("segment_count = 9223372036854775807", "field at 14")]),
    (18, [("start_extent = 1", "extents at 17"), ("", "field at 17"),
          ("start_extent = 12345678901234567890", "field at 18"),
          ("start_extent = 9223372036854775807", "limit at 18")]),
    (19, [('extent_count = 25 type = "zero"', "twice at 20"), ('extent_count = "25"', "field at 19"),
          ("extent_count = 137438953473", "limit at 19"), ("extent_count = 0", "extents at 17")]),
    (20, [('type = "mirror"', "field at 20"), ("", "field at 17"), ('type = "snapshot"', "field at 17")]),
    (21, [("", "field at 17"), ("stripe_count = 0", "field at 21"), ("stripe_count = 2", "field at 22"),
          ("stripe_count = 4611686018427387905", "field at 22"), ("stripes = 1", "twice at 22")]),
    (22, [('stripes = ["pv1", 0]', "unknown at 17"), ('stripes = ["pv0", 104]', "extents at 17"), ("", "field at 17"),
          ('stripes = ["pv0"]', "field at 22"), ('stripes = [0, "pv0"]', "field at 22"),
          ('stripes = ["pv0", 0, "pv0", 9]', "field at 22"), ('stripes = ["pv0", 1125899906842625]', "limit at 22")]),
    (26, [("", "syntax at 27"), ("} vg1 { }", "field at 26")]),
] for line, words in rows]

# Two lines that are changed: each check goes over the whole text before the next one begins.
TWO_FAULTS = [
    (4, "extent_size = 1125899906842625", 20, "type = 1", "field at 20"),
    (8, "dev_size = 1", 18, "start_extent = 1125899906842625", "limit at 18"),
    (17, 'segment2 { start_extent = 0 extent_count = 1 type = "striped" stripe_count = 1 stripes = ["pv8", 0] }\n'
     " segment1 {", 16, "segment_count = 2", "unknown at 17"),
    (8, "dev_size = 1", 22, 'stripes = ["pv1", 0]', "unknown at 17"),
    (14, "lv0" + "_" * 129 + " {", 18, "start_extent = 1", "extents at 17"),
]

# Beside a disk without a path of its own: the letters that a line begins with, their number, and the refusal.
LONG_NAMES = [(6, 256, "name at 6"), (14, 124, "name at 14")]

EMPTY = with_line(METADATA, 13, "spare {")
MANY_KEYS = "".join("k%d = %d\n" % (it, it) for it in range(30000))

# Whole texts, and the message and the status of a request to a volume that there is not.
WHOLE = [
    ("", "source: field at 1", 1),
    ("a = [1, ]", "source: syntax at 1", 1),
    ("a = -1", "source: syntax at 1", 1),
    ("a {\n", "source: syntax at 2", 1),
    ("a = = 1\nb = ?", "source: syntax at 2", 1),
    ("a = 1\na { }", "source: twice at 2", 1),
    ("a = 9223372036854775808", "source: field at 1", 1),
    (b"?\n# \xff", "source: text at 2", 1),
    (b"# \xc3\xa9 \xc3\n", "source: text at 1", 1),
    (b"a = 1\nb = \"\xed\xa0\x80\"\n", "source: text at 2", 1),
    (b"a = 1\nb = \"\xc0\xaf\"\n", "source: text at 2", 1),
    ("a {\n" * 17 + "}" * 17, "source: deep at 17", 1),
    ("a {\n" * 16 + "}" * 16, "source: field at 1", 1),
    ("a{\n" * 300000, "source: syntax at 300001", 1),
    ("a{\n" * 17 + "a{" * 299983 + "}" * 300000, "source: deep at 17", 1),
    (MANY_KEYS, "source: field at 1", 1),
    (MANY_KEYS + "k29999 = 0", "source: twice at 30001", 1),
    (with_line(BOTH, 34, 'stripes = ["pv0", 24, "pv0", 27]'), "source: extents at 28", 1),
    (with_line(BOTH, 34, 'stripes = ["pv0", 27, "pv0", 26]'), "source: extents at 28", 1),
    (METADATA, "request 1: unknown", 3),
    (EMPTY, "request 1: unknown", 3),
    (with_line(EMPTY, 3, "a" * 128 + " {"), "request 1: unknown", 3),
]


def test_rows(tally, program):
    for number, line, requests, output in MAPPED:
        path = program.file("group", with_line(BOTH, number, line))
        tally.same("a group with %r" % line, program.run(["map", "lvm", path], given=requests), 0, output)
    for number, line, words in REFUSED:
        path = program.file("group", with_line(METADATA, number, line))
        got = program.run(["map", "lvm", path], given=READ)
        tally.same("a group with %r" % line[:60], got, 1, "", "dmremap: source: %s\n" % words)
    for first, line, second, other, words in TWO_FAULTS:
        path = program.file("group", with_line(with_line(METADATA, first, line), second, other))
        got = program.run(["map", "lvm", path], given=READ)
        tally.same("a group with %r and %r" % (line[:40], other[:40]), got, 1, "", "dmremap: source: %s\n" % words)
    for number, letters, words in LONG_NAMES:
        text = with_line(with_line(METADATA, 7, 'device = "x"'), number, "k" * letters + " {")
        got = program.run(["map", "lvm", program.file("group", text)], given=READ)
        tally.same("a group with %d letters at %d" % (letters, number), got, 1, "", "dmremap: source: %s\n" % words)
    for text, words, status in WHOLE:
        got = program.run(["map", "lvm", program.file("group", text)], given="R lv0 0 8\n")
        tally.same("the metadata %r" % text[:40], got, status, "", "dmremap: %s\n" % words)
