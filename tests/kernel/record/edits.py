"""Edits of the text of a group: lvm2 is asked whether it takes each of them, and some are restored and activated."""


def edits():
    """What stands in place of a pattern, once or everywhere, and whether the text is then restored."""
    return [dict(zip(("name", "pattern", "new", "everywhere"), (*it, False)), restored=it[0] in RESTORED) for it in EDITS]


WRITABLE = r'status = \["READ", "WRITE", "VISIBLE"\]'
FLAGS = WRITABLE + r"\n\s*flags = \[\]"
EXTENT_SIZE = r"(?m)^(\s*extent_size.*\n)"

EDITS = [
    ("unchanged", r"\Z", ""),
    ("no comments", r"(?m)\t*#.*$", "", True),
    ("no dev_size", r"(?m)^\s*dev_size.*\n", "", True),
    ("no device", r"(?m)^\s*device =.*\n", "", True),
    ("no pe_start", r"(?m)^\s*pe_start.*\n", ""),
    ("no pe_count", r"(?m)^\s*pe_count.*\n", ""),
    ("no contents", r"(?m)^contents.*\n", ""),
    ("no version", r"(?m)^version.*\n", ""),
    ("version 1.0", r"version = 1\n", "version = 1.0\n"),
    ("version 2", r"version = 1\n", "version = 2\n"),
    ("type linear", r'type = "striped"', 'type = "linear"'),
    ("no stripe_count", r"(?m)^\s*stripe_count.*\n", ""),
    ("no stripe_size where striped", r"(?m)^\s*stripe_size.*\n", ""),
    ("no LV status", r"(\n\t\tlin \{\n.*\n)\s*status.*\n", r"\1"),
    ("LV status one string", WRITABLE, 'status = "READ"'),
    ("LV status empty", WRITABLE, "status = []"),
    ("LV status WRITE_LOCKED", WRITABLE, 'status = ["READ", "VISIBLE", "WRITE_LOCKED"]'),
    ("LV status unknown word", WRITABLE, 'status = ["READ", "WRITE", "NEWWORD"]'),
    ("segment_count too great", r"segment_count = 1", "segment_count = 2"),
    ("segment_count 0", r"segment_count = 1", "segment_count = 0"),
    ("gap between segments", r"start_extent = 3\b", "start_extent = 4"),
    ("first segment not at 0", r"start_extent = 0", "start_extent = 1"),
    ("extent_count 0", r"extent_count = 3\b", "extent_count = 0"),
    ("stripe past pe_count", r'"pv0", 0\n', '"pv0", 4000\n'),
    ("extents used twice", r'"pv0", 3\b', '"pv0", 1'),
    ("LV flags WRITE_LOCKED", FLAGS, 'status = ["READ", "VISIBLE"]\n\t\t\tflags = ["WRITE_LOCKED"]'),
    ("LV flags unknown word", FLAGS, 'status = ["READ", "WRITE", "VISIBLE"]\n\t\t\tflags = ["NEWWORD"]'),
    ("pe_start 04000", r"pe_start = 2048", "pe_start = 04000"),
    ("string in single quotes", r'id = "([^"]*)"', r"id = '\1'"),
    ("layer of 17 sections", r"\tmax_lv", "\t" + "a {\n" * 17 + "}\n" * 17 + "\tmax_lv"),
    ("stripe names no PV", r'"pv0", 0\n', '"pv9", 0\n'),
    ("extent_count no multiple of stripes", r"extent_count = 4\b", "extent_count = 5"),
    ("pe_count past dev_size", r"dev_size = \d+", "dev_size = 4096"),
    ("no logical_volumes", r"(?s)\tlogical_volumes \{.*\n\t\}\n", ""),
    ("no physical_volumes", r"(?s)\tphysical_volumes \{.*\n\t\}\n\n\tlogical", "\tlogical"),
    ("comma before the bracket", r'"pv0", 0\n', '"pv0", 0,\n'),
    ("carriage returns", r"\n", "\r\n", True),
    ("a key twice", EXTENT_SIZE, r"\1\1"),
    ("unknown key", EXTENT_SIZE, "\\1\tnewkey = 5\n"),
    ("unknown decimal", EXTENT_SIZE, "\\1\tnewkey = 0.5\n"),
    ("unknown negative", EXTENT_SIZE, "\\1\tnewkey = -5\n"),
    ("unknown bare word", EXTENT_SIZE, "\\1\tnewkey = word\n"),
    ("extent_size 0", r"extent_size = \d+", "extent_size = 0"),
    ("extent_size 3", r"extent_size = \d+", "extent_size = 3"),
    ("two PVs of one device", r"/dev/vdc", "/dev/vdb"),
    ("segment keys in another order", r"(?s)segment1 \{\n(\s*start_extent = 0\n)(\s*extent_count[^\n]*\n)", r"segment1 {\n\2\1"),
    ("segments in another order", r"(?s)(\t\t\tsegment1 \{.*?\n\t\t\t\}\n)\n?(\t\t\tsegment2 \{.*?\n\t\t\t\}\n)", r"\2\1"),
    ("second section at the top", r"\Z", "other { a = 1 }\n"),
    ("a line of 8-bit bytes in a string", r'creation_host = "[^"]*"', 'creation_host = "h\u00f6st"'),
    ("last brace missing", r"\}\s*\Z", ""),
]

# The edits that are restored and activated, so that the tables tell how lvm2 read them.
RESTORED = {"unchanged", "LV flags WRITE_LOCKED", "LV status one string", "LV status empty", "no dev_size", "no device", "type linear",
            "pe_start 04000", "two PVs of one device", "pe_count past dev_size", "carriage returns", "comma before the bracket"}
