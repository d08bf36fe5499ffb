"""Metadata of volume groups as vgcfgbackup(8) writes it, and the order in which it is checked."""

import lvm_texts
from lvm_texts import READABLE, striped, volume

HEAD = lvm_texts.styled(lvm_texts.HEAD + 'description = "vgcfgbackup"\ncreation_host = "storage"\ncreation_time = 1772533267\n')
GROUP = lvm_texts.styled(lvm_texts.group(
    "vg0", 8192, [lvm_texts.physical("pv0", "/dev/sda1", 1050624, 2048, 128, 'device_id_type = "sys_wwid"'),
                  lvm_texts.physical("pv1", "/dev/sdb1", 1050624, 2048, 128, 'tags = ["old", "to_replace"]')],
    [volume("home", striped(0, 10, ("pv0", 0)), striped(10, 20, ("pv0", 10), ("pv1", 0), size=128),
            more=['id = "J8bKcY-Gz1Q-XW3a-0kNf-p8bU-2zTq-mL5oRr"', 'allocation_policy = "contiguous"']),
     volume("archive-2025", striped(0, 1, ("pv1", 10)), status=READABLE)],
    "seqno = 7", "flags = []", "max_lv = 0", "max_pv = 0"))
# The group comes first, as lvm2 writes it when it keeps the text on a disk.
BACKUP, GROUP_FIRST = HEAD + GROUP, GROUP + HEAD

REQUESTS = "R vg0-home 0 8\nW vg0-home 81912 16\nR vg0-archive--2025 8191 2\nR vg0-archive--2025 8191 1\nW vg0-archive--2025 0 1\n"

PIECES = ("1 R /dev/sda1 2048 8\n" "2 W /dev/sda1 83960 16\n" "3 error 2\n" "4 R /dev/sdb1 92159 1\n" "5 error 1\n")

# Each text has this fault and all those of the rows after it, so the first check is the one that tells:
# what is changed, one change a line, from the last check to the first.
FAULTS = [
    ("a volume of which no name is built", "archive-2025 {", "archive-%s {" % ("2" * 127), "name at 62"),
    ("an extent that two volumes use", '"pv1", 10', '"pv1", 9', "extents at 66"),
    ("a stripe of nothing", '"pv0", 10,', '"pv9", 10,', "unknown at 52"),
    ("a number above the limit", "pe_start = 2048", "pe_start = 1125899906842625", "limit at 24"),
    ("a field of another kind", "segment_count = 1", 'segment_count = "1"', "field at 65"),
    ("a key that stands twice", "max_pv = 0", "max_lv = 1", "twice at 15"),
    ("a number of 20 digits", "seqno = 7", "seqno = 00000000000000000007", "field at 12"),
    ("sections 17 deep", "flags = []", "flags = []" + " a {" * 16 + " }" * 16, "deep at 13"),
    ("a value that is missing", "version = 1", "version =", "syntax at 5"),
    ("a byte that begins no token", "creation_time = 1772533267", "creation_time = 1772533267;", "syntax at 7"),
    ("a byte that is no UTF-8", "storage", "stor\udcffge", "text at 6"),
]


def test_backups(tally, program):
    for name, text in (("a full backup", BACKUP), ("a group before its head", GROUP_FIRST)):
        tally.same(name, program.run(["map", "lvm", program.file("backup", text)], given=REQUESTS), 0, PIECES)
    text = BACKUP
    for name, old, new, message in FAULTS:
        assert old in text, name
        text = text.replace(old, new, 1)
        path = program.file("backup", text.encode("utf-8", "surrogateescape"))
        got = program.run(["map", "lvm", path], given=REQUESTS)
        tally.same("a backup with " + name, got, 1, "", "dmremap: source: %s\n" % message)
    got = program.run(["map", "lvm", program.file("backup", BACKUP), program.file("disks")], given=REQUESTS)
    tally.same("disks for a backup", got, 2, "", "dmremap: words: disks\n")
