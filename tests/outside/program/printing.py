"""The commands that print: tables in both forms, and names of volumes. No request is read."""

import os

import lvm_texts
from backups import BACKUP
from harness import FULL_OUTPUT, failing_input
from lvm_texts import BOTH, METADATA

TABLE = "a: 0 8 linear sda 0 \nb: 0 8 zero\nb: 8 16 striped 2 4 /dev/mapper/a 0 sda 8\n"
DISKS = "sda 16\n"
UNWRITTEN = "dmremap: output: write\n"

# What is printed in each form, of these tables and of the backup.
TABLES = [
    ("table", "a: 0 8 linear sda 0\nb: 0 8 zero\nb: 8 16 striped 2 4 /dev/mapper/a 0 sda 8\n"),
    ("concise", "a,,,rw,0 8 linear sda 0;b,,,rw,0 8 zero,8 16 striped 2 4 /dev/mapper/a 0 sda 8\n"),
]
GROUP = [
    ("table", "vg0-home: 0 81920 linear /dev/sda1 2048\n"
              "vg0-home: 81920 163840 striped 2 128 /dev/sda1 83968 /dev/sdb1 2048\n"
              "vg0-archive--2025: 0 8192 linear /dev/sdb1 83968\n"),
    ("concise", "vg0-home,,,rw,0 81920 linear /dev/sda1 2048,"
                "81920 163840 striped 2 128 /dev/sda1 83968 /dev/sdb1 2048;"
                "vg0-archive--2025,,,ro,0 8192 linear /dev/sdb1 83968\n"),
]

# Table text with its disks, and what both commands print of it.
TEXTS = [
    ("", "", ("", "\n")),
    ("a: 0 8 error \n", "", ("a: 0 8 error\n", "a,,,rw,0 8 error\n")),
    ("b: 0 9 zero\nb: 9 8 linear sda 1\na: 0 16 striped 2 4 /dev/mapper/b 9 sda 0\n", "sda 9\n",
     ("b: 0 9 zero\nb: 9 8 linear sda 1\na: 0 16 striped 2 4 /dev/mapper/b 9 sda 0\n",
      "b,,,rw,0 9 zero,9 8 linear sda 1;a,,,rw,0 16 striped 2 4 /dev/mapper/b 9 sda 0\n")),
    ("a: 0 8 error\n", "", ("a: 0 8 error\n", "a,,,rw,0 8 error\n")),
    ("a:1: 0 8 zero\na:1: 8 9 linear sda 7\nb: 0 17 linear /dev/mapper/a:1 0\n", "sda 16\n",
     ("a:1: 0 8 zero\na:1: 8 9 linear sda 7\nb: 0 17 linear /dev/mapper/a:1 0\n",
      "a:1,,,rw,0 8 zero,8 9 linear sda 7;b,,,rw,0 17 linear /dev/mapper/a:1 0\n")),
]

# Table text with its disks, and why both commands refuse it.
REFUSED = [
    ("a", "b", "source: syntax at 1"),
    ("a: 0 8 zero\n", "b", "disks: syntax at 1"),
    ("a: 0 8 zero\nb: 0 8 linear sda 1\n", "sda 8\n", "source: range at 2"),
]

# Concise text with its disks, and what both commands print of it.
CONCISE = [
    ("a,,,ro,0 8 linear sda 0;b,,,,0 8 linear /dev/mapper/a 0\n", "sda 8\n",
     ("a: 0 8 linear sda 0\nb: 0 8 linear /dev/mapper/a 0\n",
      "a,,,ro,0 8 linear sda 0;b,,,rw,0 8 linear /dev/mapper/a 0\n")),
    ("a,,,,0 8 zero;b,,,,0 8 zero, 8 8 error\n", "",
     ("a: 0 8 zero\nb: 0 8 zero\nb: 8 8 error\n", "a,,,rw,0 8 zero;b,,,rw,0 8 zero,8 8 error\n")),
    ("a,LVM-abc,3,rw, 0 8 zero ", "", ("a: 0 8 zero\n", "a,,,rw,0 8 zero\n")),
    ("a,,,,0 8 zero ;b,,,,0 8 error ", "", ("a: 0 8 zero\nb: 0 8 error\n", "a,,,rw,0 8 zero;b,,,rw,0 8 error\n")),
    ("a,LVM-x,3,ro,0 8 linear sda 0;b,,,,0 8 linear /dev/mapper/a 0\n", "sda 8\n",
     ("a: 0 8 linear sda 0\nb: 0 8 linear /dev/mapper/a 0\n",
      "a,,,ro,0 8 linear sda 0;b,,,rw,0 8 linear /dev/mapper/a 0\n")),
    ("a,,,,0 8 zero ;b,,,, 0 8 error ", "", ("a: 0 8 zero\nb: 0 8 error\n", "a,,,rw,0 8 zero;b,,,rw,0 8 error\n")),
    ("a,%s,,,0 8 zero" % ("u" * 128), "", ("a: 0 8 zero\n", "a,,,rw,0 8 zero\n")),
    ("", "", ("", "\n")),
    ("\n", "", ("", "\n")),
]
# What both refuse, and `map`, too. Each check alone, and each before the next; the source is told of before the disks.
BAD_CONCISE = [(text, disks, word) for word, disks, rows in [
    ("field at 1", "", ["a,,,xx,0 8 zero\n", "a,,,xx,0 8 zero", "a,,,RO,0 8 zero", "a,,01,,0 8 zero", "a,,-1,,0 8 zero",
                        "a,,,,0 8 mirror", "a,,,,0 8 zero 0", "a,,,,0 8 snapshot b c PO 8", "a,,,,0 8 snapshot b c P"]),
    ("syntax at 2", "", ["a,,,,0 8 zero;", "a,,,,0 8 zero;\n", "a,,,,0 8 zero;b,,,,\n0 8 zero"]),
    ("syntax at 1", "", ["a,,, ,0 8 zero", "a,,,,0 8 zero\n;b,,,,0 8 zero", ";", " \n", "\n\n", "a,,,,0 8 zero\n\n",
                         "a,,,", "a,,,,", "a,,,,0 8 zero,", "a,,,,0 8", "a ,,,,0 8 zero", "a, ,,,0 8 zero",
                         "a,, ,,0 8 zero", "a,,,ro ,0 8 zero", "a,,,,  0 8 zero", "a,,,,0 8 zero  ", "a,,,,0  8 zero",
                         ";" * 1048576]),
    ("name at 1", "", ["a,%s,,,0 8 zero\n" % ("u" * 129), ",,,,0 8 zero", "a!,,,,0 8 zero", "a,u!,,,0 8 zero",
                       "a,,,,0 8 linear sd\\a 0", "a,,,,0 8 zero, 8 8 linear /dev/mapper/ 0"]),
    ("text at 2", "", ["a,,,,0 8 zero;\xe9,,,,0 8 zero"]),
    ("twice at 2", "", ["a,,,,0 8 zero;a,,,,0 8 zero"]),
    ("text at 1", "", ["a,,,,0 8 \tzero"]),
    ("field at 2", "", [",,,,0 8 zero;b,,x,,0 8 zero"]),
    ("syntax at 3", "", [",,,,0 8 zero;b,,x,,0 8 zero;c,,,,08"]),
    ("text at 4", "", [",,,,0 8 zero;b,,x,,0 8 zero;c,,,,08;d\r"]),
    ("field at 1", "b", ["a,,,xx,0 8 zero\n"]),
    ("syntax at 2", "b", ["a,,,,0 8 zero;"]),
    ("name at 1", "b", ["a,%s,,,0 8 zero" % ("u" * 129)]),
    ("long", "", [";" * 1048577]),
] for text in rows]

# A group of one volume, and one of two, line by line.
ONE, TWO = METADATA.splitlines(keepends=True), BOTH.splitlines(keepends=True)

# Groups, and what `table` prints of them or tells.
GROUPS = [
    ("one volume", ONE, "vg0-lv0: 0 204800 linear /dev/sda1 2048\n", ""),
    ("two volumes", TWO, "vg0-lv0: 0 204800 linear /dev/sda1 2048\n"
                         "vg0-lv--1: 0 32768 striped 2 128 /dev/sda1 206848 /dev/sda1 223232\n", ""),
    ("an extent that two volumes use", TWO[:33] + ['stripes = ["pv0", 24, "pv0", 27]\n'] + TWO[34:], "",
     "extents at 28"),
    ("extents past the end of their disk", ONE[:7] + ["dev_size = 1050623\n"] + ONE[8:], "", "extents at 6"),
    ("a decimal", ONE[:1] + ["version = 1.0\n"] + ONE[2:], "", "syntax at 2"),
    ("a missing bracket", ONE[:25], "", "syntax at 26"),
]

# A group with a read-only volume of one extent, and what is printed of it in each form.
READ_ONLY = lvm_texts.HEAD + lvm_texts.group("vg0", 8, [lvm_texts.physical("pv0", "/dev/sda1", 24, 8, 2)], [
    lvm_texts.volume("lv-0", lvm_texts.striped(0, 1, ("pv0", 1)), status='"READ"')])
READ_ONLY_TEXTS = [("table", "vg0-lv--0: 0 8 linear /dev/sda1 16\n"),
                   ("concise", "vg0-lv--0,,,ro,0 8 linear /dev/sda1 16\n")]

PART_OF_63 = "abcdefghijklmnopqrstuvwxyzabcdefghijklmnopqrstuvwxyz01234567890"
PART_OF_64 = "abcdefghijklmnopqrstuvwxyzabcdefghijklmnopqrstuvwxyz012345678901"

# Words, and what is printed of them or told.
NAMES = [
    (["name", "a-", "b"], "a---b\n", ""),
    (["name", "vg0", "lv-1", "real"], "vg0-lv--1-real\n", ""),
    (["name", "a" * 63, "b" * 63], "a" * 63 + "-" + "b" * 63 + "\n", ""),
    (["name", "vg0", "lv-1"], "vg0-lv--1\n", ""),
    (["name", "vg", "lv", "real"], "vg-lv-real\n", ""),
    (["name", "A.b+c_d", "9--", "x-"], "A.b+c_d-9-----x--\n", ""),
    (["name", "a", "_b"], "a-_b\n", ""),
    (["splitname", "a---b"], "a- b\n", ""),
    (["splitname", "a-b--c-d"], "a b-c d\n", ""),
    (["splitname", "a-----b"], "a-- b\n", ""),
    (["splitname", "vg0-lv0"], "vg0 lv0\n", ""),
] + [(words, "", word) for word, rows in [
    ("long", [["name", "a" * 64, "b" * 63], ["name", PART_OF_64, PART_OF_63]]),
    ("hyphen", [["name", "--", "a", "-b"], ["name", "--", PART_OF_64, "-"]]),
    ("letter", [["name", "a", "b", "_c"], ["name", "--", "a/b", "-b"], ["name", "a", "b", "_tdata"],
                ["name", "a", "\u00e9"]]),
    ("empty", [["name", "a", ""], ["name", "", "b"], ["name", "", "b/"]]),
    ("split", [["splitname", "a--b"], ["splitname", "a-b-c-d"], ["splitname", "a-b-_c"], ["splitname", "--", "-a-b"],
               ["splitname", "a-"], ["splitname", "a-b/c"], ["splitname", ""]]),
] for words in rows]


def files_of(program):
    """The words for a table and its disks."""
    return ["table", program.file("printed.table", TABLE), program.file("printed.disks", DISKS)]


def test_forms(tally, program):
    backup = ["lvm", program.file("printed.backup", BACKUP)]
    for given, printed in ((files_of(program), TABLES), (backup, GROUP)):
        for form, text in printed:
            tally.same("%s of %s" % (form, given[0]), program.run([form] + given, given="bad\n"), 0, text)
    printed = program.run(["table"] + backup).out
    disks = "/dev/sda1 1050624\n/dev/sdb1 1050624\n"
    again = ["table", program.file("again", printed), program.file("disks", disks)]
    tally.same("a printed table, read again", program.run(["table"] + again), 0, printed)


def test_names(tally, program):
    for words, text, word in NAMES:
        message = "dmremap: name: %s\n" % word if word else ""
        tally.same(" ".join(words), program.run(words), 1 if word else 0, text, message)


def test_texts(tally, program):
    for text, disks, printed in TEXTS:
        files = ["table", program.file("table", text), program.file("disks", disks)]
        for form, wanted in zip(("table", "concise"), printed):
            tally.same("%s of the table %r" % (form, text[:40]), program.run([form] + files), 0, wanted)
    for text, disks, refused in REFUSED:
        files = ["table", program.file("table", text), program.file("disks", disks)]
        for form in ("table", "concise"):
            got = program.run([form] + files)
            tally.same("%s of the table %r" % (form, text[:40]), got, 1, "", "dmremap: %s\n" % refused)


def test_groups(tally, program):
    for form, text in READ_ONLY_TEXTS:
        got = program.run([form, "lvm", program.file("backup", READ_ONLY)])
        tally.same("%s of a read-only volume" % form, got, 0, text)
    for name, lines, text, refused in GROUPS:
        path = program.file("backup", "".join(lines))
        message = "dmremap: source: %s\n" % refused if refused else ""
        tally.same("table of " + name, program.run(["table", "lvm", path]), 1 if refused else 0, text, message)


def test_concise(tally, program):
    for text, disks, printed in CONCISE:
        files = ["concise", program.file("concise", text), program.file("disks", disks)]
        for form, wanted in zip(("table", "concise"), printed):
            tally.same("%s of the concise text %s" % (form, text[:40]), program.run([form] + files), 0, wanted)
    for text, disks, word in BAD_CONCISE:
        files = ["concise", program.file("concise", text), program.file("disks", disks)]
        for command in ("table", "concise", "map"):
            name = "%s of the concise text %s" % (command, text[:40])
            tally.same(name, program.run([command] + files), 1, "", "dmremap: source: %s\n" % word)
    text, disks = CONCISE[0][:2]
    for end in (text, text[:-1]):
        files = ["concise", program.file("concise", end), program.file("disks", disks)]
        got = program.run(["map"] + files, given="W b 0 8\nR b 0 8\n")
        tally.same("requests over concise text", got, 0, "1 error 8\n2 R sda 0 8\n")
        tally.same("no DISKS for concise text", program.run(["map"] + files[:2]), 2, "", "dmremap: words: disks\n")


def test_streams(tally, program):
    """Files that can't be read, and streams that fail or are closed."""
    words = ["table", *files_of(program)]
    text = TABLES[0][1]
    missing = words[:2] + [os.path.join(program.folder, "missing")] + words[3:]
    tally.same("table of a missing file", program.run(missing), 1, "", "dmremap: source: read\n")
    missing = words[:3] + [program.folder]
    tally.same("table with a folder as its disks", program.run(missing), 1, "", "dmremap: disks: read\n")
    requests = failing_input("R a")
    tally.same("table, with requests that would fail", program.run(words, stdin=requests), 0, text)
    os.close(requests)
    tally.same("table, with a closed input", program.run(words, before=lambda: os.close(0)), 0, text)
    for name, asked in (("table", words), ("name", ["name", "a", "b"]), ("splitname", ["splitname", "a-b"])):
        tally.same("a full output, " + name, program.run(asked, stdout=FULL_OUTPUT), 5, "", UNWRITTEN)
        tally.same("a closed output, " + name, program.run(asked, before=lambda: os.close(1)), 5, "", UNWRITTEN)
    empty = ["table", "table", program.file("empty"), program.file("empty")]
    tally.same("a full output, no tables", program.run(empty, stdout=FULL_OUTPUT))
