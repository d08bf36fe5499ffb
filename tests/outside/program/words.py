"""The command line: help goes to the standard output, refused words to the standard error."""

import os

from harness import FULL_OUTPUT

VERSION = "0.1.0"

VOLUME = "vol: 0 100 linear sda 50\n"
DISKS = "sda 150\n"

# Words that are refused whatever formats and commands there are.
REFUSED = [*map(str.split, ["map", "map table", "nonsense", "table", "concise nonsense TABLE DISKS", "name vg0",
    "name vg0 lv0 real more", "name vg0 -lv0", "splitname", "splitname a-b c-d", "--status name vg0 lv0",
    "name vg0 lv0 --status", "splitname --status a-b", "table table TABLE DISKS --status",
    "concise --status table TABLE DISKS", "--status", "--status table table TABLE DISKS",
    "--status map table TABLE DISKS", "--before TABLE map table TABLE DISKS", "--before=TABLE map table TABLE DISKS",
    "--paths TABLE map table TABLE DISKS", "help nonsense", "help map field", "help Field", "help field field",
    "help -", "map table TABLE DISKS --status --status", "map --status table TABLE DISKS --status",
    "map table -- TABLE DISKS --status", "map table TABLE DISKS --status=yes", "map table TABLE DISKS --stat",
    "map nonsense TABLE DISKS", "map lvm", "map LVM TABLE", "map table TABLE DISKS more",
    "map table TABLE DISKS --nonsense", "map table - DISKS", "-V", "--version=1", "version",
    "map table TABLE DISKS --version", "table --version table TABLE DISKS",
    "MAP table TABLE DISKS"]), [], [b"map", b"table", b"\xff", b"DISKS"]]

# Words that are refused, as one line, and a part of what is told.
TOLD = [(line, told) for told, rows in [
    ("<LV>", ["name vg0"]),
    ("unexpected argument '-b'", ["name a -b"]),
    ("unexpected argument 'c'", ["splitname a-b c", "map table a b c"]),
    ("unexpected argument '--status'", ["table lvm a --status", "map lvm a -- b --status", "splitname a-b --status",
                                "--status map table a b", "--status table lvm a"]),
    ("a similar subcommand exists: 'table'", ["tabel lvm a"]),
    ("a similar value exists: 'table'", ["concise tabel a b"]), ("a similar value exists: 'lvm'", ["table lvn a"]),
    ("Usage: dmremap <COMMAND>", [""]),
    ("<FORMAT> <FILE>", ["map"]),
    ("invalid value 'lvm2' for '<FORMAT>'", ["map lvm2 a"]),
    ("unexpected argument '--paths'", ["table images a --paths b", "--paths=c map table a b"]),
    ("invalid value 'lvm' for '<FORMAT>'", ["metadata lvm a"]),
    ("unexpected argument 'b'", ["metadata images a b"]),
    ("unrecognized subcommand 'explain'", ["explain table a b"]),
    ("'--status' cannot be used multiple times", ["map table a b --status --status"]),
    ("unexpected value 'yes' for '--status'", ["map table a b --status=yes"]),
    ("unexpected argument '--before'", ["--before c map table a b"]),
    ("unrecognized subcommand 'nonsense'\n\nWords of messages that help knows:\n  again, array,", ["help nonsense"]),
    ("unexpected argument '-x'", ["map -x table a b"]),
    ("error: unexpected argument '-' found", ["map table - d", "map table f -"]),
    ("unexpected argument '--version'", ["map --version"]),
] for line in rows]

# Words that ask for help, and a part of it.
HELPED = [(line, told) for line, rows in [
    ("--help", ["Usage: dmremap <COMMAND>", "  splitname  Prints"]),
    ("-h", ["Usage: dmremap <COMMAND>", "  concise    Checks", "      --version  Print the version\n"]),
    ("help", ["Usage: dmremap <COMMAND>", "  7  a sector of a device could not be read\n\nManual: man dmremap\n"]),
    ("help map", ["map [OPTIONS] <FORMAT> <FILE> [DISKS]", "FORMAT is one of\n  lvm      the"]),
    ("map --help", ["map [OPTIONS] <FORMAT> <FILE> [DISKS]", "      --status",
                    "      --before <REQUESTS>  First play these requests"]),
    ("table -h", ["table <FORMAT> <FILE> [DISKS]", "dmremap table lvm"]),
    ("concise -h", ["concise <FORMAT> <FILE> [DISKS]", "dmremap concise lvm"]),
    ("check -h", ["check <FORMAT> <FILE> [DISKS]", "clash LOWER SECTOR FIRST SECOND"]),
    ("replay -h", ["replay [OPTIONS] <FORMAT> <FILE> [DISKS]", "      --paths <PATHS>", "dmremap replay table"]),
    ("read -h", ["read [OPTIONS] <FORMAT> <FILE> [DISKS] <DEVICE>\n", "      --from <SECTOR>", "      --count <SECTORS>", "dmremap read images"]),
    ("metadata -h", ["metadata <FORMAT> <PATHS>", "dmremap metadata images"]),
    ("name -h", ["name <VG> <LV> [LAYER]", "dmremap name vg0 lv-1"]),
    ("splitname -h", ["splitname <NAME>", "dmremap splitname vg0-lv--1"]),
] for told in rows]

# Words that ask for the version: before a command, as for help, and whatever comes after.
VERSIONED = [["--version"], ["--version", "map"], ["--version", "--help"]]

# DISKS goes with tables alone.
DISKLESS = ["map table a.table", "map lvm vg0.backup a.disks", "table table a.table", "map concise a.concise", "map --status table a.table",
            "concise lvm vg0.backup a.disks", "map images a.paths a.disks", "map images a.paths --paths b.paths",
            "check images a.paths a.disks"]

# Words that ask for status lines, of a stack without a snapshot.
STATUS = [["map", "table", "TABLE", "DISKS", "--status"],
    ["map", "--status", "table", "TABLE", "DISKS"],
    ["map", "table", "--status", "TABLE", "--", "DISKS"],
]


def test_words(tally, program):
    paths = {"TABLE": program.file("table", VOLUME), "DISKS": program.file("disks", DISKS)}
    real = lambda words: [paths.get(it, it) for it in words]
    for words in REFUSED:
        got = program.run(real(words), given="R vol 0 1\n")
        is_refused = got.status == 2 and got.out == b"" and got.err.endswith(b"\n")
        tally.holds("words %s" % words, is_refused, "status %s, on standard output %r, on standard error %r"
                    % (got.status, got.out, got.err))
    tally.same("no DISKS", program.run(real(["map", "table", "TABLE"])), 2, "", "dmremap: words: disks\n")
    tally.same("DISKS beside metadata", program.run(real(["map", "lvm", "TABLE", "DISKS"])), 2, "", "dmremap: words: disks\n")
    for words in STATUS:
        tally.same("words %s" % words, program.run(real(words), given="R vol 0 1\n"), 0, "1 R sda 50 1\n")
    tally.same("words after --", program.run(real(["map", "table", "--", "TABLE", "DISKS"]), given="R vol 0 1\n"),
               0, "1 R sda 50 1\n")


def test_told(tally, program):
    for line, told in TOLD:
        tally.tells("the words %r" % line, program.run(line.split()), 2, "", told)
    for line, told in HELPED:
        got = program.run(line.split())
        is_told = got.status == 0 and told.encode() in got.out and b"Exit status\n  0  " in got.out and got.err == b""
        tally.holds("the help by %r" % line, is_told, "status %s, on standard output %r" % (got.status, got.out))
    for words in VERSIONED:
        tally.same("the version by %s" % words, program.run(words), 0, "dmremap %s\n" % VERSION)
    for line in DISKLESS:
        tally.same("the words %r" % line, program.run(line.split()), 2, "", "dmremap: words: disks\n")
    got = program.run([b"map", b"table", b"\xff", b"DISKS"])
    is_told = got.status == 2 and got.err.startswith(b"error: invalid UTF-8 was detected in one or more arguments")
    tally.holds("words that are no text", is_told, "status %s, on standard error %r" % (got.status, got.err))


def test_unprinted(tally, program):
    """Help and the version on an output that takes nothing, and words that are refused on such a standard error."""
    for words in VERSIONED + [line.split() for line in dict(HELPED)]:
        name = "an output that is %%s, by %s" % words
        tally.same(name % "full", program.run(words, stdout=FULL_OUTPUT), 5, "", "dmremap: output: write\n")
        tally.same(name % "closed", program.run(words, before=lambda: os.close(1)), 5, "", "dmremap: output: write\n")
    for words in ([], ["map"], ["map", "table", "missing"]):
        tally.same("a full standard error, by %s" % words, program.run(words, stderr=FULL_OUTPUT), 2)
