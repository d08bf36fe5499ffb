"""Runs after earlier requests, `map --before REQUESTS`: they are played and not answered, and what they left of
snapshots is what the requests of the standard input start from.

Each row was worked out by the rules of MAPPING. Streams of many requests are cut in two: what comes after the cut
has to be what the whole stream answers there.
"""

import os
import random

from harness import FULL_OUTPUT, become_nobody

SNAPSHOT = ("s: 0 32 snapshot base cow P 8\n", "base 32\ncow 64\n")
# Two snapshots of one origin, which its own device serves.
PAIR = ("o: 0 16 snapshot-origin base\ns: 0 16 snapshot base c1 P 8\nt: 0 16 snapshot base c2 P 8\n",
        "base 16\nc1 64\nc2 64\n")
# A store with room for one chunk.
SMALL = ("s: 0 32 snapshot base cow P 8\n", "base 32\ncow 24\n")
# A device over a snapshot.
BELOW = ("s: 0 32 snapshot base cow P 8\nv: 0 32 linear /dev/mapper/s 0\n", "base 32\ncow 64\n")
# The same as concise text, read-only: a write to it is an error, and takes nothing below.
READ_ONLY = "s,,,,0 32 snapshot base cow P 8;v,,,ro,0 32 linear /dev/mapper/s 0"
# Chunks of one sector, of which an area is for 32.
AREA = ("s: 0 64 snapshot base cow P 1\n", "base 64\ncow 128\n")

# FILE, DISKS, earlier requests, requests, and what is answered, with the status lines.
ROWS = [
    ("a chunk that was written", *SNAPSHOT, "W s 9 1\n", "R s 8 8\nW s 8 1\nW s 0 1\n",
     "1 R cow 16 8\n2 W cow 16 1\n3 copy base 0 8 cow 24\n3 W cow 24 1\ns: 0 32 snapshot 32/64 16\n"),
    ("no earlier requests", *SNAPSHOT, "", "R s 8 8\n", "1 R base 8 8\ns: 0 32 snapshot 16/64 16\n"),
    ("reads alone", *SNAPSHOT, "R s 0 32\nR s 8 1\n", "R s 8 8\n", "1 R base 8 8\ns: 0 32 snapshot 16/64 16\n"),
    ("no requests", *SNAPSHOT, "W s 9 1\n", "", "s: 0 32 snapshot 24/64 16\n"),
    ("two snapshots of one origin, by writes to it", *PAIR, "W o 0 1\n", "R s 0 1\nR t 0 1\nR o 0 1\nW o 1 1\n",
     "1 R c1 16 1\n2 R c2 16 1\n3 R base 0 1\n4 W base 1 1\n" "s: 0 16 snapshot 24/64 16\nt: 0 16 snapshot 24/64 16\n"),
    ("two snapshots of one origin, by a write to one", *PAIR, "W t 8 1\n", "W o 8 1\nR s 8 1\nR t 8 1\n",
     "1 copy base 8 8 c1 16\n1 W base 8 1\n2 R c1 16 1\n3 R c2 16 1\n"
     "s: 0 16 snapshot 24/64 16\nt: 0 16 snapshot 24/64 16\n"),
    ("a snapshot that is invalid", *SMALL, "W s 0 9\n", "R s 0 1\nW s 0 1\n",
     "1 error 1\n2 error 1\ns: 0 32 snapshot Invalid\n"),
    ("a snapshot below", *BELOW, "W v 9 1\n", "R v 8 1\nR s 8 1\n",
     "1 R cow 16 1\n2 R cow 16 1\ns: 0 32 snapshot 24/64 16\n"),
    ("places past the first area", *AREA, "W s 0 33\n", "R s 30 3\nW s 40 1\n",
     "1 R cow 32 2\n1 R cow 35 1\n2 copy base 40 1 cow 36\n2 W cow 36 1\ns: 0 64 snapshot 37/128 3\n"),
    ("more than a buffer", *SNAPSHOT, "R s 0 8\n" * 20000 + "W s 9 1\n", "R s 8 1\n",
     "1 R cow 16 1\ns: 0 32 snapshot 24/64 16\n"),
]

# Earlier requests of SNAPSHOT that are refused, and why.
REFUSED = [
    ("W s 9\n", "form at 1"),
    ("\n", "form at 1"),
    ("W s 9 1\nX s 9 1\n", "form at 2"),
    ("W s 9 1\r\n", "number at 1"),
    ("W s nine 1\n", "number at 1"),
    ("W s 9 0\n", "length at 1"),
    ("W s 9 1048577\n", "length at 1"),
    ("W t 9 1\n", "unknown at 1"),
    ("W base 9 1\n", "unknown at 1"),
    ("W s 9 1", "unended at 1"),
    ("W s 9 1\nW", "unended at 2"),
    ("W s 9 1\n" * 20000 + "W s 9 1 ", "unended at 20001"),
    ("W s %s9 1\n" % ("0" * 4096), "long at 1"),
    ("W s 9 1\n" + "W" * 5000, "long at 2"),
    ("W s 9 0\nW s nine 1\n", "length at 1"),
]

# Words that are refused, and a part of what is told.
WRONG = [
    ("map table a b --before", "a value is required for '--before <REQUESTS>'"),
    ("map table a b --before c --before d", "cannot be used multiple times"),
    ("--before c map table a b", "unexpected argument '--before' found"),
    ("--before c replay table a b", "unexpected argument '--before' found"),
    ("replay table a b --before c", "unexpected argument '--before'"),
    ("check table a b --before=c", "unexpected argument '--before'"),
    ("map table a b --before -", "unexpected argument '-' found"),
    ("map table a b -- --before c", "unexpected argument"),
    ("map table a b --befor c", "unexpected argument '--befor'"),
]


def test_rows(tally, program):
    for name, table, disks, earlier, requests, output in ROWS:
        tally.same("after %s" % name, mapped(program, table, disks, earlier, requests, "--status"), 0, output)
    for earlier, word in REFUSED:
        got = mapped(program, *SNAPSHOT, earlier, "R s 8 1\n")
        tally.same("earlier requests, %s" % word, got, 1, "", "dmremap: before: %s\n" % word)


def test_read_only(tally, program):
    """A read-only device over a snapshot: what was written below shows, and what was written to it does not."""
    words = ["map", "concise", program.file("concise", READ_ONLY), program.file("disks", SNAPSHOT[1]), "--status", "--before"]
    for name, earlier, output in [
            ("a write below a read-only device", "W s 9 1\n", "1 R cow 16 1\n2 error 1\ns: 0 32 snapshot 24/64 16\n"),
            ("a write to a read-only device", "W v 9 1\n", "1 R base 8 1\n2 error 1\ns: 0 32 snapshot 16/64 16\n")]:
        got = program.run([*words, program.file("earlier", earlier)], given="R v 8 1\nW v 8 1\n")
        tally.same("after " + name, got, 0, output)


def mapped(program, table, disks, earlier, requests, *more):
    words = ["map", "table", program.file("table", table), program.file("disks", disks)]
    return program.run(words + ["--before", program.file("earlier", earlier), *more], given=requests)


def test_words(tally, program):
    for line, told in WRONG:
        tally.tells("the words %r" % line, program.run(line.split()), 2, "", told)
    table, disks, earlier = (program.file(it, text) for it, text in
                             (("table", SNAPSHOT[0]), ("disks", SNAPSHOT[1]), ("earlier", "W s 9 1\n")))
    for words in (["map", "table", table, disks, "--before", earlier], ["map", "--before=" + earlier, "table", table, disks]):
        tally.same("the words %s" % words, program.run(words, given="R s 8 1\n"), 0, "1 R cow 16 1\n")


def test_files(tally, program):
    """What can't be opened or read, and which fault is told; no request is read then."""
    table, disks = program.file("table", SNAPSHOT[0]), program.file("disks", SNAPSHOT[1])
    start = ["map", "table", table, disks, "--before"]
    refused = (1, "", "dmremap: before: read\n")
    tally.same("no such file of earlier requests", program.run(start + ["missing"], given="R s 8 1\n"), *refused)
    tally.same("earlier requests with no name", program.run(start + [""], given="R s 8 1\n"), *refused)
    tally.same("a folder of earlier requests", program.run(start + [program.folder], given="R s 8 1\n"), *refused)
    secret = program.file("secret", "W s 9 1\n")
    os.chmod(secret, 0)
    tally.same("earlier requests that may not be read", program.run(start + [secret], before=become_nobody), *refused)
    missing = ["map", "table", program.file("none", "s: 0 0 zero\n"), disks, "--before", "missing"]
    tally.same("FILE is refused first", program.run(missing), 1, "", "dmremap: source: empty at 1\n")
    tally.same("DISKS is refused first", program.run(["map", "table", table, "missing", "--before", "missing"]), 1, "",
               "dmremap: disks: read\n")
    # What the standard input holds is left to whoever reads it next.
    path = program.file("requests", "R s 8 1\n")
    with open(path, "rb") as requests:
        tally.same("requests after a refusal", program.run(start + ["missing"], stdin=requests), *refused)
        tally.holds("no request is read after a refusal", os.lseek(requests.fileno(), 0, os.SEEK_CUR) == 0, "some were")
    tally.same("a full output after a refusal", program.run(start + ["missing"], stdout=FULL_OUTPUT), *refused)


def test_cuts(tally, program):
    """Requests that are made from a fixed seed, cut in two at several places."""
    chance = random.Random(62)
    table, disks = PAIR[0].replace("16 ", "96 "), "base 96\nc1 160\nc2 80\n"
    requests = ["%s %s %d %d\n" % (chance.choice("RWW"), chance.choice("ost"), chance.randrange(96), chance.randrange(1, 9))
                for _ in range(60)]
    whole = program.run(["map", "table", program.file("table", table), program.file("disks", disks), "--status"],
                        given="".join(requests)).out.decode().splitlines()
    for cut in (0, 1, 7, 20, 40, 59, 60):
        got = mapped(program, table, disks, "".join(requests[:cut]), "".join(requests[cut:]), "--status")
        wanted = [it for it in (renumbered(line, cut) for line in whole) if it]
        tally.same("requests that are cut after %d" % cut, got, 0, "".join(it + "\n" for it in wanted))


def renumbered(line, cut):
    """An answer by its number after a cut; one of a request before it has none. A status line stays."""
    number, _, rest = line.partition(" ")
    if not number.isdigit():
        return line
    return "%d %s" % (int(number) - cut, rest) if int(number) > cut else None
