"""The kinds of stores, `P`, `N` and `K`: what is written through snapshots with each, how they load and print,
and what is refused, against the rules of FORMATS and MAPPING.

What is wanted was worked out by hand. Random stacks and requests with all kinds are those of `snapshots`,
`origins`, `replays` and `halts`.
"""

import replays
import snapshots


def taken(request, count, further):
    """The lines of a write of the first chunks of a snapshot, of one sector each, which are kept so much further on."""
    return "".join("%d copy base %d 1 cow %d\n%d W cow %d 1\n" % (request, it, it + further, request, it + further)
                   for it in range(count))


# What is shown, FILE as concise text, DISKS, the requests, and the output with the status of the snapshots.
WRITES = [
    # `N`: a store from its first sector on, without a header or areas.
    ("N: chunks from the store's beginning, and two places in two chunks", "s,,,,0 16 snapshot base cow N 8",
     "base 16\ncow 16\n", "W s 8 1\nW s 0 1\n",
     "1 copy base 8 8 cow 0\n1 W cow 0 1\n2 copy base 0 8 cow 8\n2 W cow 8 1\ns: 0 16 snapshot 16/16 0\n"),
    ("N: the end of the origin cuts a chunk short", "s,,,,0 20 snapshot base cow N 8", "base 20\ncow 64\n",
     "W s 18 2\nR s 14 6\n",
     "1 copy base 16 4 cow 0\n1 W cow 2 2\n2 R base 14 2\n2 R cow 0 4\ns: 0 20 snapshot 8/64 0\n"),
    ("N: no area after any number of chunks", "s,,,,0 64 snapshot base cow N 1", "base 64\ncow 64\n",
     "W s 0 40\nR s 30 12\n", taken(1, 40, 0) + "2 R cow 30 10\n2 R base 40 2\ns: 0 64 snapshot 40/64 0\n"),
    ("N: all of a store is used", "s,,,,0 64 snapshot base cow N 1", "base 64\ncow 64\n", "W s 0 64\nW s 0 64\n",
     taken(1, 64, 0) + "2 W cow 0 64\ns: 0 64 snapshot 64/64 0\n"),
    ("N: a fresh snapshot", "s,,,,0 64 snapshot base cow N 8", "base 64\ncow 64\n", "R s 0 64\n",
     "1 R base 0 64\ns: 0 64 snapshot 0/64 0\n"),
    ("N: one place", "s,,,,0 16 snapshot base cow N 8", "base 16\ncow 15\n", "W s 8 1\nR s 0 16\nW s 7 2\nR s 8 1\n",
     "1 copy base 8 8 cow 0\n1 W cow 0 1\n2 R base 0 8\n2 R cow 0 8\n3 error 2\n4 error 1\ns: 0 16 snapshot Invalid\n"),
    ("N: no place", "s,,,,0 16 snapshot base cow N 8", "base 16\ncow 7\n", "R s 0 16\nW s 0 1\nR s 0 1\n",
     "1 R base 0 16\n2 error 1\n3 error 1\ns: 0 16 snapshot Invalid\n"),
    ("N: no place, and nothing written", "s,,,,0 16 snapshot base cow N 8", "base 16\ncow 7\n", "R s 0 16\n",
     "1 R base 0 16\ns: 0 16 snapshot 0/7 0\n"),
    ("N: a request that needs one place too many", "s,,,,0 32 snapshot base cow N 8", "base 32\ncow 16\n",
     "W s 0 24\nR s 0 8\n",
     "1 copy base 0 8 cow 0\n1 W cow 0 8\n1 copy base 8 8 cow 8\n1 W cow 8 8\n1 error 8\n2 error 8\n"
     "s: 0 32 snapshot Invalid\n"),
    ("N: a striped store, and an origin of zeros",
     "c,,,,0 16 striped 2 4 sdb 0 sdc 0;z,,,,0 16 zero;s,,,,0 16 snapshot /dev/mapper/z /dev/mapper/c N 8",
     "sdb 8\nsdc 8\n", "W s 14 1\nR s 6 4\n",
     "1 fill 4 sdb 0\n1 fill 4 sdc 0\n1 W sdc 2 1\n2 zero 2\n2 R sdb 0 2\ns: 0 16 snapshot 8/16 0\n"),
    # `K`: laid out as `P`. Its own write without a place fails, and nothing else changes.
    ("K: a full store, whose chunks are written again", "s,,,,0 32 snapshot base cow K 8", "base 32\ncow 32\n",
     "W s 0 24\nR s 0 8\nW s 0 1\n",
     "1 copy base 0 8 cow 16\n1 W cow 16 8\n1 copy base 8 8 cow 24\n1 W cow 24 8\n1 error 8\n2 R cow 16 8\n"
     "3 W cow 16 1\ns: 0 32 snapshot 32/32 16\n"),
    ("K: a full store, written again through every chunk", "s,,,,0 64 snapshot base cow K 1", "base 64\ncow 34\n",
     "W s 0 64\nW s 0 64\nR s 0 64\nW s 32 1\nW s 31 2\n",
     taken(1, 32, 2) + "1 error 32\n2 W cow 2 32\n2 error 32\n3 R cow 2 32\n3 R base 32 32\n4 error 1\n5 W cow 33 1\n"
     "5 error 1\ns: 0 64 snapshot 35/34 3\n"),
    ("K: the second area is passed over", "s,,,,0 64 snapshot base cow K 1", "base 64\ncow 36\n", "W s 0 34\nR s 31 3\n",
     taken(1, 32, 2) + "1 copy base 32 1 cow 35\n1 W cow 35 1\n1 error 1\n2 R cow 33 1\n2 R cow 35 1\n2 R base 33 1\n"
     "s: 0 64 snapshot 36/36 3\n"),
    ("K: one place, and a write over both of its sides", "s,,,,0 24 snapshot base cow K 8", "base 24\ncow 24\n",
     "W s 8 1\nW s 0 24\nR s 0 24\n",
     "1 copy base 8 8 cow 16\n1 W cow 16 1\n2 error 8\n2 W cow 16 8\n2 error 8\n3 R base 0 8\n3 R cow 16 8\n"
     "3 R base 16 8\ns: 0 24 snapshot 24/24 16\n"),
    ("K: no place", "s,,,,0 16 snapshot base cow K 8", "base 16\ncow 23\n", "W s 0 16\nR s 0 16\n",
     "1 error 16\n2 R base 0 16\ns: 0 16 snapshot 16/23 16\n"),
    ("K: a store with room for its header alone", "s,,,,0 16 snapshot base cow K 8", "base 16\ncow 8\n",
     "W s 3 2\nR s 0 16\n", "1 error 2\n2 R base 0 16\ns: 0 16 snapshot 16/8 16\n"),
    # A sector of the chunk that reads as an error: no place left goes before it.
    ("K: no place left, and a bad sector", "r,,,,0 12 linear base 0,12 4 error;s,,,,0 16 snapshot /dev/mapper/r cow K 8",
     "base 12\ncow 24\n", "W s 0 1\nW s 8 1\nW s 12 1\nR s 0 16\n",
     "1 copy base 0 8 cow 16\n1 W cow 16 1\n2 error 1\n3 error 1\n4 R cow 16 8\n4 R base 8 4\n4 error 4\n"
     "s: 0 16 snapshot 24/24 16\n"),
    ("K: a place left, and a bad sector", "r,,,,0 12 linear base 0,12 4 error;s,,,,0 16 snapshot /dev/mapper/r cow K 8",
     "base 12\ncow 32\n", "W s 0 1\nW s 8 1\nR s 0 1\n",
     "1 copy base 0 8 cow 16\n1 W cow 16 1\n2 error 1\n3 error 1\ns: 0 16 snapshot Invalid\n"),
    ("N: a bad sector", "r,,,,0 12 linear base 0,12 4 error;s,,,,0 16 snapshot /dev/mapper/r cow N 8",
     "base 12\ncow 32\n", "W s 0 1\nW s 8 1\nR s 0 1\n",
     "1 copy base 0 8 cow 0\n1 W cow 0 1\n2 error 1\n3 error 1\ns: 0 16 snapshot Invalid\n"),
    ("K: read-only, and requests past the end", "s,,,ro,0 8 snapshot base cow K 8;t,,,,0 8 snapshot base cow2 K 8",
     "base 8\ncow 24\ncow2 16\n", "W s 0 1\nW t 7 2\nW t 7 1\nR t 0 8\n",
     "1 error 1\n2 error 2\n3 error 1\n4 R base 0 8\ns: 0 8 snapshot 16/24 16\nt: 0 8 snapshot 16/16 16\n"),
    # Over one another, and written through their origins.
    ("a snapshot of a full K snapshot", "s,,,,0 16 snapshot base cow K 8;t,,,,0 16 snapshot /dev/mapper/s cow2 N 8",
     "base 16\ncow 24\ncow2 16\n", "W s 0 1\nW s 8 1\nW t 8 1\nW t 0 1\nR t 0 16\nW s 0 1\n",
     "1 copy base 0 8 cow 16\n1 W cow 16 1\n2 error 1\n3 copy base 8 8 cow2 0\n3 W cow2 0 1\n4 copy cow 16 8 cow2 8\n"
     "4 W cow2 8 1\n5 R cow2 8 8\n5 R cow2 0 8\n6 W cow 16 1\ns: 0 16 snapshot 24/24 16\nt: 0 16 snapshot 16/16 0\n"),
    ("K: its origin is written and no place is left", "o,,,,0 16 snapshot-origin base;s,,,,0 16 snapshot base cow K 8",
     "base 16\ncow 24\n", "W s 0 1\nW s 8 1\nR s 0 1\nW o 8 1\nR s 0 1\n",
     "1 copy base 0 8 cow 16\n1 W cow 16 1\n2 error 1\n3 R cow 16 1\n4 W base 8 1\n5 error 1\ns: 0 16 snapshot Invalid\n"),
    ("K: its origin is written where its chunks are taken, and then on",
     "o,,,,0 16 snapshot-origin base;s,,,,0 16 snapshot base cow K 8", "base 16\ncow 24\n",
     "W o 0 8\nW o 4 1\nR s 0 16\nW s 0 16\nW o 0 16\nW s 0 1\n",
     "1 copy base 0 8 cow 16\n1 W base 0 8\n2 W base 4 1\n3 R cow 16 8\n3 R base 8 8\n4 W cow 16 8\n4 error 8\n"
     "5 W base 0 16\n6 error 1\ns: 0 16 snapshot Invalid\n"),
    ("N: its origin is written and no place is left",
     "o,,,,0 16 snapshot-origin base;s,,,,0 16 snapshot base cow N 8", "base 16\ncow 8\n", "W o 0 16\nR s 0 1\n",
     "1 copy base 0 8 cow 0\n1 W base 0 16\n2 error 1\ns: 0 16 snapshot Invalid\n"),
    ("K and N snapshots of one origin, served by one request",
     "o,,,,0 16 snapshot-origin base;s,,,,0 16 snapshot base cow K 8;t,,,,0 16 snapshot base cow2 N 4",
     "base 16\ncow 32\ncow2 16\n", "W o 2 4\nR s 0 16\nR t 0 16\nW s 8 1\nW o 8 4\nR s 0 16\nR t 0 16\n",
     "1 copy base 0 8 cow 16\n1 copy base 0 4 cow2 0\n1 W base 2 2\n1 copy base 4 4 cow2 4\n1 W base 4 2\n"
     "2 R cow 16 8\n2 R base 8 8\n3 R cow2 0 8\n3 R base 8 8\n4 copy base 8 8 cow 24\n4 W cow 24 1\n"
     "5 copy base 8 4 cow2 8\n5 W base 8 4\n6 R cow 16 16\n7 R cow2 0 12\n7 R base 12 4\n"
     "s: 0 16 snapshot 32/32 16\nt: 0 16 snapshot 12/16 0\n"),
    ("all kinds, of which one is lost on the way",
     "o,,,,0 8 snapshot-origin base;s,,,,0 8 snapshot base c P 2;t,,,,0 8 snapshot base d N 2;u,,,,0 8 snapshot base e K 2",
     "base 8\nc 12\nd 8\ne 6\n", "W o 1 4\nR s 0 8\nR t 0 8\nR u 0 1\n",
     "1 copy base 0 2 c 4\n1 copy base 0 2 d 0\n1 copy base 0 2 e 4\n1 W base 1 1\n1 copy base 2 2 c 6\n1 copy base 2 2 d 2\n"
     "1 W base 2 2\n1 copy base 4 2 c 8\n1 copy base 4 2 d 4\n1 W base 4 1\n2 R c 4 6\n2 R base 6 2\n3 R d 0 6\n3 R base 6 2\n"
     "4 error 1\ns: 0 8 snapshot 10/12 4\nt: 0 8 snapshot 6/8 0\nu: 0 8 snapshot Invalid\n"),
    ("an origin over a full K snapshot, which goes on",
     "s,,,,0 16 snapshot base cow K 8;o,,,,0 16 snapshot-origin /dev/mapper/s;t,,,,0 16 snapshot /dev/mapper/s cow2 N 8",
     "base 16\ncow 24\ncow2 16\n", "W o 0 1\nW o 8 1\nR o 0 16\nR t 0 16\n",
     "1 copy base 0 8 cow2 0\n1 copy base 0 8 cow 16\n1 W cow 16 1\n2 copy base 8 8 cow2 8\n2 error 1\n"
     "3 R cow 16 8\n3 R base 8 8\n4 R cow2 0 16\ns: 0 16 snapshot 24/24 16\nt: 0 16 snapshot 16/16 0\n"),
    # The most places that a store may have, in chunks of 32 sectors.
    ("N: all places that there can be", "s,,,,0 8 snapshot base cow N 32", "base 8\ncow 134217728\n", "W s 0 1\n",
     "1 copy base 0 8 cow 0\n1 W cow 0 1\ns: 0 8 snapshot 32/134217728 0\n"),
    ("K: all places that there can be", "s,,,,0 8 snapshot base cow K 32", "base 8\ncow %d\n" % (32 * snapshots.ALL_CHUNKS),
     "W s 0 1\n", "1 copy base 0 8 cow 64\n1 W cow 64 1\ns: 0 8 snapshot 96/%d 64\n" % (32 * snapshots.ALL_CHUNKS)),
]

# FILE as concise text, DISKS, the requests, and what a replay answers.
REPLAYED = [
    ("s,,,,0 32 snapshot base cow K 8", "base 32\ncow 32\n", "W s 0 24\nR s 0 32\nW s 4 1\nR s 0 32\n",
     "1 wrote 1 0 16\n1 error 8\n2 wrote 1 0 16\n2 old base 16 16\n3 wrote 3 4 1\n4 wrote 1 0 4\n4 wrote 3 4 1\n"
     "4 wrote 1 5 11\n4 old base 16 16\n"),
    ("s,,,,0 16 snapshot base cow N 8", "base 16\ncow 8\n", "W s 9 2\nR s 0 16\nW s 0 1\nR s 9 1\n",
     "1 wrote 1 9 2\n2 old base 0 9\n2 wrote 1 9 2\n2 old base 11 5\n3 error 1\n4 error 1\n"),
    ("o,,,,0 16 snapshot-origin base;s,,,,0 16 snapshot base cow K 8", "base 16\ncow 24\n",
     "W s 0 1\nW s 8 1\nR s 0 16\nW o 8 1\nR s 0 1\nR o 0 16\n",
     "1 wrote 1 0 1\n2 error 1\n3 wrote 1 0 1\n3 old base 1 15\n4 wrote 4 8 1\n5 error 1\n6 old base 0 8\n6 wrote 4 8 1\n"
     "6 old base 9 7\n"),
    ("o,,,,0 16 snapshot-origin base;s,,,,0 16 snapshot base cow K 8;t,,,,0 16 snapshot base cow2 N 4",
     "base 16\ncow 32\ncow2 16\n", "W o 2 4\nR s 0 16\nR t 0 16\nW t 3 1\nR t 0 8\n",
     "1 wrote 1 2 4\n2 old base 0 16\n3 old base 0 16\n4 wrote 4 3 1\n5 old base 0 3\n5 wrote 4 3 1\n5 old base 4 4\n"),
]

# A flag that is no kind of a store, and the message of its load.
NO_KINDS = ["p", "n", "k", "PO", "NO", "KO", "PP", "NP", "KP", "O", "X", "0", "-", "P,", "/dev/mapper/P"]

# Disks of all places that there can be, one more, half of them, and other stores at limits.
DISKS = ("base 8\nall 4194304\nmore 4194305\nhalf 2097152\nlong 4294968319\nlonger 4294968320\n"
         "kept 4325378\nover 4325379\nheaded 2162690\ntwo 2\nthree 3\nseven 7\n")

# FILE over these disks, and the message of a load that is refused, or nothing.
LOADS = [
    ("s: 0 8 snapshot base all N 1\n", ""),
    ("s: 0 8 snapshot base more N 1\n", "limit at 1"),
    ("s: 0 8 snapshot base long N 1024\n", ""),
    ("s: 0 8 snapshot base longer N 1024\n", "limit at 1"),
    ("s: 0 8 snapshot base kept K 1\n", ""),
    ("s: 0 8 snapshot base over K 1\n", "limit at 1"),
    # What has all places with a header has too many without one, and what has none of them has two.
    ("s: 0 8 snapshot base kept N 1\n", "limit at 1"),
    ("s: 0 8 snapshot base all N 1\nt: 0 8 snapshot base two K 1\n", ""),
    ("s: 0 8 snapshot base all N 1\nt: 0 8 snapshot base two N 1\n", "limit at 2"),
    ("s: 0 8 snapshot base all N 1\nt: 0 8 snapshot base three K 1\n", "limit at 2"),
    ("s: 0 8 snapshot base kept K 1\nt: 0 8 snapshot base seven N 8\n", ""),
    ("s: 0 8 snapshot base kept K 1\nt: 0 8 snapshot base seven N 4\n", "limit at 2"),
    # All kinds count together.
    ("s: 0 8 snapshot base half N 1\nt: 0 8 snapshot base headed K 1\n", ""),
    ("s: 0 8 snapshot base half N 1\nt: 0 8 snapshot base headed P 1\nu: 0 8 snapshot base three K 1\n", "limit at 3"),
    # A store and a chunk are the same for all kinds.
    ("s: 0 8 snapshot base all N 3\n", "snapshot at 1"),
    ("s: 0 8 snapshot base all K 2048\n", "snapshot at 1"),
    ("s: 0 9 snapshot base all N 8\n", "snapshot at 1"),
    ("z: 0 8 zero\ns: 0 8 snapshot base /dev/mapper/z N 8\n", "store at 2"),
    ("o: 0 2 snapshot-origin two\ns: 0 8 snapshot base /dev/mapper/o K 8\n", "store at 2"),
]


def test_rows(tally, program):
    for name, source, disks, requests, output in WRITES:
        tally.same(name, snapshots.run(program, source, disks, requests, "--status"), 0, output)
    for source, disks, requests, answers in REPLAYED:
        tally.same("the replay of %s" % source, replays.run(program, source, disks, requests), 0, answers)
    for table, words in LOADS:
        wanted = (1, "", "dmremap: source: %s\n" % words) if words else ()
        tally.same("the load of %r" % table, program.map(table, DISKS), *wanted)
    for flag in NO_KINDS:
        line = "0 8 snapshot base cow %s 8" % flag
        for form, source in ("table", "s: %s\n" % line), ("concise", "s,,,,%s" % line):
            got = run(program, "map", form, source)
            wanted = "syntax at 1" if form == "concise" and "," in flag else "field at 1"
            tally.same("the flag %s in %s text" % (flag, form), got, 1, "", "dmremap: source: %s\n" % wanted)


def test_texts(tally, program):
    for kind in "PNK":
        check_kind(tally, program, kind)


def check_kind(tally, program, kind):
    """A kind is read from both forms of text and printed in both, and what was printed is read back."""
    line = "0 8 snapshot base /dev/mapper/c %s 8" % kind
    table, concise = "c: 0 8 linear cow 0\ns: %s\n" % line, "c,,,rw,0 8 linear cow 0;s,,,rw,%s\n" % line
    for form, source in ("table", table), ("concise", concise):
        for command, wanted in ("table", table), ("concise", concise):
            got = run(program, command, form, source)
            tally.same("the kind %s from %s to %s text" % (kind, form, command), got, 0, wanted)


def run(program, command, form, source):
    return program.run([command, form, program.file("source", source), program.file("disks", "base 8\ncow 8\n")])
