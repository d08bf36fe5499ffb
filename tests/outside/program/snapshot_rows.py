"""Snapshots, each from its fresh state: what is copied and filled before a write, where chunks are kept, what a
full store leaves, the status lines, and what refuses a load.

A store begins with a chunk for its header and one for the first area of numbers, so the first chunk that is
taken is kept at the store's third. The numbers can be followed by hand.
"""

# A name, FILE, DISKS, the requests and what is answered.
ROWS = [
    # A chunk is copied and then written.
    ("the end of the origin cuts a chunk short", "s: 0 20 snapshot base cow P 8\n", "base 20\ncow 64\n",
     "W s 18 2\nW s 18 2\nR s 14 6\n",
     "1 copy base 16 4 cow 16\n1 W cow 18 2\n2 W cow 18 2\n3 R base 14 2\n3 R cow 16 4\n"),
    ("a chunk that is longer than the origin", "s: 0 5 snapshot base cow P 8\n", "base 5\ncow 24\n",
     "R s 0 5\nW s 1 1\nR s 0 5\n", "1 R base 0 5\n2 copy base 0 5 cow 16\n2 W cow 17 1\n3 R cow 16 5\n"),
    ("neighbours in the store are read together, and others are not", "s: 0 32 snapshot base cow P 8\n",
     "base 32\ncow 64\n", "W s 0 1\nW s 8 1\nW s 24 1\nR s 0 32\nW s 4 8\n",
     "1 copy base 0 8 cow 16\n1 W cow 16 1\n2 copy base 8 8 cow 24\n2 W cow 24 1\n3 copy base 24 8 cow 32\n"
     "3 W cow 32 1\n4 R cow 16 16\n4 R base 16 8\n4 R cow 32 8\n5 W cow 20 8\n"),
    ("chunks that are read in the row of requests in which they are taken", "s: 0 64 snapshot base cow P 8\n",
     "base 64\ncow 96\n", "".join("W s %d 1\nR s %d 8\n" % (56 - 8 * at, 56 - 8 * at) for at in range(8)),
     "".join("%d copy base %d 8 cow %d\n%d W cow %d 1\n%d R cow %d 8\n"
             % (2 * at + 1, 56 - 8 * at, 16 + 8 * at, 2 * at + 1, 16 + 8 * at, 2 * at + 2, 16 + 8 * at)
             for at in range(8))),
    ("chunks taken against the order of the sectors", "s: 0 16 snapshot base cow P 8\n", "base 16\ncow 32\n",
     "W s 8 1\nW s 0 1\nR s 0 16\n",
     "1 copy base 8 8 cow 16\n1 W cow 16 1\n2 copy base 0 8 cow 24\n2 W cow 24 1\n3 R cow 24 8\n3 R cow 16 8\n"),
    ("chunks in a row, in a store of two lines",
     "c: 0 20 linear cow 0\nc: 20 12 linear cow 40\ns: 0 16 snapshot base /dev/mapper/c P 8\n", "base 16\ncow 64\n",
     "W s 0 16\nR s 0 16\nR s 2 12\n",
     "1 copy base 0 4 cow 16\n1 copy base 4 4 cow 40\n1 W cow 16 4\n1 W cow 40 4\n1 copy base 8 8 cow 44\n1 W cow 44 8\n"
     "2 R cow 16 4\n2 R cow 40 12\n3 R cow 18 2\n3 R cow 40 10\n"),
    ("a chunk that is kept where its origin has it", "s: 0 8 snapshot base base P 1\n", "base 8\n",
     "W s 2 1\nR s 0 8\nW s 4 1\nR s 1 6\n",
     "1 copy base 2 1 base 2\n1 W base 2 1\n2 R base 0 8\n3 copy base 4 1 base 3\n3 W base 3 1\n"
     "4 R base 1 3\n4 R base 3 1\n4 R base 5 2\n"),
    ("chunks with their low bits in common", "s: 0 96 snapshot base cow P 8\n", "base 96\ncow 48\n",
     "W s 8 1\nR s 40 8\nW s 48 1\nR s 16 8\nW s 16 1\nR s 0 96\n",
     "1 copy base 8 8 cow 16\n1 W cow 16 1\n2 R base 40 8\n3 copy base 48 8 cow 24\n3 W cow 24 1\n4 R base 16 8\n"
     "5 copy base 16 8 cow 32\n5 W cow 32 1\n6 R base 0 8\n6 R cow 16 8\n6 R cow 32 8\n6 R base 24 24\n"
     "6 R cow 24 8\n6 R base 56 40\n"),
    ("what is written to an origin below a snapshot", "s: 0 8 snapshot base cow P 4\no: 0 8 linear base 0\n",
     "base 8\ncow 32\n", "W s 0 1\nW o 0 8\nR s 0 8\n",
     "1 copy base 0 4 cow 8\n1 W cow 8 1\n2 W base 0 8\n3 R cow 8 4\n3 R base 4 4\n"),
    ("a request past the end changes nothing", "s: 0 8 snapshot base cow P 8\n", "base 8\ncow 32\n",
     "W s 7 2\nR s 0 8\nW s 0 9\nW s 7 1\n",
     "1 error 2\n2 R base 0 8\n3 error 9\n4 copy base 0 8 cow 16\n4 W cow 23 1\n"),
    ("a store on the disk of the origin", "s: 0 8 snapshot base base P 1\n", "base 8\n", "W s 0 3\nR s 0 8\n",
     "1 copy base 0 1 base 2\n1 W base 2 1\n1 copy base 1 1 base 3\n1 W base 3 1\n1 copy base 2 1 base 4\n"
     "1 W base 4 1\n2 R base 2 3\n2 R base 3 5\n"),
    ("a device on a part of a snapshot", "s: 0 16 snapshot base cow P 8\nt: 0 8 linear /dev/mapper/s 4\n",
     "base 16\ncow 32\n", "W t 2 4\nR t 0 8\nR s 0 16\n",
     "1 copy base 0 8 cow 16\n1 W cow 22 2\n1 copy base 8 8 cow 24\n1 W cow 24 2\n2 R cow 20 8\n" "3 R cow 16 16\n"),
    # Snapshots of snapshots.
    ("two snapshots of one origin", "s: 0 16 snapshot base cow P 8\nt: 0 16 snapshot base cow2 P 8\n",
     "base 16\ncow 32\ncow2 32\n", "W s 0 1\nR t 0 1\nW t 8 1\n",
     "1 copy base 0 8 cow 16\n1 W cow 16 1\n2 R base 0 1\n3 copy base 8 8 cow2 16\n3 W cow2 16 1\n"),
    ("a snapshot of a snapshot", "s: 0 16 snapshot base cow P 8\nt: 0 16 snapshot /dev/mapper/s cow2 P 8\n",
     "base 16\ncow 32\ncow2 32\n", "W s 0 2\nW t 1 1\nR t 0 16\n",
     "1 copy base 0 8 cow 16\n1 W cow 16 2\n2 copy cow 16 8 cow2 16\n2 W cow2 17 1\n3 R cow2 16 8\n" "3 R base 8 8\n"),
    ("snapshots three deep, with chunks of two sizes",
     "s: 0 16 snapshot base c P 8\nt: 0 16 snapshot /dev/mapper/s d P 8\n" "u: 0 16 snapshot /dev/mapper/t e P 4\n",
     "base 16\nc 32\nd 32\ne 32\n", "W s 0 1\nW t 8 1\nW u 2 4\nR u 0 16\nW s 3 1\nR t 0 8\n",
     "1 copy base 0 8 c 16\n1 W c 16 1\n2 copy base 8 8 d 16\n2 W d 16 1\n3 copy c 16 4 e 8\n3 W e 10 2\n"
     "3 copy c 20 4 e 12\n3 W e 12 2\n4 R e 8 8\n4 R d 16 8\n5 W c 19 1\n6 R c 16 8\n"),
    ("an invalid snapshot below another", "s: 0 16 snapshot base cow P 8\nt: 0 16 snapshot /dev/mapper/s cow2 P 8\n",
     "base 16\ncow 24\ncow2 64\n", "W t 0 1\nW s 0 16\nR t 0 16\nW t 8 1\nR t 0 1\n",
     "1 copy base 0 8 cow2 16\n1 W cow2 16 1\n2 copy base 0 8 cow 16\n2 W cow 16 8\n2 error 8\n3 R cow2 16 8\n"
     "3 error 8\n4 error 1\n5 error 1\n"),
    # Stores that fill up.
    ("a request that needs one place too many", "s: 0 32 snapshot base cow P 8\n", "base 32\ncow 32\n",
     "W s 0 24\nR s 0 8\n",
     "1 copy base 0 8 cow 16\n1 W cow 16 8\n1 copy base 8 8 cow 24\n1 W cow 24 8\n1 error 8\n2 error 8\n"),
    ("a store with room for its header alone", "s: 0 8 snapshot base cow P 8\n", "base 8\ncow 8\n",
     "R s 0 8\nW s 0 1\nR s 0 8\n", "1 R base 0 8\n2 error 1\n3 error 8\n"),
    ("a store that lacks one sector for its first chunk", "s: 0 8 snapshot base cow P 8\n", "base 8\ncow 23\n",
     "W s 0 1\nR s 0 1\n", "1 error 1\n2 error 1\n"),
    ("a large request that fills the store on its way",
     "o: 0 1048576 zero\ns: 0 1048576 snapshot /dev/mapper/o cow P 1024\n", "cow 4096\n",
     "W s 0 1048576\nR s 0 1048576\n",
     "1 fill 1024 cow 2048\n1 W cow 2048 1024\n1 fill 1024 cow 3072\n1 W cow 3072 1024\n1 error 1046528\n"
     "2 error 1048576\n"),
    # Origins and stores of many lines.
    ("an origin that fails in a part of a chunk",
     "o: 0 4 linear base 0\no: 4 4 error\ns: 0 8 snapshot /dev/mapper/o cow P 8\n", "base 4\ncow 32\n",
     "W s 0 1\nR s 0 1\n", "1 error 1\n2 error 1\n"),
    ("an origin of zeros", "o: 0 8 zero\ns: 0 8 snapshot /dev/mapper/o cow P 8\n", "cow 32\n",
     "W s 2 3\nR s 0 8\n", "1 fill 8 cow 16\n1 W cow 18 3\n2 R cow 16 8\n"),
    ("an origin of lines of three kinds",
     "o: 0 4 linear base 4\no: 4 4 zero\no: 8 8 error\ns: 0 16 snapshot /dev/mapper/o cow P 8\n",
     "base 8\ncow 32\n", "W s 1 1\nR s 0 16\nW s 8 1\nR s 0 1\n",
     "1 copy base 4 4 cow 16\n1 fill 4 cow 20\n1 W cow 17 1\n2 R cow 16 8\n2 error 8\n3 error 1\n4 error 1\n"),
    ("a striped store", "c: 0 32 striped 2 4 sdb 0 sdc 0\ns: 0 32 snapshot base /dev/mapper/c P 8\n",
     "base 32\nsdb 16\nsdc 16\n", "W s 6 4\nR s 4 6\nW s 16 1\nR s 0 1\n",
     "1 copy base 0 4 sdb 8\n1 copy base 4 4 sdc 8\n1 W sdc 10 2\n1 copy base 8 4 sdb 12\n"
     "1 copy base 12 4 sdc 12\n1 W sdb 12 2\n2 R sdc 8 4\n2 R sdb 12 2\n3 error 1\n4 error 1\n"),
    ("a store of two lines, and an origin of stripes",
     "c: 0 20 linear sdb 4\nc: 20 20 linear sdc 0\no: 0 16 striped 2 2 sdd 0 sde 0\n"
     "s: 0 16 snapshot /dev/mapper/o /dev/mapper/c P 8\n", "sdb 24\nsdc 20\nsdd 8\nsde 8\n", "W s 0 1\nR s 0 16\n",
     "1 copy sdd 0 2 sdb 20\n1 copy sde 0 2 sdb 22\n1 copy sdd 2 2 sdc 0\n1 copy sde 2 2 sdc 2\n1 W sdb 20 1\n"
     "2 R sdb 20 4\n2 R sdc 0 4\n2 R sdd 4 2\n2 R sde 4 2\n2 R sdd 6 2\n2 R sde 6 2\n"),
    # Status lines that are not asked for.
    ("a snapshot that is written, without --status", "s: 0 32 snapshot base cow P 8\n", "base 32\ncow 32\n",
     "W s 1 1\n", "1 copy base 0 8 cow 16\n1 W cow 17 1\n"),
]


def over_an_end(size):
    """Such a row: a write over the end of a chunk of this size, and a read of the same."""
    last, end = 3 * size - 1, 3 * size
    return ("a write over the end of a chunk of %d" % size, "s: 0 %d snapshot base cow P %d\n" % (4 * size, size),
            "base %d\ncow %d\n" % (4 * size, 4 * size), "W s %d 2\nR s %d 2\n" % (last, last),
            "1 copy base %d %d cow %d\n1 W cow %d 1\n1 copy base %d %d cow %d\n1 W cow %d 1\n2 R cow %d 2\n"
            % (2 * size, size, 2 * size, last, end, size, end, end, last))


def past_an_area(size):
    """Such a row: a write of so many chunks of this size that the last one is kept after the second area."""
    places = [*range(2, 2 + 32 * size), 3 + 32 * size]
    length = size * len(places)
    return ("a write past an area of chunks of %d" % size, "s: 0 %d snapshot base cow P %d\n" % (length, size),
            "base %d\ncow %d\n" % (length, length + 3 * size), "W s 0 %d\n" % length,
            "".join("1 copy base %d %d cow %d\n1 W cow %d %d\n" % (number * size, size, at * size, at * size, size)
                    for number, at in enumerate(places)))


ROWS += [over_an_end(1 << it) for it in range(11)] + [past_an_area(1 << it) for it in range(5)]

# With `--status`: a name, FILE, DISKS, the requests, the output, why the run ended early, if it did, and the status.
STATUS = [
    ("a snapshot that is written", "s: 0 32 snapshot base cow P 8\n", "base 32\ncow 32\n", "W s 1 1\n",
     "1 copy base 0 8 cow 16\n1 W cow 17 1\ns: 0 32 snapshot 24/32 16\n", "", 0),
    ("a fresh snapshot", "s: 0 64 snapshot base cow P 1\n", "base 64\ncow 64\n", "", "s: 0 64 snapshot 2/64 2\n",
     "", 0),
    ("a store with room for its header alone", "s: 0 8 snapshot base cow P 8\n", "base 8\ncow 8\n", "R s 0 8\n",
     "1 R base 0 8\ns: 0 8 snapshot 16/8 16\n", "", 0),
    ("a request that needs one place too many", "s: 0 32 snapshot base cow P 8\n", "base 32\ncow 32\n",
     "W s 0 24\nR s 0 8\n",
     "1 copy base 0 8 cow 16\n1 W cow 16 8\n1 copy base 8 8 cow 24\n1 W cow 24 8\n1 error 8\n2 error 8\n"
     "s: 0 32 snapshot Invalid\n", "", 0),
    ("an origin that fails in a part of a chunk",
     "o: 0 4 linear base 0\no: 4 4 error\ns: 0 8 snapshot /dev/mapper/o cow P 8\n", "base 4\ncow 32\n",
     "W s 0 1\nR s 0 1\n", "1 error 1\n2 error 1\ns: 0 8 snapshot Invalid\n", "", 0),
    ("the snapshots alone, in the order of the source",
     "z: 0 8 zero\nt: 0 16 snapshot base c P 8\no: 0 16 linear base 0\ns: 0 16 snapshot base d P 4\n",
     "base 16\nc 40\nd 23\n", "W s 0 5\nW o 0 1\n",
     "1 copy base 0 4 d 8\n1 W d 8 4\n1 copy base 4 4 d 12\n1 W d 12 1\n2 W base 0 1\n"
     "t: 0 16 snapshot 16/40 16\ns: 0 16 snapshot 16/23 8\n", "", 0),
    ("no snapshot", "a: 0 100 linear sda 50\n", "sda 150\n", "R a 0 100\n", "1 R sda 50 100\n", "", 0),
    ("no device", "", "", "", "", "", 0),
    # No status line follows what is no clean end.
    ("a bad line", "s: 0 32 snapshot base cow P 8\n", "base 32\ncow 32\n", "W s 1 1\nR s 0 0\n",
     "1 copy base 0 8 cow 16\n1 W cow 17 1\n", "request 2: length", 3),
    ("a device that is not there", "s: 0 32 snapshot base cow P 8\n", "base 32\ncow 32\n", "W s 1 1\nR x 0 1\n",
     "1 copy base 0 8 cow 16\n1 W cow 17 1\n", "request 2: unknown", 3),
    ("a rest without a newline", "s: 0 32 snapshot base cow P 8\n", "base 32\ncow 32\n", "W s 1 1\nR s",
     "1 copy base 0 8 cow 16\n1 W cow 17 1\n", "request 2: unended", 3),
    ("a refused load", "s: 0 32 snapshot base cow P 8\n", "base 32\n", "W s 1 1\n", "", "source: unknown at 1", 1),
]

# Stores of chunks of 1 sector with all places that a stack may have, with half of them, and each with one
# place more.
DISKS = "base 64\ncow 64\nall 4325378\nmore 4325379\nhalf 2162690\nover 2162691\none 3\nnone 2\n"

# FILE over these disks, and the message without its beginning `dmremap: `.
REFUSED = [
    # The chunk is a power of two from 1 to 1,024.
    ("s: 0 64 snapshot base cow P 0\n", "source: snapshot at 1"),
    ("s: 0 64 snapshot base cow P 3\n", "source: snapshot at 1"),
    ("s: 0 64 snapshot base cow P 1025\n", "source: snapshot at 1"),
    ("s: 0 64 snapshot base cow P 2048\n", "source: snapshot at 1"),
    ("s: 0 64 snapshot base cow P 9999999999999999999\n", "source: snapshot at 1"),
    # A snapshot is as long as its origin, and no range is asked for before that.
    ("s: 0 63 snapshot base cow P 8\n", "source: snapshot at 1"),
    ("s: 0 65 snapshot base cow P 8\n", "source: snapshot at 1"),
    ("t: 0 8 zero\ns: 0 9 snapshot /dev/mapper/t cow P 8\n", "source: snapshot at 2"),
    # It is the only line of its table; the fault is at its own line.
    ("s: 0 64 snapshot base cow P 8\ns: 64 8 error\n", "source: snapshot at 1"),
    ("s: 0 8 zero\ns: 8 64 snapshot base cow P 8\n", "source: snapshot at 2"),
    # The origin and the store are what the line names, as a column is.
    ("s: 0 64 snapshot sdz cow P 8\n", "source: unknown at 1"),
    ("s: 0 64 snapshot base sdz P 8\n", "source: unknown at 1"),
    ("s: 0 64 snapshot /dev/mapper/s cow P 8\n", "source: cycle at 1"),
    ("s: 0 64 snapshot base /dev/mapper/s P 8\n", "source: cycle at 1"),
    # Ranges take precedence over snapshots, and these over stores, over all devices.
    ("s: 0 64 snapshot base cow P 3\na: 0 65 linear base 0\n", "source: range at 2"),
    ("z: 0 64 zero\ns: 0 64 snapshot base /dev/mapper/z P 8\nt: 0 64 snapshot base cow P 3\n", "source: snapshot at 3"),
    # Stores.
    ("z: 0 64 zero\ns: 0 64 snapshot base /dev/mapper/z P 1\n", "source: store at 2"),
    ("e: 0 64 error\ns: 0 64 snapshot base /dev/mapper/e P 1\n", "source: store at 2"),
    ("s: 0 64 snapshot base cow P 1\nt: 0 64 snapshot base /dev/mapper/s P 1\n", "source: store at 2"),
    # One line of another kind is enough, and so is one further down.
    ("l: 0 60 linear cow 0\nl: 60 4 zero\ns: 0 64 snapshot base /dev/mapper/l P 1\n", "source: store at 3"),
    ("z: 0 64 zero\nl: 0 64 linear /dev/mapper/z 0\ns: 0 64 snapshot base /dev/mapper/l P 1\n", "source: store at 3"),
    ("s: 0 64 snapshot base /dev/mapper/t P 1\nt: 0 64 striped 2 8 cow 0 /dev/mapper/l 0\n"
     "l: 0 32 linear /dev/mapper/z 0\nz: 0 32 zero\n", "source: store at 1"),
    # Places of all stores together, in the order of the text; a store of two counts twice.
    ("s: 0 64 snapshot base more P 1\n", "source: limit at 1"),
    ("s: 0 64 snapshot base all P 1\nz: 0 8 zero\nt: 0 64 snapshot base one P 1\n", "source: limit at 3"),
    ("s: 0 64 snapshot base over P 1\nt: 0 64 snapshot base over P 1\n", "source: limit at 2"),
    ("s: 0 64 snapshot base more P 1\nz: 0 64 zero\nt: 0 64 snapshot base /dev/mapper/z P 1\n", "source: store at 3"),
]

# What loads over the same disks.
LOADED = ["s: 0 64 snapshot base cow P 1\n", "s: 0 64 snapshot base cow P 1024\n",
    "s: 0 64 snapshot base all P 1\nt: 0 64 snapshot base none P 1\n",
    "s: 0 64 snapshot base half P 1\nt: 0 64 snapshot base half P 1\n",
    "s: 0 64 snapshot base /dev/mapper/t P 1\nt: 0 64 striped 2 8 cow 0 /dev/mapper/l 0\n" "l: 0 32 linear cow 32\n",
    "s: 0 64 snapshot base cow P 1\nt: 0 64 snapshot /dev/mapper/s cow P 8\nz: 0 8 zero\n"
    "u: 0 8 snapshot /dev/mapper/z cow P 2\n",
]


def test_rows(tally, program):
    for name, table, disks, requests, output in ROWS:
        tally.same(name, program.map(table, disks, requests), 0, output)
    for name, table, disks, requests, output, refused, status in STATUS:
        files = [program.file("table", table), program.file("disks", disks)]
        got = program.run(["map", "table", *files, "--status"], given=requests)
        tally.same("status lines of " + name, got, status, output, "dmremap: %s\n" % refused if refused else "")
    for table, words in REFUSED:
        got = program.map(table, DISKS, "R a 0 100\n")
        tally.same("a load of snapshots, %r" % table[:60], got, 1, "", "dmremap: %s\n" % words)
    for table in LOADED:
        tally.same("a load of snapshots, %r" % table[:60], program.map(table, DISKS))
