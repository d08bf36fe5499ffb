"""Requests: the line that ends a run, with the answers before it whole.

The questions about a line are asked in a fixed order, so a line with several mistakes shows which comes first.
"""

TABLE = "a: 0 100 linear sda 50\n"
DISKS = "sda 150\n"
FIRST = "R a 0 1\n"
ANSWER = "1 R sda 50 1\n"

# What comes first or after FIRST, and the word of the message.
BAD = [(bad, word) for word, rows in [
    ("unended", ["R a 1 1", "R a 0 1", "x", "R" * 4096]),
    ("form", ["\n", "R a 0\n", "r a 0 1\n", "R a 0 1 \n", "R  a 0 1\n", "R a! 0 1\n", "R\ta\t0\t1\n", " R a 0 1\n",
              "R a 0 1 1\n", "RW a 0 1\n", "R\ta 0 1\n", "R /dev/mapper/a 0 1\n", "X a x 0\n", "R a, x 0\n",
              "R %s 0 1\n" % ("a" * 128), "R" * 4096 + "\n", b"\xff\xfe\n"]),
    ("number", ["R a 01 1\n", "R a 0 1\r\n", "R a 00000001 1\n", "R a 012345678 1\n", "R a 1234567x 1\n",
                "R a /1234567 1\n", "R a 1234567: 1\n", "R a 123456789x 1\n", "R a 123456789012345678x 1\n",
                "R a 12345678901234567890 1\n", "R a 10000000000000000000 1\n", "R a -1 1\n",
                "R a 0 10000000000000000000\n", "R a x 0\n", "R b x 0\n", "R a 0 1" + "0" * 4089 + "\n"]),
    ("length", ["R a 0 0\n", "W a 0 1048577\n", "R a 0 9999999999999999999\n", "R a 0 1048577\n", "R b 0 0\n",
                "R b 0 1048577\n"]),
    ("unknown", ["R b 0 1\n", "R %s 0 1\n" % ("a" * 127), "R sda 0 1\n"]),
    ("long", ["R" * 4097 + "\n", "R" * 4097, "\0" * 100000]),
] for bad in rows]

# A device of many lines, whose requests are read up to 16 at a time before the first of them is answered.
LINES = 9
MANY = "".join("a: %d 8 linear sda %d\n" % (8 * at, 16 * at) for at in range(LINES))

# What stands in a row of requests, and the word of the message.
BAD_IN_A_ROW = [
    ("r a 0 1\n", "form"),
    ("R a 01 1\n", "number"),
    ("R a 0 0\n", "length"),
    ("R b 0 1\n", "unknown"),
    ("R" * 4097 + "\n", "long"),
]

GOOD = [
    ("", ""),
    ("R a 99 2\nR a 99 1\n", "1 error 2\n2 R sda 149 1\n"),
    ("R a 9999999999999999999 1048576\n", "1 error 1048576\n"),
    ("W a 0 100\nR a 0 100\n", "1 W sda 50 100\n2 R sda 50 100\n"),
]


def test_words(tally, program):
    for bad, word in BAD:
        bad = bad if isinstance(bad, bytes) else bad.encode()
        got = program.map(TABLE, DISKS, bad)
        tally.same("the first request %r" % bad[:40], got, 3, "", "dmremap: request 1: %s\n" % word)
        given = FIRST.encode() + bad
        # A request is read in another way where many bytes follow it.
        for more in (b"", b"R a 2 2\n", b"R a 2 2\n" * 16):
            if more and not given.endswith(b"\n"):
                continue
            got = program.map(TABLE, DISKS, given + more)
            tally.same("the request %r" % bad[:40], got, 3, ANSWER, "dmremap: request 2: %s\n" % word)
    for requests, output in GOOD:
        tally.same("the requests %r" % requests, program.map(TABLE, DISKS, requests), 0, output)


def test_letters(tally, program):
    """Each byte in the place of a request's letter, before few and many bytes, and where requests are read in a row."""
    for letter in sorted(set(range(256)) - set(b"RW")):
        bad = bytes([letter]) + b" a 0 1\n"
        for table, answer in ((TABLE, ANSWER), (MANY, "1 R sda 0 1\n")):
            for more in (b"", FIRST.encode() * 16):
                got = program.map(table, DISKS, FIRST.encode() + bad + more)
                tally.same("a request with the letter %r" % bad[:1], got, 3, answer, "dmremap: request 2: form\n")


def test_digits(tally, program):
    """Starts of each number of digits, with few and with many bytes after them."""
    most = 1 << 50
    table, disks = "a: 0 %d linear sda 0\n" % most, "sda %d\n" % most
    starts = [int("98765432109876543"[:count]) for count in range(1, 16)] + [10 ** count for count in range(16)]
    for start in starts:
        for more in (1, 16):
            got = program.map(table, disks, ("R a %d 7\n" % start) * more)
            output = "".join("%d R sda %d 7\n" % (number + 1, start) for number in range(more))
            tally.same("%d requests at %d" % (more, start), got, 0, output)


def test_beginnings(tally, program):
    """Each beginning of a line and of a rest without its newline, up to a clean end."""
    both = FIRST + "R a 1 1"
    for count in range(len(both) + 1):
        whole, newline, rest = both[:count].rpartition("\n")
        message = "dmremap: request %d: unended\n" % (2 if newline else 1) if rest else ""
        tally.same("%d bytes of requests" % count, program.map(TABLE, DISKS, both[:count]),
                   3 if rest else 0, ANSWER if newline else "", message)


def test_rows(tally, program):
    """Requests in a row over many lines: a bad one at each place, more than a buffer holds, and an end at each byte."""
    row = [asked(at) for at in range(60)]
    for before in range(36):
        for bad, word in BAD_IN_A_ROW:
            given = requests_of(row[:before]) + bad + requests_of(row[before:])
            tally.same("the request %r after %d in a row" % (bad[:40], before), program.map(MANY, DISKS, given), 3,
                       answers_of(row[:before]), "dmremap: request %d: %s\n" % (before + 1, word))
    many = [asked(at) for at in range(20000)]
    tally.same("20,000 requests in a row", program.map(MANY, DISKS, requests_of(many)), 0, answers_of(many))
    given = requests_of(row)
    for count in range(len(given) - 40, len(given)):
        whole = given[:count].count("\n")
        is_cut = not given[:count].endswith("\n")
        message = "dmremap: request %d: unended\n" % (whole + 1) if is_cut else ""
        tally.same("%d bytes of requests in a row" % count, program.map(MANY, DISKS, given[:count]),
                   3 if is_cut else 0, answers_of(row[:whole]), message)


def asked(at):
    """A request of a sector of MANY, and its answer."""
    letter, sector = "RW"[at % 2], at * 37 % (8 * LINES)
    return "%s a %d 1\n" % (letter, sector), "%d %s sda %d 1\n" % (at + 1, letter, sector + sector // 8 * 8)


def requests_of(row):
    return "".join(request for request, _ in row)


def answers_of(row):
    return "".join(answer for _, answer in row)
