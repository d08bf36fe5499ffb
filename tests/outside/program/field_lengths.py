"""Requests with fields of each length, and with lines at each place before the end of what is held.

Short fields may be read and written as words of a known length, long ones in another way, and those near
the end of what was read in a third. No answer shows which way a line went.
"""

MOST_NAME = 127
MOST_DISK_NAME = 255
MOST_SECTORS = 1 << 50
MOST_LENGTH = 1 << 20
# The bytes that one read asks for, and those that are gathered before they are passed on.
BUFFER = 65536
LETTERS = "Az09#+-.:=@_" * 11


def front(length, last=""):
    """A name of this length: the front of each longer one, but for its last letter if that is given."""
    return LETTERS[:length - len(last)] + last


def answers(pieces):
    return "".join("%d %s\n" % answer for answer in enumerate(pieces, 1))


def test_names(tally, program):
    """Devices with names of each length. Those of a length differ in their last letter."""
    names = [front(length, last) for length in range(1, MOST_NAME + 1) for last in ("", "b", "c")]
    count = len(names)
    table = "".join("%s: 0 9 linear sda %d\n" % (name, 10 * at) for at, name in enumerate(names))
    orders = {"one after the other": list(range(count)), "backwards": list(reversed(range(count))),
              "twice each": [at // 2 for at in range(2 * count)], "far apart": [at * 190 % count for at in range(count)]}
    for order, places in orders.items():
        given = "".join("R %s 3 2\n" % names[at] for at in places)
        wanted = answers("R sda %d 2" % (10 * at + 3) for at in places)
        tally.same("names of devices, %s" % order, program.map(table, "sda %d\n" % (10 * count), given), 0, wanted)


def test_unknown_names(tally, program):
    """Names that no device has, beside devices whose names are one letter shorter or longer, or differ at the end."""
    for length in list(range(2, 20)) + [31, 32, 33, 63, 64, 65, MOST_NAME - 1]:
        for other in (length - 1, length + 1):
            table = "%s: 0 9 linear sda 0\n%s: 0 9 linear sda 9\n" % (front(other), front(length, "b"))
            known = "R %s 0 1\nR %s 1 1\n" % (front(length, "b"), front(other))
            for name in (front(length), front(length, "c")):
                # A request is read in another way where many bytes follow it.
                for more in ("", known * 8):
                    got = program.map(table, "sda 18\n", known + "R %s 0 1\n" % name + more)
                    tally.same("the unknown name %s" % name, got, 3, "1 R sda 9 1\n2 R sda 1 1\n",
                               "dmremap: request 3: unknown\n")


def test_disk_names(tally, program):
    """Disks with names of each length, in lines of reads, of writes, and of both in turn, and as parts of one request."""
    names = ["s" * (length - 1) + "d" for length in range(1, MOST_DISK_NAME + 1)]
    table = "".join("a: %d 8 linear %s 5\n" % (8 * at, name) for at, name in enumerate(names))
    disks = "".join("%s 13\n" % name for name in names)
    for letters in ("R", "W", "RW"):
        lines = [(letters[at % len(letters)], at, name) for at, name in enumerate(names)]
        given = "".join("%s a %d 3\n" % (letter, 8 * at + 1) for letter, at, _ in lines)
        wanted = answers("%s %s 6 3" % (letter, name) for letter, _, name in lines)
        tally.same("names of disks, %s" % letters, program.map(table, disks, given), 0, wanted)
    for letter in "RW":
        wanted = "".join("1 %s %s 5 8\n" % (letter, name) for name in names)
        got = program.map(table, disks, "%s a 0 %d\n" % (letter, 8 * len(names)))
        tally.same("names of disks, one %s" % letter, got, 0, wanted)


def test_numbers(tally, program):
    """Starts of 1 to 19 digits with lengths of 1 to 7."""
    starts = numbers_below(10 ** 19)
    asked = [(start, length) for start in starts for length in starts if length <= MOST_LENGTH]
    for letter in "RW":
        given = "".join("%s a %d %d\n" % (letter, start, length) for start, length in asked)
        wanted = answers("error %d" % length if start + length > MOST_SECTORS else "%s sda %d %d" % (letter, start, length)
                         for start, length in asked)
        got = program.map("a: 0 %d linear sda 0\n" % MOST_SECTORS, "sda %d\n" % MOST_SECTORS, given)
        tally.same("starts and lengths, %s" % letter, got, 0, wanted)


def test_wrong_numbers(tally, program):
    """Lengths of 7 to 20 digits, starts of 20, and a zero or another byte at each place of a number."""
    wrong = [(1, number, "number" if number >= 10 ** 19 else "length")
             for number in numbers_below(10 ** 20) if number > MOST_LENGTH]
    wrong += [(number, 1, "number") for number in numbers_below(10 ** 20) if number >= 10 ** 19]
    for digits in range(1, 20):
        number = "9876543210987654321"[:digits]
        texts = ["0" + number] + [number[:at] + "/:"[at % 2] + number[at:] for at in range(digits + 1)]
        wrong += [it for text in texts for it in ((text, 1, "number"), (1, text, "number"))]
    for start, length, word in wrong:
        asked = "R a %s %s\n" % (start, length)
        for more in ("", "R a 0 1\n" * 16):
            got = program.map("a: 0 100 linear sda 0\n", "sda 100\n", asked + more)
            tally.same("the request %r" % asked, got, 3, "", "dmremap: request 1: %s\n" % word)


def numbers_below(end):
    """Numbers of each count of digits: those with the greatest digits, with ones, with zeros, and with all of them."""
    rows = ["9" * 20, "1" * 20, "1" + "0" * 19, "98765432109876543210", "12345678901234567890"]
    return sorted({number for row in rows for count in range(1, 21) for number in [int(row[:count])] if number < end})


def test_last_bytes(tally, program):
    """Lines that begin at each of the last places of what one read takes."""
    last = "W name 1234567 1000\n"
    for left in range(3 * len(last) + 1):
        # Lines of 11 bytes, and as many of 12 as make up the rest.
        count, longer = divmod(BUFFER - left, 11)
        starts = [10] * longer + [9] * (count - longer)
        given = "".join("R name %d 8\n" % start for start in starts)
        wanted = answers(["R sda %d 8" % start for start in starts] + 4 * ["W sda 1234567 1000"])
        got = program.map("name: 0 2000000 linear sda 0\n", "sda 2000000\n", given + 4 * last)
        tally.same("requests after %d bytes" % len(given), got, 0, wanted)


def test_gathered(tally, program):
    """Lines of answers that begin at each place at which what is gathered may be passed on."""
    for longer in range(24):
        starts = [10] * longer + [9] * (24 - longer) + [1234567, 9] * 4000
        given = "".join("R a %d 7\n" % start for start in starts)
        got = program.map("a: 0 2000000 linear sda 0\n", "sda 2000000\n", given)
        tally.same("%d longer lines" % longer, got, 0, answers("R sda %d 7" % start for start in starts))


def test_gathered_names(tally, program):
    """The same with names of disks that fill the room of a line's head, or nearly, and longer ones."""
    for length in (1, 27, 28, 29, 30, 31, 32, 127, MOST_DISK_NAME):
        name = "s" * length
        for longer in range(0, 24, 4):
            starts = [10] * longer + [9] * (24 - longer) + [1234567, 9] * 2000
            lines = [("RWR"[at % 3], start) for at, start in enumerate(starts)]
            given = "".join("%s a %d 7\n" % line for line in lines)
            wanted = answers("%s %s %d 7" % (letter, name, start) for letter, start in lines)
            got = program.map("a: 0 2000000 linear %s 0\n" % name, "%s 2000000\n" % name, given)
            tally.same("names of %d bytes, %d longer lines" % (length, longer), got, 0, wanted)
