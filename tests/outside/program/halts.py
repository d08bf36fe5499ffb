"""Stops in replays, and what is answered after them, against the plain rules (`replays`).

No command stops a request, so the tests of dm_replay play these: one of them reads rows from a file, which is
written here. There are random stacks, requests and stops from fixed seeds; rows of `origins` and `kinds` with a
stop after each unit; and stops in the longest request. The rows that stand in the tests' own table have to be
answered as the plain rules say, too. And each growth of the test that takes out of memory for an answer is refused.
"""

import os
import random
import shutil

import kinds
import origins
import replays
from growths import Shim
from harness import Program, text_of
from replays import first_units, lines, played
from snapshots import concise, plain

STACKS = 100
STOPS = 10
TABLE = os.path.join("crates", "dm_replay", "src", "replay", "tests", "stops.rt")
TESTS = os.path.join("crates", "dm_replay", "out", "dm_replay_tests")
# The test that reads rows from a file, the file's name, and the test that may run out of memory.
READER, ROWS_NAME = "replay::tests::answers_after_stops_of_a_file", "stops"
TEST = "replay::tests::growths_may_be_refused"

# Rows whose requests are halted after each of their units. One is left out, whose request a replay refuses: the
# device that it writes is the origin of a snapshot, so it is no top device.
SMALL = [it[:3] for it in origins.WRITES if "snapshot /dev/mapper/o cow P 8" not in it[0]]
SMALL += [it[:3] for it in [origins.REPLAYED] + kinds.REPLAYED]

# The copies of a chunk of the longest request, and with the writes of its sectors all its units.
COPIES = origins.SNAPSHOTS * origins.CHUNK
UNITS = COPIES + origins.CHUNK

# After how many units the longest request is halted: at the borders of copies, of writes and of chunks, and between
# them. None is late, as a replay goes through all that it stored for each copy.
LONG_STOPS = [0, 1, 1023, 1024, 1025, COPIES - 1, COPIES, COPIES + 1, UNITS - 1, UNITS, UNITS + 1, UNITS + COPIES + 512,
    2 * UNITS + 3 * 1024, 10 * UNITS + 5 * 1024 + 7, 20 * UNITS - 1, 31 * UNITS + COPIES + 1000, 63 * UNITS + COPIES,
    64 * UNITS, 100 * UNITS + 5000, 300 * UNITS + COPIES + 1,
]


def asked_at_random(dice, stack, tops):
    """Requests, each with its stop: at last each top device is read."""
    asked = []
    for _ in range(STOPS):
        for stop in (dice.randint(0, 24), None):
            name = dice.choice(tops)
            start = dice.randrange(stack.length("/dev/mapper/" + name))
            op = dice.choice("RWWW" if stop is not None else "RRW")
            asked.append(((op, name, start, dice.randint(1, 9)), stop))
    return asked + reads(stack, tops)


def reads(stack, tops):
    """The requests that read all of these devices."""
    return [(("R", name, 0, stack.length("/dev/mapper/" + name)), None) for name in tops]


def answered(stack, asked):
    """The lines of the requests that aren't halted."""
    values, wanted = {}, ""
    for number, (request, stop) in enumerate(asked, 1):
        units = stack.request(*request) if stop is None else first_units(stack, request, stop)
        answers = played(values, number, request[2], units)
        if stop is None:
            wanted += lines(number, answers)
    return wanted


def row(name, source, disks, asked, wanted):
    """A row as the tests read it (`stops.rt`)."""
    given = "".join("%s %s %s %d %d\n" % (("-" if stop is None else stop,) + request) for request, stop in asked)
    return "|".join(part + "\n" * (not part.endswith("\n")) for part in (name, source, disks, given)) + "|" + wanted


def asked_in(given):
    """The requests and stops of a row."""
    for line in given.splitlines():
        stop, op, name, start, length = line.split()
        yield (op, name, int(start), int(length)), None if stop == "-" else int(stop)


def random_rows():
    for seed in range(STACKS):
        for name, tidy_stack in ("snapshots", replays.tidy_stack), ("an origin", origins.tidy_stack):
            dice = random.Random(1000 + seed)
            stack, tops = tidy_stack(dice)
            asked = asked_at_random(dice, stack, tops)
            name = "a random stack with %s, %d" % (name, seed)
            yield row(name, concise(stack), origins.disks_of(stack), asked, answered(stack, asked))


def small_rows():
    """A row for each stop of each request of the small ones."""
    for source, disks, requests in SMALL:
        given = [request for request, _ in asked_in("".join("- %s\n" % it for it in requests.splitlines()))]
        for index, request in enumerate(given):
            stack = plain(source, disks)
            for it in given[:index]:
                stack.request(*it)
            for units in range(len(stack.request(*request)) + 1):
                stack = plain(source, disks)
                asked = halted(stack, given, index, units)
                name = "request %d after %d units" % (index + 1, units)
                yield row(name, source, disks, asked, answered(stack, asked))


def halted(stack, given, index, stop):
    """Requests of which one is halted: after it all top devices are read, and at last once more."""
    all_read = reads(stack, origins.tops(stack))
    asked = [(it, None) for it in given]
    return asked[:index] + [(given[index], stop)] + all_read + asked[index + 1:] + all_read


def long_rows():
    for units in LONG_STOPS:
        yield row("the longest request after %d units" % units, *long_row(origins.LENGTH, origins.CHUNK, units))


def long_row(length, chunk, count):
    """A write of a whole origin that is halted, and then one of the chunk where that was and of the next. Each
    chunk is copied to all snapshots before its first sector is written, so these go on as they were."""
    source, disks = origins.long_stack(length, chunk)
    snapshots = ["s%d" % it for it in range(origins.SNAPSHOTS)]
    units = (len(snapshots) + 1) * chunk
    whole, rest = divmod(min(count, length // chunk * units), units)
    written = whole * chunk + max(0, rest - len(snapshots) * chunk)
    near = (min(whole * chunk, length - 2 * chunk), 2 * chunk)
    asked = [(("W", "o", 0, length), count), (("R", "o", 0, length), None), (("R", "s0", 0, length), None)]
    near_reads = [(("R", name) + near, None) for name in snapshots]
    asked += near_reads + [(("W", "o") + near, None), (("R", "o") + near, None)] + near_reads
    again = 4 + len(snapshots)
    wanted = "2 wrote 1 0 %d\n" % written if written > 0 else ""
    wanted += "2 old base %d %d\n" % (written, length - written) if written < length else ""
    wanted += "3 old base 0 %d\n" % length
    wanted += "".join("%d old base %d %d\n" % ((number,) + near) for number in range(4, again))
    wanted += "".join("%d wrote %d %d %d\n" % ((number, again) + near) for number in (again, again + 1))
    wanted += "".join("%d old base %d %d\n" % ((number,) + near) for number in range(again + 2, again + 2 + len(snapshots)))
    return source, disks, asked, wanted


def test_long(tally):
    """A long write that is halted after each of its units."""
    for count in range(4 * 2 * (origins.SNAPSHOTS + 1) + 2):
        source, disks, asked, wanted = long_row(8, 2, count)
        got = answered(plain(source, disks), asked)
        tally.holds("a long write that is halted after %d units" % count, got == wanted, "the plain rules give " + got)


def test_tests(tally, program, top):
    """The tests of dm_replay, if the gate left them."""
    tests = os.path.join(top, TESTS)
    if os.access(tests, os.X_OK):
        tests = Program(shutil.copy(tests, program.folder), program.folder)
        check_rows(tally, tests)
        check_growths(tally, Shim(tests))
    else:
        tally.skip("stops, and each growth of one", "there is no %s, which the gate leaves" % TESTS)


def test_table(tally, top):
    """The rows of the tests' own table."""
    rows = text_of(os.path.join(top, TABLE)).partition('"\\\n')[2].rpartition('";\n')[0].split("#")
    tally.holds("the rows of " + TABLE, len(rows) > 10, "it has %d" % len(rows))
    for name, source, disks, given, wanted in (it.split("|") for it in rows):
        stack = plain(source.strip(), disks)
        got = answered(stack, list(asked_in(given)))
        tally.holds("in %s: %s" % (TABLE, name.strip()), got == wanted, "the plain rules give " + got)


def check_rows(tally, tests):
    """Has the tests play all rows, and one of which the answers are wrong."""
    for name, rows in (("random stacks", random_rows()), ("small stacks", small_rows()), ("the longest request", long_rows())):
        rows = list(rows)
        tests.file(ROWS_NAME, "#".join(rows))
        got = tests.run([READER], folder=tests.folder)
        tally.holds("%d rows of stops of %s" % (len(rows), name), got.status == 0, "%s, %r" % (got.status, got.out[-2000:]))
    tests.file(ROWS_NAME, "#".join([*rows[:1], rows[0].replace("old base", "old other"), *rows[1:]]))
    got = tests.run([READER], folder=tests.folder)
    tally.holds("a row of stops with wrong answers", got.status not in (0, None), "it passes")


def check_growths(tally, shim):
    """Refuses each growth of the test of stops, and all from it on: the test has to pass."""
    if not tally.holds("the shim of stops", not shim.fault, shim.fault):
        return
    asked = shim.run([TEST], start="start").growths
    for name, others in (("each growth refused", ()), ("all growths refused from each on", ("GROWTHS_ALL",))):
        got = [(first, shim.run([TEST], first, "start", others)) for first in range(1, asked + 1)]
        wrong = [(first, it.status, it.out, it.err) for first, it in got if it.status or not it.refused]
        tally.holds("stops with " + name, asked > 0 and not wrong, "of %d growths %s" % (asked, wrong[:3]))
