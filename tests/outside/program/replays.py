"""Replays of small tidy stacks against the rules of MAPPING, section 14, sector by sector.

The units of a request are those of `snapshots.Plain`; here they are played on the values of disks. The
stacks and requests are made from fixed seeds, so every run tries the same ones.
"""

import copy
import random

from harness import FULL_OUTPUT
from snapshots import Plain, concise, disks_of, place, small_requests

ROUNDS = 100
REQUESTS = 30
# Over so many lines, so many requests took minutes when each looked at every line.
LINES = 40000
MANY = 300000
SNAPSHOT = ("s,,,,0 8 snapshot base cow P 8", "base 8\ncow 32\n")

# Kinds, chunks and lengths of snapshots that a store has just enough places for.
STORES = [("P", 8, 20), ("N", 8, 20), ("K", 8, 20), ("P", 1, 33), ("K", 1, 32), ("N", 2, 7)]

# FILE, DISKS, requests, what is answered, why the replay ended early, if it did, and the status. The answers were
# worked out sector by sector, by a plain program over the rules.
ROWS = [
    ("s: 0 20 snapshot base cow P 8\n", "base 20\ncow 64\n", "R s 18 2\nW s 18 1\nR s 16 4\n",
     "1 old base 18 2\n2 wrote 2 18 1\n3 old base 16 2\n3 wrote 2 18 1\n3 old base 19 1\n", "", 0),
    ("a: 0 16 striped 2 4 sda 0 sdb 0\n", "sda 8\nsdb 8\n", "W a 2 4\nR a 0 8\n",
     "1 wrote 1 2 4\n2 old sda 0 2\n2 wrote 1 2 4\n2 old sdb 2 2\n", "", 0),
    ("o: 0 8 zero\ns: 0 8 snapshot /dev/mapper/o cow P 8\n", "cow 32\n", "W s 2 3\nR s 0 8\n",
     "1 wrote 1 2 3\n2 zero 2\n2 wrote 1 2 3\n2 zero 3\n", "", 0),
    ("a: 0 4 error\n", "", "R a 0 4\nW a 2 3\n", "1 error 4\n2 error 3\n", "", 0),
    # A write that is dropped leaves zeros, and beside them what it wrote.
    ("z: 0 4 zero\nz: 4 4 linear s 0\n", "s 8\n", "W z 2 4\nR z 0 8\n",
     "1 zero 2\n1 wrote 1 4 2\n2 zero 4\n2 wrote 1 4 2\n2 old s 2 2\n", "", 0),
    ("s: 0 20 snapshot base cow P 8\n", "base 20\ncow 64\n", "", "", "", 0),
    ("s: 0 16 snapshot base c1 P 4\nt: 0 16 snapshot base c2 P 8\n", "base 16\nc1 64\nc2 64\n",
     "W s 0 2\nW t 1 2\nR s 0 8\nR t 0 8\nW s 1 8\nR s 0 16\nR t 0 16\n",
     "1 wrote 1 0 2\n2 wrote 2 1 2\n3 wrote 1 0 2\n3 old base 2 6\n4 old base 0 1\n4 wrote 2 1 2\n"
     "4 old base 3 5\n5 wrote 5 1 8\n6 wrote 1 0 1\n6 wrote 5 1 8\n6 old base 9 7\n7 old base 0 1\n"
     "7 wrote 2 1 2\n7 old base 3 13\n", "", 0),
    ("s: 0 16 snapshot base c1 P 4\nt: 0 16 snapshot /dev/mapper/s c2 P 8\n", "base 16\nc1 64\nc2 64\n",
     "W t 3 2\nR t 0 16\nW t 9 1\nW t 0 1\nR t 0 16\n",
     "1 wrote 1 3 2\n2 old base 0 3\n2 wrote 1 3 2\n2 old base 5 11\n3 wrote 3 9 1\n4 wrote 4 0 1\n"
     "5 wrote 4 0 1\n5 old base 1 2\n5 wrote 1 3 2\n5 old base 5 4\n5 wrote 3 9 1\n5 old base 10 6\n", "", 0),
    ("c: 0 32 striped 2 4 sdb 0 sdc 0\ns: 0 32 snapshot base /dev/mapper/c P 8\n", "base 32\nsdb 16\nsdc 16\n",
     "W s 6 4\nR s 4 8\nW s 16 1\nR s 0 1\n",
     "1 wrote 1 6 4\n2 old base 4 2\n2 wrote 1 6 4\n2 old base 10 2\n3 error 1\n4 error 1\n", "", 0),
    ("s: 0 32 snapshot base cow P 8\n", "base 32\ncow 32\n", "W s 4 8\nR s 0 16\nW s 16 1\nR s 0 16\n",
     "1 wrote 1 4 8\n2 old base 0 4\n2 wrote 1 4 8\n2 old base 12 4\n3 error 1\n4 error 16\n", "", 0),
    ("a: 0 4 linear sda 0\na: 4 4 zero\na: 8 4 error\na: 12 4 linear sda 4\n", "sda 8\n",
     "W a 0 16\nR a 0 16\nR a 10 7\n",
     "1 wrote 1 0 4\n1 zero 4\n1 error 4\n1 wrote 1 12 4\n2 wrote 1 0 4\n2 zero 4\n2 error 4\n2 wrote 1 12 4\n"
     "3 error 7\n", "", 0),
    ("a: 0 16 linear sda 0\n", "sda 16\n", "W a 0 8\nW a 4 8\nR a 0 16\nW a 2 1\nR a 0 5\n",
     "1 wrote 1 0 8\n2 wrote 2 4 8\n3 wrote 1 0 4\n3 wrote 2 4 8\n3 old sda 12 4\n4 wrote 4 2 1\n5 wrote 1 0 2\n"
     "5 wrote 4 2 1\n5 wrote 1 3 1\n5 wrote 2 4 1\n", "", 0),
    # What is below another device is no top device, and neither is a disk or nothing at all; a bad line comes first.
    ("o: 0 8 zero\ns: 0 8 snapshot /dev/mapper/o cow P 8\n", "cow 32\n", "R o 0 1\n", "", "request 1: not top", 3),
    ("o: 0 8 zero\ns: 0 8 snapshot /dev/mapper/o cow P 8\n", "cow 32\n", "R s 0 1\nR cow 0 1\nR s 0 1\n",
     "1 zero 1\n", "request 2: not top", 3),
    ("o: 0 8 zero\ns: 0 8 snapshot /dev/mapper/o cow P 8\n", "cow 32\n", "W s 0 8\nR s 0 1\nR t 0 1\n",
     "1 wrote 1 0 8\n2 wrote 1 0 1\n", "request 3: not top", 3),
    ("o: 0 8 zero\ns: 0 8 snapshot /dev/mapper/o cow P 8\n", "cow 32\n", "R s 0 1\nR o 0 0\n", "1 zero 1\n",
     "request 2: length", 3),
    ("o: 0 8 zero\ns: 0 8 snapshot /dev/mapper/o cow P 8\n", "cow 32\n", "R s 0 1\nR o 0 1", "1 zero 1\n",
     "request 2: unended", 3),
    ("o: 0 8 zero\ns: 0 8 snapshot /dev/mapper/o cow P 8\n", "cow 32\n", "R s 0 1 \n", "", "request 1: form", 3),
    ("a: 0 8 zero\n", "", "R b 0 1\n", "", "request 1: not top", 3),
    # Two claims meet, so no request is looked at, unless the load is refused before.
    ("a: 0 8 linear sda 0\nb: 0 8 linear sda 4\n", "sda 16\n", "R a 0 1\n", "", "replay: untidy", 1),
    ("a: 0 8 linear sda 0\nb: 0 8 linear sda 4\n", "sda 16\n", "x", "", "replay: untidy", 1),
    ("a: 0 8 linear sda 0\nb: 0 8 linear sda 4\n", "sda 8\n", "x", "", "source: range at 2", 1),
    ("s: 0 8 snapshot base base P 1\n", "base 8\n", "R s 0 1\n", "", "replay: untidy", 1),
]


def least_store(kind, chunk, length):
    """The least store that has a place for each chunk of a snapshot."""
    return (place(kind, chunk, (length + chunk - 1) // chunk - 1) + 1) * chunk


def tidy_stack(dice, loses_nothing=False):
    """Snapshots of one origin or of each other, each with a store of its own, stripes beside them, and in
    half of the stacks the device that the origin is written through. One that loses nothing has no `error` line, and
    stores with just a place for each chunk."""
    disks = {"base": 40, "sda": 40, "sdb": 40}
    length = dice.choice([12, 16, 17, 20])
    table, start = [], 0
    while start < length:
        part = min(length - start, dice.randint(3, 12))
        kind = dice.choice(["linear", "linear", "linear", "zero", "linear" if loses_nothing else "error"])
        table.append((start, part, ("linear", "base", start + 3) if kind == "linear" else (kind,)))
        start += part
    tables = {"o": table, "a": [(0, 16, ("striped", 4, ("sda", 2), ("sdb", 5)))]}
    origins, named = ["/dev/mapper/o"], set()
    for name in ("s", "t", "u")[:dice.randint(0, 3)]:
        store, origin, kind, chunk = dice.choice([8, 16, 24, 60]), dice.choice(origins), dice.choice("PNK"), dice.choice([1, 2, 4, 8])
        disks[name + "c"] = least_store(kind, chunk, length) if loses_nothing else store
        tables[name] = [(0, length, ("snapshot", origin, name + "c", kind, chunk))]
        named.add(origin)
        origins.append("/dev/mapper/" + name)
    if dice.random() < 0.5:
        tables["w"] = [(0, length, ("snapshot-origin", "/dev/mapper/o"))]
        named.add("/dev/mapper/o")
    return Plain(tables, set(), disks), [name for name in tables if "/dev/mapper/" + name not in named]


def played(values, number, start, units):
    """What units answer, sector by sector; the values of the disks change with them."""
    answers = []
    for word, *places in units:
        if word == "copy":
            values[places[1]] = values.get(places[0], ("old",) + places[0])
        elif word == "fill":
            values[places[0]] = ("zero",)
        elif word == "R":
            answers.append(values.get(places[0], ("old",) + places[0]))
        elif word == "W":
            values[places[0]] = ("wrote", number, start + len(answers))
            answers.append(values[places[0]])
        else:
            answers.append(("error",) if word == "error" else ("zero",))
    return answers


def first_units(stack, request, count):
    """The first units of a request. The state is then that after the sectors of which they are all units."""
    op, name, start, length = request
    if start + length > stack.length("/dev/mapper/" + name):
        return [("error",)] * min(count, length)
    units = []
    for sector in range(start, start + length):
        before = copy.deepcopy((stack.taken, stack.lost))
        part = stack.request(op, name, sector, 1)
        if len(part) > count:
            stack.taken, stack.lost = before
            return units + part[:count]
        units, count = units + part, count - len(part)
    return units


def lines(number, answers):
    """The lines of answers, in maximal runs."""
    runs = []
    for answer in answers:
        if runs:
            first, length = runs[-1]
            if answer == first[:2] + tuple(it + length for it in first[2:]):
                runs[-1] = (first, length + 1)
                continue
        runs.append((answer, 1))
    return "".join("%d %s %d\n" % (number, " ".join(str(it) for it in first), length) for first, length in runs)


def test_random(tally, program):
    for seed in range(ROUNDS):
        dice = random.Random(seed)
        check_replay(tally, program, dice, *tidy_stack(dice))


def check_replay(tally, program, dice, stack, tops):
    """Requests at random of these devices."""
    source, values, given, wanted = concise(stack), {}, "", ""
    for number, request in enumerate(small_requests(dice, stack, tops), 1):
        given += "%s %s %d %d\n" % request
        wanted += lines(number, played(values, number, request[2], stack.request(*request)))
    tally.same("the replay of %s" % source, run(program, source, disks_of(stack), given), 0, wanted)


def test_no_errors(tally, program):
    """No read or write of a stack that loses nothing is an error. Without a sector of its store, a snapshot is lost."""
    for seed in range(ROUNDS):
        dice = random.Random(seed)
        stack, tops = tidy_stack(dice, loses_nothing=True)
        given = ""
        for name in tops + dice.choices(tops, k=REQUESTS) + tops:
            whole = stack.length("/dev/mapper/" + name)
            start = dice.randrange(whole)
            given += "W %s %d %d\nR %s 0 %d\n" % (name, start, dice.randint(1, whole - start), name, whole)
        got = run(program, concise(stack), disks_of(stack), given)
        errors = [it.decode() for it in got.out.splitlines() if b"error" in it]
        tally.holds("no errors in a replay of %s" % concise(stack), got.status == 0 and got.out and not errors, str(errors or got.err))
    for kind, chunk, length in STORES:
        for less, lost in (0, False), (1, True):
            disks = "base %d\ncow %d\n" % (length, least_store(kind, chunk, length) - less)
            source = "o,,,,0 %d snapshot-origin base;s,,,,0 %d snapshot base cow %s %d" % (length, length, kind, chunk)
            wanted = "1 wrote 1 0 %d\n2 %s %d\n" % (length, "error" if lost else "old base 0", length)
            got = run(program, source, disks, "W o 0 %d\nR s 0 %d\n" % (length, length))
            tally.same("the replay of %s with %d sectors less in its store" % (source, less), got, 0, wanted)


def test_large_stacks(tally, program):
    """More requests than could be answered in time if each looked at all lines or columns of its stack."""
    lines = "".join("a: %d 1 linear s %d\n" % (it, it) for it in range(LINES))
    columns = "".join("a: %d 128 striped 128 1 %s\n" % (128 * line, " ".join("s %d" % (128 * line + it) for it in range(128)))
                      for line in range(LINES // 128))
    places = [it * 7919 % (LINES // 128 * 128) for it in range(MANY)]
    asked = "".join("R a %d 1\n" % it for it in places)
    wanted = "".join("%d old s %d 1\n" % (number, it) for number, it in enumerate(places, 1))
    for name, table in (("40,000 lines", lines), ("312 lines of 128 columns", columns)):
        files = [program.file("table", table), program.file("disks", "s %d\n" % LINES)]
        got = program.run(["replay", "table", *files], given=asked)
        tally.same("%d requests over %s" % (MANY, name), got, 0, wanted)


def test_rows(tally, program):
    for table, disks, requests, output, refused, status in ROWS:
        files = [program.file("table", table), program.file("disks", disks)]
        got = program.run(["replay", "table", *files], given=requests)
        name = "the replay of %r with %r" % (table, requests)
        tally.same(name, got, status, output, "dmremap: %s\n" % refused if refused else "")


def test_ends(tally, program):
    """How a replay ends early: what was answered before, the message and the status."""
    first = "1 wrote 1 0 8\n"
    for rest, word in [("R s 0 0\n", "length"), ("R base 0 1\n", "not top"), ("R t 0 1\n", "not top"), ("R", "unended")]:
        got = run(program, *SNAPSHOT, "W s 0 8\n" + rest)
        tally.same("a replay up to %r" % rest, got, 3, first, "dmremap: request 2: %s\n" % word)
    got = run(program, "a,,,,0 8 linear base 0;b,,,,0 8 linear base 4", "base 16\n", "x")
    tally.same("a replay of lines that clash", got, 1, "", "dmremap: replay: untidy\n")
    got = program.run(words_of(program, *SNAPSHOT), given="R s 0 8\n", stdout=FULL_OUTPUT)
    tally.same("a replay on a full device", got, 5, "", "dmremap: output: write\n")


def run(program, source, disks, requests):
    return program.run(words_of(program, source, disks), given=requests)


def words_of(program, source, disks):
    return ["replay", "concise", program.file("concise", source), program.file("disks", disks)]
