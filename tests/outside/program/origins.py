"""Origins that are written: which of their lines a load takes, how they print, what they claim, and what
a write to one does, against the rules of FORMATS and MAPPING.

The stacks and requests of the rounds are those of `snapshots` and `replays`, with origins in them; what
they answer is told by `snapshots.Plain`, sector by sector.
"""

import random

import replays
import snapshots
from snapshots import Plain, concise, disks_of

ROUNDS = 100

# Which uses of one sector get along.
SHARING = {("read", "read"), ("read", "serve"), ("serve", "read")}

DISKS = "base 16\ncow 32\ncow2 16\n"
ORIGIN = "o: 0 16 snapshot-origin base\n"
OVER = "s: 0 16 snapshot base cow P 8\n"

# FILE and DISKS, and the message of a load that is refused.
REFUSED = [
    # A line that isn't the only one of its table, as its first and as its last.
    ("o: 0 16 snapshot-origin base\no: 16 8 zero\n", DISKS, "snapshot at 1"),
    ("o: 0 8 zero\no: 8 16 snapshot-origin base\n", DISKS, "snapshot at 2"),
    # One that is shorter or longer than what it names.
    (OVER + "o: 0 15 snapshot-origin base\n", DISKS, "snapshot at 2"),
    ("o: 0 17 snapshot-origin base\n", DISKS, "snapshot at 1"),
    ("r: 0 8 linear base 0\no: 0 16 snapshot-origin /dev/mapper/r\n", DISKS, "snapshot at 2"),
    # A store that is an origin, or leads through one.
    ("c: 0 32 snapshot-origin cow\ns: 0 16 snapshot base /dev/mapper/c P 8\n", DISKS, "store at 2"),
    ("c: 0 32 snapshot-origin cow\nd: 0 32 linear /dev/mapper/c 0\ns: 0 16 snapshot base /dev/mapper/d P 8\n",
     DISKS, "store at 3"),
    # What it names is not there, or leads back to it.
    ("o: 0 16 snapshot-origin base\n", "cow 32\n", "unknown at 1"),
    ("o: 0 16 snapshot-origin /dev/mapper/o\n", DISKS, "cycle at 1"),
    # Its arguments: one name.
    ("o: 0 16 snapshot-origin\n", DISKS, "field at 1"),
    ("o: 0 16 snapshot-origin base 0\n", DISKS, "field at 1"),
    ("o: 0 16 snapshot-origins base\n", DISKS, "field at 1"),
    ("o: 0 16 snapshot-origin /dev/mapper/\n", DISKS, "name at 1"),
]

# FILE, the depth of its stack, and what a check says of its claims, over the three disks.
CLAIMS = [
    (ORIGIN, 1, "tidy"),
    # An origin and those who only read it, in any order.
    (ORIGIN + OVER + "t: 0 16 snapshot base cow2 P 4\n", 1, "tidy"),
    (OVER + "t: 0 16 snapshot base cow2 P 4\n" + ORIGIN, 1, "tidy"),
    # Origins over one another, and a snapshot of such a device.
    (ORIGIN + "p: 0 16 snapshot-origin /dev/mapper/o\ns: 0 16 snapshot /dev/mapper/p cow P 8\n", 3, "tidy"),
    # An origin over a snapshot.
    (OVER + "o: 0 16 snapshot-origin /dev/mapper/s\nt: 0 16 snapshot /dev/mapper/s cow2 P 4\n", 2, "tidy"),
    # Two of one disk, beside each other and with a snapshot between them.
    (ORIGIN + "p: 0 16 snapshot-origin base\n", 1, "clash base 0 o p"),
    (ORIGIN + OVER + "p: 0 16 snapshot-origin base\n", 1, "clash base 0 o p"),
    # A third device over the same disk, after the origin and before it.
    (ORIGIN + OVER + "t: 0 16 snapshot base cow2 P 4\na: 0 8 linear base 4\n", 1, "clash base 4 o a"),
    ("a: 0 8 linear base 4\n" + OVER + ORIGIN, 1, "clash base 4 a s"),
    ("a: 0 8 linear base 4\n" + ORIGIN + OVER, 1, "clash base 4 a o"),
    # What a store is on is the store's alone.
    ("c: 0 32 snapshot-origin cow\n" + OVER, 1, "clash cow 0 c s"),
]

# FILE, and what is printed of it in each form.
PRINTED = [
    ("o: 0 16 snapshot-origin base \n", "o: 0 16 snapshot-origin base\n", "o,,,rw,0 16 snapshot-origin base\n"),
    ("r: 0 16 linear base 0\no: 0 16 snapshot-origin /dev/mapper/r\n",
     "r: 0 16 linear base 0\no: 0 16 snapshot-origin /dev/mapper/r\n",
     "r,,,rw,0 16 linear base 0;o,,,rw,0 16 snapshot-origin /dev/mapper/r\n"),
]

# FILE as concise text, DISKS, the requests, and the output with the status of the snapshots.
WRITES = [
    # Each snapshot is served by its own chunks, its store runs full, and what was lost stays so.
    ("o,,,,0 16 snapshot-origin base;s,,,,0 16 snapshot base cow P 8;t,,,,0 16 snapshot base cow2 P 4", DISKS,
     "W o 2 4\nW s 0 1\nW o 2 1\nR t 0 8\nW o 12 4\nR t 0 1\nR s 0 16\n",
     "1 copy base 0 8 cow 16\n1 copy base 0 4 cow2 8\n1 W base 2 2\n1 copy base 4 4 cow2 12\n1 W base 4 2\n"
     "2 W cow 16 1\n3 W base 2 1\n4 R cow2 8 8\n5 copy base 8 8 cow 24\n5 W base 12 4\n6 error 1\n7 R cow 16 16\n"
     "s: 0 16 snapshot 32/32 16\nt: 0 16 snapshot Invalid\n"),
    # A read-only snapshot is served too.
    ("o,,,,0 16 snapshot-origin base;s,,,ro,0 16 snapshot base cow P 8", DISKS, "W o 0 1\nR s 0 16\n",
     "1 copy base 0 8 cow 16\n1 W base 0 1\n2 R cow 16 8\n2 R base 8 8\ns: 0 16 snapshot 24/32 16\n"),
    # A read-only origin serves nothing.
    ("o,,,ro,0 16 snapshot-origin base;s,,,,0 16 snapshot base cow P 8", DISKS, "W o 0 1\nR o 0 1\nR s 0 16\n",
     "1 error 1\n2 R base 0 1\n3 R base 0 16\ns: 0 16 snapshot 16/32 16\n"),
    # A write that passes the end serves nothing either.
    ("o,,,,0 16 snapshot-origin base;s,,,,0 16 snapshot base cow P 8", DISKS, "W o 15 2\n",
     "1 error 2\ns: 0 16 snapshot 16/32 16\n"),
    # What fails or drops the write was preceded by the copies.
    ("r,,,ro,0 16 linear base 0;o,,,,0 16 snapshot-origin /dev/mapper/r;s,,,,0 16 snapshot /dev/mapper/r cow P 8", DISKS,
     "W o 0 1\n", "1 copy base 0 8 cow 16\n1 error 1\ns: 0 16 snapshot 24/32 16\n"),
    ("z,,,,0 16 zero;o,,,,0 16 snapshot-origin /dev/mapper/z;s,,,,0 16 snapshot /dev/mapper/z cow P 8", DISKS,
     "W o 0 1\nR s 0 1\n", "1 fill 8 cow 16\n1 drop 1\n2 R cow 16 1\ns: 0 16 snapshot 24/32 16\n"),
    # A snapshot that can't be served is lost, and the write goes on.
    ("r,,,,0 15 linear base 0,15 1 error;o,,,,0 16 snapshot-origin /dev/mapper/r;s,,,,0 16 snapshot /dev/mapper/r cow P 8",
     DISKS, "W o 8 1\nR s 0 1\n", "1 W base 8 1\n2 error 1\ns: 0 16 snapshot Invalid\n"),
    ("r,,,,0 15 linear base 0,15 1 error;o,,,,0 16 snapshot-origin /dev/mapper/r;s,,,,0 16 snapshot /dev/mapper/r cow P 8",
     DISKS, "W o 4 8\nR s 0 1\n", "1 copy base 0 8 cow 16\n1 W base 4 8\n2 error 1\ns: 0 16 snapshot Invalid\n"),
    # A store that runs full on the way: the other snapshot is served to the request's end.
    ("o,,,,0 16 snapshot-origin base;s,,,,0 16 snapshot base cow P 8;t,,,,0 16 snapshot base cow2 P 4", DISKS,
     "W o 2 10\nR t 0 8\nR s 0 16\n",
     "1 copy base 0 8 cow 16\n1 copy base 0 4 cow2 8\n1 W base 2 2\n1 copy base 4 4 cow2 12\n1 W base 4 4\n"
     "1 copy base 8 8 cow 24\n1 W base 8 4\n2 error 8\n3 R cow 16 16\n"
     "s: 0 16 snapshot 32/32 16\nt: 0 16 snapshot Invalid\n"),
    # A snapshot of the origin's device is none of what that is over, and reads what is written.
    ("o,,,,0 16 snapshot-origin base;s,,,,0 16 snapshot /dev/mapper/o cow P 8", DISKS, "W o 0 1\nR s 0 16\n",
     "1 W base 0 1\n2 R base 0 16\ns: 0 16 snapshot 16/32 16\n"),
    # Origins over one another, each with a snapshot.
    ("o,,,,0 16 snapshot-origin base;p,,,,0 16 snapshot-origin /dev/mapper/o;s,,,,0 16 snapshot base cow P 8;"
     "t,,,,0 16 snapshot /dev/mapper/o cow2 P 4", DISKS, "W p 0 1\n",
     "1 copy base 0 4 cow2 8\n1 copy base 0 8 cow 16\n1 W base 0 1\n"
     "s: 0 16 snapshot 24/32 16\nt: 0 16 snapshot 12/16 8\n"),
    # An origin over a snapshot, which makes its own chunk ready after the copies.
    ("s,,,,0 16 snapshot base cow P 8;o,,,,0 16 snapshot-origin /dev/mapper/s;t,,,,0 16 snapshot /dev/mapper/s cow2 P 4", DISKS,
     "W o 0 1\nR t 0 8\n", "1 copy base 0 4 cow2 8\n1 copy base 0 8 cow 16\n1 W cow 16 1\n2 R cow2 8 4\n2 R cow 20 4\n"
     "s: 0 16 snapshot 24/32 16\nt: 0 16 snapshot 12/16 8\n"),
    # The same where that snapshot has no place: it is lost, the write fails, and the copies stay.
    ("s,,,,0 16 snapshot base cow P 16;o,,,,0 16 snapshot-origin /dev/mapper/s;t,,,,0 16 snapshot /dev/mapper/s cow2 P 4", DISKS,
     "W o 0 1\nR t 0 8\nR o 0 1\n", "1 copy base 0 4 cow2 8\n1 error 1\n2 R cow2 8 4\n2 error 4\n3 error 1\n"
     "s: 0 16 snapshot Invalid\nt: 0 16 snapshot 12/16 8\n"),
    # Chunks of 4 and of 16 sectors, over stripes, by one request.
    ("r,,,,0 32 striped 2 8 sda 0 sdb 0;o,,,,0 32 snapshot-origin /dev/mapper/r;s,,,,0 32 snapshot /dev/mapper/r c4 P 4;"
     "t,,,,0 32 snapshot /dev/mapper/r c16 P 16", "sda 16\nsdb 16\nc4 64\nc16 64\n", "W o 14 4\n",
     "1 copy sdb 4 4 c4 8\n1 copy sda 0 8 c16 32\n1 copy sdb 0 8 c16 40\n1 W sdb 6 2\n"
     "1 copy sda 8 4 c4 12\n1 copy sda 8 8 c16 48\n1 copy sdb 8 8 c16 56\n1 W sda 8 2\n"
     "s: 0 32 snapshot 16/64 8\nt: 0 32 snapshot 64/64 32\n"),
]

# FILE as concise text, DISKS, the requests, and what a replay answers.
REPLAYED = ("o,,,,0 16 snapshot-origin base;s,,,,0 16 snapshot base cow P 8", DISKS, "W o 0 4\nR s 0 8\nR o 0 8\n",
            "1 wrote 1 0 4\n2 old base 0 8\n3 wrote 1 0 4\n3 old base 4 4\n")

# An origin with eight snapshots in the greatest chunks, as long as the longest request.
LENGTH, CHUNK, SNAPSHOTS = 1048576, 1024, 8


def small_stack(dice):
    """A small stack of snapshots with origins over some of what they are of."""
    stack = snapshots.small_stack(dice)
    over = ["/dev/mapper/" + name for name in stack.tables if not name.endswith("c")]
    for name in ("w", "x")[:dice.randint(1, 2)]:
        to = dice.choice(over + ["/dev/mapper/o"] * 3)
        stack.tables[name] = [(0, stack.length(to), ("snapshot-origin", to))]
        over.append("/dev/mapper/" + name)
        if dice.random() < 0.1:
            stack.read_only.add(name)
    stack.tables["yc"] = [(0, 20, ("linear", "sda", 3))]
    to = dice.choice(over)
    words = ("snapshot", to, "/dev/mapper/yc", dice.choice("PNK"), dice.choice([1, 2, 4]))
    stack.tables["y"] = [(0, stack.length(to), words)]
    return Plain(stack.tables, stack.read_only, stack.disks)


def tidy_stack(dice):
    """A tidy stack with an origin over what its snapshots are of, or over one of them."""
    stack, tops = replays.tidy_stack(dice)
    to = dice.choice(["o", "o"] + [name for name in stack.tables if name in "stu"])
    stack.tables["w"] = [(0, stack.length("/dev/mapper/" + to), ("snapshot-origin", "/dev/mapper/" + to))]
    return stack, [name for name in tops if name != to] + ["w"]


def claims(stack):
    """What the lines of a stack claim: a device, what it is on, from where to before where, and the use."""
    for name, table in stack.tables.items():
        for _, length, words in table:
            if words[0] == "linear":
                yield name, words[1], words[2], words[2] + length, "own"
            elif words[0] == "striped":
                for to, offset in words[2:]:
                    yield name, to, offset, offset + length // len(words[2:]), "own"
            elif words[0] == "snapshot":
                yield name, words[2], 0, stack.length(words[2]), "own"
                yield name, words[1], 0, stack.length(words[1]), "read"
            elif words[0] == "snapshot-origin":
                yield name, words[1], 0, stack.length(words[1]), "serve"


def tops(stack):
    """The devices that no claim is on."""
    claimed = {it[1] for it in claims(stack)}
    return [name for name in stack.tables if "/dev/mapper/" + name not in claimed]


def tidiness(stack):
    """The last line of a check: each claim is compared with all before it."""
    before = []
    for later in claims(stack):
        for earlier in before:
            first = max(earlier[2], later[2])
            if earlier[1] == later[1] and first < min(earlier[3], later[3]) and (earlier[4], later[4]) not in SHARING:
                return "clash %s %d %s %s" % (later[1], first, earlier[0], later[0])
        before.append(later)
    return "tidy"


def depth(stack, to):
    """How deep a device is; 0 of a disk."""
    if not to.startswith("/"):
        return 0
    named = [it[1] for it in claims(stack) if it[0] == snapshots.device(to)]
    return 1 + max([depth(stack, it) for it in named], default=0)


def test_rows(tally, program):
    for source, disks, words in REFUSED:
        tally.same("the load of %r" % source, program.map(source, disks), 1, "", "dmremap: source: %s\n" % words)
    for source, depth, claims in CLAIMS:
        devices = len(source.splitlines())
        report = "devices %d\ndisks 3\ndepth %d\n%s\n" % (devices, depth, claims)
        tally.same("the check of %r" % source, run(program, ["check"], source), 0, report)
    for source, table, text in PRINTED:
        tally.same("the table of %r" % source, run(program, ["table"], source), 0, table)
        tally.same("the concise text of %r" % source, run(program, ["concise"], source), 0, text)
    for source, disks, requests, output in WRITES:
        tally.same("requests of %s" % source, snapshots.run(program, source, disks, requests, "--status"), 0, output)
    source, disks, requests, answers = REPLAYED
    tally.same("the replay of %s" % source, replays.run(program, source, disks, requests), 0, answers)


def long_stack(length, chunk):
    """An origin of this length with eight snapshots in chunks of this size, as concise text and disks."""
    source = "o,,,rw,0 %d snapshot-origin base" % length
    source += "".join(";s%d,,,rw,0 %d snapshot base c%d P %d" % (it, length, it, chunk) for it in range(SNAPSHOTS))
    disks = "base %d\n" % length + "".join("c%d %d\n" % (it, length + 2 * chunk) for it in range(SNAPSHOTS))
    return source, disks


def test_random(tally, program):
    """Small stacks at random."""
    for seed in range(ROUNDS):
        dice = random.Random(seed)
        snapshots.check_requests(tally, program, dice, small_stack(dice))
        replays.check_replay(tally, program, dice, *tidy_stack(dice))
        check_claims(tally, program, dice)


def test_long(tally, program):
    """Each chunk is copied to each snapshot and then written; the second time it is only written."""
    source, disks = long_stack(LENGTH, CHUNK)
    wanted = ""
    for at in range(0, LENGTH, CHUNK):
        wanted += "".join("1 copy base %d 1024 c%d %d\n" % (at, it, at + 2048) for it in range(SNAPSHOTS))
        wanted += "1 W base %d 1024\n" % at
    wanted += "2 W base 0 %d\n" % LENGTH
    wanted += "".join("s%d: 0 %d snapshot %d/%d 2048\n" % (it, LENGTH, LENGTH + 2048, LENGTH + 2048) for it in range(SNAPSHOTS))
    got = snapshots.run(program, source, disks, 2 * ("W o 0 %d\n" % LENGTH), "--status")
    tally.same("the longest request of an origin with %d snapshots" % SNAPSHOTS, got, 0, wanted)


def check_claims(tally, program, dice):
    stack = small_stack(dice) if dice.random() < 0.5 else tidy_stack(dice)[0]
    source = concise(stack)
    report = "devices %d\ndisks %d\ndepth %d\n%s\n" % (
        len(stack.tables), len(stack.disks), max(depth(stack, "/dev/mapper/" + it) for it in stack.tables), tidiness(stack))
    got = program.run(["check", "concise", program.file("concise", source), program.file("disks", disks_of(stack))])
    tally.same("the check of %s" % source, got, 0, report)


def run(program, words, source):
    """Runs a command that reads no request."""
    return program.run(words + ["table", program.file("table", source), program.file("disks", DISKS)])
