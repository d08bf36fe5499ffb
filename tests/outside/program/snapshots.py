"""Requests of small stacks of snapshots against the rules of FORMATS and MAPPING, sector by sector.

`Plain` follows the rules in the plainest way: one sector after the other, each in the state that the
one before left. The stacks and requests are made from fixed seeds, so every run tries the same ones.
"""

import random

import store_lists

ROUNDS = 200
REQUESTS = 30
LONG_STORE = "s,,,,0 8 snapshot base cow P 1024"
# The header, and 4,096 areas, each of which is for 1,024 chunks of 32 sectors, and the next area: all
# 4,194,304 places that there can be.
ALL_CHUNKS = 1 + 4096 + 4194304 + 1

# The lines of a write of the chunks of a first area of numbers, of one sector each.
AREA = "".join("1 copy base %d 1 cow %d\n1 W cow %d 1\n" % (it, it + 2, it + 2) for it in range(32))

# FILE as concise text, DISKS, the requests and the output.
ROWS = [
    # A write to a read-only snapshot takes nothing, and leaves it valid.
    ("s,,,ro,0 8 snapshot base cow P 8", "base 8\ncow 32\n", "W s 0 1\nR s 0 8\n", "1 error 1\n2 R base 0 8\n"),
    ("s,,,ro,0 8 snapshot base cow P 8;t,,,,0 8 linear /dev/mapper/s 0", "base 8\ncow 32\n",
     "W t 0 1\nR t 0 8\n", "1 error 1\n2 R base 0 8\n"),
    ("s,,,,0 8 snapshot base cow P 32", "base 8\ncow %d\n" % (32 * ALL_CHUNKS), "W s 0 1\n",
     "1 copy base 0 8 cow 64\n1 W cow 64 1\n"),
    # The second area of numbers is passed over.
    ("s,,,,0 64 snapshot base cow P 1", "base 64\ncow 64\n", "W s 0 33\nR s 30 4\n",
     AREA + "1 copy base 32 1 cow 35\n1 W cow 35 1\n2 R cow 32 2\n2 R cow 35 1\n2 R base 33 1\n"),
    # A store that is used up.
    ("s,,,,0 64 snapshot base cow P 1", "base 64\ncow 34\n", "W s 0 32\nR s 0 33\n",
     AREA + "2 R cow 2 32\n2 R base 32 1\n"),
    # A snapshot that is lost when its origin is written is served no longer, and its origin is written all the same.
    ("s,,,,0 16 snapshot base cow P 8;o,,,,0 16 snapshot-origin base", "base 16\ncow 24\n",
     "W o 0 1\nW o 8 1\nW o 0 16\nR s 0 16\n",
     "1 copy base 0 8 cow 16\n1 W base 0 1\n2 W base 8 1\n3 W base 0 16\n4 error 16\n"),
    # A chunk that goes on in the origin, and not in the store, and the other way round.
    ("c,,,,0 20 linear cow 0,20 12 linear cow 40;s,,,,0 8 snapshot base /dev/mapper/c P 8", "base 8\ncow 64\n",
     "W s 3 1\nR s 0 8\n",
     "1 copy base 0 4 cow 16\n1 copy base 4 4 cow 40\n1 W cow 19 1\n2 R cow 16 4\n2 R cow 40 4\n"),
    ("a,,,,0 4 linear base 0,4 4 linear base 12;s,,,,0 8 snapshot /dev/mapper/a cow P 8", "base 16\ncow 64\n", "W s 3 1\n",
     "1 copy base 0 4 cow 16\n1 copy base 12 4 cow 20\n1 W cow 19 1\n"),
    # The last sector of a chunk alone can't be read.
    ("a,,,,0 7 linear base 0,7 1 error;s,,,,0 8 snapshot /dev/mapper/a cow P 8", "base 16\ncow 64\n", "W s 0 1\nR s 0 8\n",
     "1 error 1\n2 error 8\n"),
]

# FILE as concise text, DISKS, and the message.
REFUSED = [
    ("c,,,ro,0 32 linear cow 0;s,,,,0 8 snapshot base /dev/mapper/c P 8", "base 8\ncow 32\n", "source: store at 2"),
    (LONG_STORE, "base 8\ncow 1125899906842624\n", "source: limit at 1"),
    ("s,,,,0 8 snapshot base cow P 32", "base 8\ncow %d\n" % (32 * (ALL_CHUNKS + 1)), "source: limit at 1"),
]


# DISKS, the length of one write from sector 0 on to a snapshot in chunks of one sector, and its status line.
STATUS = [
    ("base 64\ncow 64\n", 0, "s: 0 64 snapshot 2/64 2\n"),
    ("base 64\ncow 64\n", 31, "s: 0 64 snapshot 33/64 2\n"),
    ("base 64\ncow 64\n", 32, "s: 0 64 snapshot 35/64 3\n"),
    ("base 64\ncow 64\n", 33, "s: 0 64 snapshot 36/64 3\n"),
    ("base 64\ncow 34\n", 32, "s: 0 64 snapshot 35/34 3\n"),
    ("base 64\ncow 33\n", 32, "s: 0 64 snapshot Invalid\n"),
]


class Plain:
    """A stack and the state of its snapshots. A table is (start, length, target words) for each line."""

    def __init__(self, tables, read_only, disks):
        self.tables, self.read_only, self.disks = tables, read_only, disks
        self.taken = {name: [] for name in tables}
        self.lost = set()

    def length(self, to):
        if not to.startswith("/"):
            return self.disks[to]
        start, length, _ = self.tables[device(to)][-1]
        return start + length

    def below(self, name, sector):
        """What the line of a sector says of it: where it goes on, or a word, or a snapshot's words."""
        start, _, words = next(it for it in self.tables[name] if it[0] <= sector < it[0] + it[1])
        at = sector - start
        if words[0] == "linear":
            return words[1], words[2] + at
        if words[0] == "striped":
            chunk, columns = words[1], words[2:]
            to, offset = columns[at // chunk % len(columns)]
            return to, offset + at // chunk // len(columns) * chunk + at % chunk
        return words

    def kept(self, words, number, sector):
        _, _, store, kind, chunk = words
        return store, place(kind, chunk, number) * chunk + sector % chunk

    def has_place(self, words, number):
        _, _, store, kind, chunk = words
        return (place(kind, chunk, number) + 1) * chunk <= self.length(store)

    def read(self, to, sector):
        if not to.startswith("/"):
            return ("R", (to, sector))
        name = device(to)
        there = self.below(name, sector)
        if there[0] in ("zero", "error"):
            return there
        if there[0] == "snapshot-origin":
            return self.read(there[1], sector)
        if there[0] != "snapshot":
            return self.read(*there)
        if name in self.lost:
            return ("error",)
        chunk = sector // there[4]
        if chunk in self.taken[name]:
            return self.read(*self.kept(there, self.taken[name].index(chunk), sector))
        return self.read(there[1], sector)

    def write(self, to, sector):
        """The units of a write, in their order."""
        if not to.startswith("/"):
            return [("W", (to, sector))]
        name = device(to)
        if name in self.read_only:
            return [("error",)]
        there = self.below(name, sector)
        if there[0] == "zero":
            return [("drop",)]
        if there[0] == "error":
            return [("error",)]
        if there[0] == "snapshot":
            return self.write_snapshot(name, there, sector)
        if there[0] == "snapshot-origin":
            return self.write_origin(there[1], sector)
        return self.write(*there)

    def write_snapshot(self, name, words, sector):
        chunk, taken = sector // words[4], self.taken[name]
        if words[3] == "K" and name not in self.lost and chunk not in taken and not self.has_place(words, len(taken)):
            return [("error",)]
        units = self.ready(name, words, sector)
        if name in self.lost:
            return [("error",)]
        number = taken.index(chunk)
        return units + [("W", self.read(*self.kept(words, number, sector))[1])]

    def write_origin(self, to, sector):
        units = []
        for name, table in self.tables.items():
            words = table[0][2]
            if words[:2] == ("snapshot", to):
                units += self.ready(name, words, sector)
        return units + self.write(to, sector)

    def ready(self, name, words, sector):
        """What is copied before a write of a sector: the snapshot takes its chunk, or it is lost."""
        origin, size = words[1], words[4]
        chunk, taken, units = sector // size, self.taken[name], []
        if name in self.lost or chunk in taken:
            return []
        sectors = range(chunk * size, min((chunk + 1) * size, self.length("/dev/mapper/" + name)))
        read = [self.read(origin, it) for it in sectors]
        number = len(taken)
        if not self.has_place(words, number) or ("error",) in read:
            self.lost.add(name)
            return []
        for it, unit in zip(sectors, read):
            _, home = self.read(*self.kept(words, number, it))
            units.append(("copy", unit[1], home) if unit[0] == "R" else ("fill", home))
        taken.append(chunk)
        return units

    def request(self, op, name, start, length):
        if start + length > self.length("/dev/mapper/" + name):
            return [("error",)] * length
        units = []
        for sector in range(start, start + length):
            to = "/dev/mapper/" + name
            units += [self.read(to, sector)] if op == "R" else self.write(to, sector)
        return units

    def status(self):
        """The status lines of the snapshots."""
        shown = ""
        for name, table in self.tables.items():
            words = table[0][2]
            if words[0] == "snapshot":
                _, _, store, kind, size = words
                used = place(kind, size, len(self.taken[name])) * size
                metadata = used - len(self.taken[name]) * size
                used = "%d/%d %d" % (used, self.length(store), metadata)
                shown += "%s: 0 %d snapshot %s\n" % (name, table[0][1], "Invalid" if name in self.lost else used)
        return shown


def place(kind, chunk, number):
    """Where in a store the chunk of a number is kept, in chunks."""
    return number if kind == "N" else store_lists.place(chunk, number)


def device(to):
    return to[len("/dev/mapper/"):]


def lines(number, units):
    """The lines of units, the fewest that there can be."""
    pieces = []
    for word, *places in units:
        if pieces:
            last, first, length = pieces[-1]
            if last == word and [(disk, sector + length) for disk, sector in first] == places:
                pieces[-1] = (last, first, length + 1)
                continue
        pieces.append((word, places, 1))
    return "".join("%d %s\n" % (number, text(*it)) for it in pieces)


def text(word, places, length):
    shown = ["%s %d" % it for it in places]
    if word == "fill":
        return "fill %d %s" % (length, shown[0])
    return " ".join([word] + shown[:1] + [str(length)] + shown[1:])


def concise(stack):
    """The concise text of a stack."""
    devices = []
    for name, table in stack.tables.items():
        rows = []
        for start, length, words in table:
            if words[0] == "linear":
                said = "linear %s %d" % words[1:]
            elif words[0] == "striped":
                said = "striped %d %d %s" % (len(words) - 2, words[1], " ".join("%s %d" % it for it in words[2:]))
            elif words[0] == "snapshot":
                said = "snapshot %s %s %s %d" % words[1:]
            elif words[0] == "snapshot-origin":
                said = "snapshot-origin %s" % words[1]
            else:
                said = words[0]
            rows.append("%d %d %s" % (start, length, said))
        devices.append("%s,,,%s,%s" % (name, "ro" if name in stack.read_only else "rw", ",".join(rows)))
    return ";".join(devices)


def plain(source, disks):
    """The stack of a concise text and a disk list, of which nothing is checked."""
    tables, read_only = {}, set()
    for said in source.split(";"):
        name, _, _, flags, *rows = said.split(",")
        tables[name] = [(int(start), int(length), target(*words))
                        for start, length, *words in (row.split() for row in rows)]
        if flags == "ro":
            read_only.add(name)
    lengths = (line.split() for line in disks.splitlines())
    return Plain(tables, read_only, {name: int(length) for name, length in lengths})


def target(kind, *words):
    """The target words of a table from those of a line."""
    if kind == "linear":
        return kind, words[0], int(words[1])
    if kind == "striped":
        return (kind, int(words[1])) + tuple((to, int(offset)) for to, offset in zip(words[2::2], words[3::2]))
    if kind == "snapshot":
        return kind, words[0], words[1], words[2], int(words[3])
    return (kind, *words)


def table_over(dice, length, below, targets):
    """A table of some lines that lie on what is below, which is long enough."""
    if length % 4 == 0 and dice.random() < 0.3:
        chunk, half = dice.choice([1, 2]), length // 2
        return [(0, length, ("striped", chunk) + tuple((dice.choice(below), dice.randrange(3)) for _ in range(2)))] \
            if half % chunk == 0 else [(0, length, ("linear", dice.choice(below), 0))]
    table, start = [], 0
    while start < length:
        part = min(length - start, dice.randint(3, 12))
        kind = dice.choice(targets)
        words = ("linear", dice.choice(below), dice.randrange(4)) if kind == "linear" else (kind,)
        table.append((start, part, words))
        start += part
    return table


def small_stack(dice):
    """A stack of origins, stores and snapshots, some over others, and a device over one of them."""
    disks = {name: dice.randint(40, 60) for name in ("sda", "sdb", "sdc")}
    tables, read_only = {}, set()
    below = list(disks)
    length = dice.choice([12, 16, 17, 20])
    tables["o"] = table_over(dice, length, below, ["linear", "linear", "linear", "zero", "error"])
    origins = ["/dev/mapper/o"]
    for name in ("s", "t", "u")[:dice.randint(1, 3)]:
        store = name + "c"
        tables[store] = table_over(dice, dice.choice([8, 16, 24, 36]), below, ["linear"])
        origin, kind, size = dice.choice(origins), dice.choice("PNK"), dice.choice([1, 2, 4, 8])
        tables[name] = [(0, length, ("snapshot", origin, "/dev/mapper/" + store, kind, size))]
        origins.append("/dev/mapper/" + name)
        if dice.random() < 0.1:
            read_only.add(name)
    tables["v"] = [(0, length - 3, ("linear", origins[-1], 2))]
    return Plain(tables, read_only, disks)


def small_requests(dice, stack, names=()):
    """Requests of these devices, or of all that are no stores, a few of which pass an end."""
    asked = names or [name for name in stack.tables if not name.endswith("c")]
    for _ in range(REQUESTS):
        name = dice.choice(asked)
        start = dice.randrange(stack.length("/dev/mapper/" + name))
        yield dice.choice("RWW"), name, start, dice.randint(1, 9)


def test_rows(tally, program):
    for source, disks, requests, output in ROWS:
        tally.same("requests of %s" % source, run(program, source, disks, requests), 0, output)
    for source, disks, message in REFUSED:
        tally.same("the load of %s" % source, run(program, source, disks, ""), 1, "", "dmremap: %s\n" % message)


def test_random(tally, program):
    """Small stacks at random."""
    for seed in range(ROUNDS):
        dice = random.Random(seed)
        check_requests(tally, program, dice, small_stack(dice))


def check_requests(tally, program, dice, stack):
    """Requests at random, and then all that each device has."""
    source, given, wanted = concise(stack), "", ""
    whole = [("R", name, 0, stack.length("/dev/mapper/" + name)) for name in stack.tables]
    for number, request in enumerate([*small_requests(dice, stack), *whole], 1):
        given += "%s %s %d %d\n" % request
        wanted += lines(number, stack.request(*request))
    got = run(program, source, disks_of(stack), given, "--status")
    tally.same("the small stack of %s" % source, got, 0, wanted + stack.status())


def disks_of(stack):
    return "".join("%s %d\n" % it for it in stack.disks.items())


def test_status(tally, program):
    for disks, length, line in STATUS:
        length_of = dict(it.split() for it in disks.splitlines())
        stack = Plain({"s": [(0, 64, ("snapshot", "base", "cow", "P", 1))]}, set(), {it: int(length_of[it]) for it in length_of})
        given, wanted = "", ""
        if length > 0:
            given, wanted = "W s 0 %d\n" % length, lines(1, stack.request("W", "s", 0, length))
        got = run(program, concise(stack), disks, given, "--status")
        tally.same("the status line after %d chunks, of %r" % (length, disks), got, 0, wanted + line)


def run(program, source, disks, requests, *flags):
    words = ["map", "concise", program.file("concise", source), program.file("disks", disks), *flags]
    return program.run(words, given=requests)
