"""The bytes of devices, `read`: those of a plain model of tables, one sector at a time; the sector at which it ends; the
sectors that are asked for; words, files and outputs that fail."""

import os
import random

import images
import snapshots
import store_lists
from harness import FULL_OUTPUT, run

SECTOR = 512
# The most sectors that the program reads at once.
BLOCK = 128
CHUNK = 4
# A device of each kind of line, over disks of 400 sectors and a store of 600, of which chunks are used.
DISKS = "sda 400\nsdb 400\nsdc 600\n"
STACKS = ["a: 0 400 linear sda 0\n",
    "a: 0 13 linear sda 7\na: 13 290 linear sdb 100\na: 303 5 zero\na: 308 12 linear sda 0\na: 320 200 zero\n"
    "a: 520 3 linear sdb 9\n", "a: 0 384 striped 2 8 sda 5 sdb 9\n", "a: 0 390 striped 3 1 sda 0 sdb 130 sda 260\n",
    "b: 0 300 striped 2 3 sda 1 sdb 2\nb: 300 20 zero\n"
    "a: 0 256 striped 4 16 /dev/mapper/b 0 sdb 200 /dev/mapper/b 100 /dev/mapper/b 250\n",
    "b: 0 390 linear sda 3\na: 0 390 snapshot-origin /dev/mapper/b\n", "a: 0 400 snapshot sda sdc P 4\n",
    "c: 0 580 linear sdc 20\na: 0 400 snapshot sda /dev/mapper/c P 4\nb: 0 300 linear /dev/mapper/a 70\n",
]


class Plain:
    """What devices hold, one sector at a time: by a table, the disks' bytes, and the old chunks that a snapshot took, or none
    where it is lost."""

    def __init__(self, table, disks, taken=()):
        tables, self.disks = {}, disks
        for line in table.splitlines():
            name, start, length, *words = line.replace(":", "").split()
            tables.setdefault(name, []).append((int(start), int(length), snapshots.target(*words)))
        self.stack = snapshots.Plain(tables, set(), {})
        self.stack.taken = dict.fromkeys(tables, list(taken))
        self.stack.lost = set() if taken else set(tables)

    def length(self, name):
        return self.stack.length("/dev/mapper/" + name)

    def sector(self, name, at):
        """The bytes of a sector, or in a word why it has none."""
        word, *places = self.stack.read("/dev/mapper/" + name, at)
        if not places:
            return bytes(SECTOR) if word == "zero" else word
        disk, at = places[0]
        content = self.disks.get(disk)
        if content is None:
            return "missing"
        return content[at * SECTOR:(at + 1) * SECTOR] if (at + 1) * SECTOR <= len(content) else "read"

    def read(self, name, start=0, count=None):
        """The status, the bytes and the message of a read."""
        end, found = self.length(name) if count is None else start + count, []
        for at in range(start, end):
            it = self.sector(name, at)
            if isinstance(it, str):
                return 7, b"".join(found), "dmremap: device: %s at %d\n" % (it, at)
            found.append(it)
        return 0, b"".join(found), ""


def noise(dice, sectors):
    return dice.getrandbits(8 * SECTOR * sectors).to_bytes(SECTOR * sectors, "little")


def store_of(dice, sectors, pairs, valid=1, start=0):
    """A disk with a store from a sector on: a header, the list of these pairs, and noise in all that is left."""
    content = bytearray(noise(dice, sectors))
    for at, part in store_lists.parts(CHUNK, pairs, (store_lists.MAGIC, valid, 1, CHUNK)):
        part = part.ljust(CHUNK * SECTOR, b"\0") if at else part
        content[start * SECTOR + at:start * SECTOR + at + len(part)] = part
    return bytes(content)


def some_pairs(dice, count, of):
    """So many chunks in random order, as a kernel takes them."""
    return [(old, store_lists.place(CHUNK, number)) for number, old in enumerate(dice.sample(range(of), count))]


def read(program, table, disks, contents, device, *more, **how):
    """Reads a device whose disks hold this."""
    rows = "".join("%s %s\n" % (name, content if isinstance(content, str) else program.file(name + ".img", content))
                   for name, content in contents.items())
    words = ["read", "table", program.file("table", table), program.file("disks", disks), device, "--paths",
             program.file("paths", rows), *more]
    return program.run(words, **how)


def machine(seed):
    """Disks with noise, of which the last has a store from sector 20 on that is also one from its start."""
    dice = random.Random(seed)
    pairs = some_pairs(dice, 60, 100)
    return {"sda": noise(dice, 400), "sdb": noise(dice, 400)}, pairs, dice


def test_bytes(tally, program):
    contents, pairs, dice = machine(7)
    for table in STACKS:
        contents["sdc"] = store_of(dice, 600, pairs, start=20 if "sdc 20" in table else 0)
        plain = Plain(table, contents, [old for old, _ in pairs])
        for name in plain.stack.tables:
            length = plain.length(name)
            tally.same("%s of %r" % (name, table[:60]), read(program, table, DISKS, contents, name), *plain.read(name))
            edges = [(0, 1), (length - 1, 1), (1, length - 1), (0, 0), (length, 0), (BLOCK - 1, 2), (BLOCK, 1), (0, BLOCK)]
            for start, count in [*edges, (3, BLOCK + 1), *(sorted_pair(dice, length) for _ in range(6))]:
                got = read(program, table, DISKS, contents, name, "--from", str(start), "--count", str(count))
                told = "%d of %s from %d on, of %r" % (count, name, start, table[:60])
                tally.same(told, got, *plain.read(name, start, count))
            got = read(program, table, DISKS, contents, name, "--from=100")
            tally.same("the rest of %s, of %r" % (name, table[:60]), got, *plain.read(name, 100, length - 100))


def sorted_pair(dice, length):
    first, end = sorted(dice.sample(range(length + 1), 2))
    return first, end - first


def test_random(tally, program):
    """Random lines over random lines."""
    for seed in range(60):
        contents, pairs, dice = machine(seed)
        contents["sdc"] = store_of(dice, 600, pairs)
        lower, upper = lines(dice, ["sda", "sdb"], 400), []
        table = "".join("b: %s\n" % it for it in lower)
        table += "s: 0 400 snapshot %s sdc P %d\n" % (dice.choice(["sda", "sdb"]), CHUNK)
        upper = lines(dice, ["sda", "/dev/mapper/b", "/dev/mapper/s"], 300)
        table += "".join("a: %s\n" % it for it in upper)
        if dice.random() < 0.3:
            del contents[dice.choice(["sda", "sdb"])]
        elif dice.random() < 0.3:
            contents["sdb"] = contents["sdb"][:dice.randrange(400 * SECTOR)]
        plain = Plain(table, contents, [old for old, _ in pairs])
        for name in "abs":
            got = read(program, table, DISKS, contents, name)
            tally.same("%s of the machine %d" % (name, seed), got, *plain.read(name))
            start, count = sorted_pair(dice, plain.length(name))
            got = read(program, table, DISKS, contents, name, "--from", str(start), "--count", str(count))
            tally.same("a part of %s of the machine %d" % (name, seed), got, *plain.read(name, start, count))


def lines(dice, names, room):
    """Lines of a device, each on one of these names, which have as many sectors."""
    made, start = [], 0
    while start < 368 or not made:
        kind = dice.choice(["linear"] * 5 + ["striped"] * 2 + ["zero"] * 2 + ["error"] * (dice.random() < 0.05))
        length = min(368 - start, dice.randrange(1, 150))
        words = ""
        if kind == "linear":
            words = " %s %d" % (dice.choice(names), dice.randrange(room - length + 1))
        elif kind == "striped":
            count, chunk = dice.randrange(1, 4), dice.randrange(1, 9)
            if length < count * chunk:
                continue
            length -= length % (count * chunk)
            legs = ["%s %d" % (dice.choice(names), dice.randrange(room - length // count + 1)) for _ in range(count)]
            words = " %d %d %s" % (count, chunk, " ".join(legs))
        made.append("%d %d %s%s" % (start, length, kind, words))
        start += length
    return made


def test_ends(tally, program):
    """The first sector without bytes, at and beside the ends of blocks: all before it comes out."""
    contents, pairs, dice = machine(3)
    contents["sdc"] = store_of(dice, 600, pairs)
    for at in (0, 1, BLOCK - 1, BLOCK, BLOCK + 1, 2 * BLOCK - 1, 2 * BLOCK, 299):
        for name, line in (("error", "error"), ("missing", "linear none 9")):
            before = "a: 0 %d linear sda 0\n" % at * (at > 0)
            table = before + "a: %d 1 %s\na: %d %d linear sdb 0\n" % (at, line, at + 1, 300 - at)
            disks, plain = DISKS + "none 10\n", Plain(table, contents)
            tally.same("%s at %d" % (name, at), read(program, table, disks, contents, "a"), *plain.read("a"))
            got = read(program, table, disks, contents, "a", "--from", str(at + 1))
            tally.same("what follows %s at %d" % (name, at), got, *plain.read("a", at + 1, 300 - at))
            got = read(program, table, disks, contents, "a", "--count", str(at))
            tally.same("what comes before %s at %d" % (name, at), got, *plain.read("a", 0, at))
        table, cut = "a: 0 400 linear sda 0\n", {"sda": contents["sda"][:at * SECTOR + 511]}
        got = read(program, table, DISKS, cut, "a")
        tally.same("an image that ends in sector %d" % at, got, *Plain(table, cut).read("a"))
    table = "a: 0 400 snapshot sda sdc P 4\nb: 0 390 linear sdb 0\nb: 390 8 linear /dev/mapper/a 0\n"
    contents["sdc"] = store_of(dice, 600, pairs, valid=0)
    for name in "ab":
        got = read(program, table, DISKS, contents, name)
        tally.same("%s, with a lost snapshot" % name, got, *Plain(table, contents).read(name))


def test_refused(tally, program):
    contents, pairs, dice = machine(5)
    contents["sdc"] = store_of(dice, 600, pairs)
    table, past = STACKS[6], "dmremap: device: range\n"
    most = "18446744073709551615"
    for more in (["--from", "401"], ["--count", "401"], ["--from", "400", "--count", "1"], ["--from", "1", "--count", "400"],
                 ["--from", most], ["--count", most], ["--from", most, "--count", "1"], ["--from", "1", "--count", most]):
        tally.same("sectors %s" % more, read(program, table, DISKS, contents, "a", *more), 1, "", past)
    tally.same("from the end on", read(program, table, DISKS, contents, "a", "--from", "400"))
    for name in ("b", "sda", "A", "", "/dev/mapper/a", "a" * 128):
        got = read(program, table, DISKS, contents, name)
        tally.same("no device %r" % name, got, 1, "", "dmremap: device: unknown\n")
    bad = dict(contents, sdc=b"X" + contents["sdc"])
    tally.same("a store that is refused", read(program, table, DISKS, bad, "a"), 1, "", "dmremap: store a: magic\n")
    # Which of several is told: files, then the device, then its sectors, then stores.
    rows = [("a: 0 8 linear", DISKS, "none", "dmremap: source: syntax at 1\n"),
            (table, "sda\n", "none", "dmremap: disks: syntax at 1\n"),
            (table, DISKS, "none", "dmremap: device: unknown\n"), (table, DISKS, "a", past)]
    for source, disks, name, message in rows:
        got = read(program, source, disks, bad, name, "--from", "401")
        tally.same("before what comes later: %r" % message, got, 1, "", message)
    got = read(program, table, DISKS, dict(bad, none="x"), "none")
    tally.same("a disk of PATHS before the device", got, 1, "", "dmremap: paths: unknown at 4\n")


WRONG = [
    ("read table a b c --paths", "a value is required for '--paths <PATHS>'"),
    ("read table a b c --paths d --from", "a value is required for '--from <SECTOR>'"),
    ("read table a b c --paths d --from x", "invalid value 'x' for '--from <SECTOR>'"),
    ("read table a b c --paths d --from -1", "unexpected argument '-1' found"),
    ("read table a b c --paths d --count 18446744073709551616", "18446744073709551616' for '--count <SECTORS>'"),
    ("read table a b c --paths d --count=1.5", "invalid value '1.5' for '--count <SECTORS>'"),
    ("read table a b c --paths d --count 1 --count 2", "'--count <SECTORS>' cannot be used multiple times"),
    ("--from 1 read table a b c --paths d", "unexpected argument '--from' found"),
    ("map table a b --from 1", "unexpected argument '--from' found"),
    ("read", "<FORMAT> <FILE>"), ("read table", "<FILE>"), ("read tabel a b c", "a similar value exists: 'table'"),
    ("read table a b c d --paths e", "unexpected argument 'd' found"),
    ("read table a b --status", "unexpected argument '--status' found"),
    ("read table - b c --paths d", "unexpected argument '-' found"), *[(line, "dmremap: words: disks\n") for line in (
        "read table a", "read table a b", "read table a b --paths c", "read table a b c", "read concise a b c",
        "read lvm a", "read lvm a b", "read lvm a --paths b", "read lvm a b c --paths d", "read images a",
        "read images a b c", "read images a b --paths c")],
]


def test_words(tally, program):
    for line, part in WRONG:
        got = program.run(line.split())
        if part.startswith("dmremap"):
            tally.same("the words %r" % line, got, 2, "", part)
        else:
            tally.tells("the words %r" % line, got, 2, "", part)
    contents, pairs, dice = machine(9)
    table, disks = "a: 0 8 linear sda 5\n", "sda 400\n"
    source, listed, paths = [program.file(*it) for it in (("table", table), ("disks", disks), ("paths", "sda sda.img\n"))]
    program.file("sda.img", contents["sda"])
    concise = program.file("concise", "a,,,rw,0 8 linear sda 5")
    wanted = contents["sda"][5 * SECTOR:13 * SECTOR]
    whole = ["table", source, listed, "a", "--paths", paths]
    for words in (whole, ["table", "--paths", paths, source, listed, "a"], ["concise", concise, listed, "a", "--paths", paths],
                  ["table", source, listed, "--paths=" + paths, "--", "a"], [*whole, "--from", "0", "--count=8"],
                  [*whole, "--from=+0", "--count=008"]):
        tally.same("the words %s" % words, program.run(["read", *words], folder=program.folder), 0, wanted)


def test_files(tally, program):
    """What can't be opened or read as an image, and outputs that are closed, full or have no reader."""
    contents, pairs, dice = machine(2)
    table = "a: 0 3 zero\na: 3 300 linear sda 0\n"
    for name, path, how in images.unreadable(program, contents["sda"]):
        got = read(program, table, "sda 400\n", {"sda": path}, "a", folder=program.folder, **how)
        tally.same("%s as an image" % name, got, 7, bytes(3 * SECTOR), "dmremap: device: read at 3\n")
    part = program.file("part", bytes(1048576) + contents["sda"]) + "?offset=1048576&length=%d"
    for sectors in 300, 299, 128, 1:
        got = read(program, table, "sda 400\n", {"sda": part % (sectors * SECTOR)}, "a")
        fault = "dmremap: device: read at %d\n" % (3 + sectors) if sectors < 300 else ""
        tally.same("a part of %d sectors" % sectors, got, 7 if fault else 0, bytes(3 * SECTOR) + contents["sda"][:sectors * SECTOR], fault)
    fault = "dmremap: output: write\n"
    for name, more in (("all", []), ("a sector", ["--count", "1"]), ("none", ["--count", "0"])):
        got = read(program, table, "sda 400\n", {"sda": contents["sda"]}, "a", *more, stdout=FULL_OUTPUT)
        tally.same("a full output, of %s" % name, got, *((0, "", "") if name == "none" else (5, "", fault)))
    got = read(program, "a: 0 3 error\n", "sda 400\n", {"sda": contents["sda"]}, "a", stdout=FULL_OUTPUT)
    tally.same("a full output where nothing is written", got, 7, "", "dmremap: device: error at 0\n")
    here, there = os.pipe()
    os.close(here)
    with os.fdopen(there, "wb") as out:
        got = read(program, table, "sda 400\n", {"sda": contents["sda"]}, "a", stdout=out)
    tally.same("a pipe without a reader", got, 5, "", fault)
    words = "%s read table table disks a --paths paths >&-" % program.path
    tally.tells("a closed output", run(["sh", "-c", words], folder=program.folder), 5, "", fault)


def test_images(tally, program):
    """A group in images, and the used store of its snapshot there."""
    dice = random.Random(1)
    data = images.DATA * SECTOR
    pair = [(name, it[:data] + noise(dice, (len(it) - data) // SECTOR)) for name, it in images.PAIR]
    home = pair[0][1][2072 * SECTOR:2112 * SECTOR] + pair[1][1][2048 * SECTOR:2064 * SECTOR]
    tally.same("two disks", images.mapped(program, pair, "", "vg0-home", command="read"), 0, home)
    got = images.mapped(program, pair, "", "vg0-home", "--from", "39", "--count=2", command="read")
    tally.same("a part of them", got, 0, home[39 * SECTOR:41 * SECTOR])
    got = images.mapped(program, pair[:1], "", "vg0-home", command="read")
    tally.same("the first alone", got, 7, home[:40 * SECTOR], "dmremap: device: missing at 40\n")
    got = images.mapped(program, pair[1:], "", "vg0-home", command="read")
    tally.same("the second alone", got, 7, "", "dmremap: device: missing at 0\n")
    got = images.mapped(program, pair, "", "home", command="read")
    tally.same("no volume", got, 1, "", "dmremap: device: unknown\n")
    got = images.mapped(program, pair, "", "vg0-home", "--from=57", command="read")
    tally.same("past the end", got, 1, "", "dmremap: device: range\n")
    for name, list_of, message in (("no label", [("sda", bytes(8192))], images.told("sda", "label")),
                                   ("a text that is refused", [("sda", images.disk("a", images.area(images.LOST)))],
                                    "dmremap: source: extents at 27\n")):
        tally.same(name, images.mapped(program, list_of, "", "none", command="read"), 1, "", message)
    known = images.disk("a", images.area(images.text("vg0", "g", 4, "ab", *images.SNAPSHOT)))
    start, size = images.DATA + 8 * images.EXTENT, images.EXTENT
    used = images.changed(known, images.DATA * SECTOR, noise(dice, 16 * size))
    used = images.changed(used, start * SECTOR, store_lists.store([(1, 2)], chunks=2))
    origin = used[images.DATA * SECTOR:(images.DATA + 16) * SECTOR]
    snap = origin[:8 * SECTOR] + used[(start + 16) * SECTOR:(start + 24) * SECTOR]
    for device, content in (("vg0-snap", snap), ("vg0-base", origin)):
        tally.same(device, images.mapped(program, [("sda", used)], "", device, command="read"), 0, content)
    lost = images.changed(used, start * SECTOR, store_lists.store([], chunks=1, valid=0)[:16])
    got = images.mapped(program, [("sda", lost)], "", "vg0-snap", command="read")
    tally.same("a lost snapshot", got, 7, "", "dmremap: device: error at 0\n")
