"""Mappings: where the kernel's reads and writes of single sectors landed, against what `map` and `read` answer."""

import random

import answers
from contents import check_read, content_of
from vectors import end_of, in_file

# How many random ranges of each run of sectors are asked for as one request, besides the whole run.
RANGES = 6
# How many sectors of a device that couldn't be opened for writing are asked for.
NOT_OPENED = 64
# The longest disk that is laid as an image.
LONGEST = 1 << 16
BELOW = "a read-only device below a writable one"


def jobs(folder):
    return in_file(folder, "mappings")


def compare(found, program, vector):
    """Asks for each sector that was read or written, alone, and for ranges of them, in each form of the text."""
    if not vector.has("reads.tsv"):
        found.aside["stacks that the kernel refused"] += 1
        return
    below = departing(vector)
    singles = [it for letter, section in (("R", "reads.tsv"), ("W", "writes.tsv")) for it in single(vector, letter, section)]
    asked = singles + ranges(singles, random.Random(vector.name))
    lines = ["%s %s %d %d" % (letter, device, sector, len(units)) for letter, device, sector, units in asked]
    for form in forms(vector):
        got = answers.of(program, ["map", form, vector.file(program, form + ".txt"), vector.file(program, "disks.txt")], lines)
        where = "%s as %s" % (vector.name, form)
        if not found.holds("texts of stacks", where, got.status == 0, got.message):
            continue
        for number, (letter, device, _, units) in enumerate(asked, 1):
            at, theirs, error = "%s, %s" % (where, lines[number - 1]), answers.pieces(units), ["error %d" % len(units)]
            if letter == "W" and device in below and theirs != error:
                found.departs(BELOW, at, got.lines[number], error, theirs)
            else:
                found.same("sectors" if len(units) == 1 else "ranges", at, got.lines[number], theirs)
    check_table(found, program, vector)
    check_bytes(found, program, vector)


def forms(vector):
    """The forms of the text to ask for; table text can't say that a device is read-only."""
    return ["concise"] if vector.read_only() else ["concise", "table"]


def single(vector, letter, section):
    """Each sector that was read or written: letter, device, sector, and its unit."""
    tables = vector.tables()
    for device, sector, landed in vector.rows(section):
        if sector == "-":
            for it in range(min(end_of(tables[device]), NOT_OPENED)):
                yield letter, device, it, [("error",)]
        else:
            yield letter, device, int(sector), [unit_of(letter, landed)]


def unit_of(letter, landed):
    words = landed.split(" ")
    return (words[0],) if words[0] in ("zero", "drop", "error") else (letter, words[0], int(words[1]))


def departing(vector):
    """The writable devices below which there is a read-only one."""
    tables, read_only = vector.tables(), vector.read_only()

    def lower(name):
        return {it[len("/dev/mapper/"):] for line in tables[name] for it in line if it.startswith("/dev/mapper/")}

    def reaches(name):
        return any(it in read_only or reaches(it) for it in lower(name))

    return {it for it in tables if it not in read_only and reaches(it)}


def runs_of(singles):
    """The runs of neighbouring sectors, each with the units of its sectors."""
    runs = []
    for letter, device, sector, units in singles:
        if runs and runs[-1][:2] == [letter, device] and runs[-1][2] + len(runs[-1][3]) == sector:
            runs[-1][3].extend(units)
        else:
            runs.append([letter, device, sector, list(units)])
    return runs


def ranges(singles, dice):
    """Some ranges of neighbouring sectors, whose pieces follow from those of each sector alone."""
    found = []
    for letter, device, start, units in runs_of(singles):
        found.append((letter, device, start, units))
        for _ in range(RANGES):
            first = dice.randrange(len(units))
            found.append((letter, device, start + first, units[first:dice.randint(first + 1, len(units))]))
    return found


def check_table(found, program, vector):
    """What `table` prints is what `dmsetup table` printed, with names in place of its numbers of devices."""
    names = dict(it.split(" ") for it in vector.lines("majmin.txt"))
    minors = {it.split(",")[2]: "/dev/mapper/" + it.split(",")[0] for it in vector.text("kernel-concise.txt").split(";")}

    def named(word):
        return names.get(word) or (":" in word and minors.get(word.split(":")[1])) or word

    theirs = [" ".join(it if it.endswith(":") else named(it) for it in line.split()) for line in vector.lines("kernel-table.txt")]
    got = answers.of(program, ["table", "concise", vector.file(program, "concise.txt"), vector.file(program, "disks.txt")])
    found.same("tables", vector.name, sorted(got.others), sorted(theirs))


def check_bytes(found, program, vector):
    """Reads the devices from images whose sectors tell their disks and numbers."""
    disks, paths = {it.split(" ")[0]: int(it.split(" ")[1]) for it in vector.lines("disks.txt")}, ""
    if max(disks.values()) > LONGEST:
        found.aside["stacks whose disks are too long for images"] += 1
        return
    for number, (disk, length) in enumerate(disks.items()):
        image = program.file("images/%d" % number, b"".join(content_of(("old", disk, it)) for it in range(length)))
        paths += "%s %s\n" % (disk, image)
    words = [*vector.stack(program), "--paths", program.file("images/paths", paths)]
    for _, device, start, units in runs_of(single(vector, "R", "reads.tsv")):
        values = [("old", *it[1:]) if it[0] == "R" else it for it in units]
        check_read(found, program, words, vector.name, device, start, values)
