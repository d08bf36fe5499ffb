"""What the commands make of answers."""

import os
import random

from tool_calls import call, check_rows, good, lost, read

# What is made of answers.

MEMORY, SMALL = 200 << 20, 40 << 20
ANSWERS = "1 R sda 0 3\n2 copy sda 8 8 sdb 16\n2 W sdb 16 1\n3 zero 4\n4 fill 2 sdb 3\n5 drop 1\n6 error 9\ns: 0 8 snapshot 24/64 16\n"
LONG = 18446744073709551615
REPLAYED = "1 wrote 1 18 1"
FIGURES = ("total - drop 1 1 512\ntotal - error 1 9 4608\ntotal - zero 1 4 2048\ntotal sda R 2 11 5632\ntotal sdb W 3 11 5632\n"
           f"length sda R 2 1\nlength sda R 8 1\nlength sdb W 1 1\nlength sdb W 2 1\nlength sdb W 8 1\nsplit 1 2\n")
# The lower requests that make the same of the disks, otherwise cut and in another order.
LOWER = "W sdb 3 2\nR sda 8 4\nR sda 12 4\nR sda 0 3\nW sdb 16 8\nW sdb 16 1\n"
OTHER = "it isn't what was answered: %d sectors were answered only, and %d are only in it; the lines that are printed say which"


def some(total, length, *rest):
    """The figures of answers that read `a` alone, in one request."""
    return f"total a R {total}\nlength a R {length}\n" + "".join(it + "\n" for it in rest)


ANSWERED = [good("report", [], [ANSWERS], FIGURES),
    good("report", [], ["1 R a 0 1048576\n" * 3], some("3 3145728 1610612736", "1048576 3", "seek a 1048576", "split 3 1")),
    good("report", [], [f"1 R a 0 {LONG}\n" * 3], some("3 55340232221128654845 28334198897217871280640", f"{1 << 63} 3", f"seek a {LONG}", "split 3 1")),
    good("report", [], [""], "", "no piece came\n"),
    good("report", [], ["1 R a 0 8\n" * 81 + "1 R a 0 16\n" * 2 + "1 R a 0 15\n"],
         some("84 695 355840", "8 82", "length a R 16 2", "seek a 8", "split 84 1")),
    good("report", [], [ANSWERS + "7 R a 0 1\n7 R b 0 1\n7 W a 0 1\n"],
         FIGURES.replace("total sda", "total a R 1 1 512\ntotal a W 1 1 512\ntotal b R 1 1 512\ntotal sda").replace(
             "length sda R 2", f"length a R 1 1\nlength a W 1 1\nlength b R 1 1\nlength sda R 2").replace("split 1 2\n", "seek a 1\nsplit 1 2\nsplit 3 1\n")),
    lost("report", [], ["2 R a 0 1\n1 R a 0 1\n"], "1:2: out of order, give the answers as `dmremap map` prints them: 1 R a 0 1"),
    lost("report", [], ["1 zero 1\n3 copy a 0 1 b 0\n2 error 1\n"], "1:3: out of order, give the answers as `dmremap map` prints them: 2 error 1"),
    good("report", [], ["1 R a 0 8\n2 R b 0 1\n3 W a 108 8\n4 R a 16 1\n5 copy a 900 1 a 9\n"],
         f"total a R 3 10 5120\ntotal a W 2 9 4608\ntotal b R 1 1 512\nlength a R 1 2\nlength a R 8 1\nlength a W 1 1\n"
         f"length a W 8 1\nlength b R 1 1\nseek a 100\nsplit 1 4\n"),
    good("report", [], [b"1 R \xffa\xe4 0 8\n"], b"total \xffa\xe4 R 1 8 4096\nlength \xffa\xe4 R 8 1\nsplit 1 1\n"),
    # What a trace of the disks has.
    good("report", ["--compare", "2"], [ANSWERS, LOWER], FIGURES),
    lost("report", ["--compare", "2"], [ANSWERS, LOWER + "W sdb 0 4\n"], "2: " + OTHER % (0, 4), FIGURES + "unanswered W sdb 0 4 1\n"),
    lost("report", ["--compare", "2"], [ANSWERS, LOWER.replace("R sda 0 3\n", "R sda 1 3\n")], "2: " + OTHER % (1, 1),
         FIGURES + "untraced R sda 0 1 1\nunanswered R sda 3 1 1\n"),
    lost("report", ["--compare", "2"], ["1 W a 0 4\n2 W a 0 4\n3 W a 2 2\n", "W a 0 4\nR a 0 4\n"], "2: " + OTHER % (6, 4),
         f"total a W 3 10 5120\nlength a W 2 1\nlength a W 4 2\nseek a 3\nsplit 1 3\nunanswered R a 0 4 1\nuntraced W a 0 2 1\nuntraced W a 2 2 2\n"),
    lost("report", ["--compare", "2"], ["1 W a 0 4\n", "W a 0\n"], "2:1: give R or W, a disk, a sector and how many, and not: W a 0"),
    lost("report", ["--compare", "2"], ["1 W a 0 4\n", "W a 0 0\n"], "2:1: no sectors, leave such lines out: W a 0 0"),
    lost("report", ["--compare", "2"], ["".join("%d W a %d 1\n" % (it, 3 * it) for it in range(1, 1 << 19)) + f"{1 << 19} W a 0 2\n{1 << 19} W a 9999999 1\n", "R a 0 9999999\n"],
         "2: it differs from the answers at more than 1048576 places at once: compare traces of the same minutes, or shorter ones"),
]
# What is no piece.
NO_PIECES = [REPLAYED, "", "1 R a 0", "1 R a 0 0", "0 R a 0 1", "1 R a 0 x", "1 R a 01 1", "1 R a 18446744073709551615 2",
             "1 R a 0 100000000000000000000", "1 copy a 0 1 b", "1 fill a 0", "1 zero 0", "a: 0 8 linear b 0", "refused"]


def test_answers(tally, program, top):
    check_rows(tally, program, top, ANSWERED)
    check_rows(tally, program, top, [lost("report", [], ["1 R /a 0 1\n" + it + "\n"], "1:2: not a piece of an answer, give what `dmremap map` prints: " + it) for it in NO_PIECES])


def test_blocks(tally, program, top):
    """The figures of many random pieces, in blocks of one kind and of several, are those of each alone."""
    for seed in range(6):
        dice = random.Random(seed)
        kinds = "RW" if seed % 2 else ("R", "W", "copy", "fill", "zero", "drop", "error")
        rows, request = [], 0
        for _ in range(dice.choice((10, 20000))):
            request += dice.choice((0, 1, 1, 2))
            rows.append(piece(dice, request + 1, dice.choice(kinds)))
        if seed == 4:
            rows.append((request + 1, "R", "sda", LONG - 1, 1, "", 0))
        text = "".join(line_of(row) for row in rows)
        got = call(top, ["report", program.file("blocks/pieces", text)])
        tally.same("the figures of %d pieces" % len(rows), got, 0, figures_of(rows))
        lower = requests_of(rows)
        dice.shuffle(lower)
        got = call(top, ["report", os.path.join(program.folder, "blocks", "pieces"), "--compare", program.file("blocks/lower", "".join(lower))])
        tally.same("the same in another order", got, 0, figures_of(rows))


def piece(dice, request, what):
    """A piece: its request, what, from where, how many sectors, and to where."""
    disk, to = (dice.choice(["sda", "/dev/sdb", "c"]) for _ in range(2))
    is_from, is_to = what in ("R", "W", "copy"), what in ("copy", "fill")
    return (request, what, disk if is_from else "", dice.randrange(1 << 40) * is_from, dice.choice((1, 8, 8, 8, 300)), to if is_to else "",
            dice.randrange(1 << 40) * is_to)


def line_of(row):
    request, what, disk, start, count, to, at = row
    begin = {"fill": f"{request} fill {count}", "copy": f"{request} copy {disk} {start} {count}"}.get(what, f"{request} {what}")
    return begin + (f" {to} {at}\n" if to else f" {disk} {start} {count}\n" if disk else f" {count}\n")


def uses_of(row):
    """What a piece does to disks: R or W, the disk, the first sector and how many."""
    _, what, disk, start, count, to, at = row
    return [("R" if to else what, disk, start, count)] * bool(disk) + [("W", to, at, count)] * bool(to)


def requests_of(rows):
    return ["%s %s %d %d\n" % use for row in rows for use in uses_of(row)]


def figures_of(rows):
    """What `report` says of pieces, counted one by one."""
    totals, lengths, heads, moves, splits = {}, {}, {}, {}, {}
    for row in rows:
        for what, disk, _, count in uses_of(row) or [(row[1], "-", 0, row[4])]:
            total = totals.setdefault((disk, what), [0, 0])
            total[0] += 1
            total[1] += count
            if disk != "-":
                key = disk, what, count.bit_length() - 1
                lengths[key] = lengths.get(key, 0) + 1
        if row[1] in ("R", "W"):
            if row[2] in heads:
                moves.setdefault(row[2], []).append(abs(row[3] - heads[row[2]]))
            heads[row[2]] = row[3] + row[4]
            splits[row[0]] = splits.get(row[0], 0) + 1
    found = [f"total {disk} {what} {count} {sectors} {sectors * 512}\n" for (disk, what), (count, sectors) in sorted(totals.items())]
    found += [f"length {disk} {what} {1 << size} {count}\n" for (disk, what, size), count in sorted(lengths.items())]
    found += [f"seek {disk} {sum(each) // len(each)}\n" for disk, each in sorted(moves.items())]
    counts = sorted(splits.values())
    return "".join(found + [f"split {count} {counts.count(count)}\n" for count in sorted(set(counts))])


def test_costs(tally, program, top):
    """Pieces on more disks than there are, and none that is equal to a long trace, take little memory."""
    path = program.file("costs/pieces", "".join(f"1 R {'d' * 200}{it} 0 8\n" for it in range(150000)))
    got = call(top, ["report", path], memory=MEMORY)
    tally.same("pieces on many disks", got, 1, "", f"dmremap-tools report: {path}: pieces on more than 65536 disks: give those of fewer\n")
    rows = 300000
    path = program.file("costs/pieces", "".join(f"{it} R a {3 * it} 1\n" for it in range(1, rows + 1)))
    lower = program.file("costs/lower", "".join(f"R a {3 * it} 1\n" for it in range(1, rows + 1)))
    got = call(top, ["report", "--compare", lower, path], memory=SMALL)
    tally.tells("a long trace that is equal", got, out=f"total a R {rows} {rows} ")

