"""Requests over ranges against the rules for one sector each (`snapshots.Plain`): the same sectors, in the fewest lines.

A range goes down the stack as one step, so each range of a small stack is asked for. A new target gets a stack of its own below.
"""

from itertools import combinations

import snapshots

SECTORS = 24
DISKS = "sda 64\nsdb 64\n"

# Stacks whose device `a` has borders of lines and chunks on several levels.
STACKS = ["""a: 0 5 linear sda 3
a: 5 7 linear sda 8
a: 12 4 zero
a: 16 4 error
a: 20 4 linear sda 0
""", """b: 0 7 linear sda 0
b: 7 17 linear sdb 1
a: 0 24 striped 2 3 /dev/mapper/b 12 /dev/mapper/b 0
""", """c: 0 12 striped 3 2 sda 0 sda 4 sdb 0
b: 0 12 linear /dev/mapper/c 0
b: 12 12 zero
a: 0 24 striped 4 1 /dev/mapper/b 18 /dev/mapper/b 0 /dev/mapper/b 6 /dev/mapper/b 12
""", """b: 0 24 striped 1 4 sda 1
a: 0 2 error
a: 2 20 linear /dev/mapper/b 3
a: 22 2 linear /dev/mapper/b 0
""",
]


# Lengths of the lines of a device, even and as uneven as they get.
LENGTHS = {"even": [8] * 40, "a long one first": [10 ** 9] + [1] * 40, "a long one last": [1] * 40 + [10 ** 9],
    "a long one between": [1] * 20 + [10 ** 9] + [1] * 20, "each twice as long": [2 ** power for power in range(40)],
    "each half as long": [2 ** power for power in reversed(range(40))],
}


def test_ranges(tally, program):
    for source in STACKS:
        rows = [line.split(": ") for line in source.splitlines()]
        stack = snapshots.plain(";".join("%s,,,,%s" % (name, ",".join(row for it, row in rows if it == name))
                                         for name in dict.fromkeys(it for it, _ in rows)), DISKS)
        ranges = list(combinations(range(SECTORS + 1), 2))
        for op in "RW":
            given = "".join("%s a %d %d\n" % (op, start, end - start) for start, end in ranges)
            wanted = "".join(snapshots.lines(number, stack.request(op, "a", start, end - start))
                             for number, (start, end) in enumerate(ranges, 1))
            name = "%s of the ranges of %r" % (op, source[:24])
            tally.same(name, program.map(source, DISKS, given), 0, wanted)


def test_lines(tally, program):
    """The last and the first sector of each line, from the last line on: none comes after the one before."""
    for name, lengths in LENGTHS.items():
        start, table, asked = 0, "", []
        for index, length in enumerate(lengths):
            place = 10 * index
            table += "a: %d %d linear sda %d\n" % (start, length, place)
            asked += [(start, place), (start + length - 1, place + length - 1)]
            start += length
        asked.reverse()
        requests = "".join("R a %d 1\n" % sector for sector, _ in asked)
        answers = "".join("%d R sda %d 1\n" % (number + 1, place) for number, (_, place) in enumerate(asked))
        tally.same("lines, %s" % name, program.map(table, "sda %d\n" % 2 ** 50, requests), 0, answers)
