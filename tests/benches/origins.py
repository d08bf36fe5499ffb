#!/usr/bin/env python3
"""What writes of origins cost, in instructions, beside writes through a linear line.

Usage: tests/benches/origins.py PROGRAM

PROGRAM is the built program, crates/dmremap/out/dmremap. Each line tells some requests, how many
snapshots the origin has, in chunks of 8 sectors, and the instructions and the lines of output of one
request. It needs valgrind.
"""

import os
import random
import re
import subprocess
import sys
import tempfile

LENGTH = 1 << 16
CHUNK = 8
COUNT = 2000
ALL = "W o 0 %d\n" % LENGTH


def main():
    print("| requests | snapshots | instructions each | lines each |\n|---|---|---|---|")
    dice = random.Random(1)
    short = ["W o %d 1\n" % dice.randrange(LENGTH) for _ in range(COUNT)]
    long = ["W o %d 256\n" % dice.randrange(LENGTH - 256) for _ in range(COUNT)]
    chunks = ["W o %d %d\n" % (at, CHUNK) for at in range(0, LENGTH, CHUNK)]
    mixed = dice.sample(chunks, COUNT)
    for name, requests in [("one sector", short), ("256 sectors", long)]:
        show(name + " through a linear line", 0, "linear base 0", LENGTH, "", requests)
    for snapshots in (1, 8):
        for name, places, first, requests in [
                ("one sector, all taken", LENGTH, ALL, short), ("256 sectors, all taken", LENGTH, ALL, long),
                ("256 sectors, all lost", 0, short[0], long), ("first writes of chunks, front to back", LENGTH, "", chunks[:COUNT]),
                ("first writes of chunks, at random", LENGTH, "", mixed)]:
            show(name, snapshots, "snapshot-origin base", places, first, requests)


def show(name, snapshots, target, places, first, requests):
    """A row: the difference that the requests make."""
    table = "o: 0 %d %s\n" % (LENGTH, target)
    table += "".join("s%d: 0 %d snapshot base c%d P %d\n" % (it, LENGTH, it, CHUNK) for it in range(snapshots))
    disks = "base %d\n" % LENGTH + "".join("c%d %d\n" % (it, places + places // 8 + 1) for it in range(snapshots))
    before, lines_before = count(table, disks, first)
    after, lines_after = count(table, disks, first + "".join(requests))
    cost, lines = (after - before) / len(requests), (lines_after - lines_before) / len(requests)
    print("| %s | %d | %.0f | %.2f |" % (name, snapshots, cost, lines), flush=True)


def count(table, disks, requests):
    """The instructions of a run, and the lines of its output."""
    with tempfile.TemporaryDirectory() as folder:
        words = ["map", "table"]
        for name, content in [("table", table), ("disks", disks)]:
            words.append(os.path.join(folder, name))
            with open(words[-1], "w", encoding="utf-8") as it:
                it.write(content)
        ran = subprocess.run(["valgrind", "--tool=callgrind", "--callgrind-out-file=/dev/null", sys.argv[1]] + words,
                             input=requests.encode(), stdout=subprocess.PIPE, stderr=subprocess.PIPE, check=True)
    return int(re.search(rb"Collected : (\d+)", ran.stderr)[1]), ran.stdout.count(b"\n")


if __name__ == "__main__":
    main()
