#!/usr/bin/env python3
"""Time and memory of replays, for a number of requests and for a tenth of them.

Usage: tests/benches/replay.py PROGRAM [MOST]

PROGRAM is the built program, crates/dmremap/out/dmremap. Each line tells what is asked, how many
times (up to MOST, 1000000 if not said), the seconds of processor time, how much longer they are than
those of a tenth, and the bytes of memory for each request, over those of a run without one. Time
that is near-linear grows by a factor of 10 to 14.

Then, for a tenth of MOST, what requests of a sector take over large stacks: the seconds over those of a run without
a request, and how many times as long as over one line.
"""

import os
import random
import subprocess
import sys
import tempfile
import time

LENGTH = 1 << 22
LINEAR = ("a: 0 %d linear base 0\n" % LENGTH, "base %d\n" % LENGTH)
SNAPSHOT = ("a: 0 %d snapshot-origin base\ns: 0 %d snapshot base cow P 8\n" % (LENGTH, LENGTH),
            "base %d\ncow %d\n" % (LENGTH, 2 * LENGTH))
COLUMNS = 128
SCATTERED = ("a: 0 1048576 striped %d 1 %s\n" % (COLUMNS, " ".join("base %d" % (8192 * it) for it in range(COLUMNS))),
             "base 1048576\n")
CHUNKS = ("s: 0 100000 snapshot base cow P 1\n", "base 100000\ncow 200000\n")

SECTORS = 40000
ONE_LINE = ("a: 0 %d linear s 0\n" % SECTORS, "s %d\n" % SECTORS)
LINES = ("".join("a: %d 1 linear s %d\n" % (it, it) for it in range(SECTORS)), "s %d\n" % SECTORS)
DEVICES = ("".join("d%d: 0 40 linear s %d\n" % (it, 40 * it) for it in range(1000)), "s %d\n" % SECTORS)
STRIPES = ("".join("a: %d 128 striped 128 1 %s\n" % (128 * line, " ".join("s %d" % (128 * line + it) for it in range(128)))
                   for line in range(320)), "s 40960\n")


def rising(count):
    return pairs(LENGTH // count * it for it in range(count))


def falling(count):
    return pairs(LENGTH // count * (count - 1 - it) for it in range(count))


def at_random(count):
    dice = random.Random(1)
    return pairs(dice.randrange(LENGTH) for _ in range(count))


def eight_places(count):
    return pairs(8 * (it % 8) for it in range(count))


def pairs(places):
    """A write of one sector at each place, and a read of one anywhere."""
    dice = random.Random(2)
    for place in places:
        yield "W a %d 1\nR a %d 1\n" % (place, dice.randrange(LENGTH))


def of_both(count):
    """Writes and reads of a snapshot and of its origin, in turn."""
    dice = random.Random(1)
    for it in range(count):
        yield "W %s %d 1\nR %s %d 8\n" % ("as"[it % 2], dice.randrange(LENGTH), "sa"[it % 2], dice.randrange(LENGTH - 8))


def of_a_sector(count):
    """Writes and reads of a sector, in turn, of a device of at least so many sectors."""
    dice = random.Random(3)
    return ["%s a %d 1\n" % ("RW"[it % 2], dice.randrange(SECTORS)) for it in range(count)]


def of_devices(count):
    """The same requests, to the thousand devices that share the sectors."""
    for line in of_a_sector(count):
        op, _, sector, length = line.split()
        yield "%s d%d %d %s\n" % (op, int(sector) // 40, int(sector) % 40, length)


def one_write(device):
    return lambda count: ["W %s 0 %d\n" % (device, count)]


def write_and_read(count):
    return ["W a 0 %d\nR a 0 %d\n" % (count, count)]


def main():
    if len(sys.argv) < 2:
        sys.exit(__doc__)
    most = int(sys.argv[2]) if len(sys.argv) > 2 else 1000000
    print("| requests | how many | seconds | times a tenth | bytes each |\n|---|---|---|---|---|")
    for name, stack, make in [("writes of a sector, rising, and reads", LINEAR, rising),
                              ("the same, falling", LINEAR, falling), ("the same, at random", LINEAR, at_random),
                              ("the same, at eight places", LINEAR, eight_places), ("writes of a snapshot and its origin in turn, and reads", SNAPSHOT, of_both)]:
        show(name, stack, make, most)
    show("a write of scattered sectors, and a read of all", SCATTERED, write_and_read, 1048576)
    show("a write to a snapshot of chunk 1", CHUNKS, one_write("s"), 100000)
    print("\n| requests of a sector over | how many | seconds more than with none | times one line |\n|---|---|---|---|")
    one = 0
    for name, stack, make in [("one line", ONE_LINE, of_a_sector), ("40,000 lines", LINES, of_a_sector),
                              ("1,000 devices", DEVICES, of_devices), ("320 lines of 128 columns", STRIPES, of_a_sector)]:
        more = least(stack, make(most // 10)) - least(stack, [])
        one = one or more
        print("| %s | %d | %.3f | %.2f |" % (name, most // 10, more, more / one), flush=True)


def least(stack, requests):
    """The least seconds of processor time of some replays."""
    requests = list(requests)
    return min(measure(stack, requests)[0] for _ in range(5))


def show(name, stack, make, count):
    """A row: what the requests take."""
    none, empty = measure(stack, [])
    tenth, _ = measure(stack, make(count // 10))
    whole, memory = measure(stack, make(count))
    print("| %s | %d | %.2f | %.1f | %.0f |" % (
        name, count, whole, (whole - none) / max(tenth - none, 0.001), (memory - empty) / count), flush=True)


def measure(stack, requests):
    """The seconds of processor time of a replay, and the most bytes of memory that it had."""
    with tempfile.TemporaryDirectory() as folder:
        words = [sys.argv[1], "replay", "table"]
        for name, content in zip(("table", "disks"), stack):
            words.append(os.path.join(folder, name))
            with open(words[-1], "w", encoding="utf-8") as it:
                it.write(content)
        asked = os.path.join(folder, "requests")
        with open(asked, "w", encoding="utf-8") as it:
            it.writelines(requests)
        with open(asked, "rb") as given:
            ran = subprocess.Popen(words, stdin=given, stdout=subprocess.DEVNULL)
            most, ended = 0, 0
            while not ended:
                most = max(most, memory_of(ran.pid))
                time.sleep(0.002)
                ended, status, used = os.wait4(ran.pid, os.WNOHANG)
    if status:
        sys.exit("%s: status %d" % (stack[0][:80], status))
    return used.ru_utime + used.ru_stime, most


def memory_of(process):
    """The most bytes that a process has had so far: what is told of one that ended counts those of this script."""
    with open("/proc/%d/status" % process, encoding="ascii") as it:
        return sum(1024 * int(line.split()[1]) for line in it if line.startswith("VmHWM"))


if __name__ == "__main__":
    main()
