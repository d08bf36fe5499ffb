#!/usr/bin/env python3
"""Times of loading, for the largest table of each shape and for a tenth of it.

Usage: tests/benches/load.py PROGRAM [RUNS]

PROGRAM is the built program, crates/dmremap/out/dmremap. Each line tells a shape, the bytes of its
table, the least milliseconds of processor time of RUNS runs (5 if not said) over the time of an
empty table, and how much longer the whole takes than a tenth of it. A load that is linear in the
table takes 10 times as long; one that is quadratic takes 100 times.
"""

import os
import resource
import subprocess
import sys
import tempfile


def one_device(lines):
    return "".join(f"a: {start} 1 zero\n" for start in range(lines))


def linear_lines(lines):
    return "".join(f"a: {start} 1 linear s {start % 7}\n" for start in range(lines))


def chains(devices):
    text = []
    for number in range(devices):
        below = "s" if number % 32 == 0 else f"/dev/mapper/d{number - 1}"
        text.append(f"d{number}: 0 8 linear {below} 0\n")
    return "".join(text)


def levels(columns):
    text = ["d0: 0 128 zero\n"]
    for number in range(1, 32):
        pairs = " ".join([f"/dev/mapper/d{number - 1} 0"] * columns)
        text.append(f"d{number}: 0 {columns} striped {columns} 1 {pairs}\n")
    return "".join(text)


def ring(devices):
    return "".join(f"d{number}: 0 8 linear /dev/mapper/d{(number + 1) % devices} 0\n" for number in range(devices))


def row(devices):
    lines = [f"d{number}: 0 8 linear /dev/mapper/d{number + 1} 0\n" for number in range(devices - 1)]
    return "".join(lines) + f"d{devices - 1}: 0 8 linear s 0\n"


def snapshots(devices):
    text = ["d0: 0 8 linear s 0\n"]
    for number in range(1, 31):
        text.append(f"d{number}: 0 8 linear /dev/mapper/d{number - 1} 0\n")
    for number in range(31, devices):
        text.append(f"d{number}: 0 8 snapshot /dev/mapper/d30 /dev/mapper/d{number % 31} P 1\n")
    return "".join(text)


def columns(lines):
    text = []
    for line in range(lines):
        text.append(f"a: {128 * line} 128 striped 128 1")
        text.extend(f" t {128 * line + 127 - column}" for column in range(128))
        text.append("\n")
    return "".join(text)


def last_clash(lines):
    return columns(lines) + "b: 0 1 linear t 0\n"


SHAPES = [
    ("one device of 65,536 lines of zeros", "map", one_device, 65536, 0),
    ("one device of 40,000 lines on a disk", "map", linear_lines, 40000, 0),
    ("1,024 devices in 32 chains of 32", "map", chains, 1024, 0),
    ("32 levels of 128 columns on the level below", "map", levels, 128, 0),
    ("993 snapshots over an origin and stores up to 31 deep", "map", snapshots, 1024, 0),
    ("a ring of 1,024 devices (refused)", "map", ring, 1024, 1),
    ("a row of 1,024 devices (refused)", "map", row, 1024, 1),
    ("115,200 columns", "map", columns, 900, 0),
    ("115,200 columns, checked", "check", columns, 900, 0),
    ("115,200 columns and a clash of the last line, checked", "check", last_clash, 900, 0),
]


def seconds(program, command, table, disks, status):
    before = resource.getrusage(resource.RUSAGE_CHILDREN)
    done = subprocess.run([program, command, "table", table, disks], stdin=subprocess.DEVNULL, capture_output=True)
    after = resource.getrusage(resource.RUSAGE_CHILDREN)
    if done.returncode != status:
        sys.exit(f"{table}: status {done.returncode}, {done.stderr.decode()}")
    return after.ru_utime - before.ru_utime + after.ru_stime - before.ru_stime


def main():
    if len(sys.argv) < 2:
        sys.exit(__doc__)
    program = sys.argv[1]
    runs = int(sys.argv[2]) if len(sys.argv) > 2 else 5
    with tempfile.TemporaryDirectory() as folder:
        disks = os.path.join(folder, "disks")
        table = os.path.join(folder, "table")

        def least(command, text, status):
            with open(table, "w") as file:
                file.write(text)
            return min(seconds(program, command, table, disks, status) for _ in range(runs))

        with open(disks, "w") as file:
            file.write("s 8\nt 1000000\n")
        empty = least("map", "", 0)
        for name, command, make, size, status in SHAPES:
            whole = max(least(command, make(size), status) - empty, 0.0001)
            tenth = max(least(command, make(size // 10), status) - empty, 0.0001)
            print(f"{name}: {len(make(size))} bytes, {whole * 1000:.1f} ms, {whole / tenth:.1f} times a tenth")


if __name__ == "__main__":
    main()
