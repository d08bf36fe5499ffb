#!/usr/bin/env python3
"""Processor time of `read`, over that of `dd bs=1M` of as many bytes, both from the page cache to /dev/null.

Usage: tests/benches/read.py PROGRAM [MIB]

PROGRAM is the built program, crates/dmremap/out/dmremap. Each line tells what is read, MIB of it (512 if not said): the
seconds of `dd`, those of the program, and their ratio, each the lowest of some runs that alternate. Then the ratio where
both write a file.
"""

import os
import random
import resource
import struct
import subprocess
import sys
import tempfile

SECTOR, CHUNK, RUNS = 512, 8, 7
MAGIC = 0x70416E53


def rows(sectors):
    """What is read, its table, and how many chunks of its snapshot are taken: at most 40,000, in random order."""
    half = sectors // 2
    disks = "a.img %d\nb.img %d\ncow %d\n" % (sectors, half, 2 * sectors)
    yield "one line", "v: 0 %d linear a.img 0\n" % sectors, disks, 0
    for chunk in (128, 8):
        table = "v: 0 %d striped 2 %d a.img 0 b.img 0\n" % (sectors, chunk)
        yield "2 stripes, chunks of %d KiB" % (chunk // 2), table, disks, 0
    taken = min(40000, sectors // CHUNK // 3)
    yield "%d of %d chunks taken" % (taken, sectors // CHUNK), "v: 0 %d snapshot a.img cow P %d\n" % (sectors, CHUNK), disks, taken


def make_store(path, sectors, taken):
    """A store that took so many chunks: its header, its list, and no data, which reads as zeros."""
    area, chunks = 32 * CHUNK, random.Random(1).sample(range(sectors // CHUNK), taken)
    with open(path, "wb") as it:
        it.truncate(2 * sectors * SECTOR)
        it.write(struct.pack("<4I", MAGIC, 1, 1, CHUNK))
        for first in range(0, taken, area):
            it.seek((1 + (area + 1) * (first // area)) * CHUNK * SECTOR)
            for number, chunk in enumerate(chunks[first:first + area], first):
                it.write(struct.pack("<2Q", chunk, 2 + number + number // area))


def seconds(words, folder, output):
    """The processor time of a run."""
    before = resource.getrusage(resource.RUSAGE_CHILDREN)
    with open(output, "wb") as out:
        subprocess.run(words, cwd=folder, stdout=out, stderr=subprocess.DEVNULL, check=True)
    after = resource.getrusage(resource.RUSAGE_CHILDREN)
    return after.ru_utime - before.ru_utime + after.ru_stime - before.ru_stime


def main():
    program, sectors = os.path.abspath(sys.argv[1]), int((sys.argv[2:] or [512])[0]) * 2048
    with tempfile.TemporaryDirectory() as folder:
        for name, size in ("a.img", sectors), ("b.img", sectors // 2):
            with open(os.path.join(folder, name), "wb") as it:
                for _ in range(size // 2048):
                    it.write(os.urandom(2048 * SECTOR))
        for name, table, disks, taken in rows(sectors):
            make_store(os.path.join(folder, "cow"), sectors, taken)
            for file, text in ("table", table), ("disks", disks), ("paths", "".join("%s %s\n" % (it, it) for it in ("a.img", "b.img", "cow"))):
                with open(os.path.join(folder, file), "w", encoding="ascii") as it:
                    it.write(text)
            read = [program, "read", "table", "table", "disks", "v", "--paths", "paths"]
            copy = ["dd", "if=a.img", "bs=1M"]
            for what, output in ("", os.devnull), (", to a file", os.path.join(folder, "out")):
                runs = [(seconds(copy, folder, output), seconds(read, folder, output)) for _ in range(RUNS)]
                least = [min(it) for it in zip(*runs)]
                print("%-28s%-12s %6.3f s %6.3f s %6.2f" % (name, what, *least, least[1] / least[0]), flush=True)


if __name__ == "__main__":
    main()
