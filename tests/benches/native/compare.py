#!/usr/bin/env python3
"""Compares the built program with a plain native one, which does the same without proofs: the tables of RESULTS.

    python3 tests/benches/native/compare.py [PROGRAM] [--runs N] [--native NATIVE] [--only NAME]..

PROGRAM is crates/dmremap/out/dmremap, if no other is given; cargo builds NATIVE, if none is given, in a temporary
folder. The two run in turn, and have to write the same bytes. The ratio is the least processor time (user and system)
of PROGRAM, divided by that of NATIVE: on a busy machine, trust it and not the seconds. TMPDIR needs 200 MB.
"""

import argparse
import fcntl
import hashlib
import os
import random
import struct
import subprocess
import sys
import tempfile
import termios
import time

HERE = os.path.dirname(os.path.abspath(__file__))
BUILT = os.path.join(HERE, "..", "..", "..", "crates", "dmremap", "out", "dmremap")
LETTERS = "abcdefghijklmnop"
# The chunks of the snapshots, of 8 sectors each.
CHUNKS, MANY_CHUNKS = 1 << 20, 1 << 22


class Dice(random.Random):
    def below(self, count):
        return int(self.random() * count)

    def letter(self):
        return "RW"[self.below(2)]


def linear():
    return "table", "lv0: 0 4194304000 linear sda 2048\n", "sda 4194306048\n"


def small():
    dice = Dice(1)
    for _ in range(5_000_000):
        yield "%s lv0 %d %d\n" % (dice.letter(), dice.below(4194000000), 1 + dice.below(64))


def lines():
    """65,536 lines of one sector: what they say is short, because a text has at most 1 MiB."""
    dice = Dice(2)
    kinds = ["linear s %d" % it for it in range(3)] + 3 * ["error"] + 3 * ["zero"]
    text = ",".join("%d 1 %s" % (it, kinds[dice.below(9)]) for it in range(65536))
    return "concise", "a,,,,%s\n" % text, "s 100\n"


def in_lines():
    dice = Dice(3)
    for _ in range(2_000_000):
        count = 1 + dice.below(4)
        yield "%s a %d %d\n" % (dice.letter(), dice.below(65537 - count), count)


def levels():
    """Eight devices, each on the one before: stripes and pairs of lines in turn."""
    length = 1 << 24
    text = ["d1: 0 %d striped 4 64 sda 0 sdb 0 sdc 0 sdd 0" % length]
    for level in range(2, 9):
        below = "/dev/mapper/d%d" % (level - 1)
        if level % 2 == 0:
            text += ["d%d: %d %d linear %s %d" % (level, at, length // 2, below, at) for at in (0, length // 2)]
        else:
            chunk = 16 * level
            length -= length % (2 * chunk)
            text.append("d%d: 0 %d striped 2 %d %s 0 %s %d" % (level, length, chunk, below, below, length // 2))
            length -= length % 4
    return "table", "\n".join(text) + "\n", "".join("sd%s %d\n" % (it, 1 << 24) for it in LETTERS[:4])


def through_levels():
    dice = Dice(4)
    for _ in range(1_000_000):
        count = 1 + dice.below(256)
        yield "%s d8 %d %d\n" % (dice.letter(), dice.below((1 << 24) - 1024 - count), count)


def stripes():
    length = 1 << 34
    columns = " ".join("sd%s 2048" % it for it in LETTERS)
    disks = "".join("sd%s %d\n" % (it, length // 16 + 2048) for it in LETTERS)
    return "table", "st: 0 %d striped 16 8 %s\n" % (length, columns), disks


def long_ones(count, length):
    dice = Dice(5)
    for _ in range(count):
        yield "%s st %d %d\n" % (dice.letter(), 8 * dice.below((1 << 31) - length), length)


def snapshot(chunks):
    disks = "base %d\ncow %d\n" % (chunks * 8, (chunks + (chunks - 1) // 256 + 2) * 8)
    return "table", "s: 0 %d snapshot base cow P 8\n" % (chunks * 8), disks


def random_writes():
    """1.6 million writes to 1,048,576 chunks take some 800,000 of them; after each third comes a read."""
    dice = Dice(7)
    for it in range(1_600_000):
        yield "W s %d 1\n" % dice.below(CHUNKS * 8)
        if it % 3 == 0:
            count = 1 + dice.below(64)
            yield "R s %d %d\n" % (dice.below(CHUNKS * 8 - count), count)


def group():
    """The metadata of 1,000 volumes, of three segments each, filled up to 1 MiB with a comment."""
    text = ['contents = "Text Format Volume Group"', "version = 1", "vg0 {", 'id = "vg"', "seqno = 1",
            'status = ["READ", "WRITE"]', "extent_size = 8192", "physical_volumes {"]
    for it in range(8):
        text.append('pv%d {\nid = "pv%d"\ndevice = "/dev/sd%s"\nstatus = ["ALLOCATABLE"]\ndev_size = 1073741824\n'
                    "pe_start = 2048\npe_count = 131000\n}" % (it, it, LETTERS[it]))
    text += ["}", "logical_volumes {"]
    dice, free = Dice(8), [0] * 8
    for volume in range(1000):
        text.append('lv%04d {\nid = "lv%d"\nstatus = ["READ", "WRITE", "VISIBLE"]' % (volume, volume))
        text.append("segment_count = 3")
        at = 0
        for number, columns in (1, 1), (2, 1), (3, 2):
            count, places = 4 + 4 * dice.below(8), []
            for _ in range(columns):
                disk = dice.below(8)
                places.append('"pv%d", %d' % (disk, free[disk]))
                free[disk] += count // columns
            size = "stripe_size = 128\n" * (columns - 1)
            text.append('segment%d {\nstart_extent = %d\nextent_count = %d\ntype = "striped"' % (number, at, count))
            text.append("stripe_count = %d\n%sstripes = [%s]\n}" % (columns, size, ",\n".join(places)))
            at += count
        text.append("}")
    text = "\n".join([*text, "}", "}", ""])
    return "lvm", text + "#" * ((1 << 20) - len(text) - 1) + "\n", None


def on_volumes():
    dice = Dice(9)
    for _ in range(1_000_000):
        count = 1 + dice.below(128)
        yield "%s vg0-lv%04d %d %d\n" % (dice.letter(), dice.below(1000), dice.below(12 * 8192 - count), count)


def devices():
    """Some 1,000 devices of 24 lines in concise text, as many as fit into 1 MiB."""
    text = []
    while len(text) < 1000 and sum(map(len, text)) + len(text) < (1 << 20) - 1500:
        rows = [(64 * it, it % 7, 64 * (24 * len(text) + it)) for it in range(24)]
        lines_of = ",".join("%d 64 linear /dev/disk/by-id/x%d %d" % it for it in rows)
        text.append("device-%04d,,,rw,%s" % (len(text), lines_of))
    return "concise", ";".join(text) + "\n", "".join("/dev/disk/by-id/x%d 16777216\n" % it for it in range(7))


def zeros():
    return "table", "".join("a: %d 1 zero\n" % it for it in range(65536)), ""


def first_writes(chunks, length):
    for it in chunks:
        yield "W s %d %d\n" % (8 * it, length)


REQUESTS = {
    "small requests to one linear device": (linear, small),
    "requests through 8 levels of stripes and lines": (levels, through_levels),
    "requests of 1,048,576 sectors over 16 stripes": (stripes, lambda: long_ones(330, 1 << 20)),
    "requests of 2,048 sectors over 16 stripes": (stripes, lambda: long_ones(150_000, 2048)),
    "random requests to one device of 65,536 lines": (lines, in_lines),
    "small requests to the 1,000 volumes of a group": (group, on_volumes),
    "random first writes to a snapshot, and reads": (lambda: snapshot(CHUNKS), random_writes),
    "first writes to 4,194,304 chunks, in random order": (
        lambda: snapshot(MANY_CHUNKS),
        lambda: first_writes((it * 2654435761 % MANY_CHUNKS for it in range(MANY_CHUNKS)), 1)),
    "first writes in rising order": (lambda: snapshot(CHUNKS), lambda: first_writes(range(800_000), 8)),
    "first writes to every second chunk, in falling order": (
        lambda: snapshot(CHUNKS), lambda: first_writes(range(CHUNKS - 2, CHUNKS - 400_002, -2), 8)),
}
LOADS = {"a table of 65,536 lines": zeros, "concise text": devices, "the metadata of 1,000 volumes": group}


def write(path, text):
    with open(path, "w", encoding="ascii", buffering=1 << 20) as it:
        it.writelines([text] if isinstance(text, str) else text)
    return path


def prepared(folder, description):
    """Writes FILE and DISKS, and returns the words of `map`."""
    form, text, disks = description()
    words = ["map", form, write(os.path.join(folder, "file"), text)]
    return words if disks is None else [*words, write(os.path.join(folder, "disks"), disks)]


def seconds(words, requests):
    """The processor time of a run, whose answers nobody reads."""
    actions = [(os.POSIX_SPAWN_OPEN, 0, requests, os.O_RDONLY, 0), (os.POSIX_SPAWN_OPEN, 1, os.devnull, os.O_WRONLY, 0)]
    _, status, used = os.wait4(os.posix_spawn(words[0], words, os.environ, file_actions=actions), 0)
    if status:
        sys.exit("%s: status %d" % (" ".join(words), os.waitstatus_to_exitcode(status)))
    return used.ru_utime + used.ru_stime


def least(programs, words, requests, runs):
    """The least processor time of each program, which run in turn."""
    times = [[seconds([program, *words], requests) for program in programs] for _ in range(runs)]
    return [min(column) for column in zip(*times)]


def answer(words, requests):
    """The sum and the number of the lines that a program answers."""
    found, count = hashlib.sha256(), 0
    with open(requests, "rb") as it, subprocess.Popen(words, stdin=it, stdout=subprocess.PIPE) as ran:
        for part in iter(lambda: ran.stdout.read(1 << 20), b""):
            found.update(part)
            count += part.count(b"\n")
    return found.digest(), count


def memory(words, requests):
    """The most memory that a run holds, in MiB, once it has read all requests and waits for more."""
    with subprocess.Popen(words, stdin=subprocess.PIPE, stdout=subprocess.DEVNULL) as ran:
        with open(requests, "rb") as it:
            for part in iter(lambda: it.read(1 << 20), b""):
                ran.stdin.write(part)
        ran.stdin.flush()
        while struct.unpack("i", fcntl.ioctl(ran.stdin, termios.FIONREAD, bytes(4)))[0]:
            time.sleep(0.01)
        time.sleep(0.1)
        with open("/proc/%d/status" % ran.pid, encoding="ascii") as it:
            return next(int(line.split()[1]) for line in it if line.startswith("VmHWM")) / 1024


def build(folder):
    """Has cargo build the native program, and returns its path."""
    where = ["--manifest-path", os.path.join(HERE, "Cargo.toml"), "--target-dir", folder]
    subprocess.run(["cargo", "build", "--release", "--quiet", *where], check=True)
    return os.path.join(folder, "release", "native")


def compare(folder, programs, runs, only):
    print("| What | Requests | Lines | Seconds for a million lines | Ratio | Memory |\n|---|---|---|---|---|---|")
    for name, (description, make) in REQUESTS.items():
        if only in name:
            words, requests = prepared(folder, description), write(os.path.join(folder, "requests"), make())
            (sum_, lines_of), (other, _) = [answer([program, *words], requests) for program in programs]
            if sum_ != other:
                sys.exit("%s: the answers differ" % name)
            ours, native = least(programs, words, requests, runs)
            with open(requests, "rb") as it:
                count = sum(1 for _ in it)
            held = memory([programs[0], *words], requests)
            print("| %s | %s | %s | %.2f | %.2f | %.1f MiB |" % (
                name, f"{count:,}", f"{lines_of:,}", ours / lines_of * 1e6, ours / native, held), flush=True)
    print("\n| Load, 1 MiB of text | Milliseconds | Ratio |\n|---|---|---|")
    for name, description in LOADS.items():
        if only in name:
            ours, native = least(programs, prepared(folder, description), os.devnull, 10 * runs)
            print("| %s | %.0f | %.2f |" % (name, 1000 * ours, ours / native), flush=True)


def main():
    words = argparse.ArgumentParser()
    words.add_argument("program", nargs="?", default=BUILT)
    words.add_argument("--runs", type=int, default=5)
    words.add_argument("--native")
    words.add_argument("--only", default="", metavar="NAME")
    given = words.parse_args()
    with tempfile.TemporaryDirectory(prefix="native-") as folder:
        native = given.native or build(os.path.join(folder, "target"))
        compare(folder, [os.path.abspath(given.program), os.path.abspath(native)], given.runs, given.only)


main()
