#!/usr/bin/env python3
"""Time and memory of the commands of dmremap-tools, for a number of lines and for a tenth of them.

Usage: tests/benches/tools.py [--program PROGRAM] [--runs N] [MOST [COMMAND ..]]

Each line tells a command and its input of MOST lines (1000000 if not said), the least seconds of processor time of N
runs (5), with what dmremap takes for them, how much longer they are than those of a tenth, and the greatest memory in
MiB of a tenth and of all. Time that is linear grows by a factor of up to 10. The lines after these are of single
inputs: 1,000 devices of which each stands on the one before, as many physical volumes of a group, half a MiB of what
looks like the beginning of a text, places on 16 images of a group, a tenth as many as lines, and what is saved: for a
million lines a volume of 512 MiB in stripes of 4 KiB, and a snapshot of 256 MiB with 50,000 chunks of its own, in any
order, each beside dd of as many bytes.
"""

import argparse
import contextlib
import ctypes
import os
import random
import subprocess
import sys
import tempfile

TOP = os.path.join(os.path.dirname(os.path.realpath(__file__)), "..", "..")
sys.path += [os.path.join(TOP, "tests", "outside"), os.path.join(TOP, "tests", "outside", "tools"), os.path.join(TOP, "tools")]
import lvm_texts

TOOL = [sys.executable, os.path.join(TOP, "dmremap-tools")]
# The words that say which dmremap is asked, and the commands that ask it.
PROGRAM, ASKING = [], ("layout", "lvm2-text", "machine", "owner", "save")
# What prctl is asked for, so that this process waits for those that a command leaves, too.
SET_CHILD_SUBREAPER = 36
EXTENTS = ("Filesystem type is: ef53\nFile size of /f is %d (%d blocks of 512 bytes)\n"
           " ext:     logical_offset:        physical_offset: length:   expected: flags:\n")


def pieces(count, dice):
    for it in range(1, count + 1):
        yield "%d %s /dev/sd%s %d %d\n" % (it, dice.choice("RW"), dice.choice("abcd"), dice.randrange(1 << 31), dice.choice((8, 16, 256)))


def snapshot_pieces(count, dice):
    for it in range(1, count // 2 + 1):
        yield "%d copy sda %d 8 sdb %d\n%d W sdb %d 8\n" % (it, dice.randrange(1 << 31), 16 * it, it, 16 * it)


def in_bytes(count, dice):
    for _ in range(count):
        yield "%s a %d %d\n" % (dice.choice("RW"), dice.randrange(1 << 40), dice.choice((4096, 512, 1000)))


def parsed(count, dice):
    """What blkparse prints if it isn't told which actions: each request is queued, and four lines tell what becomes of it."""
    for it in range(count):
        yield ("253,0  %3d %8d %5d.%09d  4101  %s %3s %d + 8 [fio]\n"
               % (it % 4, it, it // 1000, it % 1000 * 1000000, "QGIDC"[it % 5], dice.choice(("R", "WS")), dice.randrange(1 << 31)))


def traced(count, dice):
    for it in range(count):
        yield ("             fio-4101    [%03d] .....  %d.%06d: block_bio_queue: 253,0 %s %d + 8 [fio]\n"
               % (it % 4, it // 1000, it % 1000 * 1000, dice.choice(("R", "WS")), dice.randrange(1 << 31)))


def extents(count, dice):
    yield EXTENTS % (count * 4096, count * 8)
    after = 0
    for it in range(count):
        at = dice.randrange(1 << 31) * 8
        yield ("%4d: %8d..%8d: %10d..%10d: %6d: %10d:%s\n"
               % (it, 8 * it, 8 * it + 7, at, at + 7, 8, after, " last,eof" if it == count - 1 else ""))
        after = at + 8
    yield "/f: %d extents found\n" % count


def striped(count, _):
    """A device of as many extents."""
    yield "a: 0 %d striped 2 1 d 0 d %d\n" % (count, 1 << 30)


def physicals(count):
    """A group of so many physical volumes, of which one has a volume."""
    listed = [lvm_texts.physical("pv%d" % it, "/dev/d%d" % it, 4096, 8, 200) for it in range(count)]
    return lvm_texts.HEAD + lvm_texts.group("g", 8, listed, [lvm_texts.volume("v", lvm_texts.striped(0, 4, ("pv0", 0)))])


SMALL = {"disks": ["%s %d\n" % (it, 1 << 31) for it in ("/dev/sda", "/dev/sdb", "/dev/sdc", "/dev/sdd", "d")], "ls": ["a\t(253:0)\n"], "table": ["a: 0 1048576 linear sda 0\n"]}
ROWS = [
    (["trace", "--bytes"], in_bytes), (["trace", "--cut"], in_bytes), (["trace", "ls", "table"], parsed), (["trace", "ls", "table"], traced),
    (["trace", "--write-times", "beside", "ls", "table"], parsed), (["filefrag", "a"], extents), (["report"], pieces), (["report"], snapshot_pieces),
    (["layout", "table", "-", "disks", "--device", "a"], striped),
]
# Single inputs: what a command is called, its words, and its files.
DEVICES = 1000
SINGLE = [
    ("%d devices" % DEVICES, ["machine", "--disks", "disks", "names", "state", "sizes", "lines"], {
        "names": "".join("d%d\t(253:%d)\n" % (it, it) for it in range(DEVICES)), "state": "d0: 0 8 linear \n",
        "sizes": "8:1 4096 sda1 \n" + "".join("253:%d 4096 dm-%d \n" % (it, it) for it in range(DEVICES)),
        "lines": "".join("d%d: 0 8 linear %s 0\n" % (it, "253:%d" % (it - 1) if it else "8:1") for it in range(DEVICES))}),
    ("%d volumes" % DEVICES, ["lvm2-text", "group"], {"group": physicals(DEVICES)}),
    ("braces", ["metadata", "--list", "head"], {
        "head": 'a {\nid = "x"\nseqno = 1\n}\n' + 'aaaa {\nid = "' * (1 << 15)}),
]
# What is saved: its name, its table, its disks, and how many disks it is long, for the sectors of a disk.
SAVED = [
    ("striped", "v: 0 {1} striped 2 8 left 0 right 0\n", "left {0}\nright {0}\n", 2),
    ("snapshot", "o: 0 {0} linear left 0\nv: 0 {0} snapshot /dev/mapper/o store P 8\n", "left {0}\nstore {0}\n", 1),
]
IMAGES = "abcdefghijklmnop"


def main():
    parser = argparse.ArgumentParser()
    parser.add_argument("--program")
    parser.add_argument("--runs", metavar="N", type=int, default=5)
    parser.add_argument("most", metavar="MOST", type=int, nargs="?", default=1000000)
    parser.add_argument("commands", metavar="COMMAND", nargs="*")
    asked = parser.parse_args()
    if asked.program:
        PROGRAM[:] = ["--program", os.path.abspath(asked.program)]
    ctypes.CDLL(None).prctl(SET_CHILD_SUBREAPER, 1, 0, 0, 0)
    with tempfile.TemporaryDirectory() as folder:
        for name, parts in SMALL.items():
            write(os.path.join(folder, name), parts)
        for words, lines in ROWS:
            if not asked.commands or words[0] in asked.commands:
                show(words, lines, asked.most, asked.runs, folder)
        show_single(folder, asked)


def show(words, lines, most, runs, folder):
    """Prints the line of a command."""
    (tenth, memory_of_tenth), (seconds, memory) = (least(words, lines, count, runs, folder) for count in (most // 10, most))
    print("%-38s %-16s %6.2f s %5.1f %5d %5d MiB" % (" ".join(words), lines.__name__, seconds, seconds / tenth, memory_of_tenth, memory), flush=True)


def show_single(folder, asked):
    """Prints the lines of the single inputs, of all commands or of some."""
    for name, words, files in SINGLE:
        if asked.commands and words[0] not in asked.commands:
            continue
        for file, text in files.items():
            write(os.path.join(folder, file), [text])
        show_least(" ".join(words[:2]), name, TOOL + words, asked.runs, folder)
    if not asked.commands or "owner" in asked.commands:
        words = ["owner", *make_images(folder, asked.most // 10)]
        show_least("owner", "%d images" % len(IMAGES), TOOL + words, asked.runs, folder, "asked")
    if asked.commands and "save" not in asked.commands:
        return
    size = max(1, asked.most >> 12)
    make_disks(folder, size)
    for name, table, disks, times in SAVED:
        for file, text in ("volume", table), ("disks", disks):
            write(os.path.join(folder, file), [text.format(size << 11, size << 12)])
        show_least("save", name, TOOL + ["save", "v", "saved", "table", "volume", "disks"], asked.runs, folder)
        show_least("dd", name, ["dd", "bs=1M", "count=%d" % (size * times), "if=both", "of=saved"], asked.runs, folder)


def show_least(command, name, words, runs, folder, given=os.devnull):
    """Prints the line of a command that may write a file."""
    ran = []
    for _ in range(runs):
        ran.append(measured(words, os.path.join(folder, given), folder))
        if os.path.exists(os.path.join(folder, "saved")):
            os.remove(os.path.join(folder, "saved"))
    print("%-38s %-16s %6.2f s       %5d MiB" % (command, name, min(it[0] for it in ran), max(it[1] for it in ran)), flush=True)


def make_images(folder, places):
    """Images of a group with a volume in stripes on each two, and so many places that are asked of them; the names of the images."""
    import piles
    volumes = [piles.volume("v%d" % it, letter, piles.linear(0, 128, ("pv%d" % it, 0), ("pv%d" % (it + 1), 0)))
               for it, letter in enumerate(IMAGES) if it % 2 == 0]
    text = piles.text("g", "z", 1, IMAGES, *volumes)
    for letter in IMAGES:
        with open(os.path.join(folder, letter), "wb") as it:
            it.write(piles.disk(letter, piles.content_of(letter, 64 * piles.EXTENT), text))
    dice = random.Random(1)
    write(os.path.join(folder, "asked"), ("%s %d 8\n" % (dice.choice(IMAGES), dice.randrange(2500)) for _ in range(places)))
    return list(IMAGES)


def make_disks(folder, size):
    """Two disks of so many MiB, both in one file, and the store of a snapshot: a header, and areas of the list, each before its chunks."""
    import store_lists
    for name in ("left", "right", "both"):
        with open(os.path.join(folder, name), "wb") as it:
            for _ in range(size * (2 if name == "both" else 1)):
                it.write(os.urandom(1 << 20))
    # A chunk has 4 KiB.
    chunks = random.Random(1).sample(range(size << 8), size * 195 + 1)
    with open(os.path.join(folder, "store"), "wb") as it:
        it.write(os.urandom(size << 20))
        for at, part in store_lists.parts(8, [(old, store_lists.place(8, number)) for number, old in enumerate(chunks)]):
            it.seek(at)
            it.write(part.ljust(1 << 12, b"\0"))


def least(words, lines, count, runs, folder):
    """The least seconds of some runs, and the greatest memory."""
    path = os.path.join(folder, "input")
    write(path, lines(count, random.Random(1)))
    ran = [measured(TOOL + words, path, folder) for _ in range(runs)]
    return min(it[0] for it in ran), max(it[1] for it in ran)


def write(path, parts):
    """Writes a file, in a process of its own: what this one has in memory is counted for those that it starts."""
    child = os.fork()
    if child == 0:
        with open(path, "w") as it:
            it.writelines(parts)
        os._exit(0)
    os.waitpid(child, 0)


def measured(words, path, folder):
    """The seconds of processor time that a run takes, with the processes that it leaves, and its memory in MiB."""
    # A command of the tool is the word after it.
    more = PROGRAM if words[:2] == TOOL and words[2] in ASKING else []
    with open(path, "rb") as given:
        child = subprocess.Popen([*words, *more], stdin=given, stdout=subprocess.DEVNULL, stderr=subprocess.DEVNULL, cwd=folder)
        _, status, used = os.wait4(child.pid, 0)
    if status:
        sys.exit("%s: it ended with %d" % (" ".join(words), status))
    seconds = used.ru_utime + used.ru_stime
    with contextlib.suppress(ChildProcessError):
        while True:
            left = os.wait4(-1, 0)[2]
            seconds += left.ru_utime + left.ru_stime
    return seconds, used.ru_maxrss >> 10


if __name__ == "__main__":
    main()
