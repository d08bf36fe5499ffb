"""The commands that make FILE and DISKS of a machine: rows with what they print, say and write beside that, and what
is made of it by the program."""

import os
import re

import machine_rows
import tool_calls
from tool_calls import TOOL, read

SAMPLES = ("ls", "status", "lsblk")


def test_rows(tally, program, top):
    for row in machine_rows.ROWS:
        check_row(tally, program, top, *row)


def called(program, top, words, inputs):
    """What a command answers over inputs, which are the files `1`, `2` and so on after its words, and DISKS."""
    folder = os.path.dirname(program.file("machines/disks"))
    files = [program.file("machines/%d" % place, text) for place, text in enumerate(inputs, 1)]
    return tool_calls.call(top, [*words, *files], folder=folder), read(os.path.join(folder, "disks"))


def check_row(tally, program, top, command, words, inputs, output, message, status, disks):
    """A row with its DISKS, and that what it makes loads."""
    tool_calls.check_rows(tally, program, top, [(command, words, inputs, output, message, status)])
    name, written = "%s over %r" % (command, inputs[-1][:40]), read(os.path.join(program.folder, "rows", "disks"))
    tally.holds("DISKS of " + name, written == (disks.encode() if disks is not None else None), "it is %r" % written)
    if status == 0 and disks is not None:
        form = "concise" if ",,," in output else "table"
        made = program.run(["table", form, program.file("machines/source", output), program.file("machines/listed", disks)])
        tally.holds("that it loads, " + name, made.status == 0, made.err)


def test_samples(tally, program, top):
    """Both forms of a machine's tables give the same, but for what table text can't say."""
    def made(table):
        inputs = [read(os.path.join(tool_calls.samples(top), it + ".txt")) for it in (*SAMPLES, table)]
        got, disks = called(program, top, ["machine", "--disks", "disks"], inputs)
        form = "concise" if table == "concise" else "table"
        return program.run(["table", form, program.file("machines/source", got.out), program.file("machines/listed", disks)])

    wanted = made("concise")
    tally.same("a machine's tables in both forms", made("table"), 0, wanted.out)


def test_missing(tally, program, top):
    """A file that isn't there or is a folder is told, and what would have been written over stays."""
    for name, why in (("nowhere", "No such file or directory"), (".", "Is a directory")):
        got, written = called(program, top, ["machine", "--disks", "disks", name, "status", "lsblk", "table"], [])
        tally.same("machine of " + name, got, 1, "refused\n", "%s machine: %s: %s\n" % (TOOL, name, why))
        tally.holds("what machine leaves of DISKS", written == b"", "it is %r" % written)
    got, _ = called(program, top, ["machine", "--disks", "no/where", "1", "2", "3", "4"], [])
    tally.same("DISKS that can't be written", got, 5, "refused\n", TOOL + " machine: no/where: No such file or directory\n")


def test_large(tally, program, top):
    """Devices on each other, a thousand of them, from the top down and from the bottom up."""
    count = 1000
    for order in (range(count), range(count - 1, -1, -1)):
        names = "".join("d%d\t(253:%d)\n" % (it, it) for it in order)
        lines = "".join("d%d: 0 8 linear %s 0\n" % (it, "253:%d" % (it - 1) if it else "8:1") for it in order)
        sizes = "8:1 1048576 sda1 sda\n" + "".join("253:%d 4096 dm-%d \n" % (it, it) for it in order)
        got, disks = called(program, top, ["machine", "--disks", "disks"], [names, "d0: 0 8 linear \n", sizes, lines])
        left = {it for it in range(count) if it % 33 == 32}
        found = {int(it) for it in re.findall(r"left out: d(\d+) \(dmremap refuses it \(deep\)\), the disk", got.err.decode())}
        is_so = got.status == 0 and found == left and got.out.count(b"\n") == count - len(left)
        tally.holds("a thousand devices on each other", is_so, "status %s, %s" % (got.status, sorted(found ^ left)[:5]))
