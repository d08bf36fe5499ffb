"""FILE and DISKS: any file that there is, by any path; else a refusal, and never an empty text."""

import os
import subprocess
import threading

from harness import become_nobody
from lvm_texts import METADATA

TABLE = "a: 0 8 linear sda 4\n"
DISKS = "sda 12\n"
REQUESTS = "W a 2 3\n"
ANSWER = "1 W sda 6 3\n"

# A path that a careless shell script would take apart or read as something else.
ODD_PATHS = ["two words", "  spaces around  ", "*", "$HOME", "a;b", "quote'and\"quote", "café",
             "new\nline", "-hyphen", "folder with spaces/a file"]


def test_paths(tally, program):
    for path in ODD_PATHS:
        table = os.path.relpath(program.file("tables/" + path, TABLE), program.folder + "/tables")
        disks = program.file("lists/" + path, DISKS)
        got = program.run(["map", "table", "--", table, disks], given=REQUESTS, folder=program.folder + "/tables")
        tally.same("files named %r" % path, got, 0, ANSWER)


def test_refused(tally, program):
    table, disks = program.file("table", TABLE), program.file("disks", DISKS)
    zeros = program.file("zeros", "z: 0 8 zero\n")
    wrong = program.file("wrong", "no table\n")
    folder = os.path.join(program.folder, "folder")
    os.makedirs(folder, exist_ok=True)
    rows = [
        ("a missing FILE", "missing", disks, "source"),
        ("a missing DISKS", table, "missing", "disks"),
        ("both missing", "missing", "missing", "source"),
        ("a missing DISKS that no line needs", zeros, "missing", "disks"),
        ("a missing DISKS beside a FILE that is no table", wrong, "missing", "disks"),
        ("a folder as FILE", folder, disks, "source"),
        ("a folder as DISKS", table, folder, "disks"),
        ("a file as the folder of FILE", table + "/table", disks, "source"),
        ("an empty path as FILE", "", disks, "source"),
        ("an empty path as DISKS", table, "", "disks"),
        ("a path of 5,000 bytes", "x" * 5000, disks, "source"),
    ]
    for name, source, disk_list, part in rows:
        for given in (REQUESTS, ""):
            got = program.run(["map", "table", source, disk_list], given=given)
            tally.same(name, got, 1, "", "dmremap: %s: read\n" % part)


def test_unreadable(tally, program):
    table, disks = program.file("table", TABLE), program.file("disks", DISKS)
    closed = program.file("closed", DISKS)
    os.chmod(closed, 0)
    try:
        runs = [program.run(["map", "table", *files], given=REQUESTS, before=become_nobody)
                for files in ([table, disks], [closed, disks], [table, closed])]
    except (OSError, subprocess.SubprocessError) as error:
        tally.skip("unreadable files", error)
        return
    tally.same("readable files, as nobody", runs[0], 0, ANSWER)
    tally.same("an unreadable FILE", runs[1], 1, "", "dmremap: source: read\n")
    tally.same("an unreadable DISKS", runs[2], 1, "", "dmremap: disks: read\n")


def test_others(tally, program):
    table, disks = program.file("table", TABLE), program.file("disks", DISKS)
    link = os.path.join(program.folder, "link")
    os.symlink(table, link)
    tally.same("a link as FILE", program.run(["map", "table", link, disks], given=REQUESTS), 0, ANSWER)
    tally.same("an empty FILE and DISKS", program.run(["map", "table", os.devnull, os.devnull]))
    got = program.run(["map", "table", os.devnull, disks], given=REQUESTS)
    tally.same("a request to an empty FILE", got, 3, "", "dmremap: request 1: unknown\n")
    pipe = os.path.join(program.folder, "pipe")
    os.mkfifo(pipe)
    writer = threading.Thread(target=write_slowly, args=(pipe, TABLE), daemon=True)
    writer.start()
    got = program.run(["map", "table", pipe, disks], given=REQUESTS)
    tally.same("a pipe as FILE, as a shell makes it of <(..)", got, 0, ANSWER)
    for name, words, part in (("FILE", ["/dev/zero", disks], "source"), ("DISKS", [table, "/dev/zero"], "disks")):
        got = program.run(["map", "table", *words], given=REQUESTS)
        tally.same("an endless " + name, got, 1, "", "dmremap: %s: long\n" % part)


def test_pipes(tally, program):
    """Two pipes, whose writer opens DISKS once FILE is written; and one that nobody writes to."""
    pipes = [os.path.join(program.folder, it) for it in ("file pipe", "disks pipe", "silent pipe")]
    for it in pipes:
        os.mkfifo(it)
    concise = "a,,,rw,0 8 linear sda 4"
    report = "devices 1\ndisks 1\ndepth 1\ntidy\n"
    rows = [
        ("map table", TABLE, ANSWER),
        ("map concise", concise, ANSWER),
        ("replay table", TABLE, "1 wrote 1 2 3\n"),
        ("replay concise", concise, "1 wrote 1 2 3\n"),
        ("check table", TABLE, report),
        ("table concise", concise, TABLE),
        ("concise table", TABLE, concise + "\n"),
    ]
    for command, content, answer in rows:
        writer = threading.Thread(target=write_pipes, args=(pipes[:2], [content, DISKS]), daemon=True)
        writer.start()
        tally.same("two pipes, " + command, program.run(command.split() + pipes[:2], given=REQUESTS), 0, answer)
        got = program.run(command.split() + ["missing", pipes[2]], given=REQUESTS)
        tally.same("a missing FILE beside a silent pipe, " + command, got, 1, "", "dmremap: source: read\n")


def write_pipes(pipes, contents):
    for path, content in zip(pipes, contents):
        with open(path, "wb") as it:
            it.write(content.encode())


def test_descriptors(tally, program):
    """The numbers of closed streams are free for FILE and DISKS, and free again once these were read."""
    files = [program.file("table", TABLE), program.file("disks", DISKS)]
    for words in (["map", "table", *files], ["replay", "table", *files], ["map", "lvm", program.file("vg0", METADATA)]):
        name = " ".join(words[:2])
        got = program.run(words, before=lambda: os.close(0))
        tally.same(name + " with a closed standard input", got, 4, "", "dmremap: requests: read\n")
        tally.same(name + " with all streams closed", program.run(words, before=lambda: os.closerange(0, 3)), 4)
    got = program.run(["map", "table", os.devnull, os.devnull], before=lambda: os.close(0))
    tally.same("empty files and a closed standard input", got, 4, "", "dmremap: requests: read\n")
    got = program.run(["check", "table", *files], before=lambda: os.close(0))
    tally.same("check with a closed standard input", got, 0, "devices 1\ndisks 1\ndepth 1\ntidy\n")


def test_metadata(tally, program):
    """Metadata is FILE alone: there is no DISKS."""
    given = "R vg0-lv0 0 8\nW vg0-lv0 204792 16\nW vg0-lv0 204792 8\n"
    output = "1 R /dev/sda1 2048 8\n2 error 16\n3 W /dev/sda1 206840 8\n"
    small = METADATA.replace("pe_count = 128", "pe_count = 24")
    most = METADATA + "#" * (1048576 - len(METADATA))
    tally.same("metadata", program.run(["map", "lvm", program.file("vg0", METADATA)], given=given), 0, output)
    tally.same("metadata as long as it may be", program.run(["map", "lvm", program.file("vg0", most)], given=given),
               0, output)
    rows = [
        ("missing", "read"),
        (program.folder, "read"),
        ("/dev/zero", "long"),
        (program.file("longer", most + "#"), "long"),
        (os.devnull, "field at 1"),
        (program.file("small", small), "extents at 17"),
        (program.file("bytes", METADATA.encode() + b"# \xff"), "text at 27"),
    ]
    for path, words in rows:
        got = program.run(["map", "lvm", path], given=given)
        tally.same("metadata of %s" % path, got, 1, "", "dmremap: source: %s\n" % words)


def write_slowly(path, content):
    """Writes a byte at a time, so that each read gets little."""
    with open(path, "wb", buffering=0) as it:
        for byte in content.encode():
            it.write(bytes([byte]))
