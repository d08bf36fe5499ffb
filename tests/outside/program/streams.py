"""Streams that are full, closed or cut off, and readers that go away."""

import os
import re
import resource
import select
import signal
import socket
import subprocess
import tempfile
import time

from harness import FULL_OUTPUT, Outcome, failing_input

TABLE = "a: 0 4096 striped 2 1 sda 0 sdb 0\n"
# The same in four lines, whose requests are read several at a time before the first of them is answered.
FOUR = "".join("a: %d 1024 striped 2 1 sda %d sdb %d\n" % (1024 * at, 512 * at, 512 * at) for at in range(4))
DISKS = "sda 2048\nsdb 2048\n"
SHORT = "R a 0 2\n"
SHORT_ANSWER = "1 R sda 0 1\n1 R sdb 0 1\n"
# Its answer has some 30,000 bytes, which are passed on together, and that of the next goes out in many writes.
WIDE = "R a 0 2048\n"
LONG = "R a 0 4096\n" * 20
BAD = "R b 0 1\n"
# One snapshot is written, and the other runs out of places.
SNAPSHOTS = "s: 0 8 snapshot base cow P 8\nt: 0 8 snapshot base cow2 P 8\n"
STORES = "base 8\ncow 24\ncow2 16\n"
WRITES = "W s 0 1\nW t 0 1\n"
UNWRITTEN = "dmremap: output: write\n"
UNREAD = "dmremap: requests: read\n"


def test_output(tally, program):
    """An output that takes nothing; the requests are answered however the run would have ended."""
    for name, given in (("a short answer", SHORT), ("a long answer", LONG), ("a bad request", SHORT + BAD)):
        tally.same("a full output, " + name, program.map(TABLE, DISKS, given, stdout=FULL_OUTPUT), 5, "", UNWRITTEN)
        got = program.map(TABLE, DISKS, given, before=lambda: os.close(1))
        tally.same("a closed output, " + name, got, 5, "", UNWRITTEN)
    tally.same("a full output, no request", program.map(TABLE, DISKS, "", stdout=FULL_OUTPUT))
    got = program.map(TABLE, DISKS, BAD, stdout=FULL_OUTPUT)
    tally.same("a full output, nothing but a bad request", got, 3, "", "dmremap: request 1: unknown\n")
    got = program.map("a: 0 0 zero\n", DISKS, SHORT, stdout=FULL_OUTPUT)
    tally.same("a full output, a refused load", got, 1, "", "dmremap: source: empty at 1\n")


def test_writes(tally, program):
    """How often each command writes: what it has to say is gathered. A socket keeps apart what each write gave it."""
    table, disks = program.file("table", TABLE), program.file("disks", DISKS)
    files = ["table", table, disks]
    rows = [("map", ["map", *files], 200), ("map --status", ["map", *files, "--status"], 200),
            ("replay", ["replay", *files], 200), ("table", ["table", *files], 1), ("concise", ["concise", *files], 1),
            ("check", ["check", *files], 4), ("name", ["name", "vg0", "lv0"], 1)]
    for name, words, lines in rows:
        here, there = socket.socketpair(socket.AF_UNIX, socket.SOCK_SEQPACKET)
        with here, there:
            got = program.run(words, given=SHORT * 100, stdout=there)
            there.close()
            writes = list(iter(lambda: here.recv(1 << 20), b""))
        text = b"".join(writes)
        tally.same("%s to a socket" % name, got)
        tally.holds("%s writes once" % name, len(writes) == 1 and text.count(b"\n") == lines,
                    "%d writes of %d lines" % (len(writes), text.count(b"\n")))


def test_reader(tally, program):
    """A reader that takes a line and goes, as `head` does. The program may not go on for ever."""
    words = [program.path, "map", "table", program.file("table", TABLE), program.file("disks", DISKS)]
    for name, given in (("before anything was written", SHORT), ("in the midst of a long answer", LONG)):
        ran = subprocess.Popen(words, stdin=subprocess.PIPE, stdout=subprocess.PIPE, stderr=subprocess.PIPE)
        if given == SHORT:
            ran.stdout.close()
        ran.stdin.write(given.encode())
        ran.stdin.close()
        if given == LONG:
            ran.stdout.readline()
            ran.stdout.close()
        message = ran.stderr.read()
        ran.stderr.close()
        tally.same("a reader that goes away " + name, Outcome(ran.wait(), b"", message), 5, "", UNWRITTEN)


def test_full_pauses(tally, program):
    """An output that takes nothing more, and fails at once, while the program waits for requests, and has room again
    before they come. What it did not take is lost, and nothing may be written after it."""
    words = ["table", program.file("table", TABLE), program.file("disks", DISKS)]
    ends = [("a clean end", ""), ("another request", SHORT), ("a bad request", BAD), ("a failed read", None)]
    for command in ("map", "replay"):
        for room, given in ((0, SHORT), (3 * 4096, WIDE)):
            whole = program.run([command, *words], given=given).out
            for name, rest in ends:
                name = "%s, an output with room for %d bytes before a pause, and then %s" % (command, room, name)
                got, wrote, later = run_full(program, [command, *words], room, given, rest)
                tally.same(name, got, 5, "", UNWRITTEN)
                tally.holds(name + ": what was written", wrote == whole[:room] != whole and not later,
                            "%d bytes before the pause and %d after it" % (len(wrote), len(later)))


def run_full(program, words, room, given, rest):
    """Runs the program with so much room in its output until it waits for `rest`, or for its input to fail. Returns how it
    ended, and what it wrote until it waited and after that."""
    here, there = full_pipe(room)
    near, far = socket.socketpair()
    # A byte that nobody reads makes the close of that end a fault of this one.
    near.send(b"-")
    ran = subprocess.Popen([program.path, *words], stdin=near, stdout=there, stderr=subprocess.PIPE)
    os.close(there)
    far.send(given.encode())
    await_pause(ran.pid)
    wrote = os.read(here, 1 << 20).lstrip(b"-")
    if rest is not None:
        far.send(rest.encode())
        far.shutdown(socket.SHUT_WR)
        ran.wait()
    far.close()
    near.close()
    message = ran.stderr.read()
    ran.stderr.close()
    status = ran.wait()
    later = os.read(here, 1 << 20)
    os.close(here)
    return Outcome(status, b"", message), wrote, later


def full_pipe(room):
    """The two ends of a pipe that has only so much room, in pages of 4,096 bytes, and does not wait for more."""
    here, there = os.pipe()
    os.set_blocking(here, False)
    os.set_blocking(there, False)
    try:
        while True:
            os.write(there, b"-" * 4096)
    except BlockingIOError:
        if room:
            os.read(here, room)
    return here, there


def test_gone_pauses(tally, program):
    """A reader that goes away while the program waits for requests."""
    for command, answer in (("map", SHORT_ANSWER), ("replay", "1 old sda 0 1\n1 old sdb 0 1\n")):
        words = [program.path, command, "table", program.file("table", TABLE), program.file("disks", DISKS)]
        for name, rest in (("a clean end", ""), ("another request", SHORT), ("a bad request", BAD)):
            ran = subprocess.Popen(words, stdin=subprocess.PIPE, stdout=subprocess.PIPE, stderr=subprocess.PIPE, bufsize=0)
            ran.stdin.write(SHORT.encode())
            wrote = read_soon(ran.stdout, len(answer))
            ran.stdout.close()
            ran.stdin.write(SHORT.encode())
            await_pause(ran.pid)
            ran.stdin.write(rest.encode())
            ran.stdin.close()
            message = ran.stderr.read()
            ran.stderr.close()
            tally.same("%s, a reader that goes away in a pause, and then %s" % (command, name),
                       Outcome(ran.wait(), wrote, message), 5, answer, UNWRITTEN)


def await_pause(process):
    """Waits until a process has been asleep for a while: then it waits for what it has not been given yet. Or it has ended."""
    still = 0
    for _ in range(500):
        with open("/proc/%d/stat" % process) as stat:
            still = still + 1 if stat.read().rpartition(")")[2].split()[0] in "SZ" else 0
        if still == 5:
            return
        time.sleep(0.02)


def test_beginnings(tally, program):
    """A file that may grow to `most` bytes and no more, as on a disk that runs full."""
    whole = program.map(TABLE, DISKS, LONG).out
    tally.same("the same device in four lines", program.map(FOUR, DISKS, LONG), 0, whole)
    for most in (1, 10, 4096, 70000, 400000):
        for name, table in (("", TABLE), (", through four lines", FOUR)):
            with tempfile.TemporaryFile() as file:
                got = program.map(table, DISKS, LONG, stdout=file, before=lambda: limit_files(most))
                file.seek(0)
                got.out = file.read()
            tally.same("an output that fails after %d bytes%s" % (most, name), got, 5, whole[:most], UNWRITTEN)


def test_each_beginning(tally, program):
    """A file that runs full after each byte of what is written at the end of a run, or printed."""
    table = ["table", program.file("table", SNAPSHOTS), program.file("disks", STORES)]
    for name, words in (("status lines", ["map", *table, "--status"]), ("concise text", ["concise", *table])):
        whole = program.run(words, given=WRITES).out
        cut = []
        for most in range(len(whole)):
            with tempfile.TemporaryFile() as file:
                got = program.run(words, given=WRITES, stdout=file, before=lambda: limit_files(most))
                file.seek(0)
                cut.append((got.status, file.read() == whole[:most], got.err))
        wrong = [at for at, it in enumerate(cut) if it != (5, True, UNWRITTEN.encode())]
        tally.holds("%s that are cut after each of %d bytes" % (name, len(whole)), len(whole) > 60 and not wrong,
                    "it differs after %s bytes" % wrong)


def limit_files(most):
    signal.signal(signal.SIGXFSZ, signal.SIG_IGN)
    resource.setrlimit(resource.RLIMIT_FSIZE, (most, most))


def test_requests(tally, program):
    folder = os.open(program.folder, os.O_RDONLY)
    tally.same("a folder as requests", program.map(TABLE, DISKS, stdin=folder), 4, "", UNREAD)
    os.close(folder)
    written = os.open(program.file("written"), os.O_WRONLY)
    tally.same("requests from a file open for writing alone", program.map(TABLE, DISKS, stdin=written), 4, "", UNREAD)
    os.close(written)
    with open("/dev/zero", "rb") as zeros:
        got = program.map(TABLE, DISKS, stdin=zeros)
    tally.same("endless requests without a newline", got, 3, "", "dmremap: request 1: long\n")
    check_failing(tally, program)
    check_unclosed(tally, program)


def check_failing(tally, program):
    """Requests of which some come before reading them fails."""
    try:
        os.close(failing_input(""))
    except OSError as error:
        tally.skip("requests that fail after some bytes", error)
        return
    rows = [
        ("at once", "", 4, "", UNREAD),
        ("after a line", SHORT, 4, SHORT_ANSWER, UNREAD),
        ("inside a line", SHORT + "R a 0", 4, SHORT_ANSWER, UNREAD),
        ("after a rest of 4,096 bytes", SHORT + "R" * 4096, 4, SHORT_ANSWER, UNREAD),
        ("after a rest of 4,097 bytes", SHORT + "R" * 4097, 3, SHORT_ANSWER, "dmremap: request 2: long\n"),
        ("after a bad line", SHORT + BAD, 3, SHORT_ANSWER, "dmremap: request 2: unknown\n"),
    ]
    for name, given, status, output, message in rows:
        tally.same("requests that fail " + name, map_failing(program, given), status, output, message)
    got = map_failing(program, SHORT, stdout=FULL_OUTPUT)
    tally.same("requests that fail, and a full output", got, 5, "", UNWRITTEN)


def map_failing(program, given, **how):
    here = failing_input(given)
    try:
        return program.map(TABLE, DISKS, stdin=here, **how)
    finally:
        os.close(here)


def check_unclosed(tally, program):
    """A bad line ends the run though more requests may still come. A line that is one too many is out of reach:
    it comes after 10^12 others."""
    rows = [
        ("form", "R a 0\n", "form"),
        ("number", "R a 00 1\n", "number"),
        ("length", "R a 0 0\n", "length"),
        ("an unknown device", BAD, "unknown"),
        ("more than a line may have", "R" * 4097, "long"),
    ]
    for name, given, word in rows:
        for before, answer, number in (("", "", 1), (SHORT, SHORT_ANSWER, 2)):
            here, there = os.pipe()
            os.write(there, (before + given).encode())
            got = program.map(TABLE, DISKS, stdin=here)
            os.close(here)
            os.close(there)
            tally.same("request %d, bad by %s, before a pause" % (number, name), got, 3, answer,
                       "dmremap: request %d: %s\n" % (number, word))


def test_messages(tally, program):
    """Where the message can't be written, the output and the status are what they were."""
    rows = [
        ("no fault", TABLE, SHORT, 0, SHORT_ANSWER),
        ("a refused load", "a: 0 0 zero\n", SHORT, 1, ""),
        ("a bad request", TABLE, SHORT + BAD, 3, SHORT_ANSWER),
    ]
    for name, table, given, status, output in rows:
        got = program.map(table, DISKS, given, stderr=FULL_OUTPUT)
        tally.same("a full standard error, " + name, got, status, output)
        got = program.map(table, DISKS, given, before=lambda: os.close(2))
        tally.same("a closed standard error, " + name, got, status, output)


def test_pauses(tally, program):
    """A request is answered before the next one is written, though its pipe stays open."""
    disks = program.file("disks", DISKS)
    rows = [
        ("map", "a request", "R a 0 2\n", "1 R sda 0 1\n1 R sdb 0 1\n"),
        ("map", "a request and a part of the next", "R a 2 1\nW a", "2 R sda 1 1\n"),
        ("map", "the other part and one more", " 3 1\nR a 0 1\n", "3 W sdb 1 1\n4 R sda 0 1\n"),
        ("map", "twenty in a row", "R a 2 1\n" * 20, "".join("%d R sda 1 1\n" % at for at in range(5, 25))),
        ("replay", "a request", "R a 0 2\n", "1 old sda 0 1\n1 old sdb 0 1\n"),
        ("replay", "a request and a part of the next", "W a 2 1\nR a", "2 wrote 2 2 1\n"),
        ("replay", "the other part and one more", " 2 2\nW a 0 2\n", "3 wrote 2 2 1\n3 old sdb 1 1\n4 wrote 4 0 2\n"),
    ]
    for command, table in (("map", TABLE), ("map", FOUR), ("replay", TABLE)):
        words = [program.path, command, "table", program.file("table", table), disks]
        ran = subprocess.Popen(words, stdin=subprocess.PIPE, stdout=subprocess.PIPE, stderr=subprocess.PIPE, bufsize=0)
        for name, given, answer in [row[1:] for row in rows if row[0] == command]:
            ran.stdin.write(given.encode())
            got = read_soon(ran.stdout, len(answer))
            tally.holds("%s before a pause, %s" % (command, name), got == answer.encode(), "the answer so far is %r" % got)
        out, err = ran.communicate()
        tally.same(command + " after the pauses", Outcome(ran.returncode, out, err))


def read_soon(stream, most):
    """What comes of `most` bytes, while none takes longer than some seconds."""
    got = b""
    while len(got) < most and select.select([stream], [], [], 5)[0]:
        more = os.read(stream.fileno(), most - len(got))
        if not more:
            break
        got += more
    return got


def figure_of(program, words, given, answers, file, word):
    """The number that the system has under a word in a file about the process once these requests were answered, and what came
    of the call."""
    ran = subprocess.Popen([program.path, *words], stdin=subprocess.PIPE, stdout=subprocess.PIPE, stderr=subprocess.PIPE, bufsize=0,
                           cwd=program.folder)
    ran.stdin.write(given.encode())
    wrote = read_soon(ran.stdout, len(answers))
    with open("/proc/%d/%s" % (ran.pid, file)) as it:
        figure = int(re.search(word + r":\s+(\d+)", it.read())[1])
    rest, message = ran.communicate()
    return figure, Outcome(ran.returncode, wrote + rest, message)
