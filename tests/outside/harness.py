"""Runs the program once, and compares what it did with what was wanted."""

import inspect
import os
import signal
import struct
import subprocess
import termios
import time
import traceback
import unittest

SECONDS = 180
# The segments of a program that asks for a loader, and for libraries.
INTERPRETER, DYNAMIC = 3, 2
NOBODY = 65534
# What takes nothing that is written to it.
FULL_OUTPUT = open("/dev/full", "wb", buffering=0)


class Outcome:
    """How a run ended: its status, or in words why it has none, and the bytes that it wrote."""

    def __init__(self, status, out, err):
        self.status, self.out, self.err = status, out, err


def is_static(path):
    """Whether a program asks for no loader and for no library: it has no segment of these kinds."""
    with open(path, "rb") as it:
        found = it.read()
    at, = struct.unpack("<Q", found[32:40])
    size, count = struct.unpack("<HH", found[54:58])
    kinds = {struct.unpack("<I", found[it:it + 4])[0] for it in range(at, at + size * count, size)}
    return kinds and not kinds & {INTERPRETER, DYNAMIC}


class Program:
    """The program, and the folder that its files are made in."""

    def __init__(self, path, folder):
        self.path, self.folder = path, folder

    def file(self, name, content=""):
        """Makes a file, and the folders above it, and returns its path."""
        path = os.path.join(self.folder, name)
        os.makedirs(os.path.dirname(path), exist_ok=True)
        with open(path, "wb") as it:
            it.write(as_bytes(content))
        return path

    def run(self, words, **how):
        return run([self.path] + words, **how)

    def map(self, table, disks, requests="", **how):
        """Maps requests through these texts."""
        words = ["map", "table", self.file("table", table), self.file("disks", disks)]
        return self.run(words, given=requests, **how)


class Tally(unittest.TestResult):
    """Counts the cases, and tells each that failed. A test whose code fails counts as one, too."""

    def __init__(self, tell):
        super().__init__()
        self.tell, self.passed, self.failed, self.seconds = tell, 0, 0, {}

    def startTest(self, test):
        super().startTest(test)
        self.seconds[test.id()] = -time.monotonic()

    def stopTest(self, test):
        self.seconds[test.id()] += time.monotonic()
        super().stopTest(test)

    def addSubTest(self, test, subtest, err):
        if err is None:
            self.passed += 1
        else:
            self.fail(subtest.params["name"], err[1])

    def addError(self, test, err):
        self.fail(test.id(), "".join(traceback.format_exception(*err)).strip())

    addFailure = addError

    def addSkip(self, test, reason):
        """Tells what this system can't make; it is counted nowhere."""
        self.tell("not tried: " + reason)

    def fail(self, name, why):
        self.failed += 1
        self.tell("FAILED %s: %s" % (name, why))

    def add(self, lines, passed, failed, seconds):
        """Adds what another one counted, and tells its lines."""
        for line in lines:
            self.tell(line)
        self.passed += passed
        self.failed += failed
        self.seconds.update(seconds)

    def close(self, slowest):
        """Tells so many of the slowest tests, and what was counted. Returns the status."""
        for name, seconds in sorted(self.seconds.items(), key=lambda row: -row[1])[:slowest]:
            self.tell("%.1f s %s" % (seconds, name))
        self.tell("%d passed, %d failed" % (self.passed, self.failed))
        return 1 if self.failed else 0


class Case(unittest.TestCase):
    """The tests of a module."""

    program: Program
    top: str  # of the repository
    own_folder: str  # the module's own folder
    is_own: bool  # whether the program is that of this repository

    @property
    def tally(self):
        return self

    def holds(self, name, is_so, why):
        """Counts a case that is more than a comparison of outcomes, and says whether it holds."""
        with self.subTest(name=name):
            if not is_so:
                raise self.failureException(why)
        return is_so

    def same(self, name, got, status=0, out="", err=""):
        """Counts a case: the status, and the bytes of both streams."""
        found = [("status", status, got.status), ("standard output", as_bytes(out), got.out),
                 ("standard error", as_bytes(err), got.err)]
        wrong = ["%s is %s and not %s" % (what, short(was), short(wanted))
                 for what, wanted, was in found if was != wanted]
        self.holds(name, not wrong, "; ".join(wrong))

    def tells(self, name, got, status=0, out=None, err=None):
        """Counts a case: the status, and what is part of each stream, where "" is an empty one, and None any."""
        parts = [(as_bytes(part), stream) for part, stream in ((out, got.out), (err, got.err)) if part is not None]
        is_so = got.status == status and all(part in stream if part else not stream for part, stream in parts)
        return self.holds(name, is_so, "status %s, %s, %s" % (got.status, short(got.out), short(got.err)))

    def skip(self, name, why):
        """Tells a case that this system can't make; it is counted nowhere."""
        with self.subTest(name=name):
            self.skipTest("%s: %s" % (name, why))


def case_of(module):
    """The case of a module, in which each function `test_..` of the module is a test: it gets what the case has under
    the names of its arguments, of which `tally` is the case itself, or what the module's function of that name makes of
    it. What all tests of a module have together is made by a class of its own."""
    own = [it for it in vars(module).values() if getattr(it, "__module__", "") == module.__name__]
    made = type("Tests", (Case,), {"__module__": module.__name__})
    case = next((it for it in own if isinstance(it, type) and issubclass(it, Case)), made)
    setattr(module, case.__name__, case)
    for function in (it for it in own if inspect.isfunction(it) and it.__name__.startswith("test_")):
        setattr(case, function.__name__, _test(function))
    return case


def _test(function):
    """A function as a method."""
    def given(case, name):
        return getattr(case, name) if hasattr(case, name) else function.__globals__[name](case)
    names = list(inspect.signature(function).parameters)
    return lambda case: function(*[given(case, name) for name in names])


def run(words, given=b"", stdin=None, stdout=None, stderr=None, before=None, folder=None, env=None):
    """Runs a command to its end. `given` is what its standard input holds, if that is none of the
    caller's; `before` is called in the new process, as a shell sets limits."""
    ran = subprocess.Popen(words, stdin=subprocess.PIPE if stdin is None else stdin,
        stdout=subprocess.PIPE if stdout is None else stdout, stderr=subprocess.PIPE if stderr is None else stderr,
        preexec_fn=before, cwd=folder, env=env, start_new_session=True)
    try:
        out, err = ran.communicate(as_bytes(given) if stdin is None else None, timeout=SECONDS)
    except subprocess.TimeoutExpired:
        os.killpg(ran.pid, signal.SIGKILL)
        ran.communicate()
        return Outcome("none after %d seconds" % SECONDS, b"", b"")
    return Outcome(ran.returncode, out or b"", err or b"")


def become_nobody():
    """As root reads every file, a case of an unreadable one runs as somebody else."""
    if os.geteuid() == 0:
        os.setgroups([])
        os.setgid(NOBODY)
        os.setuid(NOBODY)


def failing_input(content):
    """An input that delivers these bytes and then fails: a terminal whose other end has gone."""
    here, there = os.openpty()
    mode = termios.tcgetattr(there)
    mode[0] = mode[1] = mode[3] = 0
    termios.tcsetattr(there, termios.TCSANOW, mode)
    os.write(there, as_bytes(content))
    os.close(there)
    return here


def text_of(path):
    """The text of a file."""
    with open(path, encoding="utf-8") as it:
        return it.read()


def as_bytes(content):
    return content.encode() if isinstance(content, str) else content


def short(value):
    shown = repr(value)
    return shown if len(shown) <= 200 else shown[:200] + ".."
