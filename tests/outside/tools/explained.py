"""dmremap-tools explain: of a refusal the place, why it is refused and what is allowed, and no command that answers in place of
the one that was typed; of an answer its way, level by level, which makes dmremap's answer together."""

import os
import random
import re
import shutil

import explained_rows
import origins
import snapshots
from explained_rows import FILES
from harness import FULL_OUTPUT, Case, run
from tool_calls import TOOL, call, read, samples

STACKS = 120
REQUEST = re.compile("[RW] ")
# Where the store lies on the disk of the sample.
STORE = 206848
# A program that answers about a level other than about the whole.
WRONG = """#!/bin/sh
case "$*" in
*/level/*) %s "$@" | sed s/10048/10056/ ;;
*) exec %s "$@" ;;
esac
"""


class Explain:
    """The command over the program under test, in a folder with files."""

    def __init__(self, program, top, folder):
        self._program, self.top, self.folder = program, top, folder

    def run(self, words, given=b"", asked=None, **how):
        """Runs it with some words, perhaps over another program."""
        return call(self.top, ["explain", "--program", asked or self._program.path, *words], given=given, folder=self.folder, **how)

    def put(self, files):
        """Makes files of a row."""
        for name, content in files.items():
            self._program.file("explained/" + name, content)


def make_folder(program, top):
    """A folder with the files of the rows."""
    folder = os.path.dirname(program.file("explained/empty"))
    for name, content in FILES.items():
        program.file("explained/" + name, content)
    for name in ("vg0.backup", "vg0-snapshot.backup"):
        shutil.copy(os.path.join(top, "examples", name), folder)
    shutil.copy(os.path.join(samples(top), "vgm.backup"), folder)
    shutil.copy(os.path.join(samples(top), "vg0-head.img"), os.path.join(folder, "image"))
    content = read(os.path.join(folder, "vg0.backup"))
    for name, (was, now) in explained_rows.CHANGED.items():
        program.file("explained/" + name, content.replace(was, now, 1))
    return folder


def test_refusals(tally, explain):
    """What is marked of each refusal; and that nothing of what is printed answers where it is typed, but for help."""
    environment = dict(os.environ, PATH=put_programs(tally.program, explain.top) + ":/usr/bin:/bin")
    typed = set()
    for message, words, given, files, marked in explained_rows.rows():
        explain.put(files)
        got = explain.run(words, given)
        first, *others = got.out.decode().splitlines()
        is_so = got.status == 0 and not got.err and first == ("" if message.startswith("error") else "dmremap: ") + message
        are_said = message.startswith("error") or all(any(it.startswith(lead) for it in others) for lead in ("why: ", "allowed: ", "more: dmremap help '"))
        tally.holds("%s by %s" % (message, words), is_so and are_said and marked_by(others) == marked, "status %s, %r, %r" % (got.status, got.out.decode(), got.err))
        for row in others:
            # All of a line, what stands behind the word that begins it, and what is in quotes.
            commands = {row, re.sub("^[a-z]+: +", "", row), *re.findall("`([^`]+)`", row)} - typed
            typed |= commands
            for command in (it for it in commands if not it.startswith("dmremap help")):
                ran = run(["bash", "-c", command], folder=explain.folder, env=environment)
                tally.holds("what is typed of %r" % row, ran.status != 0 or not ran.out, "it answers %r" % ran.out)
            for command in (it for it in commands if it.startswith("dmremap help ")):
                tally.tells(command, run(["bash", "-c", command], env=environment), 0, "dmremap: ")
    words = {re.sub(r"^request \d+: | at \d+$|^\w+( \w+)?: ", "", message) for message, *_ in explained_rows.rows()}
    tally.holds("the words that are tried", len(words) > 25, sorted(words))


def put_programs(program, top):
    """A folder with dmremap and the tools."""
    folder = os.path.join(program.folder, "programs")
    os.makedirs(folder, exist_ok=True)
    for name, path in (("dmremap", program.path), ("dmremap-tools", os.path.join(top, "dmremap-tools"))):
        os.symlink(path, os.path.join(folder, name))
    return folder


def marked_by(rows):
    """What is underlined of a line, or None."""
    mark = re.match(r" +(\^+)", rows[2]) if len(rows) > 2 else None
    return rows[1][mark.start(1):mark.end(1)] if mark else None


def test_ways(tally, explain):
    """Ways as they are shown."""
    for words, shown in explained_rows.WAYS:
        requests = "".join(it + "\n" for it in words if REQUEST.match(it))
        tally.same("the way of %s" % words, explain.run([it for it in words if not REQUEST.match(it)], given=requests), 0, shown)
        tally.same("the way of %s as words" % words, explain.run(words), 0, shown)


def test_causes(tally, explain):
    """An error has its cause, and its text begins so."""
    for name, words, cause in explained_rows.ERRORS:
        out = explain.run(words).out.decode()
        tally.holds("an error because of " + name, re.search(r"^[| ]*\+- error \d+: %s" % re.escape(cause), out, re.M), out)


def test_stacks(tally, explain, program):
    """Random stacks with snapshots: the levels make dmremap's answer of the whole together, or the command would refuse. Every
    other one begins from its stores, which lie on disks of one image."""
    program.file("explained/image", bytes(64 * 512))
    for number in range(STACKS):
        dice = random.Random(number)
        stack = origins.small_stack(dice)
        requests = ["%s %s %d %d\n" % it for it in snapshots.small_requests(dice, stack)]
        for name, content in (("random", snapshots.concise(stack)), ("random.disks", snapshots.disks_of(stack)),
                              ("paths", "".join("%s image\n" % it for it in stack.disks)), ("earlier", "".join(requests[:number % 6]))):
            program.file("explained/" + name, content)
        words = ["map", "concise", "random", "random.disks", "--before", "earlier", *["--paths", "paths"] * (number % 2)]
        answer = program.run(words, given=requests[-1], folder=explain.folder)
        got = explain.run(words, given=requests[-1])
        wanted = b"answer:\n" + re.sub(rb"(?m)^1 ", b"  ", answer.out)
        is_so = answer.status == got.status == 0 and got.out.endswith(wanted)
        tally.holds("random stack %d" % number, is_so, "status %s, %s, %r, %r" % (answer.status, got.status, got.err, got.out))


def test_stores(tally, explain, program):
    """Snapshots that begin as their stores are, if that is asked for."""
    words = ["map", "lvm", "vg0-snapshot.backup", "R vg0-snap 8000 16", "W vg0-snap 8000 1", "R vg0-lv0 0 1"]
    with open(os.path.join(samples(explain.top), "snap.store"), "rb") as it, open(os.path.join(explain.folder, "sda1.img"), "wb") as image:
        image.seek(STORE * 512)
        image.write(it.read())
        image.truncate(1050624 * 512)
    program.file("explained/paths", "/dev/sda1 sda1.img\n")
    got = explain.run([*words, "--paths", "paths"])
    wanted = b"chunk 1001, taken\n", b"chunk 1000, not taken yet\n"
    tally.holds("ways from a store", got.status == 0 and not got.err and all(it in got.out for it in wanted), "status %s, %r, %r" % (got.status, got.err, got.out))
    for listed, why in (("", "A part of the store lies on a disk that PATHS doesn't name"), ("/dev/sda1 tables\n", "can't be opened or read"),
                        ("/dev/sda1 s.img\n", "can't be opened or read"), ("/dev/sdb sda1.img\n", "No disk has that name")):
        program.file("explained/paths", listed)
        tally.tells("a store by the paths %r" % listed, explain.run([*words, "--paths", "paths"]), out=why)
    with open(os.path.join(explain.folder, "sda1.img"), "r+b") as image:
        image.seek(STORE * 512 + 4)
        image.write(bytes(4))
    program.file("explained/paths", "/dev/sda1 sda1.img\n")
    got = explain.run([*words, "--paths", "paths"])
    why = b"the header of vg0-snap's store says that it is invalid: it was full once, so all of the snapshot fails\n"
    tally.holds("a store whose header says that it is invalid", got.status == 0 and got.out.count(why) == 2 and b"no place" not in got.out, "status %s, %r, %r" % (got.status, got.err, got.out))
    program.file("explained/s.table", "s: 0 2048 snapshot base cow P 16\n")
    program.file("explained/s.disks", "base 2048\ncow 16\n")
    program.file("explained/paths", "cow %s\n" % os.path.join(samples(explain.top), "snap.store"))
    got = explain.run(["map", "table", "s.table", "s.disks", "--paths", "paths"])
    tally.tells("a store with other chunks", got, out="allowed: images of all disks of the stores of snapshots, whose chunks")
    tally.tells("a store without paths", explain.run([*words, "--paths", "nowhere"]), out="dmremap: paths: read\n")


def test_ends(tally, explain, program):
    """What isn't explained is refused, and outputs may fail."""
    words = ["map", "table", "tables", "disks"]
    got = explain.run(words, given="R a 0 1\n" * 17)
    tally.same("many requests", got, 1, "", TOOL + " explain: the requests: there are 17: give at most 16, and those before them by --before\n")
    got = explain.run(["map", "table", "chunks.table", "chunks.disks", "W s 0 20000"])
    tally.same("a long way", got, 1, "", TOOL + " explain: W s 0 20000: its way has more than 4096 pieces: ask for fewer sectors\n")
    wrong = program.file("explained/wrong", WRONG % (program.path, program.path))
    os.chmod(wrong, 0o755)
    got = explain.run(["map", "lvm", "vg0.backup", "R vg0-lv0 8000 16"], asked=wrong)
    why = b"explain: R vg0-lv0 8000 16: the levels don't make dmremap's answer together"
    tally.tells("levels that don't make the answer", got, 1, "", why)
    got = explain.run(["map", "lvm", "vg0.backup", "R", "vg0-lv0", "0", "8"])
    tally.tells("a request without quotes", got, 2, "", "explain: put each request in quotes\n")
    tally.tells("empty metadata", explain.run(["check", "lvm", "empty"]), out="\nwhy: A value is wrong. In metadata: ")
    got = explain.run(["map", "lvm", "vgm.backup"], stdout=FULL_OUTPUT.fileno())
    tally.same("an explanation to a full output", got, 5, "", TOOL + " explain: standard output: No space left on device\n")
    got = explain.run(["map", "table", "esc.table", "disks"])
    tally.holds("foreign text", got.status == 0 and b"\x1b" not in got.out and b"\\x1b" in got.out, repr(got.out))


class Explained(Case):
    """Refusals and answers that are explained."""

    @classmethod
    def setUpClass(cls):
        cls.explain = Explain(cls.program, cls.top, make_folder(cls.program, cls.top))
