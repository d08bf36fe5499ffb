"""dmremap-tools and its streams: each command over outputs that are full, closed or not read any more, over inputs that are
cut, and over samples with random changes. Whatever comes, it says so, and with the right status."""

import importlib
import os
import pty
import random
import re
import resource
import shutil
import signal
import subprocess
import sys

from harness import FULL_OUTPUT, Case, Outcome, run
from tool_calls import TOOL, call, read, samples

# For each command the words of a call that has an answer, in a folder with the samples and what is made of them here. Words
# that end in `<` are given as standard input.
CALLS = {"filefrag": ["vg0-lv0", "extents.txt"], "trace": ["--write-times", "beside", "ls.txt", "vg0.table",
    "blkparse.txt"], "machine": ["--program", "./dmremap", "--disks", "beside", "ls.txt", "status.txt", "lsblk.txt",
    "concise.txt"], "metadata": ["vg0-head.img"], "lvm2-text": ["--program", "./dmremap", "vgm.backup"],
    "report": ["pieces.txt"], "layout": ["--program", "./dmremap", "table", "stack.table", "stack.disks"],
    "store": ["--program", "./dmremap", "--fresh", "--requests", "writes", "table", "snap.table", "snap.disks"],
}
# Other ways to call a command, in which it reads other inputs.
WAYS = [
    ("trace", ["--cut", "in-bytes"]),
    ("trace", ["--bytes", "in-bytes"]),
    ("trace", ["--lower", "--write-times", "beside", "lower.lsblk", "lower.disks", "lower.txt"]),
    ("report", ["--compare", "lower.requests", "lower.pieces"]),
    ("layout", ["--program", "./dmremap", "--free", "table", "stack.table", "stack.disks"]),
    ("layout", ["--program", "./dmremap", "--clashes", "table", "clashes.table", "clashes.disks"]),
    ("layout", ["--program", "./dmremap", "--dot", "table", "stack.table", "stack.disks"]),
    ("layout", ["--program", "./dmremap", "--device", "vol", "table", "image.table", "image.disks"]),
]
# What is made beside the samples.
MADE = {"in-bytes": "R vg0-lv0 1000 3000\nW vg0-lv0 4096 2500000000\n",
    "vg0.table": "vg0-lv0: 0 204800 linear /dev/sda1 2048\nvg0-lv--1: 0 32768 striped 2 128 /dev/sda1 206848 /dev/sda1 223232\n",
    "lower.lsblk": "8:0 1048576 sda \n8:1 524288 sda1 sda\n", "lower.disks": "/dev/sda 2048\n",
    "lower.txt": "8,0 0 7 0.5 4101 Q R 8 + 16 [fio]\n8,0 0 8 0.6 4101 C R 8 + 16 [0]\n8,0 0 9 0.7 4101 Q WS 100 + 8 [fio]\n",
    "lower.requests": "W /dev/sda 100 8\nR /dev/sda 8 8\nR /dev/sda 16 8\n",
    "lower.pieces": "1 R /dev/sda 8 16\n2 W /dev/sda 100 8\n", "clashes.disks": "sda 100\n",
    "clashes.table": "a: 0 8 linear sda 4\nb: 0 8 linear sda 8\n",
    "image.table": "vol: 0 64 linear sda 4096\nvol: 64 8 zero\n", "image.disks": "sda 1052672\n",
    "writes": "W snap 0 8\nW snap 4096 8\nR snap 0 8\n", "snap.table": "snap: 0 819200 snapshot base cow P 8\n",
    "snap.disks": "base 819200\ncow 32\n",
}
# Commands that make a file in place of printing, pass on what dmremap prints, or have images or files for its words. They are
# tried in `layouts`, `saves`, `used`, `models` and `explained`.
UNPRINTED = {"save", "scan", "serve", "lost", "owner", "tables", "explain"}
# Words of these calls that name files, but none that a text is put into.
NO_INPUTS = ("beside", "./dmremap")
CUTS, MUTATIONS, MEMORY, MANY = 8, 500, 1 << 30, 3000
FULL, GONE = 5, 141
ENDS = ((signal.SIGINT, 130), (signal.SIGTERM, 143), (signal.SIGHUP, 129))
NO_FILE = "'-' is no file to write: give it a name"
# Words that are too long, and what of them is too much in a message.
LONG = ["x" * 300, "\x1b" * 300, "a=" + "x" * 300]
TOO_LONG = re.compile(r"x{101}|(?:\\x1b){101}")
ANSWERED, REFUSED, INCOMPLETE = 0, 1, 4
# What is put into a text in place of something else.
BITS = [b"0", b"18446744073709551615", b"18446744073709551616", b"9" * 40, b"-1", b"\0", b"\x1b[2J", b"\xff", b"\n", b" ", b":",
        b"/dev/dm-0", b"a" * 300, "\u202e".encode(), b"{", b"}", b'"', b"#", b"=", b"[", b"]", b"\\"]


def test_commands(tally, folder):
    commands = importlib.import_module("dmremap_tools.commands").COMMANDS
    lost = {it.name for it in commands} ^ (set(CALLS) | UNPRINTED)
    tally.holds("commands whose streams are tried", not lost, "others are %s" % sorted(lost))


def test_calls(tally, top, folder, commands):
    for call_tried in commands:
        check_ends(tally, top, folder, *call_tried)
        check_cuts(tally, top, folder, *call_tried)
        check_standard_input(tally, top, folder, *call_tried)


def make_folder(program, top):
    """A folder with the samples, and what the commands need besides."""
    folder = os.path.join(program.folder, "streams")
    shutil.copytree(samples(top), folder)
    shutil.copy(os.path.join(top, "examples", "vg0.backup"), folder)
    os.symlink(program.path, os.path.join(folder, "dmremap"))
    for name, text in MADE.items():
        program.file(os.path.join("streams", name), text)
    return folder


def tool(top):
    """The words that run the tool as a shell does."""
    return [sys.executable, os.path.join(top, TOOL)]


def check_ends(tally, top, folder, command, given):
    """Outputs that don't take what is printed."""
    words = [command.name, *given]
    plain = call(top, words, folder=folder)
    told = plain.err.decode()
    if not tally.holds("%s has an answer" % words, plain.status == ANSWERED and plain.out, "status %s, %r" % (plain.status, plain.err)):
        return
    said = told + "%s %s: standard output: %s\n"
    got = call(top, words, folder=folder, stdout=FULL_OUTPUT.fileno())
    tally.same("%s to a full output" % command.name, got, FULL, "", said % (TOOL, command.name, "No space left on device"))
    if told:
        got = call(top, words, folder=folder, stderr=FULL_OUTPUT.fileno())
        tally.holds("%s to full messages" % command.name, got.status == FULL, "status %s" % got.status)
    got = call(top, [command.name, "--help"], folder=folder, stdout=FULL_OUTPUT.fileno())
    tally.holds("the help of %s to a full output" % command.name, got.status == FULL and got.err.count(b"\n") == 1, got.err)
    here, there = os.pipe()
    os.close(here)
    tally.same("%s to a pipe that nobody reads" % command.name, call(top, words, folder=folder, stdout=there), GONE, "", told)
    os.close(there)
    got = run(tool(top) + words, folder=folder, before=lambda: os.close(1))
    tally.same("%s without an output" % command.name, got, FULL, "", said % (TOOL, command.name, "Bad file descriptor"))
    if "beside" in words:
        full = [it if it != "beside" else "/dev/full" for it in words]
        got = call(top, full, folder=folder)
        is_told = got.err.decode().endswith("%s %s: /dev/full: No space left on device\n" % (TOOL, command.name))
        tally.holds("%s with a full file beside" % command.name, got.status == FULL and is_told, "status %s, %r" % (got.status, got.err))


def check_cuts(tally, top, folder, command, words):
    """Inputs that end anywhere: an answer, or a refusal in words. One that isn't there, and a folder, are refused by name."""
    dice = random.Random(command.name)
    for place, name in inputs_of(words, folder):
        content = read(os.path.join(folder, name))
        for length in sorted({0, *(dice.randrange(len(content)) for _ in range(CUTS))}):
            why = fault_of(command, with_input(top, folder, [command.name, *words], place + 1, content[:length]))
            tally.holds("%s with %s cut at %d" % (command.name, name, length), not why, why)
        for path in "nowhere", ".":
            got = call(top, [command.name, *words[:place], path, *words[place + 1:]], folder=folder)
            is_told = got.status == REFUSED and got.err.decode().splitlines()[-1].startswith("%s %s: %s: " % (TOOL, command.name, path))
            tally.holds("%s with %s for %s" % (command.name, path, name), is_told and not fault_of(command, got), got.err)


def check_standard_input(tally, top, folder, command, called):
    """Each input from standard input gives the same, and what is said of it calls it that. Images of metadata have places."""
    for place, name in (it for it in inputs_of(called, folder) if not it[1].endswith(".meta")):
        words = list(called)
        plain = call(top, [command.name, *words], folder=folder)
        words[place] = "-"
        title = "%s of standard input for %s" % (command.name, name)
        got = call(top, [command.name, *words], given=read(os.path.join(folder, name)), folder=folder)
        tally.same(title, got, ANSWERED, plain.out, plain.err.replace(name.encode(), b"standard input"))
        got = call(top, [command.name, *words], given="\1 nonsense\n", folder=folder)
        is_told = b" -: " not in got.err and b" -:1: " not in got.err
        tally.holds(title + " that makes no sense", is_told and got.status in (ANSWERED, REFUSED), "status %s, %r" % (got.status, got.err))
    if "beside" in called:
        got = call(top, [command.name, *(it if it != "beside" else "-" for it in called)], folder=folder)
        tally.same("%s with standard output beside" % command.name, got, 2, "refused\n" * command.is_fed, "%s %s: %s\n" % (TOOL, command.name, NO_FILE))


def inputs_of(words, folder):
    """Which words of a call are files that are read."""
    return [(at, it) for at, it in enumerate(words) if it not in NO_INPUTS and os.path.isfile(os.path.join(folder, it))]


def with_input(top, folder, words, place, content):
    """What a call says where one of its inputs is another."""
    with open(os.path.join(folder, "changed"), "wb") as it:
        it.write(content)
    return call(top, [*words[:place], "changed", *words[place + 1:]], folder=folder, memory=MEMORY)


def fault_of(command, got):
    """What is wrong with how a command ended, or nothing."""
    said = got.err.decode("utf-8", "replace")
    if got.status not in (ANSWERED, REFUSED, INCOMPLETE):
        return "status %s, %r" % (got.status, said[-300:])
    if not said.replace("\n", "").isprintable() or "Traceback" in said:
        return "it says %r" % said
    if got.status == REFUSED and not said.splitlines()[-1].startswith("%s %s: " % (TOOL, command.name)):
        return "it says %r" % said
    if got.status == REFUSED and command.is_fed != got.out.endswith(b"refused\n"):
        return "it prints %r" % got.out[-100:]
    return ""


def test_mutations(tally, top, folder, commands):
    """Random changes of all inputs."""
    dice = random.Random(0)
    choices = [(command, words, *it) for command, words in commands for it in inputs_of(words, folder)]
    kept = {name: read(os.path.join(folder, name)) for _, _, _, name in choices}
    for number in range(MUTATIONS):
        command, words, place, name = dice.choice(choices)
        content = mutated(kept[name], dice)
        why = fault_of(command, with_input(top, folder, [command.name, *words], place + 1, content))
        tally.holds("%s with change %d of %s" % (command.name, number, name), not why, why)


def mutated(content, dice):
    """The bytes with one to four changes."""
    content = bytearray(content)
    for _ in range(dice.choice((1, 1, 2, 4))):
        at = dice.randrange(len(content) + 1)
        end = min(len(content), at + dice.choice((0, 1, 1, 4, 40)))
        kind = dice.randrange(6)
        if kind == 0 and at < len(content):
            content[at] ^= 1 << dice.randrange(8)
        elif kind == 1:
            content[at:end] = dice.choice(BITS)
        elif kind == 2:
            del content[at:end]
        elif kind == 3:
            content[at:at] = content[at:end] * dice.randrange(1, 5)
        elif kind == 4:
            figures = [it.span() for it in re.finditer(rb"[0-9]+", content)]
            if figures:
                begin, end = dice.choice(figures)
                content[begin:end] = dice.choice(BITS[:5])
        else:
            del content[at:]
    return bytes(content)


def test_terminal(tally, top, folder):
    """What a foreign text holds reaches no terminal as it is."""
    tally.program.file(os.path.join(folder, "foreign"), b"1 R \x1b[2Jsda\xff\xe2\x80\xae 4096 256\n")
    words = ["report", "foreign"]
    lines = b"total %s R 1 256 131072\nlength %s R 256 1\nsplit 1 1\n"
    plain = call(top, words, folder=folder)
    tally.same("a foreign name to a file", plain, 0, lines % ((b"\x1b[2Jsda\xff\xe2\x80\xae",) * 2))
    here, there = pty.openpty()
    got = call(top, words, folder=folder, stdout=there)
    os.close(there)
    shown = os.read(here, 65536)
    os.close(here)
    tally.same("a foreign name", got)
    tally.holds("a foreign name on a terminal", shown == (lines % ((b"\\x1b[2Jsda\\xff\\u202e",) * 2)).replace(b"\n", b"\r\n"), "it shows %r" % shown)


def test_live(tally, top, folder):
    """A command in a pipe answers what it was given before it waits for more."""
    for words, given, wanted in ((["trace", "--cut"], b"R a 0 1\n", b"R a 0 1\n"),
                                 (["trace", "ls.txt", "vg0.table"], b"253,0 0 7 0.5 4101 Q R 8 + 16 [fio]\n", b"R vg0-lv0 8 16\n")):
        ran = subprocess.Popen(tool(top) + words, stdin=subprocess.PIPE, stdout=subprocess.PIPE, cwd=folder)
        for _ in range(2):
            ran.stdin.write(given)
            ran.stdin.flush()
            got = ran.stdout.readline()
            tally.holds("%s while its input grows" % words[0], got.split()[1:] == wanted.split()[1:], "it prints %r" % got)
        ran.stdin.close()
        ran.stdout.close()
        tally.holds("how %s ends" % words[0], ran.wait() == 0, "status %s" % ran.returncode)


def test_many(tally, top, folder):
    """Lines of the usual form, which are read many at once, give what they give where other lines between them, which change
    nothing, have each of them read by itself."""
    dice = random.Random(7)
    queued = [queued_line(dice) for _ in range(MANY)]
    events = ["  kworker/u8:2-377 [002] .....  %d.5: block_bio_queue: 253,%d %s %d + %d [fio]\n"
              % (it, dice.choice((0, 0, 1, 9)), dice.choice(("R", "WS", "D")), dice.randrange(1 << 40), dice.choice((0, 8, 256))) for it in range(MANY)]
    answers = ["%d %s /dev/sd%s %d %d\n" % (1 + it // 2, dice.choice("RW"), dice.choice("abc"), dice.randrange(1 << 40), dice.choice((1, 8, 256)))
               for it in range(MANY)]
    traced = [(["trace", "--write-times", "beside", "ls.txt", "vg0.table"], lines, "hello\n") for lines in (queued, events)]
    for words, lines, other in [*traced, (["report"], answers, "s: 0 8 snapshot 16/64 16\n")]:
        many = call(top, words, given="".join(lines), folder=folder)
        beside = read(os.path.join(folder, "beside")) if "beside" in words else b""
        single = call(top, words, given=other.join(lines), folder=folder)
        passed = b"left out: lines without a request: %d\n" % (len(lines) - 1) if other == "hello\n" else b""
        tally.same("%s of many lines, and of each by itself" % words[0], single, 0, many.out, passed + many.err)
        tally.holds("%s of many lines" % words[0], many.out, "nothing is printed")
        if "beside" in words:
            tally.holds("the times of many lines", beside and read(os.path.join(folder, "beside")) == beside, "they differ")


def queued_line(dice):
    """A line of blkparse."""
    return "253,%d  3 %8d %5d.000118400  4101 %2s %3s %d + %d [%s]\n" % (
        dice.choice((0, 0, 1, 9)), dice.randrange(10 ** 6), dice.randrange(10 ** 5), dice.choice("QQQGDC"), dice.choice(("R", "WS", "FWS", "D")),
        dice.randrange(1 << 40), dice.choice((8, 256)), dice.choice(("fio", "kworker/u8:2")))


def test_interrupt(tally, top, folder):
    """Who interrupts a command, or tells it to end, has it end in silence. It spoils what it printed, and what it began to write
    beside is gone. A signal that is passed over, as nohup wants it, does nothing."""
    words = ["trace", "--write-times", "times beside", "ls.txt", "vg0.table"]
    for before in None, b"as before\n":
        for number, status in ENDS:
            if before:
                tally.program.file(os.path.join(folder, "times beside"), before)
            ran = begun(tool(top) + words, folder)
            first = ran.stdout.readline()
            ran.send_signal(number)
            out, err = ran.communicate()
            tally.same("an end by " + number.name, Outcome(ran.returncode, first + out, err), status, "R vg0-lv0 8 16\nrefused\n")
            tally.holds("what it leaves beside", left_beside(folder) == before, "it is %r" % left_beside(folder))
    ran = begun(["nohup", *tool(top), *words], folder)
    first = ran.stdout.readline()
    ran.send_signal(signal.SIGHUP)
    out, err = ran.communicate()
    tally.holds("a signal that is passed over", (ran.returncode, first + out) == (0, b"R vg0-lv0 8 16\n"), "%s, %r, %r" % (ran.returncode, out, err))
    tally.holds("what it leaves beside", left_beside(folder) == b"0.5\n", "it is %r" % left_beside(folder))


def begun(words, folder):
    """A command that has a line of a trace, and waits for more."""
    ran = subprocess.Popen(words, stdin=subprocess.PIPE, stdout=subprocess.PIPE, stderr=subprocess.PIPE, cwd=folder)
    ran.stdin.write(b"253,0 0 7 0.5 4101 Q R 8 + 16 [fio]\n")
    ran.stdin.flush()
    return ran


def left_beside(folder):
    """What is there under the name that was asked, or None, and what is there under a like one."""
    found = [it for it in os.listdir(folder) if it.startswith("times beside")]
    if found == ["times beside"]:
        return read(os.path.join(folder, found[0]))
    return found or None


def test_outputs(tally, top, folder):
    """A file beside is never one that is read, whatever it is called, nor another output; a refusal leaves it as it was, and it
    is written through the link that was given."""
    shutil.copy(os.path.join(folder, "blkparse.txt"), os.path.join(folder, "e"))
    os.symlink("e", os.path.join(folder, "linked"))
    os.link(os.path.join(folder, "e"), os.path.join(folder, "another name"))
    kept = read(os.path.join(folder, "e"))
    said = TOOL + " trace: %s: it is read, too: give another file to write\n"
    for name in "e", "./e", "linked", "another name":
        got = call(top, ["trace", "--write-times", name, "ls.txt", "vg0.table", "e"], folder=folder)
        tally.same("an input that is written as " + name, got, 2, "refused\n", said % name)
        tally.holds("what is left of it", read(os.path.join(folder, "e")) == kept, "it is another")
    got = call(top, ["trace", "--write-times", "e", "ls.txt", "vg0.table", "-"], given=kept, folder=folder)
    tally.holds("times of standard input", got.status == 0 and got.out.startswith(b"R vg0-lv0 "), "status %s, %r" % (got.status, got.err))
    tally.program.file(os.path.join(folder, "damaged"), kept.replace(b" + 8 ", b" x 8 "))
    tally.program.file(os.path.join(folder, "precious"), b"precious\n")
    os.chmod(os.path.join(folder, "precious"), 0o640)
    os.symlink("precious", os.path.join(folder, "to precious"))
    got = call(top, ["trace", "--write-times", "to precious", "ls.txt", "vg0.table", "damaged"], folder=folder)
    tally.holds("a refusal", got.status == REFUSED and read(os.path.join(folder, "precious")) == b"precious\n", "status %s" % got.status)
    got = call(top, ["trace", "--write-times", "to precious", "ls.txt", "vg0.table", "another name"], folder=folder)
    is_so = os.path.islink(os.path.join(folder, "to precious")) and os.stat(os.path.join(folder, "precious")).st_mode & 0o777 == 0o640
    tally.holds("a link that was given", is_so and read(os.path.join(folder, "precious")).count(b"."), "status %s, %r" % (got.status, got.err))
    with open(os.path.join(folder, "both"), "wb") as both:
        got = call(top, ["trace", "--write-times", "both", "ls.txt", "vg0.table", "another name"], folder=folder, stdout=both.fileno())
    tally.same("a file beside that is standard output", got, 2, "", TOOL + " trace: both: standard output goes there, too: give another file\n")
    for name, why in ("", "No such file or directory"), ("none/", "Is a directory"), ("none/it", "No such file or directory"), (".", "Is a directory"):
        got = call(top, ["trace", "--write-times", name, "ls.txt", "vg0.table", "another name"], folder=folder)
        tally.same("a file beside that is %r" % name, got, FULL, "refused\n", "%s trace: %s: %s\n" % (TOOL, name, why))
    os.unlink(os.path.join(folder, "both"))
    ran = subprocess.Popen([*tool(top), "trace", "--write-times", "both", "ls.txt", "vg0.table", "another name"], stdout=subprocess.PIPE,
                           stderr=subprocess.DEVNULL, cwd=folder)
    ran.stdout.read()
    tally.holds("a file beside, once standard output ends", os.path.exists(os.path.join(folder, "both")), "it isn't there yet")
    ran.communicate()
    left = [it for it in os.listdir(folder) if it.endswith(".new")]
    tally.holds("what refusals leave", not left, "there is %s" % left)


def test_unsaid(tally, top, folder):
    """Where the message of a refusal can't be written either, what was printed is spoiled all the same."""
    words = ["trace", "--write-times", "beside", "ls.txt", "vg0.table"]
    for closed, wanted in (2, b"refused\n"), (1, b""):
        tally.program.file(os.path.join(folder, "beside"), b"as before\n")
        got = run(tool(top) + words, given=b"253,0 0 7 0.5 4101 Q R x + 16 [fio]\n", folder=folder, before=lambda it=closed: os.close(it))
        tally.holds("a refusal without stream %d" % closed, (got.status, got.out) == (FULL, wanted), "%s, %r" % (got.status, got.out))
        found = read(os.path.join(folder, "beside"))
        tally.holds("what it leaves beside", found == b"as before\n", "it is %r" % found)
    got = run(tool(top) + ["trace", "--bytes"], folder=folder, stdin=subprocess.DEVNULL, before=lambda: os.close(0))
    tally.same("no input", got, REFUSED, "refused\n", TOOL + " trace: standard input: Bad file descriptor\n")


def test_locale(tally, program, top, folder):
    """Names in other letters, where the locale has only those of ASCII."""
    program.file(os.path.join("streams", "\u00e9", "\u00e9.img"), "image".ljust(4096))
    program.file("streams/\u00e9.paths", "base \u00e9/\u00e9.img\n")
    program.file("streams/\u00e9.table", "v: 0 8 linear base 0\n")
    program.file("streams/\u00e9.disks", "base 8\n")
    env = dict(os.environ, LC_ALL="C", PYTHONUTF8="0", PYTHONCOERCECLOCALE="0", PYTHONPATH=os.path.join(top, "tools"))
    for name, start in ("as a file", tool(top)), ("as a module", [sys.executable, "-m", "dmremap_tools"]):
        words = ["save", "v", "\u00e9.saved", "table", "\u00e9.table", "\u00e9.disks", "--paths", "\u00e9.paths", "--program", "./dmremap"]
        tally.same("saving where the locale isn't UTF-8, " + name, run([*start, *words], folder=folder, env=env))
        path = os.path.join(folder, "\u00e9.saved")
        if tally.holds("what is saved then", os.path.exists(path), "it isn't there"):
            os.unlink(path)
        got = run([*start, "report", "\u00e9.none"], folder=folder, env=env)
        tally.same("what is said then", got, 1, "", TOOL + " report: \u00e9.none: No such file or directory\n")


def test_rooms(tally, top, folder):
    """No room for what is kept in files meanwhile."""
    none = lambda: resource.setrlimit(resource.RLIMIT_FSIZE, (0, 0))
    stack = ["table", "snap.table", "snap.disks"]
    for command, words in (("store", ["--requests", "writes", *stack]), ("layout", ["--fresh", "--device", "snap", *stack]), ("save", ["snap", "saved", *stack])):
        got = run(tool(top) + [command, "--program", "./dmremap", *words], folder=folder, before=none)
        said = "%s %s: a temporary file: " % (TOOL, command)
        is_so = got.status == FULL and got.err.startswith(said.encode()) and got.err.count(b"\n") == 1
        tally.holds("%s without room" % command, is_so, "status %s, %r" % (got.status, got.err))


def test_killed(tally, top, folder):
    """A dmremap that is killed is an output that failed."""
    tally.program.file(os.path.join(folder, "dies"), '#!/bin/sh\n[ "$1" = "$DIES_AT" ] && kill -9 $$\nexec ./dmremap "$@"\n')
    os.chmod(os.path.join(folder, "dies"), 0o755)
    stack = ["table", "snap.table", "snap.disks"]
    for command, at, words in (("store", "map", ["--requests", "writes", *stack]), ("layout", "concise", ["--device", "snap", *stack]),
                               ("layout", "map", ["--device", "snap", *stack]), ("save", "concise", ["snap", "saved", *stack])):
        got = run(tool(top) + [command, "--program", "./dies", "--fresh", *words], given="R snap 0 8\n", folder=folder, env=dict(os.environ, DIES_AT=at))
        said = "%s %s: ./dies: it was ended by signal 9\n" % (TOOL, command)
        is_so = (got.status, got.out) == (FULL, b"") and got.err.decode().endswith(said)
        tally.holds("%s by a dmremap that dies at %s" % (command, at), is_so, "%s, %r, %r" % (got.status, got.out, got.err))
        tally.holds("what a save leaves", not os.path.exists(os.path.join(folder, "saved")), "it is there")
    for name in ("-", "./-"):
        got = run(tool(top) + ["save", "--program", "./dmremap", "--fresh", "--allow-missing", "snap", name, *stack], folder=folder)
        tally.holds("a save to " + name, got.status == (2 if name == "-" else 0) and os.path.exists(os.path.join(folder, "-")) == (name != "-"),
                    "status %s, %r" % (got.status, got.err))
        tally.holds("what is said of it", name != "-" or got.err.decode().endswith("\n%s save: %s\n" % (TOOL, NO_FILE)), got.err)
    got = call(top, ["layout", "--program", "/bin/true", *stack], folder=folder)
    tally.tells("another program", got, 2, "", TOOL + " layout: argument --program: it isn't dmremap, by its --version: /bin/true\n")
    got = call(top, ["layout", "--program", "./dmremap", "table", "-", "-"], folder=folder)
    tally.same("tables and disks from one input", got, 2, "", TOOL + " layout: standard input can't be two files: give the path of one\n")


def test_long(tally, top, folder, commands):
    """Of a word of the command line a message shows at most 100 characters, and nothing that a terminal obeys."""
    main = importlib.import_module("dmremap_tools.main")
    for command, plain in commands:
        parser = main.parser_of(command, importlib.import_module("dmremap_tools." + command.module), command.name)
        options = [it for it in parser._actions if it.option_strings]
        tried = [[*plain[:place], LONG[place % 3], *plain[place + 1:]] for place in range(len(plain)) if not plain[place].startswith("-")]
        tried += [[it.option_strings[-1], *LONG[:it.nargs], *plain] if isinstance(it.nargs, int) and it.nargs else
                  [it.option_strings[-1] + "=" + LONG[place % 3], *plain] for place, it in enumerate(options)]
        tried += [[*plain, LONG[0]], [*plain, "--" + LONG[1]]]
        for words in tried:
            said = call(top, [command.name, *words], folder=folder).err.decode("utf-8", "replace")
            is_so = said.replace("\n", "").isprintable() and "Traceback" not in said and not TOO_LONG.search(said)
            tally.holds("long words of %s: %s" % (command.name, [it[:20] for it in words]), is_so, said[:500])


def test_words(tally, program, top):
    """Words that make no sense."""
    usage = "usage: %s COMMAND ..\n%s: " % (TOOL, TOOL)
    tally.same("no command", call(top, []), 2, "", usage + "--help lists the commands\n")
    tally.same("another command", call(top, ["x\x1b"]), 2, "", usage + "no command 'x\\x1b'; --help lists them\n")
    tally.same("a command of two lines", call(top, ["x\ny"]), 2, "", usage + "no command 'x\\ny'; --help lists them\n")
    for words, reason in ((["report", "--nothing"], "unrecognized arguments: --nothing"),
                          (["report", "a", "b"], "unrecognized arguments: b"),
                          (["report", "a", *"bcdefghijklmnopqrs"], "unrecognized arguments: b c d e f g h i j k l m n o p q .."),
                          (["filefrag"], "the following arguments are required: VOLUME")):
        got = call(top, words)
        is_so = (got.status, got.out) == (2, b"refused\n" * (words[0] == "filefrag")) and got.err.decode().endswith("\n%s %s: %s\n" % (TOOL, words[0], reason))
        tally.holds(" ".join(words), is_so, "%s, %r, %r" % (got.status, got.out, got.err))
    tally.same("two files from one input", call(top, ["report", "--compare", "-", "-"]), 2, "", TOOL + " report: standard input can't be two files: give the path of one\n")
    tally.tells("--help", run(tool(top) + ["--help"]), out="\nanswers:\n", err="")
    tally.same("--version", call(top, ["--version"]), 0, TOOL + program.run(["--version"]).out.decode()[len("dmremap"):])


class ToolStreams(Case):
    """Each command, and what may come of its streams."""

    @classmethod
    def setUpClass(cls):
        cls.folder = make_folder(cls.program, cls.top)
        known = importlib.import_module("dmremap_tools.commands").COMMANDS
        cls.commands = [(it, CALLS[it.name]) for it in known if it.name in CALLS]
        cls.commands += [(it, words) for it in known for name, words in WAYS if name == it.name]
