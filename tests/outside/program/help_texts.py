"""What the help states is what the program does, and what the manual says: the exit statuses, each of which
is made to come; limits; the words of lines; the examples."""

import os
import re
import shutil
import string

import diagnostics
import help_words
import images as images_rows
import transcripts
from harness import FULL_OUTPUT, Case, text_of
from limits import limit_stack
from manual import entries_of, parts_of

TABLE, DISKS, REQUEST = "a: 0 8 linear sda 4\n", "sda 12\n", "R a 0 1\n"
CLASH, CLASH_DISKS = "a: 0 8 linear sda 0\nb: 0 8 linear sda 4\n", "sda 16\n"
# The status that each way to an exit has; of a command those come that it has a way to.
WAYS = {"good": 0, "shown clash": 0, "small stack": 6, "full output": 5, "closed input": 4, "bad sector": 7, "bad words": 2,
        **dict.fromkeys(("bad request", "lower device"), 3),
        **dict.fromkeys(("no file", "bad disks", "bad paths", "bad store", "bad head", "bad name", "long name", "bad device", "bad range",
                         "bad earlier", "clash"), 1)}
# A stack of which requests get every kind of piece, and one of which they get every kind of what was read.
PIECES = ("o: 0 8 linear base 0\no: 8 8 zero\ns: 0 16 snapshot /dev/mapper/o cow P 8\ne: 0 8 error\nz: 0 8 zero\n", "base 8\ncow 64\n",
          "R s 0 1\nR s 8 1\nW s 0 1\nW s 8 1\nR e 0 1\nW z 0 1\n")
VALUES = ("a: 0 8 linear sda 0\na: 8 8 zero\na: 16 8 error\n", "sda 8\n", "W a 0 1\nR a 0 2\nR a 8 1\nR a 16 1\n")
# What stands for the parts of a line of FILE.
PARTS = {"NAME:": "a:", "START": "0", "LEN": "8", "DEV": "sda", "OFFSET": "0", "COLUMNS": "2", "CHUNK": "4", "ORIGIN": "base",
         "STORE": "cow", "KIND": "P"}
# A device of the example's stack that no other one lies on.
TOP_DEVICE = "fast"
COMMANDS_WITH_REQUESTS = {"map", "replay"}


def help_of(program, command):
    return program.run(["help", command] if command else ["--help"]).out.decode()


def outcomes(program, command):
    """The status that each way of a command ends with."""
    table, disks = program.file("help/table", TABLE), program.file("help/disks", DISKS)
    clash = [command, "table", program.file("help/clash", CLASH), program.file("help/clash disks", CLASH_DISKS)]
    bad = program.file("help/bad disks", "sda\n")
    lower = [command, "table", program.file("help/lower", TABLE + "b: 0 4 linear /dev/mapper/a 0\n"), disks]
    images = [command, "images", program.file("help/images", images_rows.paths_of(program, images_rows.PAIR))]
    good = {"name": ["name", "vg0", "lv-1"], "splitname": ["splitname", "vg0-lv--1"], "metadata": images, "read": ["read", "table", table, disks, "a", "--paths", program.file(
        "help/read paths", "sda %s\n" % program.file("help/sda", bytes(6144)))]}.get(command, [command, "table", table, disks])
    status = lambda words, **how: program.run(words, **{"given": REQUEST, **how}).status
    found = {"good": status(good), "bad words": status([command, "--nonsense"]),
        "small stack": status(good, before=lambda: limit_stack(256 << 10)),
    }
    found["full output"] = status(good, stdout=FULL_OUTPUT)
    if command in ("name", "splitname"):
        found["bad name"] = status([command, "a?", *good[2:]])
        if command == "name":
            found["long name"] = status(["name", "a" * 100, "b" * 100])
        return found
    snapshot = program.file("help/snapshot", "s: 0 8 snapshot sda sdb P 8\n"), program.file("help/two disks", "sda 8\nsdb 64\n")
    head = [command, "images", program.file("help/paths", "sda %s\n" % bad)]
    if command == "read":
        rows = [("no file", [command, "table", "missing", *good[3:]]), ("bad disks", [*good[:3], bad, *good[4:]]), ("bad head", [*head, "a"]),
                ("bad paths", [*good[:-1], bad]), ("bad device", [*good[:4], "b", *good[5:]]), ("bad range", [*good, "--from", "9"]),
                ("bad store", [command, "table", *snapshot, "s", "--paths", os.devnull]), ("bad sector", [*good[:-1], os.devnull])]
        found.update({name: status(words) for name, words in rows})
        return found
    if command in ("map", "metadata"):
        found["bad head"] = status(head)
    if command == "metadata":
        found["bad paths"] = status([command, "images", bad])
        return found
    found.update({"no file": status([command, "table", "missing", disks]), "bad disks": status([command, "table", table, bad])})
    if command in ("check", "replay"):
        found["clash" if command == "replay" else "shown clash"] = status(clash, given="")
    if command in COMMANDS_WITH_REQUESTS:
        found.update({"bad request": status(good, given="R b 0 1\n"), "closed input": status(good, stdin=-1, before=lambda: os.close(0))})
    if command == "map":
        found["bad earlier"] = status([*good, "--before", bad])
    if command in COMMANDS_WITH_REQUESTS:
        found["bad paths"] = status([*good, "--paths", bad])
        found["bad store"] = status([command, "table", *snapshot, "--paths", os.devnull])
    if command == "replay":
        found["lower device"] = status(lower)
    return found


def test_statuses(tally, program, commands):
    """Each way to an exit has its status, and the help of a command lists each that came."""
    for command in commands:
        found = outcomes(program, command)
        for way, status in found.items():
            tally.holds("%s, by %s" % (way, command), status == WAYS[way], "the status is %s" % status)
        listed = statuses_of(help_of(program, command))
        tally.holds("the statuses in the help of " + command, listed == {*found.values()}, "they are %s, and there came %s" % (listed, found))
    for word in "help", "version":
        tally.same("the status of --" + word, program.run(["--" + word]), 0, program.run(["--" + word]).out)
    listed = statuses_of(help_of(program, None))
    tally.holds("the statuses in the help", listed == {*WAYS.values()}, "they are %s" % listed)


def statuses_of(text):
    return {int(it) for it in re.findall(r"^  (\d)  ", text.partition("\nExit status\n")[2].partition("\n\n")[0], re.M)}


def test_lines(tally, program, parts):
    """The words of lines: the manual has the same forms, and the program takes and writes them."""
    text = help_of(program, "map")
    forms = re.findall(r"NAME: .*", lines_of(text, "FILE"))
    in_manual = re.search(r"^\.SS table\n\.EX\n(.*?)^\.EE", parts["FORMATS"], re.M | re.S)[1].splitlines()
    tally.holds("the lines of FILE", forms and forms == in_manual, "help has %s, and the manual %s" % (forms, in_manual))
    for form in forms:
        line = " ".join(PARTS.get(it, it) for it in form.replace(" ..", "").split())
        tally.tells("the line %s" % form, program.map(line + "\n", "sda 8\nbase 8\ncow 64\n", "R a 0 1\n"), err="")
    kinds = {*re.search(r"KIND is (\w), (\w) or (\w)\.", text).groups()}
    taken = {it for it in string.ascii_letters if program.map("a: 0 8 snapshot base cow %s 8\n" % it, "base 8\ncow 64\n").status == 0}
    shown = {it for it in re.findall(r"^\.BR? (\w)\b", parts["FORMATS"], re.M)}
    tally.holds("the kinds of stores", kinds == taken == shown, "help has %s, the manual %s, and taken are %s" % (kinds, shown, taken))
    outputs = dict(parts_of(r"^\.SS (.*)\n", parts["OUTPUT"]))
    for command, label, stack in ("map", "pieces", PIECES), ("replay", "N old", VALUES):
        forms = re.findall(r"\b(N \w+(?: [A-Z][A-Z\d]*)+)", lines_of(help_of(program, command), label))
        entries = [re.sub(r"\.\w+ ", "", it) for it in entries_of(outputs[command])]
        entries = [it for it in entries if it.startswith("N ")]
        tally.holds("the lines of %s" % command, forms and forms == entries, "help has %s, and the manual %s" % (forms, entries))
        got = program.run([command, "table", program.file("help/stack", stack[0]), program.file("help/below", stack[1])], given=stack[2])
        came = {it.split()[1] for it in got.out.decode().splitlines()}
        tally.holds("the words of %s" % command, came == {it.split()[1] for it in forms}, "help has %s, and there came %s" % (forms, came))


def lines_of(text, label):
    """The lines of a help from a label on, up to the next label."""
    return re.search(r"^  %s .*\n(?:  (?:N | {7}).*\n)*" % label, text, re.M)[0]


def test_forms(tally, program, synopsis, commands):
    """The manual's synopsis has the arguments and options of the help."""
    shown = {}
    for form in re.findall(r"^\.SY dmremap\n(.*?)^\.YS", synopsis, re.M | re.S):
        words = re.sub(r"^\.\w+ ", "", form, flags=re.M).replace("[ ", "[").replace(" ]", "]").split()
        options = {it.strip("[]") for it in words if it.strip("[]").startswith("--")}
        # Commands of one form stand in braces.
        names = words[1:words.index("}"):2] if words[0] == "{" else words[:1]
        rest = words[words.index("}") + 1:] if words[0] == "{" else words[1:]
        for name in names:
            shown[name] = re.sub(r" \[--[^]]*\]", "", " ".join([name, *rest])), options
    for command in commands:
        usage = re.search(r"^Usage: dmremap (.*)$", help_of(program, command), re.M)[1]
        form = re.sub(r"[<>]", "", usage.replace(" [OPTIONS]", ""))
        wanted = form, help_words.options(program, ["help", command]) - {"--help"}
        tally.holds("the manual's form of %s" % command, shown.get(command) == wanted, "it is %s, and help has %s" % (shown.get(command), wanted))


def test_examples(tally, program, top, commands):
    """Each help has an example, which can be followed."""
    folder = os.path.join(program.folder, "help", "examples")
    os.makedirs(folder)
    files = {"stack.table": "stack.table", "disks.txt": "stack-disks.txt", "vg0.backup": "vg0.backup"}
    for name, example in files.items():
        shutil.copy(os.path.join(top, "examples", example), os.path.join(folder, name))
    program.file(os.path.join(folder, "requests.txt"), "R %s 0 1\n" % TOP_DEVICE)
    program.file(os.path.join(folder, "vg.paths"), images_rows.paths_of(program, images_rows.PAIR))
    os.symlink(program.path, os.path.join(folder, "dmremap"))
    env = dict(os.environ, PATH=folder + os.pathsep + os.environ["PATH"])
    for command in commands:
        example = re.search(r"^Example\n  (dmremap %s .*)$" % command, help_of(program, command), re.M)
        if tally.holds("the example of %s" % command, example, "there is none"):
            got = transcripts.run(["bash", "-c", example[1]], folder=folder, env=env)
            written = got.out or os.path.getsize(os.path.join(folder, example[1].rpartition("> ")[2]))
            tally.holds("the example %s" % example[1], got.status == 0 and written and not got.err, "%s, %r" % (got.status, got.err))


class HelpTexts(Case):
    """The help of each command, beside the parts of the manual."""

    @classmethod
    def setUpClass(cls):
        text = diagnostics.plain(text_of(os.path.join(cls.top, "docs", "dmremap.1")))
        cls.parts = dict(parts_of(r"^\.SH (.*)\n", text))
        cls.manual, cls.synopsis = cls.parts["EXIT STATUS"], cls.parts["SYNOPSIS"]
        cls.commands = sorted(help_words.commands(cls.program) - {"help"})
