"""The command that makes of lvm2's metadata what dmremap reads: over texts as lvm2 writes them, with the copy, the messages
and the status that must come of each, and what the program makes of the copy.

A row of `ROWS` is a name, a text, the changes that make the copy of it, and the messages, whose place is given by the
beginning of a line. A change is bytes of the text and what stands there in a text that says what the copy does, each key in the
same line; `gone` is that of a volume."""

import os
import random
import re

import tool_calls
from dmremap_tools.model.config_text import Document
from lvm2_rows import BARE, GROUP, REFUSED, ROWS, other
from tool_calls import read
from tool_streams import mutated

PLAIN = ("vg0.backup", "vg0-snapshot.backup")
SEEDS = 20
DAMAGES, MEMORY = 60, 200 << 20


def test_rows(tally, program, top):
    for name, text, changes, messages, table in ROWS:
        check_row(tally, program, top, name, text, changes, messages, table)
    for name, text, message in REFUSED:
        tally.same("the text of " + name, copied(program, top, text), 1, "", refused(message))


def test_plain(tally, program, top):
    """Texts that need no change, and the same in other words."""
    for name in PLAIN:
        text = read(os.path.join(top, "examples", name))
        check_row(tally, program, top, name, text, (), (), program.run(["table", "lvm", program.file("lvm2/plain", text)]).out)
        for seed in range(SEEDS):
            check_spelling(tally, program, top, name, read(os.path.join(top, "examples", name)), random.Random(seed))


def copied(program, top, text, words=()):
    """What is made of a text, which is the file `text` of the folder that the command is called in."""
    return tool_calls.call(top, ["lvm2-text", "--program", program.path, *words, "text"], folder=os.path.dirname(program.file("lvm2/text", text)))


def refused(message):
    """What is said of the text: lines before the refusal, and that."""
    *told, last = message.splitlines()
    return "".join("text%s\n" % it for it in told) + "dmremap-tools lvm2-text: text%s\n" % last


def as_bytes(text):
    return text.encode() if isinstance(text, str) else text


def check_row(tally, program, top, name, text, changes, messages, table, words=()):
    wanted = text = as_bytes(text)
    for old, new in changes:
        old, new = as_bytes(old), as_bytes(new)
        tally.holds("a change in the text of " + name, wanted.count(old) == 1, "%r is there %d times" % (old, wanted.count(old)))
        wanted = wanted.replace(old, new)
    got = copied(program, top, text, words)
    tally.same("the text of " + name, got, 0, got.out, "".join("text:%d: %s\n" % (line_of(text, at), what) for at, what in messages))
    said, meant = parts_of(got.out), parts_of(wanted)
    tally.holds("the copy of " + name, said == meant, "%r is wanted, not %r" % (meant, said))
    tally.holds("the lines of the text of " + name, got.out.count(b"\n") == text.split(b"\0")[0].count(b"\n"), "there are others")
    tally.same("the table of " + name, program.run(["table", "lvm", program.file("lvm2/copy", got.out)]), 0, table)


def line_of(text, beginning):
    """The number of the only line that begins with these bytes, apart from white space."""
    found = [number for number, line in enumerate(text.split(b"\n"), 1) if line.strip().startswith(as_bytes(beginning))]
    assert len(found) == 1, (beginning, found)
    return found[0]


def parts_of(text):
    """What a text says: each key with its line, and its values or its section."""
    def parts(node):
        return [(document.line_at(it.start), it.key, [item.value for item in it.items] if it.children is None else parts(it))
                for it in sorted(node.children.values(), key=lambda it: it.start)]

    document = Document("text", text)
    return parts(document.top)


def check_spelling(tally, program, top, name, text, dice):
    """A text that says the same to lvm2 in other words becomes one that says the same to dmremap."""
    other = respelled(text, dice)
    got = copied(program, top, other)
    path = program.file("lvm2/copy", got.out)
    wanted = program.run(["concise", "lvm", program.file("lvm2/plain", text)]).out
    tally.same("the tables of %s in other words" % name, program.run(["concise", "lvm", path]), 0, wanted)
    tally.holds("the copy of %s in other words" % name, got.status == 0 and got.out.count(b"\n") == other.count(b"\n"),
                "status %s, %r, of %r" % (got.status, got.err, other))


def respelled(text, dice):
    """The same text, in which each number, string, key, list and space may be written in another way that lvm2 reads."""
    def number(found):
        value = int(found[2])
        return found[1] + dice.choice([b"%d" % value, b"0%o" % value, b"+%d" % value, b"00%o" % value])

    def string(found):
        return dice.choice([b'"%s"', b"'%s'"]) % found[1]

    text = re.sub(rb"((?:= |, ))([0-9]+)\b", number, text)
    text = re.sub(rb'"([^"]*)"', string, text)
    text = re.sub(rb"\]", lambda found: dice.choice([b"]", b",]", b" , ]"]), text)
    text = re.sub(rb"(?m)^( *)([\w-]+) ([={])", lambda found: found[1] + dice.choice([b'%s', b'"%s"', b"'%s'"]) % found[2]
                  + dice.choice([b" ", b"\t", b"\r", b"\f "]) + found[3], text)
    return re.sub(rb"\n", lambda found: dice.choice([b"\n", b"\r\n", b" # x = \"\n", b"\t\n"]), text)


def test_damaged(tally, program, top):
    """Of a damaged text there is a copy that the program reads, or a refusal."""
    dice = random.Random(76)
    texts = [read(os.path.join(top, "examples", it)) for it in PLAIN + (os.path.join("samples", "vgm.backup"),)]
    for group in re.split(rb"(?m)^== .+ ==\n", read(os.path.join(top, "tests", "kernel", "lvm2", "groups.txt")))[1:]:
        texts.append(group.split(b"-- ")[1].partition(b"\n")[2])
    copies = 0
    for number in range(DAMAGES):
        text = mutated(dice.choice(texts), dice)
        got = copied(program, top, text)
        said = got.err.decode("utf-8", "replace")
        if got.status == 0:
            copies += 1
            made = program.run(["map", "lvm", program.file("lvm2/copy", got.out)])
            tally.same("the copy of damaged text %d" % number, made)
        else:
            tally.holds("damaged text %d" % number, got.status == 1 and not got.out and "Traceback" not in said, "status %s, %s" % (got.status, said[-300:]))
    tally.holds("copies of damaged texts", DAMAGES // 5 < copies < DAMAGES, "there are %d" % copies)


def test_asked(tally, program, top):
    """The program is asked: what it says decides, and there is no copy where it can't be."""
    path = program.file("lvm2/refuses", '#!/bin/sh\n[ "$1" = map ] || exec %s "$@"\necho "dmremap: source: field at 3" >&2\nexit 1\n' % program.path)
    os.chmod(path, 0o755)
    tally.same("a copy of no program", copied(program, top, BARE, ["--program", "nowhere/dmremap"]), 1, "",
               "dmremap-tools lvm2-text: nowhere/dmremap: No such file or directory\n")
    got = copied(program, top, BARE, ["--program", path])
    tally.tells("a copy that the program refuses", got, 1, "", "(dmremap: source: field at 3)")


def test_large(tally, program, top):
    """Sections in each other to any depth, and a long text, are no trouble."""
    got = tool_calls.call(top, ["lvm2-text", "--program", program.path, program.file("lvm2/text", BARE + "\r\n" * 400000)], memory=MEMORY)
    is_so = got.status == 0 and parts_of(got.out) == parts_of(BARE.encode()) and got.out.count(b"\n") == BARE.count("\n") + 400000
    tally.holds("a text of many carriage returns", is_so, "status %s, %r" % (got.status, got.err[-200:]))
    for name, more in (("many lines", "\n" * (1 << 20)), ("many keys", "".join("a%d = 1\n" % it for it in range(150000)))):
        got = tool_calls.call(top, ["lvm2-text", "--program", program.path, program.file("lvm2/text", BARE + more)], memory=MEMORY)
        is_so = got.status == 1 and not got.out and b"more than" in got.err and b"out of memory" not in got.err
        tally.holds("a text of " + name, is_so, "status %s, %r" % (got.status, got.err[-200:]))
    deep = "a {" * 30000 + "}" * 30000 + "\n"
    got = copied(program, top, BARE + deep)
    tally.same("a text that is nested deeply", got, 0, got.out, "text:%d: left out: a: lvm2 reads one section of a text, the first\n" % (1 + BARE.count("\n")))
    tally.holds("the copy of a text that is nested deeply", parts_of(got.out) == parts_of(BARE.encode()), got.out)
    tally.same("an end that is missing deep inside", copied(program, top, "a {" * 30000), 1, "",
               refused(":1: the end is missing: a, line 1, isn't closed: take the text anew, from /etc/lvm/backup"))
    many = GROUP % "".join(other("l%d" % it, "zero", more="\t\t\tread_ahead = -1\n") for it in range(1000))
    got = copied(program, top, many)
    is_so = got.status == 0 and parts_of(got.out) == parts_of(many.replace("read_ahead = -1", "").encode()) and got.err.count(b"\n") == 1000
    tally.holds("a group of a thousand volumes", is_so, "status %s, %r" % (got.status, got.err[:200]))
