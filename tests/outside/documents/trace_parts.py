"""A long trace in parts: the commands that docs/RECIPES.md has for it give what one run gives. Parts are made smaller here."""

import functools
import os
import random
import re
import shutil

import transcripts
from harness import run, text_of
from tool_calls import TOOL, read

SECTION = re.compile(r"\n### A long trace in parts\n(.*?)\n##", re.S)
# What makes parts that a short trace has several of.
SMALLER = (("--block 10M", "--block 20k"), ("1000000", "700"), ("-a blkparse.txt --block 100M", "-a blkparse.txt --block 500"))
COUNT = 5000


def test_commands(tally, program, top):
    found = SECTION.search(text_of(os.path.join(top, "docs", "RECIPES.md")))
    blocks = transcripts.blocks(found[1]) if found else []
    commands = [functools.reduce(lambda text, pair: text.replace(*pair), SMALLER, "\n".join(lines)) for _, lines in blocks]
    if not tally.holds("the commands for a long trace", len(commands) == 3, "RECIPES has %d" % len(commands)):
        return
    folder = make_folder(program, top)
    env = dict(os.environ, PATH=folder + os.pathsep + os.environ["PATH"])
    pieces = run([program.path, "map", "lvm", "vg0.backup"], given=read(os.path.join(folder, "requests")), folder=folder)
    totals = run(["sh", "-c", "dmremap map lvm vg0.backup < requests | dmremap-tools report | grep ^total | sort"], folder=folder, env=env)
    tally.holds("one run over a long trace", pieces.status == totals.status == 0 and totals.out.count(b"\n") == 2, totals.err)
    if not shutil.which("parallel"):
        tally.skip("a long trace in parts", "there is no parallel")
        return
    tally.same("totals by parts", run(["bash", "-c", commands[1]], folder=folder, env=env), 0, totals.out)
    tally.same("pieces by parts", run(["bash", "-c", commands[2]], folder=folder, env=env))
    tally.holds("numbers by parts", read(os.path.join(folder, "pieces")) == pieces.out, "they differ")
    whole = run(["sh", "-c", "dmremap table lvm vg0.backup > vg0.table; dmremap-tools trace ls.txt vg0.table blkparse.txt"], folder=folder, env=env)
    got = run(["bash", "-c", commands[0]], folder=folder, env=env)
    is_same = got.status == whole.status == 0 and whole.out and read(os.path.join(folder, "requests")) == whole.out
    tally.holds("a trace by parts", is_same, "%s, %s" % (got, whole))


def make_folder(program, top):
    """A folder with the program, the tools, and requests to a volume."""
    dice = random.Random(3)
    rows = ["%s vg0-lv0 %d %d\n" % (dice.choice("RW"), dice.randrange(200000), dice.randrange(1, 4000)) for _ in range(COUNT)]
    folder = os.path.dirname(program.file("parts/requests", "".join(rows)))
    for name, path in (("dmremap", program.path), (TOOL, os.path.join(top, TOOL))):
        os.symlink(path, os.path.join(folder, name))
    for name in ("vg0.backup", "samples/ls.txt", "samples/blkparse.txt"):
        shutil.copy(os.path.join(top, "examples", name), folder)
    return folder
