"""The tools in a tree where the program isn't built, or only tried: they take what there is, and never call `rt`."""

import os
import shutil
import subprocess
import sys

from harness import Case, run
from trees import REQUESTS, Tree, becomes

NOT_BUILT = "dmremap: no program is built here: run ./dmremap --version, which builds and proves it, or ./try --version\n"
NOT_HERE = "dmremap: there is none: build it, put it beside this tool or on the path, or give --program\n"
NOT_PROVED = "dmremap-tools: using the unproved program that ./try made; ./dmremap --version builds and proves the one to act on\n"
SOURCE = "crates/low/src/text"
KEEP = "import sources as it; it.keep(it.made_of(it.TOP, it.TRIED), it.os.path.join(it.OUT, 'try'))"
IS_SEEN = [sys.executable, "-c", "import sources; print(sources.is_seen())"]
SHOWN = "  vg/home                  60 KiB     striped    %s\n"


class Tools:
    """The tools of a tree, or packed, over the samples."""

    def __init__(self, tree, top):
        self.tree, self.samples = tree, [os.path.join(top, "examples", "samples", name + ".img") for name in "abc"]
        shutil.copytree(os.path.join(top, "tools", "dmremap_tools"), tree.path("tools/dmremap_tools"), ignore=shutil.ignore_patterns("__pycache__"))
        shutil.copy(os.path.join(top, "dmremap-tools"), tree.path("dmremap-tools"))
        subprocess.run([sys.executable, os.path.join(top, "tools", "pack"), tree.path("packed")], check=True)
        self.ways = [tree.path("dmremap-tools"), tree.path("packed")]

    def call(self, tool, *words, path=()):
        """What a command does, and how often it called `rt`."""
        env = self.tree.environment()
        env["PATH"] = os.pathsep.join([*path, env["PATH"]])
        return run([tool, *words], env=env, folder=self.tree.folder), self.tree.called()

    def finds(self, tally, name, system, said="", path=()):
        """Which file system `scan` says to be in the volume, and what it says besides; `-`: one that nobody is asked about."""
        for tool in self.ways:
            got, called = self.call(tool, "scan", *self.samples, path=path)
            is_so = got.status == (4 if system == "?" else 0) and got.out.decode().endswith(SHOWN % system) and got.err.decode() == said and not called
            tally.holds("%s, by %s" % (name, os.path.basename(tool)), is_so, "status %s, %r, %r, %s" % (got.status, got.out, got.err, called))


def test_unbuilt(tally, tools, tree, program):
    """Nothing is built; something tried, or built, that fits the sources, and then doesn't; a program on the path, and the script there."""
    tools.finds(tally, "a scan where nothing is built", "?", NOT_BUILT)
    for tool in tools.ways:
        for words, where in ((["save", "vg/home", "out", *tools.samples], "save"), (["serve", "vg/home", *tools.samples], "serve"), (["explain", "map", "lvm", "x"], "explain"),
                             (["lost", "vg/home", *tools.samples[:2]], "lost"), (["layout", "table", "x", "y"], "layout")):
            got, called = tools.call(tool, *words)
            is_so = got.status == 1 and not got.out and got.err.decode() == "dmremap-tools %s: %s" % (where, NOT_BUILT) and not called
            is_so = is_so or where == "serve" and b"nbdkit: it isn't here" in got.err
            tally.holds("%s where nothing is built" % where, is_so and not os.path.exists(os.path.join(tree.folder, "out")), "status %s, %r, %s" % (got.status, got.err, called))
    elsewhere = os.path.join(tree.folder, "on the path")
    os.makedirs(elsewhere)
    got, _ = tools.call(shutil.copy(tools.ways[1], elsewhere), "scan", *tools.samples)
    tally.holds("a scan where there is no program", got.status == 4 and got.err.decode() == NOT_HERE and got.out.decode().endswith(SHOWN % "?"), got.err)
    shutil.copy(program.path, os.path.join(elsewhere, "dmremap"))
    tools.finds(tally, "a program on the path", "ext2", path=[elsewhere])
    os.unlink(os.path.join(elsewhere, "dmremap"))
    os.symlink(tree.script, os.path.join(elsewhere, "dmremap"))
    tools.finds(tally, "the script on the path", "?", NOT_BUILT, path=[elsewhere])
    os.makedirs(tree.path("out/try"))
    shutil.copy(program.path, tree.path("out/try/dmremap"))
    tools.finds(tally, "a program of unknown sources", "?", NOT_BUILT)
    subprocess.run([sys.executable, "-c", KEEP], cwd=tree.path("tools/building"), check=True)
    tools.finds(tally, "a tried program", "ext2", NOT_PROVED)
    got, _ = tools.call("bash", "-c", 'for it in 1 2; do "$@"; done', "bash", tools.ways[0], "scan", *tools.samples)
    tally.holds("a tried program, which is told once in a session", got.err.decode() == NOT_PROVED, got.err)
    tree.write(SOURCE, "another text\n")
    tools.finds(tally, "a tried program of other sources", "?", NOT_BUILT)
    tree.put()
    tools.finds(tally, "a program that is built", "ext2")
    tally.same("a program that ./dmremap hasn't looked at", run(IS_SEEN, folder=tree.path("tools/building")), 0, "False\n")
    is_kept = lambda: tree.run(tree.words(), given=REQUESTS).out and os.path.exists(tree.path("out/seen"))
    tally.holds("what ./dmremap has seen", becomes(is_kept), "it isn't kept")
    tally.same("what it has seen", run(IS_SEEN, folder=tree.path("tools/building")), 0, "True\n")
    tools.finds(tally, "a program that ./dmremap has seen", "ext2")
    tree.write(SOURCE, "a third text\n")
    tools.finds(tally, "one of other sources", "?", NOT_BUILT)
    shutil.copy(program.path, os.path.join(elsewhere, "another"))
    got, _ = tools.call(tools.ways[0], "scan", "--program", os.path.join(elsewhere, "another"), *tools.samples)
    tally.tells("a program that is given", got, out=" ext2\n", err="")
    got, called = tools.call(tools.ways[0], "scan", "--program", tree.script, *tools.samples)
    tally.holds("the script that is given", got.status == 4 and got.err.decode() == NOT_BUILT and not called, "status %s, %r" % (got.status, got.err))


class Unbuilt(Case):
    """A tree with the tools."""

    def setUp(self):
        self.tree = Tree(self.program, self.top, "unbuilt")
        self.tools = Tools(self.tree, self.top)
