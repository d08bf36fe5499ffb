"""What is made of the texts of the commands of dmremap-tools, the manual and the completions, is made of them as they are,
shows without a warning, and offers what there is. And one sources' folder packs into the same bytes, which work."""

import importlib.util
import os
from importlib.machinery import SourceFileLoader

import completions
import manual
from harness import Case, run, text_of
from tool_calls import TOOL, samples


def test_made(tally, top, derive):
    for name, text in derive.made().items():
        with open(os.path.join(top, name), encoding="utf-8") as it:
            tally.holds(name, it.read() == text, "it isn't what tools/derive writes")
    path = os.path.join(top, "docs", TOOL + ".1")
    manual.check_shown(tally, path)
    lost = [(command.name, it.metavar) for command, _, parser in derive.parsers() for it in parser._actions if not it.option_strings
            and not any(it.metavar in line for line in text_of(path).splitlines() if line.startswith(".BI %s " % derive.roff(command.name)))]
    tally.holds("words of commands in the manual", not lost, "it lacks %s" % lost)


def loaded(path):
    """A script as a module."""
    loader = SourceFileLoader("loaded_" + os.path.basename(path), path)
    module = importlib.util.module_from_spec(importlib.util.spec_from_loader(loader.name, loader))
    loader.exec_module(module)
    return module


def test_offered(tally, program, top, derive):
    """The commands, and the options of each."""
    found = list(derive.parsers())
    rows = [([""], {command.name for command, _, _ in found}), (["met"], {"metadata"})]
    rows += [([command.name, "-"], set(derive.names(parser))) for command, _, parser in found]
    completions.check_rows(tally, top, os.path.dirname(program.file("offered/a file")), TOOL, rows, left_out={"--help"})


def test_packed(tally, program, top):
    """The packed file is the same each time, and does what the sources do, from anywhere."""
    packed = [os.path.join(program.folder, "packed", str(it), TOOL) for it in range(2)]
    for path in packed:
        os.makedirs(os.path.dirname(path))
        tally.same("tools/pack", run([os.path.join(top, "tools", "pack"), path]))
    with open(packed[0], "rb") as one, open(packed[1], "rb") as other:
        tally.holds("two runs of tools/pack", one.read() == other.read(), "their bytes differ")
    words = ["report", os.path.join(samples(top), "pieces.txt")]
    wanted = run([os.path.join(top, TOOL), *words])
    tally.holds("report", wanted.status == 0 and wanted.out, wanted.err)
    tally.same("report by the packed file", run([packed[0], *words], folder="/"), 0, wanted.out)
    for it in (run([os.path.join(top, "tools", "pack")]), run([os.path.join(top, "tools", "pack"), "a", "b"])):
        tally.same("tools/pack with wrong words", it, 1, "", "usage: pack OUT\n")
    for path, why in (("/dev/full", "No space left on device"), ("no/wh\x1bere", "No such file or directory")):
        tally.same("tools/pack to " + path, run([os.path.join(top, "tools", "pack"), path]), 5, "", "pack: %s: %s\n" % (ascii(path)[1:-1], why))


def test_started(tally, program, top):
    """The script at the top works by a link, from any folder."""
    link = os.path.join(program.folder, "a link to the tool")
    os.symlink(os.path.join(top, TOOL), link)
    wanted = run([os.path.join(top, TOOL), "--help"])
    tally.same("the tool by a link", run([link, "--help"], folder="/"), 0, wanted.out)


class ToolDocuments(Case):
    """What is made of the tools' texts, and of the tools."""

    @classmethod
    def setUpClass(cls):
        cls.derive = loaded(os.path.join(cls.top, "tools", "derive"))
