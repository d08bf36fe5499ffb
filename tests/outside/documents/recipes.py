"""The recipes: all of docs/RECIPES.md is pasted from top to bottom in one folder, after the tutorial, and then once more. Each
block prints what stands below it, and each recipe leaves nothing behind. And the line `refused`, which dmremap refuses
wherever it reads it."""

import os
import re
import shutil

import transcripts
from documents import MARK
from harness import run, text_of

# A recipe with its heading.
RECIPE = re.compile(r"^##+ ([^\n]*)\n(.*?)(?=^##+ |\Z)", re.M | re.S)
# The section whose block comes before each recipe, and the folder that it makes.
BEGIN, WALK = "Before you begin", "walk"
# What the blocks need that are run where it is there.
MOUNTED = MARK + "root, nbdkit"


def test_document(tally, program, top):
    """Pastes the blocks of each recipe that need nothing else, twice."""
    recipes = [(title, shown_by(transcripts.blocks(text))) for title, text in RECIPE.findall(page(top, "RECIPES.md"))]
    lost = [title for title, pairs in recipes if None in pairs]
    tally.holds("blocks of recipes", not lost, "what is printed is below no commands in %s" % ", ".join(lost))
    begin = dict(recipes)[BEGIN][0][0]
    folder = make_folder(program, top, begin)
    for command, _ in transcripts.of_markdown(page(top, "TUTORIAL.md")):
        run(["bash", "-c", command], folder=os.path.join(folder, WALK), env=environment(folder))
    for time in ("once", "twice"):
        for title, pairs in recipes:
            pairs = [it for it in filter(None, pairs) if not it[0].startswith(MARK)]
            if title != BEGIN and pairs:
                check_recipe(tally, folder, begin, "the recipe %s, pasted %s" % (title, time), pairs)


def test_mounted(tally, program, top):
    """Pastes the blocks that serve and mount a volume, where that can be done."""
    blocks = [shown_by(transcripts.blocks(text)) for _, text in RECIPE.findall(page(top, "RECIPES.md"))]
    pairs = [it for found in blocks for it in filter(None, found) if it[0].startswith(MOUNTED)]
    tally.holds("recipes that mount", pairs, "there are none")
    begin = next(found[0][0] for found in blocks if found)
    folder = make_folder(program, top, begin)
    is_there = all(shutil.which(it, path=environment(folder)["PATH"]) for it in ("nbdkit", "nbdfuse", "losetup"))
    if not is_there or os.geteuid() or not os.path.exists("/dev/fuse") or run(["losetup", "-f"], env=environment(folder)).status:
        tally.skip("mounting a served volume", "that takes root, a loop device, fuse, nbdkit and nbdfuse")
        return
    check_recipe(tally, folder, begin, "the recipe that mounts", pairs)


def check_recipe(tally, folder, begin, title, pairs):
    """Pastes the blocks of a recipe, each of which prints what is shown, and looks at what is left."""
    walk = os.path.join(folder, WALK)
    before = sorted(os.listdir(walk))
    if any(it in command for it in transcripts.ABOUT_FILES for command, _ in pairs) and not shutil.which(
            "debugfs", path=environment(folder)["PATH"]):
        tally.skip(title, "there is no debugfs")
        return
    script = "exec 2>&1\n%s" % begin + "".join(command + "printf '\\0'\n" for command, _ in pairs) + "pwd\n"
    printed = run(["bash", "-c", script], folder=folder, env=environment(folder)).out.decode("utf-8", "replace").split("\0")
    for (command, shown), out in zip(pairs, printed):
        tally.holds("in %s: %s" % (title, command.splitlines()[-1]), out == shown, "it prints %r, and not %r" % (out, shown))
    tally.holds("the blocks of %s" % title, printed[len(pairs):] == [walk + "\n"], "after them comes %r" % printed[len(pairs):])
    left = sorted(set(os.listdir(walk)) ^ set(before))
    tally.holds("what %s leaves" % title, not left, "it leaves %s" % ", ".join(left))


def shown_by(blocks):
    """Each block of commands with what is shown below it; None for another block."""
    pairs = []
    for kind, lines in blocks:
        text = "".join(it + "\n" for it in lines)
        if kind == "sh":
            pairs.append((text, ""))
        elif kind == "" and pairs and pairs[-1] and not pairs[-1][1]:
            pairs[-1] = (pairs[-1][0], text)
        else:
            pairs.append(None)
    return pairs


def make_folder(program, top, begin):
    """A folder like the top of a repository, in which the first block was pasted."""
    folder = os.path.join(program.folder, "pasted")
    shutil.rmtree(folder, ignore_errors=True)
    os.mkdir(folder)
    os.symlink(program.path, os.path.join(folder, "dmremap"))
    for it in ("dmremap-tools", "examples"):
        os.symlink(os.path.join(top, it), os.path.join(folder, it))
    run(["bash", "-c", begin], folder=folder)
    return folder


def environment(folder):
    """What the commands find, those of the administrator as well."""
    return dict(os.environ, PATH=folder + os.pathsep + os.environ["PATH"] + transcripts.ADMINISTRATORS)


def page(top, name):
    return text_of(os.path.join(top, "docs", name))


def test_refusal(tally, program):
    """dmremap refuses the line that a command prints in place of what it can't make, wherever it reads it."""
    table, disks, line = "a: 0 8 linear sda 0\n", "sda 8\n", "refused\n"
    message = "dmremap: %s\n"
    answered = "1 R sda 0 8\n"
    tally.same("a refused request", program.map(table, disks, "R a 0 8\n" + line), 3, answered, message % "request 2: form")
    tally.same("a refused table", program.map(table + line, disks), 1, "", message % "source: syntax at 2")
    tally.same("a refused disk list", program.map(table, disks + line), 1, "", message % "disks: syntax at 2")
    for form in ("concise", "lvm"):
        words = ["table", form, program.file("refusal/source", line)] + [program.file("refusal/disks", disks)] * (form == "concise")
        tally.same("a refused text, as " + form, program.run(words), 1, "", message % ("source: syntax at %d" % (1 + (form == "lvm"))))
