"""Commands with their output, as the documents show them, are run in a shell and compared.

In a folder of their own the program is `dmremap`, which is also found as a command, and beside it are
the tool and the repository's examples. The commands of one document run one after the other, so that a later one finds the
files that an earlier one made.
"""

import os
import re
import shutil
import textwrap

import diagnostics
from harness import run

# A block of a document in Markdown: its kind and its lines.
BLOCK = re.compile(r"^( *)```(\w*)\n(.*?)^ *```$", re.M | re.S)
PROMPT, MORE = "$ ", "> "
# What needs debugfs.
ABOUT_FILES, ADMINISTRATORS = ("debugfs ", "dmremap-tools lost "), ":/sbin:/usr/sbin"


def blocks(text):
    """The blocks of a document in Markdown, each its kind and its lines."""
    return [(kind, textwrap.dedent(body).splitlines()) for _, kind, body in BLOCK.findall(text)]


def of_markdown(text):
    """The commands of a document in Markdown: those of its blocks `console`."""
    return [it for kind, lines in blocks(text) if kind == "console" for it in commands(lines)]


def of_manual(text):
    """The commands of a manual page: those of its blocks of literal text that have a prompt."""
    found = re.findall(r"^\.EX\n(.*?)^\.EE$", diagnostics.plain(text), re.M | re.S)
    return [it for block in found if block.startswith(PROMPT) for it in commands(block.splitlines())]


def commands(lines):
    """Each command of some lines, with what is shown after it."""
    found = []
    for line in lines:
        if line.startswith(PROMPT):
            found.append(([line[len(PROMPT):]], []))
        elif line.startswith(MORE) and not found[-1][1]:
            found[-1][0].append(line[len(MORE):])
        else:
            found[-1][1].append(line)
    return [("\n".join(command), "".join(it + "\n" for it in shown)) for command, shown in found]


def check(tally, program, top, name, shown):
    """Runs the commands of the document `name`, with both streams as a terminal shows them."""
    folder = os.path.join(program.folder, "shown-in-" + name.replace(os.sep, "-"))
    os.mkdir(folder)
    os.symlink(program.path, os.path.join(folder, "dmremap"))
    for it in ("dmremap-tools", "examples"):
        os.symlink(os.path.join(top, it), os.path.join(folder, it))
    env = dict(os.environ, PATH=folder + os.pathsep + os.environ["PATH"] + ADMINISTRATORS)
    tally.holds("commands of %s" % name, shown, "it shows none")
    for command, output in shown:
        title = "in %s: %s" % (name, command.splitlines()[0])
        if any(it in command for it in ABOUT_FILES) and not shutil.which("debugfs", path=env["PATH"]):
            tally.skip(title, "there is no debugfs")
            continue
        tally.same(title, run(["bash", "-c", "exec 2>&1\n" + command], folder=folder, env=env), 0, output)
