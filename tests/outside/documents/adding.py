"""The example of docs/ARCHITECTURE.md, which adds a target: the patch applies to the sources as they are, and the program
that docs/PYTHON.md shows maps through a line of that target. So this program compiles, too. `rt try` runs it; nothing is
proved."""

import os
import re
import shutil
import subprocess

from harness import run, text_of

PATCH = "docs/delay.patch"
PROGRAM = re.compile(r"^```rust\n(.*?)^```$\n+(?:.*\n)*?```\n(.*?)^```$", re.M | re.S)
CRATE = re.compile(r"`(example: [\w ]+)`")
# A line of the program's table, and the same of the new target, whose sectors are the same ones.
LINEAR, DELAY = "0 100 linear sda 50", "0 100 delay sda 50 500"
# It compiles for half a minute, and longer beside other work.
SECONDS = 600


def test_patch(tally, program, top):
    copy = os.path.join(program.folder, "patched")
    page = text_of(os.path.join(top, "docs", "PYTHON.md"))
    line, (source, shown) = CRATE.search(page)[1], PROGRAM.search(page).groups()
    tally.holds("the program that PYTHON shows", source.count(LINEAR) == 1, "it has no line %s" % LINEAR)
    listed = text_of(os.path.join(top, "crates.txt")).splitlines()
    crates = [it for it in listed if it.split(":")[0] in line.split()[1:]]
    for name in (it.split(":")[0] for it in crates):
        for part in "src", "specs", "proofs":
            shutil.copytree(os.path.join(top, "crates", name, part), os.path.join(copy, "crates", name, part))
    program.file(os.path.join(copy, "crates.txt"), "".join(it + "\n" for it in [*crates, line]))
    shutil.copy(os.path.join(top, "HANDLES"), copy)
    program.file(os.path.join(copy, "crates/example/src/main.rt"), source.replace(LINEAR, DELAY))
    lacking = [it for it in ("git", "rt") if shutil.which(it) is None]
    if lacking:
        tally.skip("the patch that adds a target", "there is no %s" % lacking[0])
        return
    env = {it: os.environ[it] for it in os.environ if not it.startswith("GIT_")}
    words = ["git", "apply", os.path.join(top, PATCH)]
    if tally.holds(PATCH, run(words, folder=copy, env=env).status == 0, "it doesn't apply: make it anew"):
        got = subprocess.run(["rt", "try"], cwd=os.path.join(copy, "crates", "example"), stdin=subprocess.DEVNULL,
                             stdout=subprocess.PIPE, stderr=subprocess.PIPE, timeout=SECONDS)
        tally.holds("the program over a target that was added", (got.returncode, got.stdout) == (0, shown.encode()),
                    "status %d, %r, %r" % (got.returncode, got.stdout, got.stderr[-300:]))
