"""Compares the built program with what a Linux kernel, lvm2 and libdevmapper answered.

    python3 tests/kernel [PROGRAM] [--vectors FOLDER]

PROGRAM is the program that `rt ci` and ./dmremap leave, if no other is given. The vectors in FOLDER are those that
`tests/kernel/record` wrote, `tests/kernel/vectors` if none is given. A line tells each answer that differs without
being known to, of the first of them; then come a line for each kind of vector with what agreed, a line for each
departure with how often it occurred, a line for what can't be compared, and `N passed, M failed`. The status is 0 where
nothing failed.

Each answer that is known to differ is in a table of the module of its kind, or follows from a rule there, with the
program's own answer and the name of its departure, which `departures.py` has. One that no longer differs fails, so that
docs/KERNEL.md stays true.
"""

import argparse
import collections
import multiprocessing
import os
import sys
import tempfile
import traceback

sys.dont_write_bytecode = True
HERE = os.path.dirname(os.path.abspath(__file__))
TOP = os.path.dirname(os.path.dirname(HERE))
# What the tests from outside have is used here too.
sys.path += [os.path.join(TOP, *it) for it in (("tests", "outside"), ("tests", "outside", "documents"), ("tools",))]

import cuts
import departures
import heads
import lvm2_texts
import mappings
import names
import snapshot_runs
import stores
import tables
import texts
import used_snapshots
import volume_groups
from found import Found
from harness import Program

BUILT = os.path.join(TOP, "crates", "dmremap", "out", "dmremap")
VECTORS = os.path.join(HERE, "vectors")
# How many failures are told.
TOLD = 60
KINDS = {"mappings": mappings, "snapshots": snapshot_runs, "used snapshots": used_snapshots, "power cuts": cuts,
         "stores": stores, "tables": tables, "volume groups": volume_groups, "names": names, "texts": texts,
         "states of groups": lvm2_texts, "heads": heads}


def main():
    words = argparse.ArgumentParser()
    words.add_argument("program", nargs="?", default=BUILT)
    words.add_argument("--vectors", default=VECTORS)
    given = words.parse_args()
    if not os.access(given.program, os.X_OK):
        print("FAILED the program: there is none at %s\n0 passed, 1 failed" % given.program)
        return 1
    jobs = [(kind, job) for kind, module in KINDS.items() for job in module.jobs(given.vectors)]
    found = {kind: Found() for kind in KINDS}
    with tempfile.TemporaryDirectory(prefix="dmremap-kernel-") as folder:
        start = (os.path.abspath(given.program), folder)
        with multiprocessing.get_context("fork").Pool(os.cpu_count(), begin, start) as workers:
            for kind, part in workers.imap(run, jobs):
                found[kind].add(part)
    known = Found()
    departures.check(known, TOP, sum((it.departed for it in found.values()), collections.Counter()))
    if os.path.abspath(given.vectors) == VECTORS:
        departures.check_figures(known, TOP, {kind: it.passed() for kind, it in found.items()})
    return report(found, known)


def begin(path, folder):
    """Makes a worker's program, with a folder of its own for the files that it makes."""
    global PROGRAM
    PROGRAM = Program(path, tempfile.mkdtemp(dir=folder))


def run(job):
    """What a job found; a vector that can't be read is a failure, and keeps no other from being compared."""
    kind, what = job
    found = Found()
    try:
        KINDS[kind].compare(found, PROGRAM, what)
    except Exception:
        found.fail("%s %s" % (kind, what), traceback.format_exc())
    return kind, found


def report(found, known):
    """Prints what was found by kind, and of the departures as a whole, and returns the status."""
    both = Found()
    for it in [*found.values(), known]:
        both.add(it)
    for it in both.failed[:TOLD]:
        print("FAILED %s" % it)
    if len(both.failed) > TOLD:
        print("and %d more" % (len(both.failed) - TOLD))
    for kind, it in found.items():
        print("%s: %s" % (kind, ", ".join("%d %s" % (count, what) for what, count in sorted(it.agreed.items()))))
    for departure, count in sorted(both.departed.items()):
        print("departure: %d times %s" % (count, departure))
    for why, count in sorted(both.aside.items()):
        print("not compared: %d %s" % (count, why))
    print("%d passed, %d failed" % (both.passed(), len(both.failed)))
    return 1 if both.failed else 0


sys.exit(main())
