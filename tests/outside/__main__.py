"""Drives the built program as a shell does, and looks at what only the outside sees.

    python3 tests/outside [-k PATTERN].. [-j N] [--durations N] [PROGRAM [MODULE..]]

PROGRAM is the program that `rt ci` and ./dmremap leave, if no other is given, and each MODULE one of those in the folders
beside this file; all of them run where none is named, N at a time. With -k only those tests run whose names have PATTERN.
A line tells each case that failed; the last line is `N passed, M failed`, and the status is 0 where none failed.

What the answers to requests are is proved. Here are the worked rows: texts, and the exact bytes,
message and status that must come of them. And here is what a proof can't speak of: real files and
streams, exit statuses as a shell gets them, the command line, large inputs, and the scripts at the top.
The folders say what their modules drive; a new case is a row of a table in one of these.
"""

import argparse
import concurrent.futures
import glob
import importlib
import multiprocessing
import os
import shutil
import signal
import sys
import tempfile
import unittest
from concurrent.futures.process import BrokenProcessPool

sys.dont_write_bytecode = True
HERE = os.path.dirname(os.path.abspath(__file__))
FOLDERS = [os.path.join(HERE, name) for name in ("program", "tools", "scripts", "documents")]
sys.path += [*FOLDERS, os.path.join(os.path.dirname(os.path.dirname(HERE)), "tools")]

from harness import Case, Program, Tally, case_of

TOP = os.path.dirname(os.path.dirname(HERE))
BUILT = os.path.join(TOP, "crates", "dmremap", "out", "dmremap")
# The modules that take longest, which begin first, and those that measure time or memory, which run at the end, one by one.
LONG = ["adding", "tool_streams", "launcher", "building", "installs", "models", "trying", "saves", "explained", "metadata_areas",
        "reading_list"]
ALONE = ["limits", "hostile", "growths"]


class Loader(unittest.TestLoader):
    """Takes the tests of a case in the order in which they stand."""

    def getTestCaseNames(self, testCaseClass):
        return sorted(super().getTestCaseNames(testCaseClass), key=list(vars(testCaseClass)).index)


def main():
    # A shell lets what it starts in the background pass over interrupts, and nohup hangups; so would all that is started here.
    for number in signal.SIGINT, signal.SIGHUP:
        if signal.getsignal(number) is signal.SIG_IGN:
            signal.signal(number, lambda *_: None)
    asked = parser().parse_intermixed_args()
    tally = Tally(lambda line: print(line, flush=True))
    suites = suites_of(asked.modules, asked.patterns, tally)
    if os.access(asked.program, os.X_OK):
        with tempfile.TemporaryDirectory(prefix="dmremap-outside-") as folder:
            os.chmod(folder, 0o755)
            run_all(suites, os.path.abspath(asked.program), asked.jobs, folder, tally)
    else:
        tally.fail("the program", "there is none at " + os.path.relpath(asked.program))
    return tally.close(asked.durations)


def parser():
    words = argparse.ArgumentParser(prog="tests/outside")
    words.add_argument("-k", metavar="PATTERN", dest="patterns", action="append", default=[], help="run the tests with this in their names")
    words.add_argument("-j", metavar="N", dest="jobs", type=int, default=min(4, os.cpu_count() or 1), help="run N modules at a time")
    words.add_argument("--durations", metavar="N", type=int, default=0, help="tell the N slowest tests")
    words.add_argument("program", metavar="PROGRAM", nargs="?", default=BUILT)
    words.add_argument("modules", metavar="MODULE", nargs="*")
    return words


def suites_of(modules, patterns, tally):
    """The tests of modules by their names, of all where none is named."""
    loader = Loader()
    loader.testNamePatterns = ["*%s*" % it for it in patterns] or None
    paths = [it for folder in FOLDERS for it in sorted(glob.glob(os.path.join(folder, "*.py")))]
    names = [os.path.basename(it)[:-len(".py")] for it in paths]
    for name in set(modules) - set(names):
        tally.fail("the modules", "there is none named " + name)
    cases = {name: case_of(importlib.import_module(name)) for name in names if name in modules or not modules}
    suites = {name: loader.loadTestsFromTestCase(case) for name, case in cases.items()}
    return {name: suite for name, suite in suites.items() if suite.countTestCases()}


def run_all(suites, program, jobs, folder, tally):
    """Runs the modules in folders below this one, several at a time where that is asked for."""
    order = sorted(suites, key=lambda name: LONG.index(name) if name in LONG else len(LONG))
    together = [name for name in order if name not in ALONE] if jobs > 1 and len(order) > 1 else []
    with concurrent.futures.ProcessPoolExecutor(jobs, multiprocessing.get_context("fork")) as workers:
        running = {workers.submit(run_apart, suites[name], program, folder): name for name in together}
        try:
            for future in concurrent.futures.as_completed(running):
                try:
                    tally.add(*future.result())
                except BrokenProcessPool:
                    tally.fail(running[future], "a process ended before its tests did")
        except KeyboardInterrupt:
            for process in multiprocessing.active_children():
                process.terminate()
            raise
    for name in order:
        if name not in together:
            run(suites[name], program, folder, tally)


def run_apart(suite, program, folder):
    """Runs the tests of a module in this process, which tells nothing itself."""
    lines = []
    tally = Tally(lines.append)
    run(suite, program, folder, tally)
    return lines, tally.passed, tally.failed, tally.seconds


def run(suite, program, folder, tally):
    """Runs the tests of a module, in a folder of its own."""
    with tempfile.TemporaryDirectory(dir=folder) as own:
        # As root the cases of unreadable files run as nobody, who has to come to the program.
        os.chmod(own, 0o755)
        Case.top, Case.own_folder, Case.is_own = TOP, own, program == BUILT
        Case.program = Program(shutil.copy(program, os.path.join(own, "dmremap")), own)
        suite.run(tally)


sys.exit(main())
