"""Calls of dmremap-tools: in a fork of this process, as to start an interpreter takes longer than most of what is asked.

A row is a command, its words, its inputs, what it prints, what it says on standard error, and its status. The inputs are
the files `1`, `2` and so on, which follow the words, if none of these names them.
"""

import importlib
import os
import resource
import shutil
import signal
import sys
import tempfile

from harness import SECONDS, Outcome, as_bytes, text_of

TOOL = "dmremap-tools"
BROKEN = 99


def samples(top):
    """The folder of the samples."""
    return os.path.join(top, "examples", "samples")


def good(command, words, inputs, output, message=""):
    """A row of an answer."""
    return command, words, inputs, output, message, 0


def bad(command, words, inputs, message, output=""):
    """A row of a refusal, whose message has the reason as its last line; lines before it are told as they stand. `output` is
    what stands before the line `refused`."""
    return command, words, inputs, output + "refused\n", message, 1


def lost(command, words, inputs, message, output=""):
    """The same where dmremap doesn't read what is printed."""
    return command, words, inputs, output, message, 1


def check_rows(tally, program, top, rows):
    """Runs each row in a folder of its own."""
    for command, words, inputs, output, message, status in rows:
        folder = os.path.join(program.folder, "rows")
        shutil.rmtree(folder, ignore_errors=True)
        for place, text in enumerate(inputs, 1):
            program.file("rows/%d" % place, text)
        os.makedirs(folder, exist_ok=True)
        named = {part for it in words for part in (it, it.rpartition("=")[2])}
        files = [str(place) for place in range(1, len(inputs) + 1) if str(place) not in named]
        got = call(top, [command, *words, *files], folder=folder)
        told, _, reason = message.rpartition("\n")
        wanted = message if status != 1 else "%s%s %s: %s\n" % (told + "\n" * bool(told), TOOL, command, reason)
        tally.same("%s %s over %r" % (command, " ".join(words), inputs[-1][:40] if inputs else ""), got, status, output, wanted)


def read(path):
    """The bytes of a file, or None where there is none."""
    if not os.path.exists(path):
        return None
    with open(path, "rb") as it:
        return it.read()


def call(top, words, given=b"", folder=None, stdout=None, stderr=None, memory=None):
    """Runs the tool with these words, perhaps with other outputs, and with so many bytes of memory besides what this process
    has, which counts for its fork, too."""
    main = importlib.import_module("dmremap_tools.main")
    command = main.commands.find(words[0]) if words else None
    if command:
        # Once, and not in each fork.
        importlib.import_module("dmremap_tools." + command.module)
    with tempfile.TemporaryFile() as inward, tempfile.TemporaryFile() as out, tempfile.TemporaryFile() as err:
        inward.write(as_bytes(given))
        inward.seek(0)
        sys.stdout.flush()
        child = os.fork()
        if child == 0:
            outputs = [out.fileno() if stdout is None else stdout, err.fileno() if stderr is None else stderr]
            _become(main, top, words, [inward.fileno(), *outputs], folder, memory)
        status = _status(os.waitpid(child, 0)[1])
        out.seek(0)
        err.seek(0)
        return Outcome(status, out.read(), err.read())


def _address_space():
    """How many bytes of addresses this process has."""
    return int(text_of("/proc/self/statm").split()[0]) * resource.getpagesize()


def _status(status):
    return os.WEXITSTATUS(status) if os.WIFEXITED(status) else -os.WTERMSIG(status)


def _become(main, top, words, descriptors, folder, memory):
    """Does in the new process what a shell does in one, and ends it."""
    try:
        for place, descriptor in enumerate(descriptors):
            os.dup2(descriptor, place)
        if folder:
            os.chdir(folder)
        if memory:
            limit = memory + _address_space()
            resource.setrlimit(resource.RLIMIT_AS, (limit, limit))
        # What tests read by the tool's own functions may have gone since, and its number be that of another file.
        written = importlib.import_module("dmremap_tools.base.written")
        written._inputs.clear()
        written._places.clear()
        sys.argv[0] = os.path.join(top, TOOL)
        signal.signal(signal.SIGALRM, signal.SIG_DFL)
        signal.alarm(SECONDS)
        os._exit(main.run(list(words)))
    finally:
        os._exit(BROKEN)
