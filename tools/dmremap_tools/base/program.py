"""Other programs: dmremap, and what commands ask, as debugfs. How they fail is told in words."""

import contextlib
import functools
import os
import shutil
import subprocess
import sys
import tempfile
from argparse import ArgumentParser, ArgumentTypeError
from typing import Any, List, NoReturn, Optional, Sequence, Tuple

from dmremap_tools.base import quoting, streams
from dmremap_tools.base.refusal import Refusal

OUTPUT_FAILED = 5
# The statuses with which dmremap refuses words, texts or requests, or is out of memory.
REFUSALS = (1, 2, 3, 4, 6)
# What stands beside the script that builds dmremap, and tells which program was built of the sources that are there.
SOURCES = os.path.join("tools", "building", "sources.py")
NOT_BUILT = "no program is built here: run ./dmremap --version, which builds and proves it, or ./try --version"
NOT_HERE = "there is none: build it, put it beside this tool or on the path, or give --program"
NOT_PROVED = ("dmremap-tools: using the unproved program that ./try made; ./dmremap --version builds and proves the "
              "one to act on")


class NoProgram(Refusal):
    """There is no dmremap to ask."""


def add_words(parser: ArgumentParser) -> None:
    parser.add_argument("--program", metavar="PROGRAM", type=_told,
                        help="the dmremap to run; by default the one beside this tool, or on the path")


@functools.lru_cache(None)
def _told(given: str) -> str:
    """A word for dmremap, refused if another program answers --version. One that can't be run is told where it is."""
    with contextlib.suppress(Refusal):
        path, _ = _chosen(given)
        printed, _, status = ask([path, "--version"]) if path else ("", "", -1)
        if status > 0 or status == 0 and not printed.startswith("dmremap "):
            raise ArgumentTypeError(f"it isn't dmremap, by its --version: {quoting.shown(given)}")
    return given


def dmremap(given: Optional[str]) -> str:
    """The path of dmremap: the one that was given, or that beside this tool, or that on the path. The script that would
    build it is never run: what it left, or ./try, is taken in its place if it fits the sources; else NoProgram."""
    path, why = _chosen(given)
    if path is None:
        raise NoProgram("dmremap", why)
    return path


@functools.lru_cache(None)
def _chosen(given: Optional[str]) -> Tuple[Optional[str], str]:
    """The same, or None, and why there is none. It is looked for once."""
    tools = os.path.abspath(sys.argv[0]), os.path.realpath(sys.argv[0])
    places = [given] if given is not None else [os.path.join(os.path.dirname(it), "dmremap") for it in tools]
    found = [path for path in (shutil.which(it) for it in [*places, *["dmremap"] * (given is None)]) if path]
    built = next((path for path in map(_built, found) if path), None)
    return built or (None if found else given), NOT_BUILT if found else NOT_HERE


def _built(path: str) -> Optional[str]:
    """A program itself, or in place of the script of a repository the one that fits its sources, if there is one."""
    sources = os.path.join(os.path.dirname(os.path.realpath(path)), SOURCES)
    if not os.path.isfile(sources):
        return path
    words: List[str] = [sys.executable or "python3", "-E", "-s", "-S", "-B", sources]
    found = subprocess.run(words, stdin=subprocess.DEVNULL, stdout=subprocess.PIPE, stderr=subprocess.DEVNULL).stdout
    if os.path.basename(os.path.dirname(found)) == b"try":
        _tell_once(os.path.join(os.path.dirname(found), b"told"), NOT_PROVED)
    return os.fsdecode(found) or None


def _tell_once(path: bytes, text: str) -> None:
    """Tells a text once in a session, as a terminal has one, of which a file tells."""
    session = b"%d" % os.getsid(0)
    with contextlib.suppress(OSError), open(path, "rb") as file:
        if file.read() == session:
            return
    streams.tell(text)
    with contextlib.suppress(OSError):
        descriptor = os.open(path, os.O_WRONLY | os.O_CREAT | os.O_TRUNC | os.O_NOFOLLOW, 0o666)
        os.write(descriptor, session)
        os.close(descriptor)


def found(name: str) -> str:
    """The path of a program, which may stand where only the administrator's programs do."""
    folders = (os.environ.get("PATH", "") + os.pathsep + os.defpath).split(os.pathsep)
    beside = [os.path.join(os.path.dirname(it), "sbin") for it in folders if os.path.basename(it) == "bin"]
    return shutil.which(name) or shutil.which(name, path=os.pathsep.join(beside)) or name


def ask(words: Sequence[str], given: bytes = b"") -> Tuple[str, str, int]:
    """What a program prints on its two outputs, in English, of each at most 64 MiB, and its status; `given` is what it
    reads."""
    with tempfile.TemporaryFile() as said, tempfile.TemporaryFile() as read:
        read.write(given)
        read.seek(0)
        child = start(words, stdout=subprocess.PIPE, stderr=said, stdin=read, env=dict(os.environ, LC_ALL="C"))
        try:
            printed = child.stdout.read(streams.MOST_TEXT + 1)
            if len(printed) > streams.MOST_TEXT:
                why = f"it printed more than {streams.MOST_TEXT} bytes: ask for less at once"
                raise Refusal(quoting.shown(words[0]), why)
            status = child.wait()
        finally:
            # One that wasn't awaited.
            child.kill()
            child.wait()
        said.seek(0)
        texts = [it.decode("utf-8", "surrogateescape") for it in (printed, said.read(streams.MOST_TEXT))]
    return texts[0], texts[1], status


def ask_quietly(words: Sequence[str], given: bytes = b"") -> Tuple[str, str]:
    """The same whatever the status is, unless it is killed."""
    printed, said, status = ask(words, given)
    if status < 0:
        fail(words[0], status)
    return printed, said


def start(words: Sequence[str], **how: Any) -> Any:
    """Starts a program, whose path may have any bytes, under a name that is text, as dmremap wants all its words. Of
    the Popen that it gives those pipes are there that `how` says."""
    streams.flush()
    path, *others = (it.encode("utf-8", "surrogateescape") for it in words)
    try:
        return subprocess.Popen([words[0].encode("utf-8", "replace"), *others], executable=path, **how)
    except OSError as fault:
        raise Refusal(quoting.shown(words[0]), streams.why(fault))


def fail(name: str, status: int) -> NoReturn:
    """Refuses what a program refused, as it ended with this status. Other ways to end are a failure of its output."""
    why = "its output failed" if status == OUTPUT_FAILED else f"it ends with status {status}: see what it said"
    if status in REFUSALS:
        raise Refusal(quoting.shown(name), why)
    raise streams.OutputFailed(f"{quoting.shown(name)}: {why if status >= 0 else f'it was ended by signal {-status}'}")
