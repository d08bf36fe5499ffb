"""Inputs, outputs and messages. Outputs are gathered, and flushed before an input is waited for, so that a pipe of
commands runs while its input grows. Whatever an output doesn't take ends the command: see `main.py`."""

import contextlib
import os
import select
import stat
from typing import Callable, Iterator, List, NoReturn, Optional

from dmremap_tools.base import numbers, quoting, written
from dmremap_tools.base.refusal import OutputFailed, Refusal, WrongWords

CHUNK = 1 << 16
# Parts of an output that are gathered, and how long one is that isn't held back.
MOST_PARTS, LONG_PART = 1 << 10, 1 << 10
LONGEST_LINE = 1 << 16
MOST_TEXT = 64 << 20
SPOILED = "refused\n"
UNENDED = "the text ends within a line, give all of it: "
# What takes the line of progress away on a terminal.
CLEARED = "\r\033[K"
# What a text may begin with, or what begins with that is none.
MARK = b"\xef\xbb\xbf"
COMPRESSED = {b"\x1f\x8b": "gzip", b"BZh": "bzip2", b"\xfd7zXZ\0": "xz", b"\x28\xb5\x2f\xfd": "zstd",
              b"\x04\x22\x4d\x18": "lz4", b"PK\x03\x04": "zip"}
WIDE = (b"\xff\xfe", b"\xfe\xff")
# How much of the beginning has no NUL, if it is a text.
LOOKED_AT = 512


class ReaderGone(Exception):
    """Nobody reads the output any more."""


class Output:
    """A file or pipe that text is written to. Nothing foreign reaches a terminal unescaped."""

    def __init__(self, descriptor: int, name: str, place: Optional[written.Place] = None) -> None:
        self._descriptor, self._name, self.place = descriptor, name, place
        self._parts: List[str] = []
        self._is_open = True

    def write(self, text: str) -> None:
        parts = self._parts
        parts.append(text)
        if len(parts) >= MOST_PARTS or len(text) > LONG_PART:
            self.flush()

    def flush(self) -> None:
        if not self._parts:
            return
        text, self._parts = "".join(self._parts), []
        if os.isatty(self._descriptor):
            text = quoting.escaped(text, "\n\t")
        left = memoryview(text.encode("utf-8", "surrogateescape"))
        while left:
            try:
                left = left[os.write(self._descriptor, left):]
            except BlockingIOError:
                select.select([], [self._descriptor], [])
            except OSError as fault:
                self._fail(fault)

    def close(self) -> None:
        """Flushes, and closes it, as some file systems say only then that they are full."""
        self.flush()
        self._is_open = False
        try:
            self.place.close() if self.place else os.close(self._descriptor)
        except OSError as fault:
            self._fail(fault)

    def spoil(self) -> None:
        """Ends it with the line `refused`, which dmremap takes for nothing, unless it is a file, which is removed."""
        if self._is_open and not (self.place and not self.place.is_special):
            self.write(SPOILED)
            self.flush()

    def _fail(self, fault: OSError) -> NoReturn:
        self._parts = []
        raise ReaderGone() if isinstance(fault, BrokenPipeError) else OutputFailed(f"{self._name}: {why(fault)}")


class Lines:
    """The lines of a file, or of standard input for `-`, as they come, without a byte order mark and carriage returns.
    A text that ends within a line is refused. `line` is the one that was read last, `number` its number, from 1."""

    def __init__(self, path: str, is_written: bool = False) -> None:
        self.name = name_of(path)
        self.number, self.line = 0, ""
        self._chunks = chunks(path, is_written)
        self._block, self._before = "", 0

    def __iter__(self) -> Iterator[str]:
        for _ in self.blocks():
            yield from self.again()

    def again(self) -> Iterator[str]:
        """The lines of the block that came last."""
        for self.number, self.line in enumerate(self._block[:-1].split("\n"), self._before + 1):
            yield self.line

    def blocks(self) -> Iterator[str]:
        """Many whole lines at once. `number` is that of the line before them, and afterwards that of their last."""
        rest = b""
        for place, chunk in enumerate(self._chunks):
            chunk = chunk if place else begun(self.name, chunk)
            lines, end, rest = (rest + chunk).rpartition(b"\n")
            if end:
                self._block, self._before = _decoded((lines + end).replace(b"\r\n", b"\n")), self.number
                yield self._block
                self.number = self._before + self._block.count("\n")
            if len(rest) > LONGEST_LINE:
                self.number += 1
                self.refuse(f"a line of more than {LONGEST_LINE} bytes: give a text with shorter ones")
        if rest:
            self.number += 1
            self.refuse(UNENDED + quoting.shown(_decoded(rest)))

    def tell_if_none(self) -> None:
        if not self.number:
            tell("no line came")

    def refuse(self, reason: str) -> NoReturn:
        """Refuses the line that was read last, or an input without lines."""
        raise Refusal(f"{self.name}:{self.number}" if self.number else self.name, reason)

    def refuse_line(self, reason: str) -> NoReturn:
        """The same, with what stands there."""
        self.refuse(f"{reason}: {quoting.shown(self.line)}")

    def whole(self, text: str) -> int:
        """The whole number below 2^64 that a word of the line is. Refuses the line where it is none."""
        value = numbers.read(text)
        if value is None:
            self.refuse(numbers.NO_NUMBER % quoting.shown(text))
        return value


def name_of(path: str) -> str:
    return "standard input" if path == "-" else quoting.shown(path)


def chunks(path: str, is_written: bool = False) -> Iterator[bytes]:
    """What a file has, as it comes; it is opened at once. `is_written`: it is written, too, once it was read."""
    global _is_input_taken
    name = name_of(path)
    if path == "-" and _is_input_taken:
        raise WrongWords("standard input can't be two files: give the path of one")
    _is_input_taken = _is_input_taken or path == "-"
    try:
        descriptor = 0 if path == "-" else os.open(path, os.O_RDONLY)
    except OSError as fault:
        raise OutputFailed(f"{name}: {why(fault)}") if is_written else Refusal(name, why(fault))
    if not is_written:
        written.note_input(descriptor)
    return _chunks_of(descriptor, name)


def read_bytes(path: str, most: int = MOST_TEXT) -> bytes:
    """The same at once."""
    content = bytearray()
    for chunk in chunks(path):
        if not content:
            check_kind(name_of(path), chunk)
        content += chunk
        if len(content) > most:
            raise Refusal(name_of(path), f"it has more than {most} bytes: give a smaller one")
    return bytes(content)


def plain_bytes(path: str, most: int = MOST_TEXT) -> bytes:
    """The same of a text, without a byte order mark and carriage returns."""
    return begun(name_of(path), read_bytes(path, most)).replace(b"\r\n", b"\n")


def read(path: str, most: int = MOST_TEXT) -> str:
    """The same as text. Bytes that are no UTF-8 stay what they are, and are written as they were."""
    return _decoded(plain_bytes(path, most))


def rows(path: str) -> List[str]:
    """The lines of the whole text of a file. As in `Lines`, a text that ends within one is refused."""
    *lines, last = read(path).split("\n")
    if last:
        raise Refusal(f"{name_of(path)}:{len(lines) + 1}", UNENDED + quoting.shown(last))
    return lines


def check_kind(name: str, beginning: bytes) -> None:
    """Refuses what is compressed, and what is UTF-16."""
    kind = compression(beginning)
    if kind:
        raise Refusal(name, f"it is compressed ({kind}): unpack it")
    if beginning.startswith(WIDE):
        raise Refusal(name, "it is UTF-16: make it UTF-8 by `iconv -f UTF-16 -t UTF-8`")


def compression(beginning: bytes) -> str:
    return next((kind for magic, kind in COMPRESSED.items() if beginning.startswith(magic)), "")


def is_binary(beginning: bytes) -> bool:
    return b"\0" in beginning[:LOOKED_AT] and not beginning.startswith(WIDE)


def begun(name: str, beginning: bytes) -> bytes:
    """The beginning of a text without a byte order mark; what is no text is refused."""
    check_kind(name, beginning)
    if is_binary(beginning):
        raise Refusal(name, "it is no text: see by `file` what it is")
    return beginning[len(MARK):] if beginning.startswith(MARK) else beginning


def beside(path: str) -> Output:
    """A file that is written beside standard output. It gets to its place where the command has an answer."""
    place = written.Place(path)
    _besides.append(Output(place.begin(), name_of(path), place))
    return _besides[-1]


def tell(*texts: str) -> None:
    """Says on standard error, in a line each, what stands beside the answer."""
    for text in texts:
        _messages.write(quoting.escaped(text) + "\n")
    show_progress("")
    _messages.flush()


def show_progress(text: str) -> None:
    """Shows on a terminal how far long work is, in a line that the next message, or an empty text, takes away."""
    global _is_progress_shown
    if os.isatty(2) if text else _is_progress_shown:
        _is_progress_shown = bool(text)
        with contextlib.suppress(OSError):
            os.write(2, (CLEARED + quoting.escaped(text)[:79]).encode("utf-8", "surrogateescape"))


def finish() -> None:
    """Writes what is left to all outputs, and closes them; standard output last, when the files are in their places."""
    show_progress("")
    flush()
    for output in _besides:
        output.close()
    for place in filter(None, (output.place for output in _besides)):
        place.put()
    out.close()


def flush() -> None:
    """Writes what was gathered for all outputs."""
    for output in [*_besides, out]:
        output.flush()


def spoil(is_fed: bool) -> str:
    """Spoils what stands beside standard output, and that if dmremap reads it, each whatever the others do. Returns how
    the last one failed that did."""
    failures = [failure_of(it.spoil if is_fed or it is not out else it.flush) for it in [*_besides, out]]
    return next(filter(None, reversed(failures)), "")


def failure_of(action: Callable[..., object], *words: str) -> str:
    """How an output failed in what is done here, or nothing."""
    try:
        with contextlib.suppress(ReaderGone):
            action(*words)
    except OutputFailed as failed:
        return str(failed)
    return ""


def why(fault: OSError) -> str:
    return fault.strerror or str(fault)


def hold_descriptors() -> None:
    """Sees to it that no file is opened in place of a standard stream that is closed: each fails when it is used."""
    for descriptor in range(3):
        try:
            os.fstat(descriptor)
        except OSError:
            os.open(os.devnull, os.O_RDONLY if descriptor else os.O_WRONLY)


def _decoded(content: bytes) -> str:
    return content.decode("utf-8", "surrogateescape")


def _chunks_of(descriptor: int, name: str) -> Iterator[bytes]:
    """What a file has, as it comes. What was written goes out before more of it is waited for."""
    chunk = b"\0"
    while chunk:
        try:
            if not stat.S_ISREG(os.fstat(descriptor).st_mode):
                flush()
            chunk = os.read(descriptor, CHUNK)
        except BlockingIOError:
            select.select([descriptor], [], [])
            continue
        except OSError as fault:
            raise Refusal(name, why(fault))
        if chunk:
            yield chunk
    if descriptor:
        os.close(descriptor)


out = Output(1, "standard output")
_messages = Output(2, "standard error")
_besides: List[Output] = []
_is_input_taken = False
_is_progress_shown = False
