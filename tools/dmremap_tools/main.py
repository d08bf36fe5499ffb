"""Finds the command, runs it, and gives each way to end its status."""

import argparse
import difflib
import functools
import gc
import importlib
import itertools
import os
import re
import signal
import textwrap
from types import ModuleType
from typing import Callable, Dict, List, NoReturn, Tuple, Type

from dmremap_tools import commands
from dmremap_tools.base import Refusal, WrongWords, quoting, streams, written

TOOL = "dmremap-tools"
OUTPUT_FAILED = 5
# How many columns a help has, and what an item of a list explains, up to the explanation.
COLUMNS, ITEM = 80, re.compile(r" +\S.{,32}?  +(?=\S)")
# The status of each way to end, and what is said then: {0} is the text of the exception, {1} this itself.
ENDINGS: Dict[Type[Exception], Tuple[int, str]] = {
    WrongWords: (2, "{0}"), Refusal: (1, "{0}"), MemoryError: (1, "out of memory"),
    streams.OutputFailed: (OUTPUT_FAILED, "{0}"), streams.ReaderGone: (141, ""),
    # Of a file for what is kept meanwhile: those that are named are told where they are opened.
    OSError: (OUTPUT_FAILED, "a temporary file: {0}"), Exception: (70, "a fault of this tool: {1!r}"),
}
# What tells a command to end; its status is then this number and that of the signal, as a shell has it.
ENDS = (signal.SIGINT, signal.SIGTERM, signal.SIGHUP)
BY_SIGNAL = 128

_heard: List[int] = []


class ToldToEnd(BaseException):
    """A signal told the command to end: its number."""


class Parser(argparse.ArgumentParser):
    """Reads the words of a command. Help goes to standard output, as everything else that is asked for."""

    def print_help(self, file: object = None) -> None:
        streams.out.write(self.format_help())

    def parsed(self, words: List[str]) -> argparse.Namespace:
        """The words of a command, with options in any place. If they end in those of another program, so do options
        that aren't the command's own."""
        self._words = words
        try:
            typed, others = self.parse_known_intermixed_args(words)
        except TypeError:
            typed, others = self.parse_known_args(words)
            typed.words, others = others + typed.words, []
        if others:
            self.error("unrecognized arguments: " + quoting.some([quoting.shown(it) for it in others], " "))
        return typed

    def error(self, message: str) -> NoReturn:
        """Refuses words. What is quoted of them is cut where it is long."""
        for each in self._words:
            for quoted in (each, each.partition("=")[2]):
                message = message.replace(repr(quoted), "'%s'" % quoting.shown(quoted))
        raise WrongWords(message, self.format_usage().rstrip())


def main(words: List[str]) -> NoReturn:
    """Runs the tool and ends the process, so that nothing has to be collected."""
    gc.disable()
    streams.hold_descriptors()
    os._exit(run(words))


def run(words: List[str]) -> int:
    """Runs the tool with the words after its name, and returns its status."""
    command = commands.find(words[0]) if words else None
    name = f"{TOOL} {command.name}" if command else TOOL
    is_fed = command is not None and command.is_fed
    try:
        status = _run(command, name, words)
        streams.finish()
        return status
    except ToldToEnd as told:
        return _end(BY_SIGNAL + told.args[0], "", is_fed)
    except Exception as fault:
        status, said = next(end for kind, end in ENDINGS.items() if isinstance(fault, kind))
        why = said.format(getattr(fault, "strerror", None) or fault, fault)
        message, usage = f"{name}: {why}" if why else "", getattr(fault, "usage", "")
        return _end(status, message, is_fed, usage)


def _run(command: "commands.Command | None", name: str, words: List[str]) -> int:
    """Runs a command with the words behind its name, or prints the overview, and returns the status."""
    if command:
        module = importlib.import_module("dmremap_tools." + command.module)
        try:
            typed = parser_of(command, module, name).parsed(words[1:])
        except SystemExit:
            # After its help.
            return 0
        # Not those that are passed over, as nohup wants it.
        _heard.extend(it for it in ENDS if signal.getsignal(it) in (signal.SIG_DFL, signal.default_int_handler))
        _answer_signals(_told_to_end)
        return module.run(typed) or 0
    told = {"-h": commands.overview(), "--help": commands.overview(), "--version": f"{TOOL} {commands.VERSION}\n"}
    if words and words[0] in told:
        streams.out.write(told[words[0]])
        return 0
    if not words:
        raise WrongWords("--help lists the commands", f"usage: {TOOL} COMMAND ..")
    names = [it.name for it in commands.COMMANDS]
    near = "".join(f"near is {it}; " for it in difflib.get_close_matches(words[0], names, 1))
    raise WrongWords(f"no command '{quoting.shown(words[0])}'; {near}--help lists them", f"usage: {TOOL} COMMAND ..")


def _told_to_end(number: int, _: object) -> NoReturn:
    """Ends the command. Until what it began is removed, it is told no more."""
    _answer_signals(signal.SIG_IGN)
    raise ToldToEnd(number)


def _answer_signals(action: "signal.Handlers | Callable[[int, object], object]") -> None:
    """Sets what a signal that tells the command to end does, where it isn't passed over."""
    for number in _heard:
        signal.signal(number, action)


def parser_of(command: "commands.Command", module: ModuleType, name: str) -> Parser:
    """The parser of a command, whose help has the module's docstring and its example."""
    text = f"{_wrapped(module.__doc__ or '')}\n\nexample:\n  {module.EXAMPLE}"
    # So many columns, however wide the terminal is.
    formatter = functools.partial(argparse.RawDescriptionHelpFormatter, width=COLUMNS - 2)
    parser = Parser(prog=name, description=text, allow_abbrev=False, formatter_class=formatter)
    module.add_words(parser)
    return parser


def _wrapped(text: str) -> str:
    """The paragraphs of a text in lines of 80 columns, those of lists each by itself, and on below what explains it."""
    rows: List[str] = []
    for paragraph in text.strip().split("\n\n"):
        for is_list, lines in itertools.groupby(paragraph.split("\n"), lambda it: it.startswith(" ")):
            for line in lines if is_list else [" ".join(lines)]:
                item = ITEM.match(line)
                lead = " " * (item.end() if item else 6 * is_list)
                rows += textwrap.wrap(line, COLUMNS, subsequent_indent=lead, break_long_words=False,
                                      break_on_hyphens=False)
        rows.append("")
    return "\n".join(rows[:-1])


def _end(status: int, message: str, is_fed: bool, usage: str = "") -> int:
    """Removes what was begun, says why, and spoils the outputs. One that fails only now is told, too, unless messages
    fail."""
    _answer_signals(signal.SIG_IGN)
    written.discard()
    _answer_signals(signal.SIG_DFL)
    unsaid = message and streams.failure_of(streams.tell, *usage.splitlines(), message)
    failed = streams.spoil(is_fed)
    if failed and status != OUTPUT_FAILED:
        streams.failure_of(streams.tell, f"{message.split(':')[0] or TOOL}: {failed}")
    return OUTPUT_FAILED if failed or unsaid else status
