"""Shows where dmremap refuses an input, or how an answer arises.

Takes the words of dmremap as they were typed, such as `map FORMAT FILE [DISKS]`, with requests as words or on standard
input, unless that is a terminal. If dmremap refuses them, prints its message, the line with the refused part
underlined, why it is refused, and what is allowed there. The status is 0 then, too, because that is what was asked for.

If dmremap answers, prints the way of each request, level by level: below a device its line, and then the disks and
devices below with their sectors, for a snapshot also whether its chunk was taken, and for an error its cause. Each
level is an answer of dmremap; if they don't make its answer about the whole together, the command fails. Requests of
--before come first, and each request is in the state that those before it left. With --paths, snapshots start from what
their stores hold. With `images`, only the answer is printed.

Refuses more than 16 requests, and one whose way has more than 4096 pieces.
"""

import argparse
import os
import re
import tempfile
from typing import Dict, Iterator, List, Tuple

from dmremap_tools.base import program, streams
from dmremap_tools.base.given import FORMATS, Given
from dmremap_tools.base.refusal import Refusal, WrongWords
from dmremap_tools.explaining import refusals
from dmremap_tools.explaining.request_path import BEFORE, PATHS, LevelQueries, MapCommand
from dmremap_tools.model import loaded_stack, mapping

EXAMPLE = "dmremap-tools explain map lvm vg0.backup 'R vg0-lv0 8000 16'"
MOST_REQUESTS, MOST_BYTES = 16, 1 << 24
REQUEST = re.compile(r"[RW] .*", re.S)
# More words than a command has, as of requests that aren't in quotes.
UNQUOTED = re.compile(r"(map|replay) .* [RW] \S+ [0-9]+ [0-9]+", re.S)


def add_words(parser: argparse.ArgumentParser) -> None:
    program.add_words(parser)
    parser.add_argument("words", metavar="WORD", nargs=argparse.REMAINDER, help="the words of dmremap, and requests")


def run(words: argparse.Namespace) -> None:
    if not words.words:
        raise WrongWords("give the words of dmremap", "usage: " + EXAMPLE)
    mapping.Child.program, asked = words.program, program.dmremap(words.program)
    typed = words.words[os.path.basename(words.words[0]) == "dmremap" and len(words.words) > 1:]
    requests = "".join(it + "\n" for it in typed if REQUEST.fullmatch(it)).encode("utf-8", "surrogateescape")
    typed = [it for it in typed if not REQUEST.fullmatch(it)]
    plain, options = sorted_words(typed)
    if UNQUOTED.fullmatch(" ".join(plain)):
        raise WrongWords("put each request in quotes", "usage: " + EXAMPLE)
    # What is loaded is looked at first, so that no request is waited for where it is refused.
    printed, message = program.ask_quietly([asked, *typed])
    if not message:
        is_awaited = not requests and plain[:1] and plain[0] in ("map", "replay") and not os.isatty(0)
        requests = streams.read_bytes("-", MOST_BYTES) if is_awaited else requests
        printed, message = program.ask_quietly([asked, *typed], requests)
    form, file, disks = (plain[1:4] + [""] * 3)[:3]
    if message:
        files = {"source": file, "disks": disks, "paths": options.get(PATHS, file * (form == "images")),
                 "before": options.get(BEFORE, "")}
        texts = {part: refusals.read(path) for part, path in files.items() if path}
        texts["request"] = refusals.Input("REQUESTS", requests, "")
        streams.out.write(refusals.explained(asked, message, form, texts))
    elif plain[:1] == ["map"] and form in FORMATS and requests:
        for place, path in enumerate(paths_of(MapCommand(asked, Given(form, file, disks or None), options), requests)):
            streams.out.write("\n" * bool(place) + path)
    else:
        streams.out.write("nothing is refused" + (f": dmremap prints\n{printed}" if printed else "\n"))


def sorted_words(words: List[str]) -> Tuple[List[str], Dict[str, str]]:
    """The words that are no options, and the options that have a file with it."""
    plain, options, rest = [], {}, iter(words)  # type: List[str], Dict[str, str], Iterator[str]
    for word in rest:
        name, is_one, value = word.partition("=")
        if name in (BEFORE, PATHS):
            options[name] = value if is_one else next(rest, "")
        elif not word.startswith("-"):
            plain.append(word)
    return plain, options


def paths_of(command: MapCommand, requests: bytes) -> Iterator[str]:
    """The way of each request."""
    rows = requests.decode("ascii").splitlines()
    if len(rows) > MOST_REQUESTS:
        why = f"there are {len(rows)}: give at most {MOST_REQUESTS}, and those before them by --before"
        raise Refusal("the requests", why)
    for path in filter(None, [command.given.file, command.given.disks, *command.options.values()]):
        if not os.path.isfile(path):
            raise Refusal(path, "it is read several times, and is no file: give one")
    with tempfile.TemporaryDirectory(prefix="dmremap-tools-") as folder:
        loaded = loaded_stack.load(command.asked, command.given, folder)
        asked = LevelQueries(command, loaded, folder)
        yield from (str(asked.request_path(rows[:number], row)) for number, row in enumerate(rows))
