"""Tells whether the stores of snapshots can fill up, and which request makes each snapshot invalid.

Takes FORMAT, FILE and DISKS, as `dmremap map` does. Prints a line for each snapshot: how many chunks it has, how many
places its store has, and whether these can be too few. A kernel may have one place less, so make a store a chunk
larger.

With --requests, prints another line for each snapshot: the request that makes it invalid, and how full its store was
before that, as `--status` prints it. A snapshot starts from what its store holds, on disks at their names or where
--paths says; --fresh treats all as new. It runs dmremap over the first half of the requests, then over fewer or more of
them: about twenty times for a million requests. Refuses what dmremap refuses, and a FILE without snapshots.
"""

import functools
import itertools
import re
import tempfile
from argparse import ArgumentParser, Namespace
from typing import Dict, Iterator, List

from dmremap_tools.base import Refusal, given, pieces, program, streams
from dmremap_tools.formats import store_places
from dmremap_tools.model import loaded_stack

EXAMPLE = "dmremap-tools store table snaps.table snaps.disks"
STATUS = re.compile(r"^([^ \n]+): 0 [0-9]+ snapshot (.*)$", re.M)
INVALID, NEWLINE, CHUNK = "Invalid", b"\n", 1 << 16


def add_words(parser: ArgumentParser) -> None:
    given.add_words(parser)
    parser.add_argument("--requests", metavar="REQUESTS", help="find which of these requests makes a snapshot invalid")
    loaded_stack.add_words(parser)


def run(words: Namespace) -> None:
    text = streams.plain_bytes(words.requests) if words.requests is not None else None
    source = given.given_in(words, "FORMAT FILE [DISKS] [--requests REQUESTS]")
    with tempfile.TemporaryDirectory(prefix="dmremap-tools-") as folder:
        if text is None:
            loaded, ends = loaded_stack.load(program.dmremap(words.program), source, folder), []
        else:
            begun = loaded_stack.start(words, source, None, folder)
            loaded, ends = begun.loaded, list(ends_of(text, [*begun.words, "--status"]))
    streams.out.write("".join([*places_of(loaded, streams.name_of(words.file)), *ends]))


def places_of(loaded: loaded_stack.Stack, name: str) -> Iterator[str]:
    """A line for each snapshot: whether its store can be full."""
    lengths = dict(loaded.sizes, **{path: device.end() for path, device in loaded.by_path().items()})
    lines = [(device, line) for device in loaded.devices for line in device.lines]
    served = {line.words[0] for _, line in lines if line.target == "snapshot-origin"}
    snapshots = [(device, line.words) for device, line in lines if line.target == "snapshot"]
    if not snapshots:
        raise Refusal(name, "it has no snapshot: give the tables of one")
    for device, (origin, store, kind, chunk) in snapshots:
        chunks = -(-device.end() // int(chunk))
        places = lengths[store] // int(chunk) if kind == "N" else store_places.places(int(chunk), lengths[store])
        if places >= chunks:
            said = "it is never full" + ", unless a kernel has one place less" * (places == chunks and kind != "N")
        elif kind != "K":
            said = "it can be full, which makes the snapshot invalid"
        else:
            also = ", and only one to the origin makes it invalid" * (origin in served)
            said = "it can be full; writes to the snapshot fail then" + also
        yield f"{device.name}: {chunks} chunks, {places} places in its store: {said}\n"


def ends_of(text: bytes, command: List[str]) -> Iterator[str]:
    """A line for each snapshot: when it becomes invalid by the requests of a text."""
    runs = itertools.count(1)

    @functools.lru_cache(None)
    def statuses(size: int) -> Dict[str, str]:
        """The status of each snapshot after the requests in so many bytes."""
        streams.show_progress(f"run {next(runs)}, over {size} of {len(text)} bytes")
        parts = (text[at:min(at + CHUNK, size)].decode("utf-8", "surrogateescape") for at in range(0, size, CHUNK))
        with pieces.Mapped(command, parts) as mapped:
            return {name: status for block in mapped.answers.blocks() for name, status in STATUS.findall(block)}

    for name, status in statuses(len(text)).items():
        if status != INVALID:
            yield f"{name}: valid to the end, {status}\n"
            continue
        # The end of the last request after which it is valid, and that of the next one.
        low, high = 0, len(text)
        while text.find(NEWLINE, low) + 1 < high:
            middle = text.rfind(NEWLINE, low, (low + high) // 2) + 1 or text.find(NEWLINE, low) + 1
            low, high = (middle, high) if statuses(middle)[name] != INVALID else (low, middle)
        yield f"{name}: invalid by request {text.count(NEWLINE, 0, high)}, before it {statuses(low)[name]}\n"
