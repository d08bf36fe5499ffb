"""How long the chunks of snapshots are, how many their stores have places for, and what dmremap says of the stores that
it reads: how many chunks each has, or why one is refused."""

import re
from typing import Dict, Iterable, Optional, Sequence

from dmremap_tools.base import Refusal, program, quoting, tables

# How many sectors a chunk may have.
CHUNKS = [1 << it for it in range(11)]
STATUS = re.compile(r"([^ ]+): 0 [0-9]+ snapshot (?:([0-9]+)/[0-9]+ ([0-9]+)|Invalid)")
REFUSED = re.compile(r"dmremap: store ([^ ]+): ([a-z]+)")
DAMAGED = "which no kernel writes: it is damaged, was changed while it was read, or is another snapshot's"
TOGETHER = "and a kernel refuses it: look whether the disks, their places and the tables belong together"
WHYS = {
    "missing": "a disk that its header or its list lies on isn't here",
    "read": "its header or its list can't be read to its end: give whole images of the disks that it lies on",
    "magic": f"it begins neither as a store nor with zeros, {TOGETHER}",
    "version": f"it isn't of version 1, {TOGETHER}",
    "chunk": "its chunks have another length than the tables say, and a kernel goes by the store: `od -An -tu4 -j12 "
             "-N4` of its first sector prints how many sectors they have, so write that there",
    "gap": f"its list goes on behind a free place, {DAMAGED}",
    "order": "its list has chunks in another order than that of their places, or more than there is room for, "
             + DAMAGED,
    "range": f"its list has a chunk past the end of the snapshot, {DAMAGED}",
    "again": f"its list has a chunk twice, {DAMAGED}",
}


def places(chunk: int, length: int) -> int:
    """How many chunks a store of these sectors has a place for, as docs/FORMATS.md counts them."""
    count = max(0, length // chunk - 2)
    return count - count // (32 * chunk + 1)


class RefusedStore(Refusal):
    """A store that dmremap refuses, for this word."""

    def __init__(self, snapshot: str, word: str) -> None:
        super().__init__("the store of " + snapshot, WHYS[word])
        self.word = word


def chunks_in(words: Sequence[str], devices: Iterable[tables.TableDevice]) -> Dict[str, Optional[int]]:
    """The chunks in the store of each snapshot of these devices, None if it is invalid; dmremap gets these words."""
    chunks = {it.name: int(it.lines[0].words[3]) for it in devices if it.lines[0].target == "snapshot"}
    printed, said = program.ask_quietly([*words, "--status"])
    refused = REFUSED.fullmatch(said.strip())
    if refused:
        raise RefusedStore(refused[1], refused[2])
    if said:
        raise Refusal(quoting.shown(words[0]), quoting.shown(said.strip()))
    return {match[1]: (int(match[2]) - int(match[3])) // chunks[match[1]] if match[2] else None
            for match in map(STATUS.fullmatch, printed.splitlines()) if match}
