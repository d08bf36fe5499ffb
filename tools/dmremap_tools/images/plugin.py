"""A volume of a pile of images as a disk, for nbdkit: what the plugin of `serve` calls. Its functions have the names
and arguments of nbdkit-python-plugin(3), which has one request answered at a time."""

import errno
import itertools
import os
from argparse import Namespace
from typing import Any, Callable, Dict, List, Tuple

import nbdkit  # type: ignore

from dmremap_tools.base import streams
from dmremap_tools.base.numbers import SECTOR
from dmremap_tools.base.refusal import Refusal
from dmremap_tools.formats import rescue_map
from dmremap_tools.model.device import ZEROS, NamedDevice, joined
from dmremap_tools.model.pile import Pile

API_VERSION = 2
# Of how many bytes a client is told at once what reads as zeros, and in how many extents: it goes on asking.
MOST_BYTES, MOST_EXTENTS = 1 << 26, 1 << 10
_given: Dict[str, List[str]] = {}
_target: NamedDevice


def config(key: str, value: str) -> None:
    """Takes a word KEY=VALUE of the command line."""
    _given.setdefault(key, []).append(value)


def get_ready() -> None:
    """Looks at the images once all words came. A refusal ends the server with status 1."""
    global _target
    try:
        words = Namespace(map=_given.get("map", []), map_of_other_length="map_of_other_length" in _given)
        unread = rescue_map.unread_in(words, _given["image"])
        asked = next(reversed(_given.get("program", [])), None)
        _target = Pile(_given["image"], asked, unread).target(_given["volume"][-1], True)
    except Refusal as refusal:
        streams.tell(f"dmremap-tools serve: {refusal}")
        os._exit(1)


def open(readonly: bool) -> int:
    """All clients are the same."""
    return 1


def get_size(handle: int) -> int:
    return _target.size


def answered(ask: Callable[..., Any]) -> Callable[..., Any]:
    """Has a read fail of what isn't there."""
    def answer(*asked: Any) -> Any:
        try:
            return ask(*asked)
        except (Refusal, streams.OutputFailed) as fault:
            nbdkit.set_error(errno.EIO)
            raise RuntimeError(str(fault)) from None
    return answer


@answered
def pread(handle: int, buffer: bytearray, offset: int, flags: int) -> None:
    """Fills a buffer with the bytes of the disk from an offset on."""
    buffer[:] = _target.device.read(offset, len(buffer))


@answered
def extents(handle: int, count: int, offset: int, flags: int) -> List[Tuple[int, int, int]]:
    """What reads as zeros, and what doesn't, of these bytes, as far as it is told at once."""
    first = offset // SECTOR * SECTOR
    end = min(-(-(offset + count) // SECTOR) * SECTOR, _target.size, first + MOST_BYTES)
    found: List[Tuple[int, int, int]] = []
    for at, extent in itertools.islice(joined(_target.device, first, end - first), MOST_EXTENTS):
        kind = nbdkit.EXTENT_HOLE | nbdkit.EXTENT_ZERO if extent.source is ZEROS else 0
        found.append((max(at, offset), at + extent.size - max(at, offset), kind))
    return found
