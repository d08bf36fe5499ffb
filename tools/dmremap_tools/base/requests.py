"""Requests, as dmremap reads them."""

import re
from typing import Callable, Iterator, Tuple

from dmremap_tools.base import names, numbers, streams

MOST = 1 << 20
# What is longer than 2 PiB is no length of anything: it would be cut into more than four million requests.
LONGEST = 1 << 42
TOO_LONG = "longer than 2 PiB"
_write = streams.out.write
# What to do, a device, and two numbers, as they mostly are.
_MOST_LINES = re.compile(fr"([RW]) (\S+) {numbers.SHORT} {numbers.SHORT}")


def read(source: streams.Lines, device: Callable[[str, names.NamePlace], str], form: str
         ) -> Iterator[Tuple[str, str, int, int]]:
    """The lines that say R or W, a device, whose name a function gives, and two numbers; `form` tells of others."""
    for line in source:
        match = _MOST_LINES.fullmatch(line)
        if match:
            operation, name, first, count = match.groups()
            yield operation, device(name, source), int(first), int(count)
            continue
        words = line.split()
        if len(words) != 4 or words[0] not in ("R", "W"):
            source.refuse_line(form)
        yield words[0], device(words[1], source), source.whole(words[2]), source.whole(words[3])


def parts(first: int, count: int) -> Iterator[Tuple[int, int]]:
    """The sectors as dmremap takes them, at most 1,048,576 at a time: the first of each part, and how many."""
    for at in range(first, first + count, MOST):
        yield at, min(MOST, first + count - at)


def write(source: streams.Lines, operation: str, name: str, first: int, count: int) -> int:
    """Prints a request of a line for these sectors, or several where one would be too long; returns how many."""
    if 0 < count <= MOST and first + count <= numbers.LIMIT:
        _write(f"{operation} {name} {first} {count}\n")
        return 1
    if count == 0:
        source.refuse_line("no sectors, give at least one")
    if first + count > numbers.LIMIT:
        source.refuse_line("it goes past sector 2^64, give fewer")
    if count > LONGEST:
        source.refuse_line(f"{TOO_LONG}, give it in parts")
    for at, part in parts(first, count):
        _write(f"{operation} {name} {at} {part}\n")
    return -(-count // MOST)
