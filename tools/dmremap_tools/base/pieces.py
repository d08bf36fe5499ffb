"""Pieces, as `dmremap map` answers."""

import contextlib
import itertools
import os
import re
import select
import subprocess
import tempfile
from typing import Iterable, Iterator, List, NamedTuple, Optional, Pattern, Sequence, Tuple, Type

from dmremap_tools.base import numbers, program, streams
from dmremap_tools.base.refusal import Refusal

# Of a piece the request, if TO comes, what is done, disk and start, what else is done, the count, TO and its start.
Fields = Tuple[str, ...]


def _form(digits: int) -> Pattern[str]:
    """A piece with numbers of so many digits."""
    count, start = f"([1-9][0-9]{{0,{digits - 1}}})", f"(0|[1-9][0-9]{{0,{digits - 1}}})"
    done = fr"(?:(R|W|copy) (\S+) {start}|(fill|zero|drop|error))"
    return re.compile(fr"^{count} (?=(copy|fill)?){done} {count}(?(2) (\S+) {start})$", re.M)


# Numbers are mostly short enough to be below 2^64 in any case, and all that is done reads and writes.
_SHORT, _PIECE = _form(18), _form(20)
_MOVES = re.compile(r"(?:[1-9][0-9]{0,17} [RW] \S+ (?:0|[1-9][0-9]{0,17}) [1-9][0-9]{0,17}\n)*")
_STATUS = re.compile(r"\S+: \S+ \S+ snapshot .*")


class Piece(NamedTuple):
    """A piece: the number of its request, what is done, and with how many sectors from where to where. `R` and `W` have
    a disk and a start, `copy` has these and `to` and `to_start`, `fill` the latter alone, the others none."""

    request: int
    what: str
    count: int  # type: ignore[assignment]
    disk: str = ""
    start: int = 0
    to: str = ""
    to_start: int = 0


class Moves(NamedTuple):
    """What is read or written, in columns: the requests, R or W, the disks, the first sectors, and how many."""

    requests: List[int]
    whats: Sequence[str]
    disks: Sequence[str]
    starts: List[int]
    counts: List[int]


# Many pieces at once: those that are R or W, what copies and fills do as such, and what else is done, with how many
# sectors.
Block = Tuple[Moves, Moves, List[Tuple[str, str]]]


class Answers(streams.Lines):
    """The pieces of answers, as they come. Lines of `--status` are passed over, others refused."""

    statuses = 0

    def __iter__(self) -> Iterator[Piece]:  # type: ignore[override]
        return map(_piece, self.rows())

    def rows(self) -> Iterator[Fields]:
        """What the groups of the lines have."""
        return itertools.chain.from_iterable(map(self._rows_of, self.blocks()))

    def _rows_of(self, text: str) -> Sequence[Fields]:
        """The same of a block, all at once where its numbers are short."""
        rows = _SHORT.findall(text)
        return rows if len(rows) == text.count("\n") else list(filter(None, map(self._fields, self.again())))

    def by_blocks(self) -> Iterator[Block]:
        """The pieces, many at once. Refuses those that are out of order."""
        last = 0
        for text in self.blocks():
            if _MOVES.fullmatch(text):
                words = text.split()
                block: Block = _moves(*(words[column::5] for column in range(5))), _moves(), []
                requests = [last, *block[0].requests]
            else:
                rows = self._rows_of(text)
                block, requests = _mixed(rows), [last, *(int(it[0]) for it in rows)]
            if requests != sorted(requests):
                for before, fields in zip(requests, filter(None, map(self._fields, self.again()))):
                    if int(fields[0]) < before:
                        self.refuse_line("out of order, give the answers as `dmremap map` prints them")
            last = requests[-1]
            yield block

    def _fields(self, line: str) -> Optional[Fields]:
        """What the groups of a line have, or None for a status."""
        match = _PIECE.fullmatch(line)
        if match and max(int(match[5] or 0), int(match[9] or 0)) + int(match[7]) <= numbers.LIMIT:
            return match.groups("")
        if not _STATUS.fullmatch(line):
            self.refuse_line("not a piece of an answer, give what `dmremap map` prints")
        self.statuses += 1
        return None


def _piece(fields: Fields) -> Piece:
    request, _, what, disk, start, other, count, to, to_start = fields
    return Piece(int(request), what or other, int(count), disk, int(start or 0), to, int(to_start or 0))


def _mixed(rows: Sequence[Fields]) -> Block:
    """A block with other pieces than R and W."""
    moves, copied, others = [], [], []
    for request, _, what, disk, start, other, count, to, to_start in rows:
        if to:
            copied += [(request, "R", disk, start, count)] if disk else []
            copied.append((request, "W", to, to_start, count))
        elif what:
            moves.append((request, what, disk, start, count))
        else:
            others.append((other, count))
    return _moves(*zip(*moves)), _moves(*zip(*copied)), others


def _moves(requests: Sequence[str] = (), whats: Sequence[str] = (), disks: Sequence[str] = (),
           starts: Sequence[str] = (), counts: Sequence[str] = ()) -> Moves:
    """Moves by their columns, of which there are none without moves."""
    return Moves(list(map(int, requests)), whats, disks, list(map(int, starts)), list(map(int, counts)))


class Mapped(contextlib.AbstractContextManager):
    """`dmremap map` while it answers the requests of a generator: `answers` has the pieces as they come. How it fails
    is told at the end."""

    def __init__(self, command: Sequence[str], requests: Iterable[str]) -> None:
        with tempfile.TemporaryFile() as given:
            given.writelines(it.encode("utf-8", "surrogateescape") for it in requests)
            given.seek(0)
            # On a terminal dmremap would name what explains a command that nobody typed.
            self._said = tempfile.TemporaryFile()
            self._child = program.start(command, stdin=given, stdout=subprocess.PIPE, stderr=self._said)
        self.answers = Answers(f"/dev/fd/{self._child.stdout.fileno()}")
        self.answers.name = command[0]

    def __exit__(self, kind: Optional[Type[BaseException]], *_: object) -> None:
        answers = self._child.stdout
        # Nothing comes any more if dmremap ended.
        is_ended = kind is None or bool(select.select([answers], [], [], 0)[0]) and not os.read(answers.fileno(), 1)
        if not is_ended:
            self._child.kill()
        answers.close()
        status = self._child.wait()
        with self._said:
            self._said.seek(0)
            streams.tell(*self._said.read().decode("utf-8", "replace").splitlines())
        if (kind is None or kind is Refusal) and (status > 0 or status and is_ended):
            program.fail(self.answers.name, status)
