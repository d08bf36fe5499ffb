"""Reports what answers do on each disk, in figures.

Takes the output of `dmremap map`. Prints lines that begin with what they say:

    total DISK WHAT PIECES SECTORS BYTES    what is done there, R or W; `-` is no disk, with zero, drop or error
    length DISK WHAT SECTORS PIECES         how many pieces have from SECTORS up to less than twice as many
    seek DISK SECTORS                       the mean distance from the end of a piece to the next one there
    split PIECES REQUESTS                   how many requests have so many pieces that are R or W

A copy is a read and a write, and a fill a write; neither counts for `seek` and `split`. A kernel also writes the list
of a snapshot's store, which answers leave out: the disk of a store does more than is counted here.

--compare checks whether a trace of the disks has what was answered. LOWER has lines `R DISK START SECTORS` or `W ..`,
with the names of the answers, as `trace --lower` prints them. If they differ, lines follow, and the status is 1:

    untraced WHAT DISK START SECTORS TIMES      answered so many times more often than it is in LOWER
    unanswered WHAT DISK START SECTORS TIMES    the other way round, as for the lists of stores

How requests are cut makes no difference to that, nor does their order. Refuses lines that aren't pieces, and pieces out
of order.
"""

from argparse import ArgumentParser, Namespace
from collections import Counter, defaultdict
from operator import add, sub
from typing import Dict, Iterator, List, Optional, Sequence, Tuple

from dmremap_tools.base import Refusal, numbers, pieces, requests, streams

EXAMPLE = "dmremap map lvm vg0.backup < requests | dmremap-tools report"
# Reads and writes of more disks than DISKS has in a text that dmremap takes, unless their names are very short.
MOST_TOTALS = 1 << 17
# At how many sectors a trace may differ from the answers at once.
MOST_PLACES = 1 << 20


def add_words(parser: ArgumentParser) -> None:
    parser.add_argument("file", metavar="PIECES", nargs="?", default="-",
                        help="the output of dmremap map; by default standard input")
    parser.add_argument("--compare", metavar="LOWER", help="compare the answers with requests that trace --lower made")


def run(words: Namespace) -> None:
    compared = Compared(words.compare) if words.compare is not None else None
    source = pieces.Answers(words.file)
    report = Report(source, compared)
    for moves, copied, others in source.by_blocks():
        report.count_splits(moves.requests)
        report.count_moves(moves, True)
        report.count_moves(copied)
        report.count_others(others)
    if source.number == source.statuses:
        streams.tell("no piece came")
    report.write()
    if compared:
        compared.refuse_if_different()


class Report:
    """The figures of answers."""

    def __init__(self, source: pieces.Answers, compared: "Optional[Compared]") -> None:
        self._source, self._compared = source, compared
        # By disk and what is done, the sectors; and how many pieces have a length of so many binary digits, or no disk.
        self._sectors: Dict[Tuple[str, str], int] = Counter()
        self._lengths: Dict[Tuple[str, str], "Counter[int]"] = defaultdict(Counter)
        # By disk: the end of the last piece, how far all moves were together, and how many there were.
        self._heads: Dict[str, int] = {}
        self._far: Dict[str, int] = Counter()
        self._seeks: Dict[str, int] = Counter()
        self._splits: "Counter[int]" = Counter()
        # The last request, and its pieces so far.
        self._request = self._pieces = 0

    def count_splits(self, numbers: List[int]) -> None:
        """Counts the pieces of each request, by the numbers that pieces have; the last request may go on."""
        if numbers:
            counts = Counter(numbers)
            counts[self._request] += self._pieces
            self._request = numbers[-1]
            self._pieces = counts.pop(self._request)
            self._splits.update(counts.values())

    def count_moves(self, moves: pieces.Moves, are_seeks: bool = False) -> None:
        """Counts reads and writes, and moves the heads of disks there if they are seeks."""
        for (disk, what, length), times in Counter(zip(moves.disks, moves.whats, moves.counts)).items():
            self._sectors[disk, what] += times * length
            self._lengths[disk, what][length.bit_length()] += times
        ends = list(map(add, moves.starts, moves.counts))
        for disk, (starts, lasts) in by_key(moves.disks, moves.starts, ends) if are_seeks else ():
            distances = map(abs, map(sub, starts, [self._heads.get(disk, starts[0]), *lasts]))
            self._heads[disk], self._far[disk] = lasts[-1], self._far[disk] + sum(distances)
            self._seeks[disk] += len(starts)
        if self._compared:
            self._compared.add_answers(moves.disks, moves.whats, moves.starts, ends)
        if len(self._sectors) > MOST_TOTALS:
            raise Refusal(self._source.name, f"pieces on more than {MOST_TOTALS // 2} disks: give those of fewer")

    def count_others(self, others: List[Tuple[str, str]]) -> None:
        """Counts what is done without a disk, each with its sectors."""
        for (what, length), times in Counter(others).items():
            self._lengths["-", what][0] += times
            self._sectors["-", what] += times * int(length)

    def write(self) -> None:
        """Writes the lines: totals, lengths, seeks and splits."""
        uses = sorted(self._sectors)
        for disk, what in uses:
            count, sectors = sum(self._lengths[disk, what].values()), self._sectors[disk, what]
            streams.out.write(f"total {disk} {what} {count} {sectors} {sectors * numbers.SECTOR}\n")
        for disk, what in uses:
            for digits, count in sorted(self._lengths[disk, what].items()):
                if digits:
                    streams.out.write(f"length {disk} {what} {1 << (digits - 1)} {count}\n")
        for disk in dict.fromkeys(disk for disk, _ in uses):
            if self._seeks[disk] > 1:
                streams.out.write(f"seek {disk} {self._far[disk] // (self._seeks[disk] - 1)}\n")
        self._splits[self._pieces] += 1
        for count in sorted(self._splits.keys() - {0}):
            streams.out.write(f"split {count} {self._splits[count]}\n")


def by_key(keys: Sequence[str], *columns: Sequence[int]) -> Iterator[Tuple[str, List[List[int]]]]:
    """Each key among some, with what the columns have beside it."""
    places: Dict[str, List[int]] = {key: [] for key in dict.fromkeys(keys)}
    for place, key in enumerate(keys):
        places[key].append(place)
    for key, some in places.items():
        yield key, [list(map(column.__getitem__, some)) for column in columns]


class Compared:
    """What was answered, less what LOWER has. That is read as far as they are, so what is equal takes no memory."""

    def __init__(self, path: str) -> None:
        self._source = streams.Lines(path)
        # The names of disks stay what they are.
        self._rows = requests.read(self._source, lambda disk, _: disk,
                                   "give R or W, a disk, a sector and how many, and not")
        # By a disk, R or W, and a sector: how many more times it was answered than the one before, where that differs.
        self._steps: Dict[Tuple[str, str, int], int] = {}
        # How many sectors were answered that LOWER didn't have yet.
        self._ahead = 0

    def add_answers(self, disks: Sequence[str], whats: Sequence[str], starts: List[int], ends: List[int]) -> None:
        """Adds what was answered: the disk of each, R or W, the first sector, and the one after the last."""
        for disk, what, start, end in zip(disks, whats, starts, ends):
            self._add(disk, what, start, end, 1)
            self._ahead += end - start
        self._take_lower()

    def refuse_if_different(self) -> None:
        """Takes the rest of LOWER, prints where the two differ, and refuses them if they do."""
        self._take_lower(is_all=True)
        sectors = {"untraced": 0, "unanswered": 0}
        # From the last place of a disk on nothing differs there, up to the first one of the next.
        places, times = sorted(self._steps), 0
        for (disk, what, start), (_, _, end) in zip(places, places[1:]):
            times += self._steps[disk, what, start]
            if times:
                side = "untraced" if times > 0 else "unanswered"
                streams.out.write(f"{side} {what} {disk} {start} {end - start} {abs(times)}\n")
                sectors[side] += (end - start) * abs(times)
        if places:
            raise Refusal(self._source.name, f"it isn't what was answered: {sectors['untraced']} sectors were answered "
                          f"only, and {sectors['unanswered']} are only in it; the lines that are printed say which")

    def _take_lower(self, is_all: bool = False) -> None:
        """Takes the next lines of LOWER, as far as the answers are, or all."""
        while is_all or self._ahead > 0:
            what, disk, start, count = next(self._rows, ("", "", 0, 0))
            if not what:
                break
            if not count:
                self._source.refuse_line("no sectors, leave such lines out")
            self._add(disk, what, start, start + count, -1)
            self._ahead -= count

    def _add(self, disk: str, what: str, start: int, end: int, times: int) -> None:
        """Counts sectors that are read or written so many times more. Refuses LOWER if the two differ at too many."""
        for place, step in ((start, times), (end, -times)):
            left = self._steps.pop((disk, what, place), 0) + step
            if left:
                self._steps[disk, what, place] = left
        if len(self._steps) > MOST_PLACES:
            raise Refusal(self._source.name, f"it differs from the answers at more than {MOST_PLACES} places at once: "
                          "compare traces of the same minutes, or shorter ones")
