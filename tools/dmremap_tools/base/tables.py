"""Devices and their lines, in table text and in concise text, and DISKS, the disks that they may name."""

from typing import Callable, Dict, Iterator, List, Optional, Sequence, Tuple

from dmremap_tools.base import Refusal, names, numbers, quoting, streams

# The targets that dmremap reads.
TARGETS = ("linear", "striped", "zero", "error", "snapshot", "snapshot-origin")
# Of these the first words name what is below.
LOWERS = {"linear": 1, "snapshot-origin": 1, "snapshot": 2}
MOST_COLUMNS = 128


class Line:
    """A line of a device: its first sector, its length, its target and the words after that."""

    def __init__(self, start: int, length: int, target: str, words: Sequence[str]) -> None:
        self.start, self.length, self.target, self.words = start, length, target, list(words)

    def __str__(self) -> str:
        return " ".join([str(self.start), str(self.length), self.target, *self.words])

    def places(self) -> range:
        """Where its words name a disk or a device below."""
        most = len(self.words)
        return range(2, most, 2) if self.target == "striped" else range(min(most, LOWERS.get(self.target, 0)))

    def lowers(self) -> List[str]:
        """The disks and devices that its words name, with some twice."""
        return [self.words[it] for it in self.places()]

    def spans(self) -> Iterator[Tuple[str, int, Optional[int]]]:
        """What it uses of each: the first sector, and how many. A snapshot uses all, for which None stands."""
        for place in self.places():
            if self.target in ("linear", "striped"):
                yield self.words[place], int(self.words[place + 1]), self.length // len(self.places())
            else:
                yield self.words[place], 0, None if self.target == "snapshot" else self.length

    def with_lowers(self, named: Callable[[str], str]) -> "Line":
        """The line with other names for these, which a function gives."""
        words = [named(it) if at in self.places() else it for at, it in enumerate(self.words)]
        return Line(self.start, self.length, self.target, words)


class TableDevice:
    """A device: its name, `rw`, `ro` or nothing where its text doesn't say, and its lines."""

    def __init__(self, name: str, flags: str = "") -> None:
        self.name, self.flags = name, flags
        self.lines: List[Line] = []

    def end(self) -> int:
        """The sector after its last one."""
        return self.lines[-1].start + self.lines[-1].length

    def lowers(self) -> List[str]:
        """What its lines name."""
        return [lower for line in self.lines for lower in line.lowers()]


def read(path: str) -> Tuple[List[TableDevice], bool]:
    """The devices of table text or concise text, as dmremap prints it, and whether it is the latter."""
    text = "\n".join(streams.rows(path)).rstrip("\n")
    is_concise = "," in text.split(" ", 1)[0]
    devices: List[TableDevice] = []
    for number, row in enumerate(text.split(";" if is_concise else "\n") if text else (), 1):
        place = f"{streams.name_of(path)}:{number}"
        if is_concise:
            name, *fields = row.split(",")
            if len(fields) < 4 or fields[2] not in ("", "ro", "rw"):
                why = "not a device of concise text, take what `dmremap concise` prints: "
                raise Refusal(place, why + quoting.shown(row))
            devices.append(TableDevice(name, fields[2]))
            lines = fields[3:]
        else:
            name, is_named, line = row.partition(": ")
            if not name or not is_named:
                raise Refusal(place, "not table text, give NAME: START LENGTH TARGET ..: " + quoting.shown(row))
            if not devices or devices[-1].name != name:
                devices.append(TableDevice(name))
            lines = [line]
        # What the words of a line say is for dmremap to judge.
        for line in lines:
            words = line.split(" ")
            start, length = map(numbers.read, words[:2]) if len(words) > 2 else (None, None)
            if start is None or length is None:
                raise Refusal(place, "not a line of a table, give START LENGTH TARGET ..: " + quoting.shown(line))
            devices[-1].lines.append(Line(start, length, words[2], words[3:]))
    return devices, is_concise


def text_of(devices: Sequence[TableDevice], is_concise: bool) -> str:
    """Devices as table text or in the concise form, as dmremap reads it."""
    if is_concise:
        return ";".join(",".join([it.name, "", "", it.flags, *map(str, it.lines)]) for it in devices) + "\n"
    return "".join(f"{it.name}: {line}\n" for it in devices for line in it.lines)


def read_disks(path: str) -> Dict[str, int]:
    """The length of each disk of DISKS, in sectors, in the order of the lines `NAME SECTORS`."""
    disks, source = {}, streams.Lines(path)
    for row in source:
        name, _, length = row.partition(" ")
        sectors = numbers.read(length)
        if sectors is None or not names.DISK.fullmatch(name):
            source.refuse_line("not a line of DISKS, give NAME SECTORS")
        disks[name] = sectors
    return disks
