"""Makes FILE and DISKS of a machine with device-mapper devices of any kind.

Takes four texts, which root can make on that machine:

    dmsetup ls > ls.txt
    dmsetup status > status.txt
    lsblk -brno MAJ:MIN,SIZE,KNAME,PKNAME > lsblk.txt
    dmsetup table --concise > concise.txt

Prints FILE in the form of the last text, which may be the output of `dmsetup table` instead, and writes DISKS with the
disks that FILE names. Numbers of devices become their names, and numbers of disks their paths. Lines of `crypt` become
linear: what lies there is encrypted, so compare nothing with it. `dmsetup table` doesn't say which devices are
read-only, so all count as writable then. For one device alone: `dmsetup table NAME | sed 's/^/NAME: /'`.

A device that dmremap can't follow is reported and left out. To the devices above it, it is a disk, by the kernel's
path, at which answers end. These are

    devices of other targets, such as thin, raid, mirror, cache, multipath, verity, integrity and snapshot-merge;
    those without a table, or with a name that dmremap doesn't take (`dmsetup rename` gives another);
    those that aren't as long as lsblk says, or lie on a disk without a length;
    snapshots whose status isn't as `16/1048576 16`, with two equal figures, so that their stores have copies, unless
    --store names them: `dmremap map --paths` reads these stores;
    those that dmremap refuses, by the word of its message, as snapshots of another kind.

If a snapshot is left out, its origin stays, and a message warns that answers lack copies for this snapshot.

Refuses a text that isn't what one of these commands prints, and a machine of which nothing is left.
"""

import argparse
import re
import tempfile
from typing import Dict, Iterable, List, Optional, Set

from dmremap_tools.base import Refusal, names, numbers, program, quoting, streams, tables
from dmremap_tools.model.loaded_stack import Stack

EXAMPLE = "dmremap-tools machine --disks disks ls.txt status.txt lsblk.txt concise.txt > tables"

# A row of `dmsetup table` or `dmsetup status`: a device, and a line of it if it has a table.
ROW = re.compile(r"(.+?):(?: ?| (\d+ \d+ \S.*))")
# A device of `dmsetup table --concise`: its name, uuid, minor number and flags, and its lines.
DEVICE = re.compile(r"((?:[^,\\]|\\.)*),(?:[^,\\]|\\.)*,(\d+),(r[ow])(?:,(.*))?")
IS_CONCISE = re.compile(r",\d+,r[ow](?:[,;]|$)")
MAJOR_MINOR = re.compile(r"\d+:\d+")
# What dmremap says of a device or a disk, and how often it is asked.
SAID = re.compile(r"dmremap: (source|disks): ([a-z]+) at ([0-9]+)")
MOST_TRIES = 256


class MachineDevice(tables.TableDevice):
    """A device that `dmsetup ls` has, and why it is left out, if it is. `origins` has what it is a snapshot of, whether
    dmremap can follow it or not."""

    def __init__(self, name: str, number: str) -> None:
        super().__init__(name)
        self.number = number
        self.why = "" if names.FORM.fullmatch(name) else "dmremap takes no such name"
        self.is_described = self.is_encrypted = False
        self.origins: List[str] = []

    def leave_out(self, why: str) -> None:
        """Leaves it out, for the first reason that there is."""
        self.why = self.why or why

    def add_line(self, text: str) -> None:
        """Adds a line of its table, START LENGTH TARGET .., or leaves the device out if dmremap takes no such line."""
        words = text.split()
        start, length = [numbers.read(it) for it in words[:2]] if len(words) > 2 else (None, None)
        if start is None or length is None:
            return self.leave_out("a line of its table is none: " + quoting.shown(text))
        target, words = words[2], words[3:]
        if target in ("snapshot", "snapshot-merge"):
            self.origins += words[:1]
        if target == "crypt" and len(words) >= 5:
            self.is_encrypted = True
            target, words = "linear", words[3:5]
        line = tables.Line(start, length, target, words)
        self.lines.append(line)
        if target not in tables.TARGETS:
            self.leave_out(quoting.shown(target))
        elif any("," in it or ";" in it for it in words) or not all(map(MAJOR_MINOR.fullmatch, line.lowers())):
            self.leave_out(quoting.shown(text))


class Machine:
    """The devices by their numbers, and the length and the path of each number that lsblk has."""

    def __init__(self, devices: Dict[str, MachineDevice], sizes: Dict[str, Optional[int]], of: Dict[str, str]) -> None:
        self.devices, self._sizes, self._paths = devices, sizes, of

    def kept(self, numbered: Iterable[str]) -> List[MachineDevice]:
        """The devices with these numbers, but for disks and those that are left out."""
        return [self.devices[it] for it in numbered if it in self.devices and not self.devices[it].why]

    def sectors_of(self, number: str) -> Optional[int]:
        """The sectors of a device or a disk, or None where nothing says so."""
        device = self.devices.get(number)
        if device and device.lines and (not device.why or number not in self._sizes):
            return device.end()
        return self._sizes.get(number)

    def lower(self, number: str) -> str:
        """What stands in FILE for this number."""
        return next((names.MAPPER + it.name for it in self.kept([number])), self._paths.get(number, number))

    def settle(self, asked: str) -> Dict[str, Optional[int]]:
        """Leaves out what dmremap refuses, one device after the other. Returns the disks that those lie on which are
        left, with their sectors."""
        for device in self.devices.values():
            if not device.why and device.end() != self._sizes.get(device.number, device.end()):
                device.leave_out("lsblk and its table differ in its length")
        order = list(self._from_below())
        for _ in range(MOST_TRIES):
            kept = self.kept(order)
            lowers = dict.fromkeys(it for device in kept for it in device.lowers() if not self.kept([it]))
            unsaid = next((it for it in lowers if not self.sectors_of(it)), None)
            if unsaid:
                self._leave_above(kept, unsaid, f"lsblk has no length of {unsaid}")
                continue
            disks = {self.lower(it): self.sectors_of(it) for it in lowers}
            refused = self._refused(asked, kept, disks) if kept else None
            if not refused:
                return disks
            part, word, place = refused[1], refused[2], int(refused[3]) - 1
            if part == "source":
                kept[place].leave_out(f"dmremap refuses it ({word})")
            else:
                lower = next(it for it in lowers if self.lower(it) == list(disks)[place])
                self._leave_above(kept, lower, f"dmremap refuses the disk {lower} ({word})")
        raise Refusal("dmremap", f"it refuses more than {MOST_TRIES} of the devices: leave some out of LS")

    def _from_below(self) -> Iterable[str]:
        """The numbers of the devices, each after those that it stands on, so that dmremap refuses the upper one."""
        found: Dict[str, None] = {}
        seen: Set[str] = set()
        waiting = list(self.devices)[::-1]
        while waiting:
            number = waiting[-1]
            seen.add(number)
            left = [it for it in self.devices[number].lowers() if it in self.devices and it not in seen]
            waiting += left
            if not left:
                found[waiting.pop()] = None
        return found

    def _leave_above(self, kept: List[MachineDevice], lower: str, why: str) -> None:
        """Leaves out the devices that lie on a disk."""
        for device in kept:
            device.leave_out(why if lower in device.lowers() else "")

    def _refused(self, asked: str, kept: List[MachineDevice], disks: Dict[str, Optional[int]]
                 ) -> "Optional[re.Match[str]]":
        """What dmremap says of a device or a disk that it refuses, or None."""
        with tempfile.TemporaryDirectory(prefix="dmremap-tools-") as folder:
            devices = []
            for device in kept:
                devices.append(tables.TableDevice(device.name, device.flags))
                devices[-1].lines += [line.with_lowers(self.lower) for line in device.lines]
            words = Stack(devices, disks).write(folder)
            said = program.ask_quietly([asked, "table", *words])[1].strip()
        match = SAID.fullmatch(said)
        if said and not match:
            raise Refusal(quoting.shown(asked), quoting.shown(said) + ": leave devices out of LS")
        return match


def add_words(parser: argparse.ArgumentParser) -> None:
    parser.add_argument("--disks", metavar="DISKS", required=True, help="the file to which DISKS is written")
    parser.add_argument("--store", metavar="SNAPSHOT=IMAGE", action="append", default=[],
                        help="keep this used snapshot, whose store `map --paths` reads")
    program.add_words(parser)
    parser.add_argument("ls", metavar="LS", help="what `dmsetup ls` prints")
    parser.add_argument("status", metavar="STATUS", help="what `dmsetup status` prints")
    parser.add_argument("lsblk", metavar="LSBLK", help=f"what `{names.LSBLK_COMMAND}` prints")
    parser.add_argument("table", metavar="TABLE", help="what `dmsetup table --concise` prints")


def run(words: argparse.Namespace) -> None:
    beside = streams.beside(words.disks)
    devices = {number: MachineDevice(name, number) for name, number in names.read_ls(words.ls)}
    stored = [it.partition("=")[0] for it in words.store]
    rows = names.rows_of(words.status, streams.rows(words.status), ROW, "dmsetup status")
    statuses = {name: line.split() for name, line in rows if line and line.split()[2] == "snapshot"}
    # Of each snapshot, whether nothing was copied to its store yet, or that is read.
    is_known = {name: len(it) == 5 and it[3].split("/")[0] == it[4] for name, it in statuses.items()}
    is_known.update(dict.fromkeys(stored, True))
    stack = Machine(devices, *names.read_lsblk(words.lsblk))
    is_concise = read_tables(words.table, devices)
    for name in stored:
        if not any(it.origins and it.name == name for it in devices.values()):
            # That which was meant would be left out.
            raise Refusal("--store", f"no snapshot {quoting.shown(name)}: give a name that LS has")
    for device in devices.values():
        if not device.lines:
            device.leave_out("no table")
        if device.origins and not is_known.get(device.name):
            device.leave_out("its store has copies, and nothing says of which chunks" if device.name in is_known
                         else "`dmsetup status` says nothing of it")
    disks = stack.settle(program.dmremap(words.program))
    kept = stack.kept(devices)
    say_left_out(stack, kept, disks)
    if not kept:
        why = "no device is left that dmremap can follow: see above what was left out"
        raise Refusal(streams.name_of(words.table), why)
    beside.write("".join(f"{disk} {sectors}\n" for disk, sectors in disks.items()))
    for device in kept:
        device.lines = [line.with_lowers(stack.lower) for line in device.lines]
    streams.out.write(tables.text_of(kept, is_concise))


def read_tables(path: str, devices: Dict[str, MachineDevice]) -> bool:
    """Gives the devices their flags and lines, and says whether the text of these is the concise form."""
    rows = streams.rows(path)
    is_concise = any(map(IS_CONCISE.search, rows))
    found = []
    for place, row in enumerate(re.split(r"(?<!\\);", "\n".join(rows).rstrip("\n")) if is_concise else (), 1):
        match = DEVICE.fullmatch(row)
        name, minor, flags, listed = match.groups("") if match else [""] * 4
        told = f"device {place} of {streams.name_of(path)}, which `dmsetup ls` does not list: {quoting.shown(row)}"
        found.append((re.sub(r"\\([,;\\])", r"\1", name), minor, flags, re.split(r",(?=\d+ \d+ \S)", listed), told))
    for name, line in names.rows_of(path, rows, ROW, "dmsetup table") if not is_concise else ():
        found.append((name, "", "", [line], quoting.shown(name) + ", which `dmsetup ls` does not list"))
    # In the concise form a number has to fit its name.
    of = {(it.name, it.number.split(":")[1] if is_concise else ""): it for it in devices.values()}
    for name, minor, flags, lines, told in found:
        device = of.get((name, minor))
        if device is None:
            streams.tell("left out: " + told)
            continue
        device.flags, device.is_described = flags, True
        for line in filter(None, lines):
            device.add_line(line)
    return is_concise


def say_left_out(stack: Machine, kept: List[MachineDevice], disks: Dict[str, Optional[int]]) -> None:
    """Says what is left out, what is encrypted, and which copies answers lack."""
    left_out = [it for it in stack.devices.values() if it.why]
    for device in stack.devices.values():
        path = stack.lower(device.number)
        if device.why:
            disk = f", the disk {quoting.shown(path)}" if path in disks else ""
            streams.tell(f"left out: {quoting.shown(device.name)} ({device.why}){disk}")
        elif device.is_encrypted:
            streams.tell(f"encrypted: the sectors below {device.name}, whose lines of crypt are linear here")
    for device in kept:
        origin = device.lowers()[0] if device.lines[0].target == "snapshot-origin" else ""
        of_it = [it for it in left_out if origin in it.origins] + [it for it in left_out if not it.is_described]
        for other in of_it if origin else ():
            what = f"{quoting.shown(other.name)}, which {'is' if other.origins else 'may be'} a snapshot of it"
            streams.tell(f"kept: {device.name}, without {what}: on the machine, a write to it also copies what it "
                         "overwrites, which the answers don't show")
