"""Makes requests from a trace of device-mapper devices, or of requests that are too long or in bytes.

Takes what `dmsetup ls` prints (LS), the tables that will be asked (TABLES, table text or concise text), and a trace:
that of `blkparse` or `btrace`, or the event block_bio_queue as trace_pipe, `trace-cmd report` and `perf script` print
it. Prints the reads and writes as they come; --write-times writes the time of each to a file. Discards, flushes,
requests to devices that the tables don't have, and lines without a request are left out and counted. Refuses a trace
that says that events were lost, and zone appends and other requests whose sectors aren't those of the trace.

Trace top devices only: a request to a device on another one shows up at both, and would count twice. With --lower, the
trace is one of the disks below them: LS is what `lsblk -brno MAJ:MIN,SIZE,KNAME,PKNAME` prints, and TABLES is DISKS.
`report --compare` takes that.

With --cut, takes requests of any length alone, `R DEVICE START LEN` or `W ..`, and no LS and TABLES; with --bytes
START and LEN are bytes. Prints the same requests in sectors, with all that the bytes touch, cut after 1,048,576 sectors
(512 MiB), as all requests of this command are.
"""

import functools
import re
from argparse import ArgumentParser, Namespace
from collections import Counter
from typing import Dict, List, Optional, Sequence

from dmremap_tools.base import SECTOR, Refusal, WrongWords, names, numbers, quoting, requests, streams, tables

# The words of the command, for its manual.
FORMS = ("LS TABLES [TRACE]", "--cut [REQUESTS]")
EXAMPLE = "btrace /dev/dm-0 | dmremap-tools trace ls.txt vg0.table | dmremap map lvm vg0.backup | dmremap-tools report"

# A line of blkparse, up to the action: the device and the time. The action Q is a request that comes; of others nothing
# is read. A process may have a name that looks like such a line.
PARSED = r"([0-9]+,[0-9]+) +[0-9]+ +[0-9]+ +([0-9.]+) +[0-9]+ +"
# What is done, the first sector, and how many there are.
ASKED = r"\s*(\S+)\s+(\S+)\s+\+\s+(\S+)(?:\s.*)?"
QUEUED = re.compile(f" *{PARSED}Q {ASKED}")
OTHER = "[A-PR-Za-z][A-Za-z]* "
ACTION = re.compile(fr" *{PARSED}(?:(Q )(\s*\S+\s+\[)?|{OTHER})")
# The line of another action, or of a request that can't be refused but for what is done, as most lines of a trace are.
USUAL = re.compile(fr"^ *{PARSED}(?:Q +([A-Z]+) {numbers.SHORT} \+ ([1-9][0-9]{{0,5}}) |{OTHER}).*", re.MULTILINE)
# An event, as ftrace and perf print it: before its name the time, for perf with another word, and behind it the device.
EVENT = "block_bio_queue:"
BEFORE = re.compile(r"(?:.*\s)?([0-9.]+):?(?:\s+\S*:)?\s*")
AFTER = re.compile(fr"\s*([0-9]+,[0-9]+)\s{ASKED}")
# The line of most, which has no other form: no request, or one that can't be refused but for what is done.
USUAL_EVENT = re.compile(fr"^ +[^ ,:\n]+ [^:\n]* ([0-9]+\.[0-9]+): +(?:block:)?{EVENT} +([0-9]+,[0-9]+) (?:([A-Z]+) "
                         fr"{numbers.SHORT} \+ ([1-9][0-9]{{0,5}})|\S+ \S+ \+ 0)(?: .*)?$", re.MULTILINE)
LOST = re.compile(r"CPU:? ?[0-9]+ \[.*(?:LOST|DROPPED).*| *Skips: +0*[1-9].*")
# What stands beside the lines of a trace: empty lines, comments, and the sums of blkparse.
BESIDE = re.compile(r"\s*(?:#.*)?|(?:CPU|Total \(|Throughput|Events \(|Skips:|Input file|cpus=).*"
                    r"| +[A-Z][A-Za-z ]*: +[0-9].*")
# Discards and flushes alone, reads, and writes, with what else a kernel says of them.
KINDS = [("", re.compile(r"F?[DN][A-Z]*")), ("R", re.compile(r"F?R[FASM]*")), ("W", re.compile(r"F?W[FASM]*"))]
NO_FORM = "not a form of the event, trace with `blkparse`"


def add_words(parser: ArgumentParser) -> None:
    parser.add_argument("ls", metavar="LS", nargs="?", help="the output of dmsetup ls at the time of the trace")
    parser.add_argument("tables", metavar="TABLES", nargs="?", help="table or concise text")
    parser.add_argument("file", metavar="TRACE", nargs="?", default="-", help="the trace; by default standard input")
    parser.add_argument("--write-times", metavar="TIMES", help="write a file of times: line N is the time of request N")
    kinds = parser.add_mutually_exclusive_group()
    kinds.add_argument("--lower", action="store_true",
                       help="the trace is of disks; LS is then the output of lsblk, TABLES is DISKS")
    kinds.add_argument("--cut", action="store_true", help="the trace is a list of requests, which stands alone")
    kinds.add_argument("--bytes", action="store_true", help="the same, with places and lengths in bytes")


def run(words: Namespace) -> None:
    are_requests = words.cut or words.bytes
    if are_requests and words.tables is not None or not are_requests and words.tables is None:
        raise WrongWords("give REQUESTS alone" if are_requests else "give LS, TABLES and perhaps TRACE")
    if words.write_times is not None and are_requests:
        raise WrongWords("--write-times is for traces that have times: leave it out")
    if are_requests:
        return cut(streams.Lines(words.ls or "-"), words.bytes)
    times = streams.beside(words.write_times) if words.write_times is not None else None
    known = names.read_lsblk(words.ls)[1] if words.lower else {number: name for name, number in names.read_ls(words.ls)}
    by_number = {number.replace(":", ","): name for number, name in known.items()}
    read_trace(streams.Lines(words.file), by_number, Kept(words.tables, words.lower), times)


def cut(source: streams.Lines, are_bytes: bool) -> None:
    """Prints requests as dmremap takes them."""
    form = "give R or W, a device, an offset and a length, and not" if are_bytes else (
        "not a request, give R or W, a device, a sector and how many")
    for operation, name, first, count in requests.read(source, names.device, form):
        if are_bytes and not count:
            source.refuse_line("no bytes, give at least one")
        end, unit = first + count, SECTOR if are_bytes else 1
        requests.write(source, operation, name, first // unit, -(-end // unit) - first // unit)
    source.tell_if_none()


class Kept:
    """The devices that will be asked, of some tables or of DISKS. What is left out is counted, and told at the end."""

    def __init__(self, path: str, are_disks: bool = False) -> None:
        self.are_disks, self.made, self.others = are_disks, 0, 0
        self.names = set(tables.read_disks(path)) if are_disks else {it.name for it in tables.read(path)[0]}
        self._left: Dict[str, int] = Counter()
        if not self.names:
            what, give = ("disk", "lines NAME SECTORS") if are_disks else ("device", "what `dmremap table` prints")
            raise Refusal(streams.name_of(path), f"no {what} in it: give {give}")

    def leave(self, to: str, is_known: bool = True) -> None:
        """Counts a request that is left out, as the list of numbers or else the tables lack what it goes to."""
        lacking = ("the output of lsblk", "DISKS") if self.are_disks else ("the output of dmsetup ls", "the tables")
        self._left[f"requests to {quoting.shown(f'{to}, which is not in {lacking[is_known]}')}"] += 1

    def tell(self, passed: int) -> None:
        """Tells what was left out, with so many lines, and if no request was made."""
        others = "requests that are neither reads nor writes", self.others
        left = [("lines without a request", passed), *self._left.items(), others]
        streams.tell(*(f"left out: {what}: {times}" for what, times in left if times))
        if not self.made:
            upper = "device of the tables: a trace of the disks below them takes --lower"
            streams.tell(f"no request came to a {'disk of DISKS' if self.are_disks else upper}")


def read_trace(source: streams.Lines, known: Dict[str, str], kept: Kept, times: Optional[streams.Output]) -> None:
    """Prints the requests of a trace as they come, and tells what was left out. Devices are known by their numbers."""
    events = passed = 0
    for block in source.blocks():
        usual = USUAL.findall(block) if EVENT not in block else [
            (number, time, *asked) for time, number, *asked in USUAL_EVENT.findall(block)]
        if len(usual) == block.count("\n") and print_requests(source, usual, known, kept, times):
            events += len(usual)
            continue
        for line in source.again():
            found = event_in(source, line)
            if not found:
                passed += not BESIDE.fullmatch(line)
                continue
            events += 1
            if found[2]:
                print_request(source, found, known, kept, times)
    if not events:
        source.refuse("no request in the trace: give what `blkparse` prints of the devices")
    kept.tell(passed)


def print_requests(source: streams.Lines, rows: List[Sequence[str]], known: Dict[str, str], kept: Kept,
                   times: Optional[streams.Output]) -> bool:
    """Prints the requests among the events of a block, and their times, unless nobody knows what one of them does."""
    queued = [row for row in rows if row[2]]
    kinds = {key: kind_of(key[1]) for key in {(row[0], row[2]) for row in queued}}
    if None in kinds.values():
        return False
    begun = {key: f"{kind} {known[key[0]]} " for key, kind in kinds.items() if kind and known.get(key[0]) in kept.names}
    made = [row for row in queued if (row[0], row[2]) in begun]
    streams.out.write("".join([f"{begun[number, what]}{first} {count}\n" for number, _, what, first, count in made]))
    if times:
        times.write("".join([row[1] + "\n" for row in made]))
    kept.made += len(made)
    for row in queued if len(made) < len(queued) else ():
        if (row[0], row[2]) not in begun:
            print_request(source, row, known, kept, times)
    return True


def print_request(source: streams.Lines, event: Sequence[str], known: Dict[str, str], kept: Kept,
                  times: Optional[streams.Output]) -> None:
    """Prints the request that an event tells of, and its time, or counts it as left out."""
    number, time, what, first, count = event
    name, kind, start, sectors = known.get(number), kind_of(what), source.whole(first), source.whole(count)
    if name not in kept.names:
        kept.leave(number if name is None else f"{name} ({number})", name is not None)
    elif kind:
        made = requests.write(source, kind, name, start, sectors)
        kept.made += made
        if times:
            times.write((time + "\n") * made)
    elif kind is None:
        source.refuse_line("neither a read nor a write, leave it out")
    else:
        kept.others += 1


@functools.lru_cache(maxsize=64)
def kind_of(what: str) -> Optional[str]:
    """R or W, empty for what is neither a read nor a write, or None for what nobody knows."""
    return next((kind for kind, form in KINDS if form.fullmatch(what)), None)


def event_in(source: streams.Lines, line: str) -> Optional[Sequence[str]]:
    """Of a line that tells of an event the device's number, the time, what is done, and with which sectors. Nothing is
    done in one that is no request."""
    queued = QUEUED.fullmatch(line)
    if queued:
        return queued.groups()
    if LOST.fullmatch(line):
        source.refuse_line("events were lost, trace again with larger buffers")
    if EVENT in line:
        head, _, rest = line.partition(EVENT)
        before, after = BEFORE.fullmatch(head), AFTER.fullmatch(rest)
        if not before or not after:
            source.refuse_line(NO_FORM)
        number, what, first, count = after.groups()
        return number, before[1], what if count != "0" else "", first, count
    action = ACTION.match(line)
    if action and action[3] and not action[4]:
        source.refuse_line(NO_FORM)
    return [""] * 5 if action else None
