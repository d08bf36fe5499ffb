"""Tells where the devices of a stack lie: which line uses which sectors, what is free, and what clashes.

Takes FORMAT, FILE and DISKS, as `dmremap map` does. Prints a line for each range of a disk or device that a line of a
table uses, sorted: what it lies on, the first sector, the sector after the last, the device whose line it is, where
that line begins on the device, and the kind of use. A line with `end` is the end of a disk or a device. A snapshot uses
all of its origin, as `origin`, and all of its store.

With --free, lines `unnamed` list the sectors that no line names. They needn't be free: a file system may lie there
without a device, or a partition table, swap space, or a volume that isn't active or was left out; `owner` asks the
images. --clashes prints, in place of the ranges, each pair that shares sectors; `dmremap check` prints only the first
pair. Each line has what the two lie on, the first and the last sector, and both devices. Snapshots may share an origin.

--tree prints each top device, and what lies below it; what was shown is not shown again. --dot prints a graph for
Graphviz: devices, and disks in boxes, with an edge for each line from its device to what it lies on; `dot -Tsvg` draws
it.

--device lists where one device lies, through all levels. A line has the sector of the device, the number of sectors,
and the disk with the sector there, `zero` or `error`. For a snapshot it reads the store, on disks at their names or
where --paths says; --fresh treats it as new.
"""

import heapq
import tempfile
from argparse import ArgumentParser, Namespace
from typing import Dict, Iterable, Iterator, List, NamedTuple, Set

from dmremap_tools.base import Refusal, given, names, pieces, program, quoting, requests, streams, tables
from dmremap_tools.model import loaded_stack

EXAMPLE = "dmremap-tools layout table stack.table stack.disks --free"

# The kind of a line that says where a disk or a device ends, and those that may share sectors: snapshots their origin,
# also with the line `snapshot-origin` that serves them.
END, ORIGIN, SERVES, OTHER = "end", "origin", "snapshot-origin", "other"
# The kinds that have no sector in common with one of these.
MEET = {ORIGIN: (OTHER,), SERVES: (SERVES, OTHER), OTHER: (ORIGIN, SERVES, OTHER)}
# How many clashes are printed: nested ranges have as many as their number squared.
MOST = 1000000
LINE = "%s %d %d %s %s %s\n"
# A range of sectors of a disk or a device: whose line uses it, where that begins on its device, and as what.
Span = NamedTuple("Span", [("on", str), ("first", int), ("end", int), ("device", str), ("start", str), ("kind", str)])


def add_words(parser: ArgumentParser) -> None:
    given.add_words(parser)
    shown = parser.add_mutually_exclusive_group()
    shown.add_argument("--free", action="store_true", help="also list the sectors that no line names")
    shown.add_argument("--clashes", action="store_true", help="list each pair of lines that share sectors")
    shown.add_argument("--tree", action="store_true", help="print the stack as a tree")
    shown.add_argument("--dot", action="store_true", help="print the stack as a graph for Graphviz")
    shown.add_argument("--device", metavar="VOLUME", help="list where this device lies, by its name or path")
    loaded_stack.add_words(parser)


def run(words: Namespace) -> None:
    source = given.given_in(words, "FORMAT FILE [DISKS]")
    with tempfile.TemporaryDirectory(prefix="dmremap-tools-") as folder:
        if words.device is not None:
            rows = extents_of(words, source, names.device(words.device, "--device"), folder)
        else:
            rows = rows_of(words, loaded_stack.load(program.dmremap(words.program), source, folder))
        for row in rows:
            streams.out.write(row)


def rows_of(words: Namespace, loaded: loaded_stack.Stack) -> Iterable[str]:
    """What is asked for of a stack."""
    if words.tree:
        return tree_of(loaded.devices)
    if words.dot:
        return graph_of(loaded.devices)
    spans = spans_of(loaded)
    if words.clashes:
        return clashes_in(spans, streams.name_of(words.file))
    return with_free(spans) if words.free else map(LINE.__mod__, spans)


def spans_of(loaded: loaded_stack.Stack) -> List[Span]:
    """What the lines use of disks and devices, and the ends of these, in their order."""
    lengths = {**loaded.sizes, **{path: device.end() for path, device in loaded.by_path().items()}}
    spans: List[Span] = []
    for device, line in ((device, line) for device in loaded.devices for line in device.lines):
        kinds = (ORIGIN, "store") if line.target == "snapshot" else [line.target] * len(line.places())
        for kind, (lower, first, count) in zip(kinds, line.spans()):
            end = lengths[lower] if count is None else first + count
            spans.append(Span(lower, first, end, device.name, str(line.start), kind))
    ends = dict.fromkeys([*loaded.sizes, *(it.on for it in spans)])
    if not ends:
        streams.tell("no disk and no device came")
    return sorted(spans + [Span(on, lengths[on], lengths[on], "-", "-", END) for on in ends])


def clashes_in(spans: Iterable[Span], name: str) -> Iterator[str]:
    """A line for each clash among sorted spans of a text that is called so: on what, the first and the last sector that
    two lines have in common, and their devices. It takes the time of what is printed."""
    opened: Dict[str, List[Span]] = {}
    on, count = "", 0
    for span in spans:
        if span.kind == END or span.first == span.end:
            continue
        if span.on != on:
            on, opened = span.on, {kind: [] for kind in MEET}
        kind = span.kind if span.kind in (ORIGIN, SERVES) else OTHER
        for meeting in MEET[kind]:
            opened[meeting] = [it for it in opened[meeting] if it.end > span.first]
        for other in heapq.merge(*(opened[meeting] for meeting in MEET[kind])):
            count += 1
            if count > MOST:
                raise Refusal(name, f"there are more than {MOST} clashes: take the lines of one disk, or of fewer "
                              "devices")
            yield f"{on} {span.first} {min(other.end, span.end) - 1} {other.device} {span.device}\n"
        opened[kind].append(span)


def with_free(spans: Iterable[Span]) -> Iterator[str]:
    """Sorted spans with what no line names in between."""
    on, at = "", 0
    for span in spans:
        if span.on != on:
            on, at = span.on, 0
        if span.first > at:
            yield f"{on} {at} {span.first} unnamed\n"
        at = max(at, span.end)
        if span.kind != END:
            yield LINE % span


def tree_of(devices: List[tables.TableDevice]) -> Iterator[str]:
    """The devices that no other one lies on, each with what is below it."""
    lower = {it.name: it for it in devices}
    under = {path for device in devices for path in device.lowers()}
    shown: Set[str] = set()
    for device in devices:
        if names.MAPPER + device.name not in under:
            yield device.name + "\n"
            yield from subtree_of(device, "", lower, shown)
    if not devices:
        streams.tell("no device came")


def subtree_of(device: tables.TableDevice, indent: str, lower: Dict[str, tables.TableDevice], shown: Set[str]
               ) -> Iterator[str]:
    """The lines of a device, and below each the devices that it is the first to name."""
    if device.name in shown:
        yield indent + "(as above)\n"
        return
    shown.add(device.name)
    told: Set[str] = set()
    for line in device.lines:
        yield f"{indent}+- {line}\n"
        for path in line.lowers():
            if path.startswith(names.MAPPER) and path not in told:
                told.add(path)
                below = lower[names.of_path(path)]
                yield f"{indent}|    {below.name}\n"
                yield from subtree_of(below, indent + "|    ", lower, shown)


def graph_of(devices: List[tables.TableDevice]) -> Iterator[str]:
    """Devices as a graph of Graphviz, each step once."""
    steps: Dict[str, None] = {}
    for device in devices:
        name = quoting.quoted(device.name)
        for line in device.lines:
            for place, lower in enumerate(line.lowers()):
                below = quoting.quoted(names.of_path(lower) if lower.startswith(names.MAPPER) else "disk " + lower)
                if not lower.startswith(names.MAPPER):
                    steps[below + " [shape=box]"] = None
                kind = (ORIGIN, "store")[place] if line.target == "snapshot" else line.target
                steps[f'{name} -> {below} [label="{kind} {line.start}+{line.length}"]'] = None
        steps[name] = None
    return iter(["digraph stack {\n", *(f"  {step}\n" for step in steps), "}\n"])


def extents_of(words: Namespace, source: given.Given, name: str, folder: str) -> Iterator[str]:
    """A line for each extent of a device; dmremap is asked for all of it."""
    begun = loaded_stack.start(words, source, [name], folder)
    end = begun.loaded.length(name, words.file)
    if end > requests.LONGEST:
        why = f"{name} is {requests.TOO_LONG}: give `dmremap map` requests for parts of it"
        raise Refusal(streams.name_of(words.file), why)
    asked = ("R %s %d %d\n" % (name, at, count) for at, count in requests.parts(0, end))
    # Where the extent begins on the device and on the disk, where both go on, and the disk or what there is else.
    first = begin = at = following = 0
    last = ("", "")
    with pieces.Mapped(begun.words, asked) as mapped:
        for _, _, _, disk, start, other, count, _, _ in mapped.answers.rows():
            place = int(start or 0)
            if (disk, other) != last or disk and place != following:
                if at:
                    yield extent_line(first, at, begin, *last)
                first, begin, last = at, place, (disk, other)
            at, following = at + int(count), place + int(count)
    yield extent_line(first, at, begin, *last)


def extent_line(first: int, end: int, begin: int, disk: str, other: str) -> str:
    """The line of some sectors of a device that lie on a disk from a sector on, or of what else there is."""
    return f"{first} {end - first} {f'{disk} {begin}' if disk else other}\n"
