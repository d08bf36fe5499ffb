"""Makes a copy of a group's metadata without what dmremap refuses.

Takes TEXT, as `vgcfgbackup` writes it or a metadata area has it, which dmremap refuses as `field`, `syntax`, `extents`,
`snapshot`, `store` or `limit`: one raid, mirror, cache or thin volume is enough, or one disk after `pvresize`.

Prints the text without what dmremap can't follow, and without comments, as dmremap reads it; each key keeps the number
of its line. Reported with their lines are a disk that is made longer or gets a name, as its extents need it, parts of
raid volumes that are made writable, and what is left out:

    volumes of other types than striped, linear, zero and error, and what lies on them or is a snapshot of them;
    volumes on another volume, as while they are moved; stripes that don't divide one;
    volumes and snapshots that dmremap refuses of the copy, by the word of its message: the origin of such a snapshot
    stays, and a message says what answers lack;
    snapshots that are being merged, with their origin: it reads as the snapshot does, from what is left in the store;
    fields with negative numbers, fractions, or keys that are no words.

The parts of a volume that is left out stay, under the names that they have in the kernel: `r1_rimage_0` is one leg of
the mirror `r1`, and `pool_tdata` has the data of a thin pool. For a cached volume, the cache may have newer data than
`home_corig`.

Refuses a text of which no volume would be left, one that isn't the metadata of a group, forms that lvm2 never writes, a
damaged text whose copy dmremap refuses when it is asked, and one of more than 8 MiB, or of more than 150,000 keys and
values. Nothing about the copy is proved. The text can't say whether it is the newest; `dmsetup table` shows whether a
machine's devices are those of the text.
"""

import argparse
import re
import tempfile
from typing import Dict, Iterator, List, Optional, Set, Tuple

from dmremap_tools.base import Refusal, program, quoting, streams
from dmremap_tools.model.config_text import ANEW, Document, Item, Node, shown
from dmremap_tools.model.volume_group import LINEAR, STRIPED, TYPES, GroupText, Record, VolumeText

EXAMPLE = "dmremap-tools lvm2-text vgm.backup > copy.backup && dmremap table lvm copy.backup"
# How many bytes of a text are taken, and dmremap takes of the copy.
MOST_TEXT, MOST_COPY = 8 << 20, 1 << 20
ADVICE = "take an older text, from /etc/lvm/archive or by `metadata --list`"
# What dmremap says of a text.
SAID = re.compile(r"dmremap: source: (empty|name|snapshot|store|limit) at ([0-9]+)")
# What dmremap takes for a key, and how many sections it takes inside each other.
WORD, LEVELS = re.compile(rb"[A-Za-z0-9_+.][A-Za-z0-9_+.-]*"), 16
# The fields that have a list, of which others with one value have none.
LISTS = {b"status", b"flags", b"stripes"}
# A byte that is no UTF-8, as Python reads it, and what is written for it and for a newline in a string.
UNREADABLE, UNKNOWN = re.compile("[\udc80-\udcff]"), "\ufffd"


class Copy:
    """A text that is written anew: which of its parts are left out, and what is said of them and of changes."""

    def __init__(self, document: Document) -> None:
        self.document = document
        self.left_out: Set[Node] = set()
        self._said: List[Tuple[int, str]] = []

    def say(self, at: int, what: str) -> None:
        """Keeps a message about the line that has a byte."""
        self._said.append((self.document.line_at(at), what))

    def drop(self, node: Node, why: str) -> None:
        """Leaves out a part, and says why."""
        self.left_out.add(node)
        self.say(node.start, f"left out: {shown(node.key)}: {why}")

    def change(self, node: Node, value: bytes, why: str, *before: Item) -> None:
        """Gives a field this value, as it is written, behind others, and says why."""
        node.items = [*before, Item(value, node.start)]
        self.say(node.start, f"changed: {shown(node.key)}: {why}")

    def tell(self) -> None:
        """Tells what was said, in the order of the lines."""
        said = sorted(self._said, key=lambda it: it[0])
        streams.tell(*(f"{self.document.path}:{line}: {what}" for line, what in said))

    def content(self) -> bytes:
        """The copy, in which each key has the line that it had, and U+FFFD stands for what is no UTF-8."""
        made: List[bytes] = []
        content, end = self.document.content, 0
        for at, text in [*self._kept_parts(self.document.top), (len(content), b"")]:
            made += [b"\n" * content.count(b"\n", end, at) or b" " * bool(made), text]
            end = at
        return UNREADABLE.sub(UNKNOWN, b"".join(made).decode("utf-8", "surrogateescape")).encode()

    def _kept_parts(self, section: Node) -> Iterator[Tuple[int, bytes]]:
        """What is written of a section, with the bytes of the text in whose lines it stands. What dmremap can't read
        is left out: where it needs that, it refuses the copy."""
        for node in sorted((section.children or {}).values(), key=lambda it: it.start):
            number = next((item.text for item in node.items if plain_value(item) is None), None)
            if node in self.left_out:
                continue
            if node.children is not None and not WORD.fullmatch(node.key):
                raise self.document.refused(node.start, f"no name that lvm2 gives, {ANEW}: {shown(node.key)}")
            if number or not WORD.fullmatch(node.key):
                what = f"the number {shown(number)}" if number else "a key that is no word"
                self.drop(node, what + ", which dmremap doesn't read")
            elif node.children is not None and node.level > LEVELS:
                self.drop(node, f"more than {LEVELS} sections in each other, which dmremap doesn't read")
            elif node.children is None:
                values = [plain_value(item) or b"" for item in node.items]
                is_list = len(values) != 1 or node.key in LISTS
                yield node.start, node.key + b" = " + (b"[" + b", ".join(values) + b"]" if is_list else values[0])
            else:
                yield node.start, node.key + b" {"
                yield from self._kept_parts(node)
                yield node.end - 1, b"}"


def plain_value(item: Item) -> Optional[bytes]:
    """A value as dmremap reads it, or None for a number that it doesn't."""
    value = item.value
    if isinstance(value, bytes):
        return b'"%s"' % re.sub(rb'(["\\])', rb"\\\1", value).replace(b"\n", UNKNOWN.encode())
    return None if value is None or value < 0 else b"%d" % value


def add_words(parser: argparse.ArgumentParser) -> None:
    program.add_words(parser)
    parser.add_argument("text", metavar="TEXT", help="the metadata, as vgcfgbackup writes it")


def run(words: argparse.Namespace) -> None:
    content = streams.read_bytes(words.text, MOST_TEXT)
    path = streams.name_of(words.text)
    if content.count(b"\n") > MOST_COPY:
        raise Refusal(path, f"it has more than {MOST_COPY} lines, and dmremap takes as many bytes: "
                      "give the text of one group")
    copy = Copy(Document(path, content[len(streams.MARK):] if content.startswith(streams.MARK) else content))
    if b"\0" in content:
        copy.say(len(copy.document.content), "left out: the NUL here, and what comes after it")
    group = group_of(copy)
    leave_unread(group)
    mend_group(copy, group)
    made = taken_copy(copy, group, program.dmremap(words.program))
    say_left_out(copy, group)
    copy.tell()
    if group.volumes and all(it.why for it in group.volumes.values()):
        raise Refusal(path, "nothing is left, as dmremap can follow none of its volumes: use `save`, `serve` or "
                      "`machine`")
    streams.out.write(made.decode())


def leave_unread(group: GroupText) -> None:
    """Leaves out the volumes of which the text has what dmremap doesn't read, and those that a merge changes."""
    for volume in group.volumes.values():
        volume.why = fault_of(group, volume)
    for record in (it for it in group.records if it.is_merging):
        snapshot, origin = (shown(it or record.volume.name) for it in (record.store, record.origin))
        for name, why in (
                (record.volume.name, "the record of a snapshot that is being merged"),
                (record.store, f"it is being merged into {origin}"),
                # It reads as the snapshot does, from what is left in the store.
                (record.origin, f"the snapshot {snapshot} is being merged into it, so that some of its sectors are "
                                "older and some newer: go on when that is done (`lvs -o+copy_percent`)")):
            if name in group.volumes:
                group.volumes[name].leave(why)


def fault_of(group: GroupText, volume: VolumeText) -> Optional[str]:
    """Why a volume can't stay by its segments, or None."""
    for segment in volume.segments:
        key = shown(segment.node.key)
        if segment.kind is not None and segment.kind not in TYPES:
            return f"its {key} has the type {shown(segment.kind)}"
        below = [it for it, _ in segment.stripes if isinstance(it, bytes) and it not in group.physicals]
        lower = next((it for it in below if it in group.volumes), None)
        if lower is not None:
            return f"it lies on the volume {shown(lower)}"
        if segment.kind == STRIPED and not segment.is_even(group.extent_size):
            return f"its {key} isn't divided evenly by its stripes, so that no kernel takes it"
    return None


def taken_copy(copy: Copy, group: GroupText, asked: str) -> bytes:
    """The copy that dmremap takes. What it refuses of a volume is left out, one after the other, and a snapshot with
    its record. A text that lvm2 wrote passes then, so what doesn't is damaged."""
    while True:
        for record in group.records:
            leave_snapshot(group, record)
        copy.left_out |= {it.node for it in group.volumes.values() if it.why}
        made = copy.content()
        with tempfile.NamedTemporaryFile(prefix="dmremap-tools-") as file:
            file.write(made)
            file.flush()
            said = program.ask_quietly([asked, "map", "lvm", file.name])[1].strip()
        if not said:
            return made
        refused = SAID.fullmatch(said)
        line, line_at = int(refused[2]) if refused else 0, copy.document.line_at
        volume = next((it for it in group.volumes.values() if not it.why
                       and line_at(it.node.start) <= line <= line_at(it.node.end - 1)), None)
        if not refused or not volume:
            copy.tell()
            raise Refusal(copy.document.path, "dmremap refuses the copy, whose lines have the same numbers "
                          f"({quoting.shown(said)}): {ADVICE}")
        above = [it for it in group.records if it.origin == volume.name and not it.volume.why]
        for each in [it.volume for it in above] if above and refused[1] == "name" else [volume]:
            each.leave(f"dmremap refuses it ({refused[1]})")


def leave_snapshot(group: GroupText, record: Record) -> None:
    """Leaves out a snapshot with its record where one of them, or its origin, is left out."""
    origin, store = (group.volumes.get(it or b"") for it in (record.origin, record.store))
    if not record.is_merging and origin and store and (record.volume.why or origin.why or store.why):
        why = f"it is a snapshot of {shown(origin.name)}"
        store.leave(f"{why}, which is left out" if origin.why else f"{why}: {record.volume.why}")
        record.volume.why = f"the record of the snapshot {shown(store.name)}"


def group_of(copy: Copy) -> GroupText:
    """The group of a text, of which lvm2 reads the first section alone."""
    document = copy.document
    group, *others = document.top.sections() or [document.top]
    if group.child(b"physical_volumes") is None:
        raise Refusal(document.path, "no metadata of a group: give a text of /etc/lvm/backup, or what `metadata` "
                      "prints")
    for node in others:
        copy.drop(node, "lvm2 reads one section of a text, the first")
    found = GroupText(group)
    for volume in found.volumes.values():
        if volume.node.value(b"segment_count", int) not in (None, len(volume.segments)):
            why = f"segment_count isn't the number of its segments, {len(volume.segments)}: {ANEW}"
            raise document.refused(volume.node.start, f"{shown(volume.name)}: {why}")
    return found


def say_left_out(copy: Copy, group: GroupText) -> None:
    """Says which volumes are left out, and what answers lack of origins that lose snapshots."""
    for volume in group.volumes.values():
        if volume.why:
            copy.drop(volume.node, volume.why)
    without: Dict[VolumeText, List[bytes]] = {}
    for record in group.records:
        origin = group.volumes.get(record.origin or b"")
        if record.volume.why and origin and not origin.why:
            without.setdefault(origin, []).append(record.store or record.volume.name)
    for origin, snapshots in without.items():
        copy.say(origin.node.start, f"kept: {shown(origin.name)}, without its snapshot {shown(b', '.join(snapshots))}: "
                 "on a machine, a write to it also copies what it overwrites, which the answers don't show")


def mend_group(copy: Copy, group: GroupText) -> None:
    """Changes what dmremap would refuse of a group, or read in another way than lvm2."""
    staying = [it for it in group.volumes.values() if not it.why]
    segments = [it for volume in group.volumes.values() for it in volume.segments]
    # These lists have the data of a raid volume, with what says how that is kept before each part of it.
    parts = {name for it in segments if (it.kind or b"").startswith(b"raid")
             for key in (b"raids", b"raid0_lvs") for name in it.node.values(key)}
    for volume in (it for it in staying if it.name in parts):
        _mend_part(copy, volume)
    for node in group.physicals.values():
        _mend_physical(copy, group, node)
    kinds = (it.node.child(b"type") for volume in staying for it in volume.segments if it.kind == LINEAR)
    for kind in filter(None, kinds):
        kind.items = [Item(b'"%s"' % STRIPED, kind.start)]


def _mend_part(copy: Copy, volume: VolumeText) -> None:
    """lvm2 loads all parts of raid volumes as writable, whatever their status is."""
    status, words = volume.node.child(b"status"), [*volume.node.values(b"status"), *volume.node.values(b"flags")]
    if status and status.children is None and b"WRITE" not in words and b"WRITE_LOCKED" not in words:
        why = f"{shown(volume.name)} is part of a raid volume, which lvm2 loads as writable"
        copy.change(status, b'"WRITE"', why, *status.items)


def _mend_physical(copy: Copy, group: GroupText, node: Node) -> None:
    """Gives a disk the length that its extents need at least, and a name. After a change of its size lvm2 writes
    less, and old versions wrote no size; the true one stands nowhere in the text."""
    start, count, size = (node.value(it, int) for it in (b"pe_start", b"pe_count", b"dev_size"))
    if start is None or count is None or group.extent_size is None:
        return
    name, least = shown(node.key), start + count * group.extent_size
    if least == 0 and not size:
        copy.drop(node, "it has no sectors")
        return
    long = f"is at least {least} sectors long, where its extents end"
    missing = (b"device", b'""', "so that the disk has this name"), (b"dev_size", b"%d" % least, f"and {long}")
    for key, value, why in missing:
        if node.child(key) is None:
            added = Node(key, node.value_at, node.value_at, node.level + 1)
            node.add(added)
            copy.change(added, value, f"{name} has none, {why}")
    field = node.child(b"dev_size")
    if field and size is not None and size < least:
        copy.change(field, b"%d" % least, f"{name} {long}, and not {size}")
