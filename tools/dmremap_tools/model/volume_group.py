"""The volumes of a group as its metadata says them."""

import collections
from typing import Iterator, NamedTuple, Optional, Tuple

from dmremap_tools.base import Refusal, names, streams, tables
from dmremap_tools.model.config_text import Document, Node, shown
from dmremap_tools.model.md_chunks import PARITY

# The types of segments that dmremap reads, and what lvm2 calls the first of them as well.
STRIPED, LINEAR, SNAPSHOT = b"striped", b"linear", b"snapshot"
TYPES = (STRIPED, LINEAR, SNAPSHOT, b"zero", b"error")


class Segment:
    """A segment, with what it has of numbers and stripes."""

    def __init__(self, node: Node) -> None:
        self.node, self.stripes, self.kind = node, node.pairs(b"stripes"), node.value(b"type", bytes)
        self.count, self.stripe_size = node.value(b"extent_count", int), node.value(b"stripe_size", int)

    @property
    def length(self) -> Optional[int]:
        """The extents that are there to be read: without those of each leg into which a reshape moves data."""
        legs, moved = len(self.node.values(b"raids")) // 2, self.node.value(b"reshape_count", int) or 0
        level = (self.kind or b"")[:5].decode("ascii", "replace")
        return self.count and self.count - moved * (legs - PARITY.get(level, 0))

    def is_even(self, extent_size: Optional[int]) -> bool:
        """Whether its stripes divide it. What is missing is left for dmremap to tell."""
        columns = len(self.stripes)
        if columns < 2 or extent_size is None or self.count is None or self.stripe_size is None:
            return True
        size = self.count * extent_size
        return columns <= tables.MOST_COLUMNS and self.stripe_size > 0 and size % (columns * self.stripe_size) == 0


class VolumeText:
    """A logical volume, with the place of its section, and why it can't stay, if it can't."""

    def __init__(self, node: Node) -> None:
        self.node, self.name = node, node.key
        self.why: Optional[str] = None
        self.segments = [Segment(it) for it in node.sections()]
        self.extents = sum(it.length or 0 for it in self.segments)

    def record(self) -> "Optional[Record]":
        """The snapshot that this volume stands for, or None for a volume that is one."""
        if len(self.segments) != 1 or self.segments[0].kind != SNAPSHOT:
            return None
        node = self.segments[0].node
        is_merging = node.child(b"merging_store") is not None
        fields = (b"origin", b"merging_store" if is_merging else b"cow_store")
        origin, store = (node.value(field, bytes) or b"" for field in fields)
        return Record(self, origin, store, is_merging, node.value(b"chunk_size", int))

    def leave(self, why: str) -> None:
        self.why = self.why or why


# A snapshot: `store` is the volume that has its name; one that `is_merging` is written back to its origin.
Record = NamedTuple("Record", [("volume", VolumeText), ("origin", bytes), ("store", bytes), ("is_merging", bool),
                               ("chunk", Optional[int])])


class GroupText:
    """A volume group: its physical volumes and its volumes, by their keys."""

    def __init__(self, node: Node) -> None:
        self.node, self.name, self.extent_size = node, node.key, node.value(b"extent_size", int)
        self.physicals = {it.key: it for it in node.sections_in(b"physical_volumes")}
        self.volumes = {it.key: VolumeText(it) for it in node.sections_in(b"logical_volumes")}
        self.records = [it for it in (volume.record() for volume in self.volumes.values()) if it]


def disks_of(path: str) -> Iterator[Tuple[str, int, Optional[bytes]]]:
    """The name that dmremap has for each physical volume of a text's group, the path if it is a name of this one alone,
    or else the key; its sectors, and its id, if it has one. Refuses a text without any, and one without a length."""
    document = Document(streams.name_of(path), streams.read_bytes(path))
    groups = (GroupText(section).physicals.values() for section in document.top.sections())
    physicals = list(next(filter(None, groups), ()))
    if not physicals:
        raise Refusal(document.path, "no physical volumes of a group: give a text of /etc/lvm/backup, or what "
                      "`metadata` prints")
    paths = [(it.value(b"device", bytes) or it.key).decode("utf-8", "surrogateescape") for it in physicals]
    count = collections.Counter(paths)
    for node, name in zip(physicals, paths):
        is_name = name.startswith("/") and names.DISK.fullmatch(name) and count[name] == 1
        size = node.value(b"dev_size", int)
        if size is None or size <= 0:
            raise document.refused(node.start, f"no dev_size of {shown(node.key)}: take the copy that lvm2-text makes")
        yield name if is_name else node.key.decode("utf-8", "surrogateescape"), size, node.value(b"id", bytes)
