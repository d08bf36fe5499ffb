"""Containers of LUKS: the magic of their two headers is looked for here, and `cryptsetup luksDump` says of a copy of
the headers where the data lies, if it is there."""

import re
import tempfile
from collections import namedtuple
from typing import Optional

from dmremap_tools.base import SECTOR, program
from dmremap_tools.formats.disk_image import Readable

MAGIC, SECOND_MAGIC = b"LUKS\xba\xbe", b"SKUL\xba\xbe"
# Where the second header of version 2 may lie: the sizes that the first may have; all that both take, in bytes; and
# what that of version 1 takes at least, in sectors.
SIZES = [1 << it for it in range(14, 23)]
HEADERS, FIRST_SECTORS = 2 * SIZES[-1], 2
CRYPTSETUP = "cryptsetup"
# What is printed of version 1, in sectors, and of version 2, in bytes: where data begins, and how much headers take.
FIRST = re.compile(r"^Payload offset:\s+([0-9]{1,10})$", re.M)
SEGMENT = re.compile(r"^  [0-9]+: (\S+)\n\toffset: ([0-9]{1,19}) \[bytes\]\n\tlength: (?:([0-9]{1,19}) \[bytes\]|\(w)",
                     re.M)
AREAS = re.compile(r"^Metadata area:\s+([0-9]{1,10}) \[bytes\]\nKeyslots area:\s+([0-9]{1,10}) \[bytes\]$", re.M)
UUID = re.compile(r"^UUID:\s+(\S+)$", re.M)
DAMAGED = "cryptsetup can't read its header of LUKS: restore it in a copy by `cryptsetup luksHeaderRestore`"
SECOND_ALONE = "its first header is gone, and a second one is there: repair a copy by `cryptsetup repair`"
TOO_SHORT = "it ends before the data of its container does: give the whole disk"
UNASKED = "its header isn't looked into: install cryptsetup"
ANEW = "it has {} segments, as while it is being encrypted anew: end that by `cryptsetup reencrypt`"
# A container: its version and id, in sectors where its data begins, its length, None up to the disk's end, and what
# headers and keys take; and what is wrong with it. Data that would begin within the header lies on another disk.
Container = namedtuple("Container", "version identity start length header fault", defaults=("", None, None, 0, None))


def container_in(image: Readable) -> Optional[Container]:
    """The container that an image is, by the magic of its first header or of the second alone, or None."""
    head = image.read(0, 8)
    if not head.startswith(MAGIC):
        has_second = any(image.read(it, len(SECOND_MAGIC)) == SECOND_MAGIC for it in SIZES)
        return Container(2, fault=SECOND_ALONE) if has_second else None
    version, asked = int.from_bytes(head[6:8], "big"), program.found(CRYPTSETUP)
    if asked == CRYPTSETUP:
        return Container(version, fault=UNASKED)
    with tempfile.NamedTemporaryFile(prefix="dmremap-tools-") as copy:
        copy.write(image.read(0, HEADERS))
        copy.truncate(image.size)
        printed, _, status = program.ask([asked, "luksDump", copy.name])
    found = _printed_container(version, printed) if status == 0 else Container(version, fault=DAMAGED)
    end = 0 if found.start is None else (found.start + (found.length or 1)) * SECTOR
    return found._replace(fault=TOO_SHORT) if end > image.size and found.start >= found.header else found


def _printed_container(version: int, printed: str) -> Container:
    """The container that is printed."""
    first, areas, uuid = FIRST.search(printed), AREAS.search(printed), UUID.search(printed)
    segments, identity = SEGMENT.findall(printed), uuid[1] if uuid else ""
    if first:
        return Container(1, identity, int(first[1]), None, FIRST_SECTORS)
    if not areas or len(segments) != 1 or segments[0][0] != "crypt":
        return Container(version, identity, fault=ANEW.format(len(segments)))
    start, length, header = int(segments[0][1]), int(segments[0][2] or 0), 2 * int(areas[1]) + int(areas[2])
    if start % SECTOR or length % SECTOR:
        return Container(version, identity, fault=DAMAGED)
    return Container(version, identity, start // SECTOR, length // SECTOR or None, -(-header // SECTOR))
