"""The data below legs of LVM's raids that have dm-integrity, with its metadata on a volume of its own: the data's
sectors, but for those that its journal still holds.

The journal has sections of 8 sectors of entries, and a block for each entry. The last 8 bytes of each sector are a
commit id, and those that belong there are in the entry, as is the sum of the block. Sections are replayed as the kernel
does it: from the oldest on, up to one that wasn't written whole."""

import struct
from typing import Any, Iterator, NamedTuple, Optional, Set, Tuple

from dmremap_tools.base import SECTOR, Refusal
from dmremap_tools.model.device import Device, Gap, Known, Overlaid, sorted_entries
from dmremap_tools.model.pools import crc32c
from dmremap_tools.model.volume_group import Segment

# Magic, version, integrity_tag_size, journal_sections, provided_data_sectors, flags, log2_sectors_per_block and salt.
INTEGRITY, INTEGRITY_MAGIC = struct.Struct("<8sBxHLQLB19x16s"), b"integrt\0"
FIXED_HMAC = 16
KNOWN_FLAGS = 2 | 8 | FIXED_HMAC
JOURNAL_START, ENTRY_SECTORS, ID_AT, MOST_JOURNAL = 8, 8, 504, 256 << 20
IDS = [0x1111111111111111 * commit for commit in (1, 2, 3, 4)]
# An entry whose sector is above this is none; the kind of sums that are checked, and the bytes of one.
NO_SECTOR, HASH, HASH_SIZE = 1 << 63, b"crc32c", 4
OTHER_LEG = "give the disk of another leg, or activate it with lvm2"
# Where a journal is, how many sections it has, and how these are laid out: the bytes of a section, of an entry and of a
# block, and the entries in a sector; and what goes before that which is summed, or None without sums.
Journal = NamedTuple("Journal", [
    ("meta", Device), ("sections", int), ("size", int), ("entry", int), ("block", int), ("per_sector", int),
    ("salt", Optional[bytes])])


def integrity_of(layout: Any, name: str, segment: Segment, size: int) -> Device:
    """The device of a segment with integrity. Refuses metadata that isn't as the text says, or has no journal."""
    data, meta = (layout.lower(segment, key) for key in (b"origin", b"meta_dev"))
    if not data or not meta:
        raise Refusal(name, f"its text doesn't say where its metadata is: {OTHER_LEG}")
    mode = segment.node.value(b"mode", bytes)
    if mode not in (b"J", None):
        raise Refusal(name, f"integrity of the mode {mode!r} isn't followed: activate it with lvm2")
    magic, version, tag, sections, provided, flags, shift, salt = INTEGRITY.unpack(meta.read(0, INTEGRITY.size))
    if magic != INTEGRITY_MAGIC or not 1 <= version <= 5 or shift > 3 or not sections:
        raise Refusal(name, "its metadata has no superblock of dm-integrity that is followed: activate it with lvm2")
    if flags & ~KNOWN_FLAGS:
        features = "a bitmap, a journal with a code or other features"
        raise Refusal(name, f"its integrity has {features} that aren't followed: activate it with lvm2")
    sectors, entry = 1 << shift, -(-(8 + (8 << shift) + tag) // 8) * 8
    if entry > ID_AT:
        raise Refusal(name, f"its entries don't fit into a sector: {OTHER_LEG}")
    section = (ID_AT // entry * ENTRY_SECTORS * sectors + ENTRY_SECTORS) * SECTOR
    told = [segment.node.value(key, int) for key in (b"tag_size", b"block_size")]
    if provided * SECTOR < size or sections * section > min(meta.size, MOST_JOURNAL) \
            or any(said not in (None, here) for said, here in zip(told, (tag, sectors * SECTOR))):
        raise Refusal(name, f"the superblock of its metadata has other sizes than the text: {OTHER_LEG}")
    has_sums = segment.node.value(b"internal_hash", bytes) == HASH and tag >= HASH_SIZE
    summed = (salt if flags & FIXED_HMAC else b"") if has_sums else None
    journal = Journal(meta, sections, section, entry, sectors * SECTOR, ID_AT // entry, summed)
    blocks = (it for place in sections_in_order(journal) for it in blocks_in(journal, section_bytes(journal, place)))
    held = {block: content for block, content in blocks if (block + 1) * journal.block <= size}
    content = b"".join(held.values())
    known = Known(f"the journal of {name}", len(content), lambda start, size: content[start:start + size])
    pairs = sorted((block, place) for place, block in enumerate(held))
    return Overlaid(name, data, known, journal.block, sorted_entries(pairs), size)


def section_bytes(journal: Journal, section: int) -> bytes:
    """The bytes of a section of a journal."""
    return journal.meta.read(JOURNAL_START * SECTOR + section * journal.size, journal.size)


def sections_in_order(journal: Journal) -> Iterator[int]:
    """The sections that are replayed. The oldest comes after the last one of the newest commit, which no other commit
    follows. Each commit goes up to the journal's end, so that those before it are of the one before."""
    commits = [commits_of(journal, section) for section in range(journal.sections)]
    used = set().union(*commits)
    unused = [commit for commit in range(len(IDS)) if commit not in used]
    if not unused:
        raise Gap(journal.meta.name, f"nothing tells which commit of its journal is the newest: {OTHER_LEG}")
    newest = (min(unused) - 1 if len(IDS) - 1 in used else max(used)) % len(IDS)
    before = (newest - 1) % len(IDS)
    if before not in used and (newest - 2) % len(IDS) in used:
        return
    start = max(section for section, commit in enumerate(commits) if newest in commit) + 1
    for section in [*range(start, len(commits)), *range(start)]:
        if commits[section] != {newest if section < start else before}:
            return
        yield section


def commits_of(journal: Journal, section: int) -> Set[int]:
    """The commits that the sectors of a section are of. One that was being written has sectors of two."""
    content = section_bytes(journal, section)
    words = (struct.unpack_from("<Q", content, at + ID_AT)[0] ^ at // SECTOR for at in range(0, len(content), SECTOR))
    ids = {word ^ section << 32 for word in words}
    if not ids <= set(IDS):
        raise Gap(journal.meta.name, f"section {section} of its journal is damaged: {OTHER_LEG}")
    return {IDS.index(identity) for identity in ids}


def blocks_in(journal: Journal, content: bytes) -> Iterator[Tuple[int, bytes]]:
    """The blocks that a section holds: the number of each, and its bytes."""
    sectors = journal.block // SECTOR
    for entry in range(journal.per_sector * ENTRY_SECTORS):
        at = entry % ENTRY_SECTORS * SECTOR + entry // ENTRY_SECTORS * journal.entry
        sector, ends = int.from_bytes(content[at:at + 8], "little"), at + 8
        if sector >= NO_SECTOR or sector % sectors:
            continue
        start = (ENTRY_SECTORS + entry * sectors) * SECTOR
        places = zip(range(start, start + journal.block, SECTOR), range(ends, ends + 8 * sectors, 8))
        block = b"".join(content[begin:begin + ID_AT] + content[end:end + 8] for begin, end in places)
        tag = int.from_bytes(content[ends + 8 * sectors:ends + 8 * sectors + HASH_SIZE], "little")
        if journal.salt is not None and crc32c(journal.salt + content[at:ends] + block) ^ 0xFFFFFFFF != tag:
            raise Gap(journal.meta.name, f"what its journal has of sector {sector} is damaged: {OTHER_LEG}")
        yield sector // sectors, block
