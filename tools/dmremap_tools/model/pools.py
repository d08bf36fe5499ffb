"""Thin volumes and cached ones, by the metadata of their pool (struct thin_disk_superblock) or of their cache (struct
cache_disk_superblock), which the kernel's persistent-data library keeps in trees and arrays. A block of that has 4096
bytes, a CRC-32C of its own, and its number; only what both confirm is believed."""

import functools
import itertools
import struct
from collections import namedtuple
from typing import Any, Iterator, Optional, Tuple

from dmremap_tools.base import SECTOR, Refusal
from dmremap_tools.model.config_text import shown
from dmremap_tools.model.device import ZEROS, Device, Entry, Gap, Overlaid, Part, Run, sorted_entries
from dmremap_tools.model.volume_group import Segment

BLOCK, WORD = 4096, 8
# struct node_header and struct array_block, and what the sum of a block of each kind is changed by.
NODE, NODE_SUM, INTERNAL, LEAF = struct.Struct("<LLQLLLL"), 121107, 1, 2
ARRAY, ARRAY_SUM = struct.Struct("<LLLLQ"), 595846735
# The most levels of a tree: with the fewest children a node may have, more don't fit into a device.
MOST_LEVELS, MOST_KEPT, ALL_KEYS = 16, 512, (0, 1 << 64)
POLYNOMIAL, VERSIONS = 0x82F63B78, (1, 2)
# The superblock of a pool or a cache: `trans_id` means something in a pool's, and `cache_blocks` in a cache's.
PoolSuperblock = namedtuple("PoolSuperblock", "magic version trans_id mapping_root data_block_size metadata_block_size "
                            "cache_blocks incompat_flags")
# For each kind where it has these fields, what its sum is changed by, its magic, and words for messages.
THIN = (struct.Struct("<32xQL4xQ264xQ8xLL8xL4xL"), 160774, 27022010, "a thin pool", "thin_check", "pool")
CACHE = (struct.Struct("<32xQL4xQ136xQ32xLLL8xL"), 9031977, 0o6142003, "a cache", "cache_check", "volume")
# A mapping of a pool is a block of it, and in the lower bits a time; one of a cache a block of the origin, and flags.
TIME_BITS, FLAG_BITS, VALID = 24, 16, 1
MODES = (b"writethrough", b"writeback")
ONE_TIME, LVM2 = "give images of one time", "activate it with lvm2"
ODD_CACHE = "the cache's metadata maps a block twice, or one that isn't there: run cache_check on a copy of it"


def entries_of(device: Device, block: int, wanted: Run = ALL_KEYS, bounds: Run = ALL_KEYS,
               level: int = 0) -> Iterator[Entry]:
    """The entries with keys from a first one up to an end, in their order, of a tree in a device, whose root is this
    block, or of what is below one of its blocks."""
    try:
        if level == MOST_LEVELS:
            raise damaged(device, "its tree has too many levels")
        is_leaf, keys, values = node_of(device, block, level == 0)
        if keys and not (bounds[0] <= keys[0] and keys[-1] < bounds[1]):
            raise damaged(device, f"the keys of block {block} of its tree lie in another place")
    except Gap as gap:
        yield Entry(max(bounds[0], wanted[0]), min(bounds[1], wanted[1]), 0, gap.why)
        return
    for key, end, value in zip(keys, [*keys[1:], bounds[1]], values):
        if end > wanted[0] and key < wanted[1] and not is_leaf:
            yield from entries_of(device, value, wanted, (key, end), level + 1)
        elif wanted[0] <= key < wanted[1]:
            yield Entry(key, key + 1, value, None)


@functools.lru_cache(MOST_KEPT)
def node_of(device: Device, block: int, is_root: bool) -> Tuple[bool, Tuple[int, ...], Tuple[int, ...]]:
    """Whether a node is a leaf, its keys, and for each the block below it or a value."""
    content = checked_block(device, block, NODE_SUM)
    _, flags, _, count, most, size, _ = NODE.unpack_from(content)
    is_fitting = size == WORD and count <= most and NODE.size + most * 2 * WORD <= BLOCK
    if flags & (INTERNAL | LEAF) not in (INTERNAL, LEAF) or not is_fitting or not count and not is_root:
        raise damaged(device, f"block {block} of its tree is no node")
    keys = struct.unpack_from(f"<{count}Q", content, NODE.size)
    if any(one >= other for one, other in zip(keys, keys[1:])):
        raise damaged(device, f"the keys of block {block} of its tree are out of order")
    return flags & LEAF != 0, keys, struct.unpack_from(f"<{count}Q", content, NODE.size + most * WORD)


def array_values(device: Device, root: int) -> Iterator[int]:
    """The values of an array of 64-bit numbers; a Gap where a block of it is damaged."""
    for expected, entry in enumerate(entries_of(device, root)):
        if entry.why:
            raise Gap(device.name, entry.why)
        if entry.key != expected:
            raise damaged(device, "its array has holes")
        content = checked_block(device, entry.value, ARRAY_SUM, ARRAY.size - WORD)
        _, _, count, size, _ = ARRAY.unpack_from(content)
        if size != WORD or ARRAY.size + count * size > BLOCK:
            raise damaged(device, "a block of its array is none")
        yield from struct.unpack_from(f"<{count}Q", content, ARRAY.size)


def superblock_of(meta: Device, kind: Tuple[Any, ...]) -> PoolSuperblock:
    """The superblock in metadata of a pool or a cache; a Gap where it isn't followed."""
    form, changed, magic, what, tool, owner = kind
    found = PoolSuperblock(*form.unpack_from(checked_block(meta, 0, changed)))
    is_known = found.magic == magic and found.version in VERSIONS and found.metadata_block_size * SECTOR == BLOCK
    if not is_known or not found.data_block_size:
        raise Gap(meta.name, f"it has no superblock of {what} that is followed: run {tool} on a copy of it")
    if found.incompat_flags:
        raise Gap(meta.name, f"its superblock has features that aren't followed: activate the {owner} with lvm2")
    return found


def damaged(device: Device, what: str) -> Gap:
    """What is said of metadata that isn't sound."""
    return Gap(device.name, f"{what}: mend a copy of the metadata by thin_repair or cache_repair")


def checked_block(device: Device, block: int, changed: int, number_at: int = 8) -> bytes:
    """The bytes of a block, if its sum and its number are right."""
    if (block + 1) * BLOCK > device.size:
        raise damaged(device, f"block {block} of its metadata is past its end")
    content = device.read(block * BLOCK, BLOCK)
    stored, (said,) = int.from_bytes(content[:4], "little"), struct.unpack_from("<Q", content, number_at)
    if said != block or crc32c(content[4:]) ^ changed != stored:
        raise damaged(device, f"block {block} of its metadata is damaged")
    return content


def crc32c(content: bytes) -> int:
    """The CRC-32C of some bytes, as the kernel's crc32c gives it for ~0."""
    value, table = 0xFFFFFFFF, TABLE
    for byte in content:
        value = table[(value ^ byte) & 0xFF] ^ value >> 8
    return value


# What a byte adds to a sum.
TABLE = list(range(256))
for _ in range(8):
    TABLE = [value >> 1 ^ (POLYNOMIAL if value & 1 else 0) for value in TABLE]


def thin_of(layout: Any, name: str, segment: Segment, size: int) -> Device:
    """The device of a thin segment: the tree of devices of its pool leads to its own."""
    node, volumes = segment.node, layout.group.volumes
    device, pool = node.value(b"device_id", int), volumes.get(node.value(b"thin_pool", bytes))
    if not pool or len(pool.segments) != 1 or device is None or device < 0:
        raise Refusal(name, f"its text doesn't say in which pool it is: {LVM2}")
    if node.child(b"external_origin"):
        raise Refusal(name, f"it has an external origin, which isn't followed: {LVM2}")
    segments = (other for volume in volumes.values() for other in volume.segments)
    for other in (other for other in segments if other.kind == b"thin" and other.node.child(b"merge")):
        merged = volumes.get(other.node.value(b"merge", bytes))
        if device in (each.node.value(b"device_id", int) for each in [other, *(merged.segments[:1] if merged else ())]):
            raise Refusal(name, f"a thin snapshot is being merged, which isn't followed: {LVM2}")
    meta, data = (layout.lower(pool.segments[0], key) for key in (b"metadata", b"pool"))
    if not meta or not data:
        raise Refusal(name, f"the text doesn't say where the pool {shown(pool.name)} is: {LVM2}")
    superblock = superblock_of(meta, THIN)
    if superblock.data_block_size != pool.segments[0].node.value(b"chunk_size", int):
        raise Refusal(name, f"the pool's metadata has other blocks than the text: {ONE_TIME}")
    told, here = pool.segments[0].node.value(b"transaction_id", int), superblock.trans_id
    if told is not None and abs(told - here) > 1:
        raise Refusal(name, f"the pool's metadata has the transaction {here}, and the text {told}: {ONE_TIME}")
    root = next(entries_of(meta, superblock.mapping_root, (device, device + 1)), None)
    if root is None or root.why:
        raise Refusal(name, root.why if root and root.why else f"the pool's metadata has no device {device}: it was "
                      "deleted from the pool, and `scan` lists what is left")
    tree, block, end_of_pool = root.value, superblock.data_block_size * SECTOR, data.size
    past = f"{name}: a block lies past the end of its pool: {ONE_TIME}"

    def entries(first: int, end: int) -> Iterator[Entry]:
        for key, stop, value, why in entries_of(meta, tree, (first, end)):
            place = value >> TIME_BITS
            yield Entry(key, stop, place, why or (past if (place + 1) * block > end_of_pool else None))
    # What nobody wrote reads as zeros.
    return Overlaid(name, ZEROS, data, block, entries, size)


def cached_of(layout: Any, name: str, segment: Segment, size: int) -> Device:
    """The device of a cached segment: a block that is mapped is read from the cache, any other from the origin. Which
    blocks are dirty needn't be asked: a mapped block is never older than the origin's."""
    pool, origin = (segment.node.value(key, bytes) for key in (b"cache_pool", b"origin"))
    if pool is None or origin is None:
        raise Refusal(name, f"its text doesn't say what is cached where: {LVM2}")
    meta, data, settings = cache_of(layout, segment, pool)
    if not meta or not data:
        raise Refusal(name, f"its text doesn't say where the cache's metadata is: {LVM2}")
    mode = segment.node.value(b"cache_mode", bytes) or settings.node.value(b"cache_mode", bytes)
    if mode not in (None, *MODES):
        raise Refusal(name, f"a cache of the mode {mode!r} isn't followed: {LVM2}")
    superblock = superblock_of(meta, CACHE)
    if superblock.data_block_size != settings.node.value(b"chunk_size", int):
        raise Refusal(name, f"the cache's metadata has other blocks than the text: {ONE_TIME}")
    block = superblock.data_block_size * SECTOR
    if superblock.cache_blocks * block > data.size:
        raise Refusal(name, f"the cache's metadata counts more blocks than the cache has: {ONE_TIME}")
    values = itertools.islice(array_values(meta, superblock.mapping_root), superblock.cache_blocks)
    pairs = sorted((value >> FLAG_BITS, place) for place, value in enumerate(values) if value & VALID)
    if any(one[0] == other[0] for one, other in zip(pairs, pairs[1:])) or pairs and pairs[-1][0] * block >= size:
        raise Refusal(name, ODD_CACHE)
    return Overlaid(name, layout.plain(origin), data, block, sorted_entries(pairs), size)


def cache_of(layout: Any, segment: Segment, pool: bytes) -> Tuple[Optional[Device], Optional[Device], Segment]:
    """The metadata and the data of a cache, a pool's or runs of one volume, and the segment that says its blocks."""
    volume = layout.group.volumes.get(pool)
    if segment.node.child(b"metadata_start"):
        said = [segment.node.value(key + end, int) for key in (b"metadata", b"data") for end in (b"_start", b"_len")]
        places = [it * SECTOR for it in said if it is not None and it >= 0]
        if len(places) == len(said):
            whole, (start, size, data_start, data_size) = layout.plain(pool), places
            return Part(whole.name, whole, start, size), Part(whole.name, whole, data_start, data_size), segment
    elif volume and len(volume.segments) == 1:
        inner = volume.segments[0]
        return layout.lower(inner, b"metadata"), layout.lower(inner, b"data"), inner
    return None, None, segment
