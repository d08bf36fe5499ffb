"""Signatures of layers that nothing here follows, such as those of RAID controllers: who else says that the bytes of a
device are its own. Those that matter most are looked for here; for others `wipefs` and `blkid` are asked, if there."""

import functools
import json
import struct
from typing import Callable, Dict, List, NamedTuple, Tuple, Union

from dmremap_tools.base import SECTOR, Refusal, program
from dmremap_tools.formats.disk_image import BCACHE, BCACHE_AT, BCACHE_SECTOR, ZFS_AT, ZFS_MAGIC, Readable

# What a signature is of, and the byte at which it is.
Signature = NamedTuple("Signature", [("kind", str), ("at", int)])
# The kinds by libblkid's names, the bytes, or some of which one is there, and where: below 0, from the end.
KNOWN: List[Tuple[str, Union[bytes, Tuple[bytes, ...]], Tuple[int, ...]]] = [
    ("ddf_raid_member", b"\xde\x11\xde\x11", (-SECTOR, -258 * SECTOR)),
    ("isw_raid_member", b"Intel Raid ISM Cfg Sig. ", (-2 * SECTOR, -16 * SECTOR)),
    ("nvidia_raid_member", b"NVIDIA", (-2 * SECTOR,)),
    ("lsi_mega_raid_member", b"$XIDE$", (-SECTOR,)),
    ("promise_fasttrack_raid_member", b"Promise Technology, Inc.",
     tuple(-SECTOR * it for it in (63, 255, 256, 16, 399, 591, 675, 735, 911, 974, 991, 951, 3087))),
    ("hpt37x_raid_member", (b"\xf0\x16\x78\x5a", b"\xfd\x16\x78\x5a"), (9 * SECTOR + 32,)),
    ("hpt45x_raid_member", (b"\xf3\x16\x78\x5a", b"\xfd\x16\x78\x5a"), (-11 * SECTOR,)),
    ("adaptec_raid_member", b"\x37\xfc\x4d\x1e", (-SECTOR,)),
    ("drbd", (b"\x83\x74\x02\x6b", b"\x83\x74\x02\x6c", b"\x83\x74\x02\x6d"), (60 - 8 * SECTOR,)),
    ("drbdmanage_control_volume", b"$DRBDmgr=q", (0,)),
    ("ubi", b"UBI#", (0,)),
    ("zfs_member", ZFS_MAGIC, (ZFS_AT, ZFS_AT + (256 << 10))),
    ("VMFS_volume_member", b"\x0d\xd0\x01\xc0", (1 << 20,)),
    ("DM_integrity", b"integrt\0", (0,)),
    ("DM_verity_hash", b"verity\0\0", (0,)),
    ("vdo", b"dmvdo001", (0,)),
    ("stratis", b"!Stra0tis\x86\xff\x02^\x41rh", (SECTOR + 4, 9 * SECTOR + 4)),
    ("ceph_bluestore", b"bluestore block device", (0,))]
# How many bytes tell: none has more.
TOLD = 32
# Those of the last sector whose bytes are too short to tell, with the byte at which they are, and the sum that tells.
SUMMED: List[Tuple[str, bytes, int, Callable[[bytes], bool]]] = [
    ("via_raid_member", b"\x55\xaa", 0, lambda sector: sum(sector[:50]) & 0xFF == sector[50]),
    ("jmicron_raid_member", b"JM", 0, lambda sector: sum(struct.unpack_from("<64H", sector)) & 0xFFFF in (0, 1)),
    ("silicon_medley_raid_member", b"\0\0\0\x2f", 0x60, lambda it: not sum(struct.unpack_from("<160H", it)) & 0xFFFF)]
# What others find: all members of what isn't md, and these.
MEMBER, FOLLOWED = "_raid_member", "linux_raid_member"
OTHERS = ("DM_integrity", "DM_verity_hash", "DM_snapshot_cow", "LVM1_member", "bcache", "ceph_bluestore", "drbd",
          "drbdmanage_control_volume", "stratis", "ubi", "vdo", "VMFS_volume_member", "zfs_member", "BitLocker",
          "cs_fvault2")


def is_foreign(kind: str) -> bool:
    """Whether libblkid calls so what has a device for itself and isn't followed here."""
    return kind in OTHERS or kind.endswith(MEMBER) and kind != FOLLOWED


def signatures_in(image: Readable) -> List[Signature]:
    """The signatures that are looked for here."""
    size, read = image.size // SECTOR * SECTOR, functools.lru_cache(None)(lambda at: image.read(at, TOLD))
    places = ((kind, magic, at if at >= 0 else size + at) for kind, magic, places in KNOWN for at in places)
    found = [Signature(kind, at) for kind, magic, at in places if at >= 0 and read(at).startswith(magic)]
    last = image.read(size - SECTOR, SECTOR) if size > SECTOR else b""
    found += [Signature(kind, size - SECTOR + at) for kind, magic, at, is_summed in SUMMED
              if last.startswith(magic, at) and len(last) == SECTOR and is_summed(last)]
    is_bcache = image.read(BCACHE_AT - 16, 16 + len(BCACHE)).startswith(BCACHE_SECTOR)
    return found + [Signature("bcache", BCACHE_AT)] * (is_bcache and image.read(BCACHE_AT, len(BCACHE)) == BCACHE)


def asked_of(path: str) -> List[Signature]:
    """The signatures that wipefs finds on a disk, if it is there and can say them."""
    try:
        printed, _, status = program.ask([program.found("wipefs"), "--no-act", "--json", "--", path])
        rows = json.loads(printed, strict=False)["signatures"] if status == 0 and printed.strip() else []
        found = [Signature(str(row["type"]), int(row["offset"], 0)) for row in rows]
    except (Refusal, ValueError, KeyError, TypeError):
        return []
    return [each for each in found if is_foreign(each.kind)]


@functools.lru_cache(None)
def named_by_blkid(path: str, start: int, size: int) -> Dict[str, str]:
    """What blkid says of some bytes of a disk, if it is there: a TYPE, or the PTTYPE of a partition table."""
    words = ["-p", "-o", "export", "-O", str(start), "-S", str(size), "--", path]
    try:
        printed, _, _ = program.ask([program.found("blkid"), *words])
    except Refusal:
        return {}
    return {name: value for name, _, value in (line.partition("=") for line in printed.splitlines())}
