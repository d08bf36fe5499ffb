"""The image of a disk, or the disk itself, as bytes at their places."""

import contextlib
import os
import stat
import struct
from typing import BinaryIO, Optional, Protocol

from dmremap_tools.base import Refusal, streams

# What the images of virtual machines begin with that aren't the bytes of a disk in their order.
FORMS = {b"QFI\xfb": "qcow2", b"KDMV": "VMDK", b"vhdxfile": "VHDX"}
LONGEST_MAGIC = 8
# What is read of an image: the last magic of those below ends there.
READ = 68 << 10
# The first label of ZFS has a list of names and values, of which the first is its version.
ZFS, ZFS_AT, ZFS_MAGIC = "zfs", 0x4014, b"\0\0\0\x07version"
# Bytes at a place by which a file system is known.
MAGICS = [
    ("luks", 0, b"LUKS\xba\xbe"), ("xfs", 0, b"XFSB"), ("btrfs", 0x10040, b"_BHRfS_M"),
    ("f2fs", 0x400, b"\x10\x20\xf5\xf2"), ("ntfs", 3, b"NTFS    "), ("exfat", 3, b"EXFAT   "),
    ("bitlocker", 3, b"-FVE-FS-"), ("squashfs", 0, b"hsqs"), ("reiserfs", 0x10034, b"ReIsEr"), ("jfs", 0x8000, b"JFS1"),
    ("bcachefs", 0x1018, b"\xc6\x85\x73\xf6\x66\xce\x90\xa9\xd9\x6a\x60\xcf\x80\x3d\xf7\xef"),
    ("vfat", 0x52, b"FAT32   "), ("vfat", 0x36, b"FAT1"), ("erofs", 0x400, b"\xe2\xe1\xf5\xe0"),
    ("nilfs2", 0x406, b"\x34\x34"), ("lvm2", 0x200, b"LABELONE"), (ZFS, ZFS_AT, ZFS_MAGIC)]
# A swap area says what it is at the end of its first page.
PAGES, SWAPS = (4096, 8192, 16384, 32768, 65536), (b"SWAPSPACE2", b"SWAP-SPACE")
# While the memory of a sleeping machine is in it, in place of that stands how it was put there; or that begins it.
ASLEEP, ASLEEP_FIRST = (b"S1SUSPEND", b"S2SUSPEND", b"ULSUSPEND", b"LINHIB0001"), b"\xed\xc3\x02\xe9\x98\x56\xe5\x0c"
EXT_AT, EXT_MAGIC = 0x400, b"\x53\xef"
# The descriptors of a disc, one every 2 KiB, whose names follow a byte, and UDF's own, which may come after iso9660's.
DISC, DISC_SECTOR, ISO, UDF = 0x8001, 0x800, b"CD001", {b"NSR02", b"NSR03"}
# The superblock of bcache says where it lies, in sectors; bcachefs once began with the same magic.
BCACHE_AT, BCACHE_SECTOR = 0x1018, b"\x08\0\0\0\0\0\0\0"
BCACHE = b"\xc6\x85\x73\xf6\x4e\x1a\x45\xca\x82\x65\xf5\x7f\x48\xba\x6d\x81"
# Where squashfs has its version, of which 4 is the one that is made now.
SQUASHFS, SQUASHFS_VERSION_AT = 4, 28
# Partition tables of other machines, by what they have at a place.
OTHER_TABLES = [("Sun", 508, b"\xda\xbe"), ("SGI", 0, b"\x0b\xe5\xa9\x41"), ("Apple", 512, b"PM\0\0"),
                ("BSD", 512, b"\x57\x45\x56\x82"), ("BSD", 64, b"\x57\x45\x56\x82")]
# Features that ext3 and ext4 have: bits of compat, incompat and ro_compat.
HAS_JOURNAL = 0x4
EXT4_INCOMPATIBLE = 0x40 | 0x80 | 0x100 | 0x200 | 0x400 | 0x1000 | 0x4000 | 0x8000 | 0x10000
EXT4_READ_ONLY = 0x8 | 0x10 | 0x20 | 0x40 | 0x400


class Readable(Protocol):
    """Bytes at their places, as readers of labels and tables take them; messages call them `path`."""

    path: str
    size: int

    def read(self, at: int, count: int) -> bytes:
        """The bytes from `at` on, fewer where they end or can't be read. Whoever asks takes care of how many."""


def length_of(file: BinaryIO, path: str) -> int:
    """The bytes of a file or a disk. Refuses what can't be read at any place, as a pipe."""
    try:
        return file.seek(0, 2)
    except OSError:
        raise Refusal(path, "no file or disk, of which each byte can be read: write what comes to a file")


def form_of(descriptor: int) -> str:
    """What is said of a file that is compressed, or of another form than a disk; nothing where it can't be read."""
    beginning = b""
    with contextlib.suppress(OSError):
        beginning = os.pread(descriptor, LONGEST_MAGIC, 0) if stat.S_ISREG(os.fstat(descriptor).st_mode) else b""
    compression = streams.compression(beginning)
    form = next((form for magic, form in FORMS.items() if beginning.startswith(magic)), "")
    if form:
        return f"it is an image of {form}: convert it with qemu-img convert -O raw"
    return f"it is compressed ({compression}): unpack it" if compression else ""


def file_system_of(image: Readable) -> Optional[str]:
    """What begins an image, or None where nothing known does or its first bytes aren't there."""
    head = image.read(0, READ)
    if len(head) < min(READ, image.size):
        return None
    if head[EXT_AT + 56:EXT_AT + 58] == EXT_MAGIC and len(head) >= EXT_AT + 0x80:
        inodes, blocks, block, compatible, incompatible, read_only = struct.unpack_from("<2L16xL64x3L", head, EXT_AT)
        if inodes and blocks and block <= 6:
            is_ext4 = incompatible & EXT4_INCOMPATIBLE or read_only & EXT4_READ_ONLY
            return "ext4" if is_ext4 else "ext3" if compatible & HAS_JOURNAL else "ext2"
    if head.startswith(ASLEEP_FIRST) or any(head.startswith(ASLEEP, page - 10) for page in PAGES):
        return "swsuspend"
    if any(head[page - 10:page] in SWAPS for page in PAGES if page <= len(head)):
        return "swap"
    if head.startswith(BCACHE, BCACHE_AT):
        return "bcache" if head.startswith(BCACHE_SECTOR, BCACHE_AT - 16) else "bcachefs"
    disc = [head[at:at + len(ISO)] for at in range(DISC, len(head), DISC_SECTOR)]
    if ISO in disc or not UDF.isdisjoint(disc):
        return "iso9660" if UDF.isdisjoint(disc) else "udf"
    found = next((name for name, at, content in MAGICS if head.startswith(content, at)), None)
    return "squashfs3" if found == "squashfs" and head[SQUASHFS_VERSION_AT] < SQUASHFS else found


def other_table_of(image: Readable) -> Optional[str]:
    """The kind of partition table that a disk has which isn't followed, or None."""
    head = image.read(0, 2 * 512)
    return next((name for name, at, content in OTHER_TABLES if head.startswith(content, at)), None)
