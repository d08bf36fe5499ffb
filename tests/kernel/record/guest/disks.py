"""Disks of exact lengths, each of whose sectors holds a label, and reads and writes of whole sectors past any cache."""

import errno
import fcntl
import mmap
import os
import time

from kernel import wait_for

SECTOR = 512
BUFFER = 4 << 20
# The ioctls of loop devices.
SET_FILE, CLEAR_FILE, GET_FREE = 0x4C00, 0x4C01, 0x4C82


def old(disk, sector):
    """What a disk holds at a sector at the start."""
    return ("OLD %s %d\n" % (disk, sector)).encode().ljust(SECTOR, b".")


def new(*words):
    """What is written to a sector."""
    return ("NEW %s\n" % " ".join(map(str, words))).encode().ljust(SECTOR, b".")


def label_of(block):
    """What a sector holds: `old DISK SECTOR`, `wrote WORDS`, `zero`, or `meta` for anything else."""
    if block == bytes(SECTOR):
        return "zero"
    # The first sector of a new store begins with zeros.
    block = block[4:] if block[:8] == b"\0\0\0\0OLD " else block
    words = block.split(b"\n", 1)[0].decode("ascii", "replace").split()
    if block[:4] == b"OLD ":
        return "old " + " ".join(words[1:])
    return "wrote " + " ".join(words[1:]) if block[:4] == b"NEW " else "meta"


class Disk:
    """A loop device over a file of so many sectors. `fresh` sectors begin with zeros; of a disk with `labels`, runs of
    sectors, only those hold one, and a blank one has none."""

    count = 0

    def __init__(self, name, length, fresh=(), labels=None, is_blank=False):
        self.name, self.length, self.fresh = name, length, fresh
        self.runs = [] if is_blank else labels or [(0, length)]
        self.is_whole = labels is None
        Disk.count += 1
        self.path = "/run/disks/%d" % Disk.count
        self.file = os.open(self.path, os.O_RDWR | os.O_CREAT)
        self.fill()
        control = os.open("/dev/loop-control", os.O_RDWR)
        self.number = fcntl.ioctl(control, GET_FREE)
        os.close(control)
        self.device = "/dev/loop%d" % self.number
        wait_for(self.device)
        self.loop = os.open(self.device, os.O_RDWR)
        fcntl.ioctl(self.loop, SET_FILE, self.file)

    def fill(self):
        """Puts the labels of the start into all sectors."""
        os.ftruncate(self.file, 0)
        os.ftruncate(self.file, self.length * SECTOR)
        for start, count in self.runs:
            os.pwrite(self.file, b"".join(old(self.name, it) for it in range(start, start + count)), start * SECTOR)
        for it in self.fresh:
            os.pwrite(self.file, (bytes(4) + old(self.name, it))[:SECTOR], it * SECTOR)

    def labels(self):
        """The label of each sector; those that were never written are left out."""
        found, at, end = {}, 0, self.length * SECTOR
        while at < end:
            try:
                at = os.lseek(self.file, at, os.SEEK_DATA)
            except OSError:
                break
            stop = min(os.lseek(self.file, at, os.SEEK_HOLE), end)
            at -= at % SECTOR
            while at < stop:
                found[at // SECTOR] = label_of(os.pread(self.file, SECTOR, at))
                at += SECTOR
        return found

    def find(self, word):
        """The sector that begins with a word, if there is one."""
        at = os.pread(self.file, self.length * SECTOR, 0).find(word)
        return at // SECTOR if at >= 0 else None

    def restore(self, sector):
        os.pwrite(self.file, old(self.name, sector), sector * SECTOR)

    def counters(self):
        """How many sectors were read and written so far."""
        with open("/sys/block/loop%d/stat" % self.number) as it:
            words = it.read().split()
        return int(words[2]), int(words[6])

    def close(self):
        for _ in range(200):
            try:
                fcntl.ioctl(self.loop, CLEAR_FILE)
                break
            except OSError:
                time.sleep(0.02)
        os.close(self.loop)
        os.close(self.file)
        os.unlink(self.path)


class Direct:
    """A device whose sectors are read and written by one system call a request, past the cache."""

    def __init__(self, path, is_written=False):
        self.device = os.open(path, (os.O_RDWR if is_written else os.O_RDONLY) | os.O_DIRECT)
        self.buffer = mmap.mmap(-1, BUFFER)

    def __enter__(self):
        return self

    def __exit__(self, *_):
        os.close(self.device)
        self.buffer.close()

    def read(self, start, count):
        with memoryview(self.buffer)[:count * SECTOR] as view:
            got = os.preadv(self.device, [view], start * SECTOR)
            if got != count * SECTOR:
                raise OSError(errno.EIO, "a short read of %d" % got)
            return bytes(view)

    def write(self, start, data):
        with memoryview(self.buffer)[:len(data)] as view:
            view[:] = data
            got = os.pwritev(self.device, [view], start * SECTOR)
        if got != len(data):
            raise OSError(errno.EIO, "a short write of %d" % got)


def length_of(path):
    """The sectors of a device."""
    device = os.open(path, os.O_RDONLY)
    try:
        return os.lseek(device, 0, os.SEEK_END) // SECTOR
    finally:
        os.close(device)


def read_whole(path, length):
    """All sectors of a device."""
    with Direct(path) as it:
        step = BUFFER // SECTOR
        return b"".join(it.read(at, min(step, length - at)) for at in range(0, length, step))


def read_each(path, start, count):
    """The label of each sector, read alone, or `error` and its name."""
    found = []
    with Direct(path) as it:
        for sector in range(start, start + count):
            try:
                found.append(label_of(it.read(sector, 1)))
            except OSError as fault:
                found.append("error " + name_of(fault))
    return found


def name_of(fault):
    return errno.errorcode.get(fault.errno, str(fault.errno))
