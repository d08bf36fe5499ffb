"""Guests: what each of them tries, its disks, and how QEMU runs it."""

import json
import os
import re
import struct
import subprocess
import zlib

import tried_cuts
import tried_groups
import tried_mappings
import tried_names
import tried_snapshots
import tried_stores
import tried_tables
from image import pack
from partitions import PARTITIONS

MIB = 1 << 20
MEMORY = 3072
# How many MiB each disk has. The first one takes the results.
VIRTIO = {"vda": 256, "vdb": 192, "vdc": 192, "vdd": 64, "vde": 64}
SCSI = {"sda": 513, "sdb": 256, "sdc": 128, "sdd": 6 << 20}
NVME = {"nvme0n1": 600}
PARTITION_TYPE = 0x8E


def jobs():
    """The experiments of each guest, by part. Groups take the longest, so they are shared out to two."""
    groups = tried_groups.experiments()
    return {
        "groups": {"names": tried_names.experiments(), "groups": groups[0::2]},
        "more-groups": {"groups": groups[1::2]},
        "snapshots": {"snap": tried_snapshots.experiments()},
        "stores": {"stores": tried_stores.experiments()},
        "cuts": {"cuts": tried_cuts.experiments()},
        "mappings": {"map": tried_mappings.experiments(), "accept": tried_tables.experiments()},
    }


class Guest:
    """A guest in a folder of its own, which boots this kernel with the archive of a root and its job."""

    def __init__(self, name, job, folder, kernel, root):
        self.name, self.folder, self.kernel = name, os.path.join(folder, name), kernel
        os.makedirs(os.path.join(self.folder, "job", "guest"))
        with open(os.path.join(self.folder, "job", "guest", "job.json"), "w") as it:
            json.dump(job, it)
        pack(os.path.join(self.folder, "job"), self.path("job.gz"))
        with open(self.path("initrd.gz"), "wb") as out:
            for part in (root, self.path("job.gz")):
                with open(part, "rb") as it:
                    out.write(it.read())
        for disk, size in {**VIRTIO, **SCSI, **NVME}.items():
            with open(self.path(disk), "wb") as it:
                it.truncate(size * MIB)
                it.write(partition_table("/dev/" + disk, size * MIB // 512))

    def path(self, name):
        return os.path.join(self.folder, name)

    def run(self, qemu, minutes):
        """Runs the guest to its end, and returns in words what went wrong; nothing if all went well."""
        with open(self.path("console"), "wb") as console:
            try:
                ran = subprocess.run(qemu + self.words(), stdin=subprocess.DEVNULL, stdout=console, stderr=console,
                                     timeout=minutes * 60)
            except subprocess.TimeoutExpired:
                return "it was stopped after %d minutes" % minutes
            except OSError as why:
                return "QEMU can't be run: %s" % why
        if ran.returncode or "guest: ended with 0\n" not in self.console():
            return "QEMU ended with %d, and the console with %r" % (ran.returncode, self.console()[-500:])
        return ""

    def console(self):
        with open(self.path("console"), encoding="utf-8", errors="replace", newline="") as it:
            return it.read().replace("\r\n", "\n")

    def told(self):
        """What the guest's scripts said."""
        return re.findall(r"^guest: .*", self.console(), re.M)

    def words(self):
        """The words for QEMU after those for its processor: the machine, what is booted, and the disks."""
        words = ["-m", str(MEMORY), "-smp", "1", "-nographic", "-no-reboot", "-nodefaults", "-serial", "stdio",
                 "-kernel", self.kernel, "-initrd", self.path("initrd.gz"),
                 "-append", "console=ttyS0 rdinit=/init panic=-1 loglevel=3 no_timer_check", "-device", "virtio-scsi-pci"]
        devices = {it: "virtio-blk-pci" for it in VIRTIO}
        devices.update({it: "scsi-hd,scsi-id=%d,serial=QM0000%d" % (number, number) for number, it in enumerate(SCSI)})
        devices.update({it: "nvme,serial=nvme-0001" for it in NVME})
        for disk, device in devices.items():
            words += ["-drive", "file=%s,format=raw,if=none,id=%s,cache=unsafe" % (self.path(disk), disk),
                      "-device", "%s,drive=%s" % (device, disk)]
        return words

    def results(self):
        """What the guest wrote to its first disk."""
        with open(self.path("vda"), "rb") as it:
            size = struct.unpack("<Q", it.read(8))[0]
            return json.loads(zlib.decompress(it.read(size))) if size else {}


def partition_table(disk, length):
    """The first sector of a disk: its primary partitions, each of which ends where the next begins."""
    starts = sorted(start for on, start in PARTITIONS.values() if on == disk)
    if not starts:
        return b""
    table = bytearray(512)
    for number, (start, end) in enumerate(zip(starts, starts[1:] + [length])):
        struct.pack_into("<B3sB3sII", table, 446 + 16 * number, 0, b"\0\2\0", PARTITION_TYPE, b"\xff\xff\xff", start, end - start)
    table[510:] = b"\x55\xaa"
    return bytes(table)
