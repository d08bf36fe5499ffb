"""Runs in the guest: each part's results go, as compressed JSON, to the first virtio disk, which was made for them."""

import json
import os
import struct
import time
import traceback
import zlib

import cuts
import groups
import names
import stacks
from kernel import load_module, run, wait_for

# The first one is asked for by others, which don't say that they depend on it.
MODULES = ("crc32c_generic", "virtio_pci", "virtio_blk", "virtio_scsi", "sd_mod", "nvme", "loop", "nbd", "dm_mod", "dm_snapshot",
           "dm_bufio", "dm_zero")
SCSI_DISKS = ("sda", "sdb", "sdc", "sdd")
# How many seconds the other disks may take to come.
SETTLE = 1
PARTS = {"map": stacks.run_mapping, "snap": stacks.run_requests, "stores": stacks.run_store, "accept": stacks.run_table,
         "cuts": cuts.run_cuts, "groups": groups.run_group}
# The parts whose results are saved after each experiment.
SLOW = ("cuts", "groups")

results = {}


def main():
    for it in MODULES:
        load_module(it)
    find_scsi_disks()
    results["versions"] = versions()
    with open("/guest/job.json") as it:
        job = json.load(it)
    for part, experiments in job.items():
        begun = time.time()
        if part == "names":
            results[part] = names.run_names(experiments)
        else:
            run_part(part, experiments)
        print("guest: %s: %d, %.0f s" % (part, len(experiments), time.time() - begun))
        save()


def find_scsi_disks():
    """The disks are looked for one at a time, so that each has the same name in each run."""
    for number, name in enumerate(SCSI_DISKS):
        with open("/sys/class/scsi_host/host0/scan", "w") as it:
            it.write("0 %d 0" % number)
        wait_for("/dev/" + name)
    time.sleep(SETTLE)


def versions():
    return {"kernel": " ".join(os.uname()[it] for it in (0, 2, 3, 4)), "dmsetup": run(["dmsetup", "version"])[1],
            "targets": run(["dmsetup", "targets"])[1], "lvm": run(["lvm", "version"])[1]}


def run_part(part, experiments):
    """Runs each experiment of a part; one that fails keeps no other from being run."""
    out = results[part] = {}
    for it in experiments:
        try:
            out[it["name"]] = PARTS[part](it)
        except Exception:
            out[it["name"]] = {"fault": traceback.format_exc()}
            print("guest: %s %s: %s" % (part, it["name"], traceback.format_exc()))
        if part in SLOW:
            save()


def save():
    data = zlib.compress(json.dumps(results).encode())
    with open("/dev/vda", "r+b") as it:
        it.write(struct.pack("<Q", len(data)) + data)
        it.flush()
        os.fsync(it.fileno())


main()
