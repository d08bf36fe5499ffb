"""Tables that are loaded into the kernel: where sectors land, what snapshots copy, when a store is full, what is taken."""

import re
import struct
import time

from disks import SECTOR, Direct, Disk, length_of, name_of, new, read_each, read_whole
from kernel import create, new_messages, remove, run, status_of

# How long the kernel may go on with a write that was answered.
SETTLE = 0.002


class Stack:
    """The devices of an experiment, and its disks, if there are none yet. Nothing is made after the first device that the
    kernel refuses."""

    def __init__(self, experiment, disks=None):
        new_messages()
        self.own = [] if disks else [Disk(it["name"], it["len"], it.get("fresh", ()), it.get("labels"))
                                     for it in experiment["disks"]]
        self.disks = disks or {it.name: it for it in self.own}
        self.made, self.refused = [], None
        for device in experiment["devices"]:
            lines = [self.with_paths(it) for it in device["lines"]]
            status, _, said = create(device["name"], lines, device.get("ro", False))
            if status:
                self.refused = [device["name"], said.strip().split("\n")[0]]
                break
            self.made.append(device["name"])
        if not self.refused and not experiment.get("no_resume"):
            self.resume_origins(experiment["devices"])

    def __enter__(self):
        return self

    def __exit__(self, *_):
        for it in reversed(self.made):
            remove(it)
        for it in self.own:
            it.close()

    def with_paths(self, line):
        """A line with the paths of disks in place of their names."""
        return re.sub(r"\S+", lambda it: self.disks[it[0]].device if it[0] in self.disks and it.start() else it[0], line)

    def resume_origins(self, devices):
        """The kernel cuts writes of an origin at the least chunk of the snapshots that it had when it was resumed, and
        serves only the first chunk of a longer one; LVM resumes origins after their snapshots."""
        for it in devices:
            if it["lines"][0].split()[2] == "snapshot-origin":
                run(["dmsetup", "suspend", it["name"]])
                run(["dmsetup", "resume", it["name"]])

    def result(self):
        """What every experiment says: whether a device was refused, the tables, and the numbers of disks."""
        return {"refused": self.refused, "table": run(["dmsetup", "table"])[1], "concise": run(["dmsetup", "table", "--concise"])[1],
                "numbers": {"7:%d" % it.number: name for name, it in self.disks.items()}}


def run_table(experiment):
    with Stack(experiment) as stack:
        return dict(stack.result(), messages=new_messages())


def run_mapping(experiment):
    """Reads and writes each sector of the devices that are looked at."""
    with Stack(experiment) as stack:
        result = stack.result()
        if not stack.refused:
            result["reads"] = {it["name"]: read_runs(it) for it in experiment["tops"]}
            result["writes"] = {it["name"]: write_runs(it, stack.disks.values()) for it in experiment["tops"]}
        return dict(result, messages=new_messages())


def path_of(device):
    return "/dev/mapper/" + device


def read_runs(top):
    return [[start + at, label] for start, count in top["runs"]
            for at, label in enumerate(read_each(path_of(top["name"]), start, count))]


def write_runs(top, disks):
    """Where each sector lands that is written, or what failed; all disks are looked at afterwards."""
    try:
        device = Direct(path_of(top["name"]), is_written=True)
    except OSError as fault:
        return "open: " + name_of(fault)
    with device:
        found = {sector: write_one(device, sector) for start, count in top["runs"] for sector in range(start, start + count)}
        for disk in disks:
            for at, label in disk.labels().items():
                if label.startswith("wrote "):
                    sector = int(label.split()[1])
                    found[sector] = [it for it in found[sector] if it != "drop"] + ["%s %d" % (disk.name, at)]
            disk.fill()
        # Of two sectors that share a place, one label was written over; each such sector is looked for by itself.
        for sector in [it for it in found if found[it] == ["drop"]]:
            write_one(device, sector)
            found[sector] = [place for disk in disks if disk.is_whole for place in taken_back(disk, sector)] or ["drop"]
    return sorted(found.items())


def write_one(device, sector):
    try:
        device.write(sector, new(sector))
        return ["drop"]
    except OSError as fault:
        return ["error " + name_of(fault)]


def taken_back(disk, sector):
    """Where the label of a sector is on a disk, which then holds what it had there."""
    at = disk.find(b"NEW %d\n" % sector)
    if at is None:
        return []
    disk.restore(at)
    return ["%s %d" % (disk.name, at)]


class Store:
    """A persistent store, whose header and exceptions are read past the snapshot."""

    def __init__(self, path, chunk):
        self.path, self.chunk, self.length, self.seen = path, chunk, length_of(path), 0

    def read(self):
        """The header, and the exceptions: the old and the new chunk of each, area after area up to the first that is free."""
        content = read_whole(self.path, self.length)
        magic, valid, version, chunk = struct.unpack_from("<4I", content)
        header = {"magic": magic, "valid": valid, "version": version, "chunk_size": chunk}
        found, entries, size = [], 32 * self.chunk, self.chunk * SECTOR
        area = size
        while area + size <= len(content):
            for it in range(entries):
                old_chunk, new_chunk = struct.unpack_from("<2Q", content, area + 16 * it)
                if not new_chunk:
                    return header, found
                found.append([old_chunk, new_chunk])
            area += (entries + 1) * size
        return header, found

    def look(self):
        """The header, and the exceptions since the last look."""
        header, found = self.read()
        before, self.seen = self.seen, len(found)
        return header, found[before:]


def run_requests(experiment):
    """Carries out one request after the other, and looks at everything after each."""
    with Stack(experiment) as stack:
        result = dict(stack.result(), messages=new_messages())
        if stack.refused:
            return result
        tables = {it["name"]: it["lines"][0].split() for it in experiment["devices"]}
        snapshots = [name for name, words in tables.items() if words[2] == "snapshot"]
        stores = {}
        for name in snapshots:
            _, _, _, _, store, kind, chunk = tables[name]
            if kind[0] == "P":
                stores[name] = Store(stack.disks[store].device if store in stack.disks else store, int(chunk))
        labels = {name: it.labels() for name, it in stack.disks.items()}
        result["steps"] = [step(number, request, stack.disks, stores, snapshots, labels)
                           for number, request in enumerate(experiment["requests"], 1)]
        result["final"] = {name: sorted(it.labels().items()) for name, it in stack.disks.items()}
        return result


def step(number, request, disks, stores, snapshots, labels):
    """A request and what came of it; `labels` are those of all disks before it, and are brought up to date."""
    letter, device, start, count = request
    before = {name: it.counters() for name, it in disks.items()}
    if letter == "R":
        found = {"labels": read_each(path_of(device), start, count)}
    else:
        found = {"result": write(device, start, [new(number, it) for it in range(start, start + count)])}
        time.sleep(SETTLE)
    after = {name: it.counters() for name, it in disks.items()}
    found["io"] = {name: [after[name][it] - before[name][it] for it in (0, 1)] for name in disks if after[name] != before[name]}
    if letter == "W":
        found["changed"] = []
        for name, disk in disks.items():
            now = disk.labels()
            found["changed"] += [[name, it, now[it]] for it in sorted(now) if now[it] != labels[name].get(it)]
            labels[name] = now
        looks = {name: it.look() for name, it in stores.items()}
        found["header"] = {name: it[0] for name, it in looks.items()}
        found["taken"] = {name: it[1] for name, it in looks.items() if it[1]}
    found["status"] = {it: status_of(it) for it in snapshots}
    found["messages"] = new_messages()
    return found


def write(device, start, sectors):
    """How a write of some sectors ends: `ok`, the name of the fault, or `open` and its name."""
    try:
        opened = Direct(path_of(device), is_written=True)
    except OSError as fault:
        return "open " + name_of(fault)
    with opened:
        try:
            opened.write(start, b"".join(sectors))
            return "ok"
        except OSError as fault:
            return name_of(fault)


def run_store(experiment):
    """Writes to chunk after chunk of a snapshot until the first write that fails."""
    chunk, chunks = experiment["chunk"], experiment["chunks"]
    new_messages()
    origin, cow = Disk("base", chunks * chunk), Disk("cow", experiment["len"], fresh=(0,))
    status, _, said = create("s", ["0 %d snapshot %s %s P %d" % (chunks * chunk, origin.device, cow.device, chunk)])
    if status:
        result = {"created": said.strip().split("\n")[0], "messages": new_messages()}
    else:
        result = fill(chunk, chunks, 1 if experiment["how"] == "first" else chunk)
        header, taken = Store(cow.device, chunk).read()
        result.update(created="ok", valid=header["valid"], places=[it[1] for it in taken], end=status_of("s"),
                      read=read_each(path_of("s"), 0, 1)[0], messages=new_messages())
        remove("s")
    origin.close()
    cow.close()
    return result


def fill(chunk, chunks, count):
    """How many writes of the first sectors of a chunk were done, the status after the last, and the one that failed."""
    result = {"done": 0, "last": None, "failed": None}
    with Direct(path_of("s"), is_written=True) as device:
        for it in range(chunks):
            try:
                device.write(it * chunk, b"".join(new(1, it * chunk + at) for at in range(count)))
            except OSError as fault:
                result["failed"] = "%d %s" % (it, name_of(fault))
                break
            result["done"] += 1
            result["last"] = status_of("s")
    return result
