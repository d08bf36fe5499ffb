"""Power cuts: what the program reads, by `map --paths`, from the disks of a real kernel as they are after each of their writes.

Each sector has to read what it read after the write before, or what a request in flight writes there, or an error if a store
is marked as lost; and what a kernel reads that loads the stack from the same disks, where one did. Before each flush of a
disk, all of them may lose some of what they didn't flush: then a sector has to read what it read at some time before.
"""

import os
import random
import struct

import answers
import snapshot_runs
import stores
from contents import SECTOR, check_read, content_of
from vectors import end_of, in_file

MAGIC = 0x70416E53
AREA, OTHERS = stores.AREA, "other lists and chunk lengths"
GAP = "dmremap: store s: gap"
# Stores that the kernel takes or refuses otherwise, after so many writes: the departure, and what the program says.
DEPARTING = {
    # A list that fills the last area, behind which there is no room for another. The kernel refuses it.
    ("cut-store-full-area", 2): (AREA, "taken"),
    # It loads all of these. The first has another chunk length in its header than in the table. The others were written by
    # hand into the first sector of an area that nobody had cleared.
    ("cut-store-header-chunk", 2): (OTHERS, "dmremap: store s: chunk"),
    ("cut-store-order", 2): (OTHERS, GAP),
    ("cut-store-past-store", 2): (OTHERS, GAP),
    ("cut-store-range", 2): (OTHERS, GAP),
    ("cut-store-again", 2): (OTHERS, GAP),
}
# The same where one disk of a new store's list is cleared, and not yet the other.
HALF_CLEARED = OTHERS, "dmremap: store s: order"


def jobs(folder):
    return in_file(folder, "cuts")


def compare(found, program, vector):
    """Plays what happened, and reads all devices at the start, after each write of a disk, and with losses before each flush."""
    cut, dice = Cut(program, vector), random.Random(vector.name)
    reading = cut.read(program, cut.now)
    check(found, cut, reading)
    for line in vector.lines("events.txt"):
        event, *changes = [it.split(" ") for it in line.split("; ")]
        if event[0] == "flush" and cut.begun:
            check_losses(found, program, cut, dice)
        cut.play(event, changes)
        if event[0] == "write":
            reading = cut.read(program, cut.now)
            check(found, cut, reading)
        elif event[0] == "look":
            check_look(found, program, cut, reading)
    cut.close()


def check(found, cut, reading):
    """Whether each device reads what may be there. A store that was written by hand, or isn't made yet, may be refused."""
    if cut.requests and ("refused" not in reading or cut.begun):
        for top in cut.tops:
            found.same("devices after a cut", cut.where(top), cut.wrong(top, reading.get(top, [])), [])


def check_look(found, program, cut, reading):
    """Compares what the program reads with what the kernel read, by its map and byte for byte."""
    ours, theirs = ("refused" if "refused" in it else "taken" for it in (reading, cut.seen))
    departing = DEPARTING.get((cut.vector.name, cut.writes))
    if cut.requests and not cut.begun and theirs == "taken" != ours:
        departing = HALF_CLEARED
    if departing:
        departure, said = departing
        found.departs(departure, cut.where(""), reading.get("refused", "taken"), said, theirs)
    elif found.same("stacks that a kernel loads or refuses", cut.where(""), ours, theirs) and ours == "taken":
        for what, values in cut.seen.items():
            found.same("devices and status lines that a kernel read", cut.where(what), reading[what], values)
            if what in cut.tops:
                check_read(found, program, [*cut.words, "--paths", cut.now.paths], cut.where(what), what, 0, values)


def check_losses(found, program, cut, dice):
    """Reads all devices where each sector that wasn't flushed is lost or not. A snapshot that was lost may then be valid, and of
    an area of a list a later sector may be there and an earlier one not."""
    kept = [it for write in cut.pending for it in write if dice.random() < 0.5]
    before = [cut.flushed.get(*it[:2]) for it in kept]
    for it in kept:
        cut.flushed.put(*it)
    reading, lost = cut.read(program, cut.flushed), cut.lost(cut.flushed)
    for it in reversed(before):
        cut.flushed.put(*it)
    if cut.lost(cut.now) - lost:
        found.aside["cuts that lost the header of a lost snapshot"] += 1
        return
    if reading.get("refused", "").endswith(": gap"):
        found.aside["cuts that lost a sector of a list, and not one after it in its area"] += 1
        return
    for top in cut.tops:
        found.same("devices after a cut with losses", cut.where(top), cut.never(top, reading.get(top, []), lost), [])


class Disks:
    """Disks, as files for the program and as the value of each sector."""

    def __init__(self, program, name, lengths, heads):
        """`heads` are the first sectors of stores, which begin with zeros."""
        self.played, self.files, paths = answers.Disks(), {}, ""
        for disk, length in lengths.items():
            values = [("zero",) if (disk, it) in heads else ("old", disk, it) for it in range(length)]
            content = b"".join(map(content_of, values))
            path = program.file(os.path.join(name, disk), content)
            self.files[disk] = os.open(path, os.O_RDWR)
            paths += "%s %s\n" % (disk, path)
        self.paths = program.file(name + ".paths", paths)

    def close(self):
        for it in self.files.values():
            os.close(it)

    def get(self, disk, sector):
        return disk, sector, self.played.at(disk, sector), os.pread(self.files[disk], SECTOR, sector * SECTOR)

    def put(self, disk, sector, value, content):
        self.played.values[disk, sector] = value
        os.pwrite(self.files[disk], content, sector * SECTOR)


class Cut(snapshot_runs.Run):
    """A stack and its disks after some writes, with all of them and with those that were flushed, and what the kernel read of
    it last. `pending` has the writes that weren't flushed.

    Of each device, `rows` has what each sector read last, or what a request that ended well wrote there, and `ever` all that it
    ever had so. `open` has the devices of the requests that were begun and didn't end well."""

    def __init__(self, program, vector):
        super().__init__(vector)
        named = {word for lines in self.tables.values() for line in lines for word in line}
        self.tops = [it for it in self.tables if "/dev/mapper/" + it not in named]
        self.words, self.begun, self.writes, self.pending = vector.stack(program), not self.requests, 0, []
        heads = {self.home(it.store, 0) for it in self.snapshots.values()}
        self.now, self.flushed = (Disks(program, it, self.disks, heads) for it in ("now", "flushed"))
        self.rows, self.ever, self.open, self.seen = {}, {}, {}, {}

    def close(self):
        for it in (self.now, self.flushed):
            it.close()

    def where(self, what):
        return "%s, after %d writes, %s" % (self.vector.name, self.writes, what)

    def read(self, program, disks):
        """What the program reads of each device and says of each snapshot, or why it refuses the stack."""
        requests = ["R %s 0 %d" % (it, end_of(self.tables[it])) for it in self.tops]
        got = answers.of(program, ["map", *self.words, "--paths", disks.paths, "--status"], requests)
        if got.status:
            return {"refused": got.message}
        reading = {it: disks.played.play(number, 0, got.lines[number]) for number, it in enumerate(self.tops, 1)}
        return {**reading, **{it.split(" ")[0]: [tuple(it.split(" ")[1:])] for it in got.others}}

    def play(self, event, changes):
        """What happened: a request began or ended, a disk was written or flushed, or the kernel read the stack."""
        what, *words = event
        if what == "begin":
            if not self.begun:
                # The kernel doesn't flush what it writes to a new store; here all that is taken to be flushed.
                self.flush(*self.disks)
            self.begun, self.open[int(words[0])] = True, self.requests[int(words[0]) - 1].split(" ")[1]
        elif what == "end" and words[1] == "ok":
            self.end(int(words[0]))
        elif what == "write":
            self.write(words[0], int(words[1]), int(words[2]), changes)
        elif what == "flush":
            self.flush(words[0])
        elif what == "look":
            self.look(changes)

    def end(self, number):
        """A request ended well, so what it wrote counts from here on."""
        device = self.open.pop(number)
        start, count = map(int, self.requests[number - 1].split(" ")[2:])
        for sector in range(start, start + count):
            self.have(device, sector, ("wrote", number, sector))

    def have(self, device, sector, value):
        self.rows[device][sector] = value
        self.ever[device][sector].add(value)

    def write(self, disk, start, count, changes):
        self.writes += 1
        for first, length, *label in changes:
            for sector, value in enumerate(values_of(label, int(length)), int(first)):
                content = content_of(value)
                if value[0] == "meta":
                    at, before = 4 * int(value[1]), self.now.get(disk, sector)[-1]
                    content = before[:at] + content + before[at + len(content):]
                self.now.put(disk, sector, value, content)
        self.pending.append([self.now.get(disk, it) for it in range(start, start + count)])

    def flush(self, *disks):
        for write in self.pending:
            for it in write if write[0][0] in disks else ():
                self.flushed.put(*it)
        self.pending = [it for it in self.pending if it[0][0] not in disks]

    def look(self, changes):
        """Brings up to date what the kernel read; of a stack that it refused there is nothing else."""
        if changes and "refused" in (changes[0][0], *self.seen):
            self.seen = {}
        for what, start, count, *label in changes:
            values, start, count = self.seen.setdefault(what, []), int(start), int(count)
            values[start:start + count] = values_of(label, count)

    def wrong(self, top, values):
        """The sectors of a device that read what can't be there; what the others read counts from here on. None may be missing."""
        row = self.rows.setdefault(top, list(values))
        self.ever.setdefault(top, [{it} for it in values])
        found = [] if len(values) == len(row) else ["missing"]
        for sector, value in enumerate(values):
            if value != row[sector]:
                if self.is_in_flight(top, sector, value):
                    self.have(top, sector, value)
                elif value != ("error",) or not self.lost(self.now):
                    found.append(sector)
        return found

    def never(self, top, values, lost):
        """The sectors of a device that read what they never had, or an error though none of these snapshots is lost."""
        found = [] if len(values) == len(self.rows[top]) else ["missing"]
        return found + [sector for sector, value in enumerate(values)
                        if value not in self.ever[top][sector] and not self.is_in_flight(top, sector, value)
                        and not (lost and value == ("error",))]

    def is_in_flight(self, top, sector, value):
        return value[0] == "wrote" and self.open.get(value[1]) == top and value[2] == sector

    def lost(self, disks):
        """The snapshots whose headers say that they are lost."""
        headers = {name: disks.get(*self.home(it.store, 0))[-1] for name, it in self.snapshots.items()}
        return {name for name, it in headers.items() if struct.unpack_from("<2I", it) == (MAGIC, 0)}


def values_of(label, count):
    """The values of so many sectors, the first of which has this label."""
    if label[0] in ("old", "wrote"):
        return answers.spread(label, count)
    return [("error",) if label[0] == "error" else tuple(label)] * count
