"""Snapshots: what each request read, wrote and copied, the kernel's exceptions and figures, and all disks at the end.

A run is compared request by request. Where one departs, the rest of the run is not compared, since the kernel's
stores and the program's then differ.
"""

import collections
import re

import answers
from vectors import in_file

# How many requests of a longer run are followed by a look at the status lines.
LOOKS = 12
PARTWAY = "a request that runs out of places partway"
WHOLE = "a first write to a whole chunk"
OVERFLOW = "the kind `PO`"
METADATA = "sectors of a store's own header and areas"

# The writes of which it is known that the kernel does otherwise: the departure, whether the write fails here, and the places
# of the chunks that it takes here.
DEPARTING = {
    ("snap-area-cow34", 32): ("the last place before an area", False, [33]),
    ("snap-error-origin-whole", 1): (WHOLE, True, []),
    ("snap-origin-not-resumed", 1): ("a snapshot made after its origin was last resumed", False, [2, 3, 4, 5]),
    ("snap-past-the-end", 1): ("a request past the device's end", True, []),
}

Snapshot = collections.namedtuple("Snapshot", "store kind chunk length")


def jobs(folder):
    return in_file(folder, "snapshots")


class Run:
    """A vector with what its sections say: requests, snapshots, and what was seen after each request."""

    def __init__(self, vector):
        self.vector, self.tables = vector, vector.tables()
        self.disks = {it.split(" ")[0]: int(it.split(" ")[1]) for it in vector.lines("disks.txt")}
        self.requests = vector.lines("requests.txt")
        self.snapshots = {name: Snapshot(lines[0][4], lines[0][5], int(lines[0][6]), int(lines[0][1]))
                          for name, lines in self.tables.items() if lines[0][2] == "snapshot"}
        self.answers = answers.values(vector.text("answers.txt"))
        self.seen = collections.defaultdict(list)
        for request, what, value in vector.rows("observed.tsv"):
            self.seen[int(request), what].append(value)
        self.kept = {}
        for name, it in self.snapshots.items():
            for sector in range(self.length(it.store) if it.kind == "P" else 0):
                self.kept[self.home(it.store, sector)] = (name, sector // it.chunk)

    def length(self, device):
        if device in self.disks:
            return self.disks[device]
        last = self.tables[device[len("/dev/mapper/"):]][-1]
        return int(last[0]) + int(last[1])

    def home(self, device, sector):
        """The disk and the sector that a sector of a store is: the device has linear and striped lines alone."""
        if device in self.disks:
            return device, sector
        lines = self.tables[device[len("/dev/mapper/"):]]
        start, _, target, *rest = next(it for it in lines if int(it[0]) <= sector < int(it[0]) + int(it[1]))
        at = sector - int(start)
        if target == "linear":
            return self.home(rest[0], int(rest[1]) + at)
        columns, chunk = int(rest[0]), int(rest[1])
        row, column = divmod(at // chunk, columns)
        return self.home(rest[2 + 2 * column], int(rest[3 + 2 * column]) + row * chunk + at % chunk)

    def is_metadata(self, name, chunk):
        """Whether a chunk of a snapshot's store is the header or an area, of which there is one for 32 * CHUNK places."""
        return chunk == 0 or (chunk - 1) % (32 * self.snapshots[name].chunk + 1) == 0


def compare(found, program, vector):
    """Maps all requests of a run, and plays them with `replay`."""
    if not vector.has("answers.txt"):
        found.aside["runs that the kernel refused"] += 1
        return
    run = Run(vector)
    words = vector.stack(program)
    got = answers.of(program, ["map"] + words, run.requests)
    if any(it.kind == "PO" for it in run.snapshots.values()):
        found.departs(OVERFLOW, vector.name, got.word(), "field", "")
    elif found.holds("texts of runs", vector.name, got.status == 0, got.message):
        if check_requests(found, run, got):
            check_status(found, program, run, words)
            check_replay(found, program, run, words)


def check_requests(found, run, got):
    """Compares the requests one after the other, and the disks after the last; whether none departed."""
    disks = answers.Disks()
    for number, request in enumerate(run.requests, 1):
        letter, device, start, _ = request.split(" ")
        lines = got.lines[number]
        answered = disks.play(number, int(start), lines)
        where = "%s, request %d, %s" % (run.vector.name, number, request)
        if letter == "R":
            found.same("reads", where, answered, run.answers[number])
        elif not check_write(found, run, number, where, answered, lines):
            found.aside["requests after one that departs"] += len(run.requests) - number
            return False
    check_disks(found, run, disks)
    return True


def check_write(found, run, number, where, answered, lines):
    """At which of its sectors a write fails, and the places of the chunks that it takes; whether it doesn't depart. A
    request of the kernel is done as a whole, or it fails as a whole."""
    fails, theirs = [it == ("error",) for it in answered], [run.seen[number, "result"] != ["ok"]] * len(answered)
    stores = [name for name, it in run.snapshots.items() if it.kind == "P"]
    taken = {name: (places(run, name, lines), taken_there(run, number, name)) for name in stores}
    if (run.vector.name, number) in DEPARTING:
        departure, is_failing, stated = DEPARTING[run.vector.name, number]
        (ours, kernels), = taken.values()
        found.departs(departure, where, (fails, ours), ([is_failing] * len(fails), stated), (theirs, kernels))
        return False
    if len(set(fails)) == 2 and any(theirs):
        found.departs(PARTWAY, where, fails, sorted(fails), theirs)
        return False
    found.same("writes", where, fails, theirs)
    for ours, kernels in taken.values():
        found.same("lists of chunks taken", where, ours, kernels)
    if not any(fails):
        check_copies(found, run, number, where, lines)
    return True


def taken_there(run, number, name):
    """The places of the chunks that the kernel took for a snapshot in a request."""
    return [int(it.split(" ")[3]) for it in run.seen[number, "exception"] if it.split(" ")[0] == name]


def places(run, name, lines):
    """The chunks of a snapshot's store into which these lines copy or fill, in their order."""
    found = []
    for line in lines:
        words = line.split(" ")
        disk, sector = (words[4], words[5]) if words[0] == "copy" else (words[2], words[3]) if words[0] == "fill" else ("", 0)
        to, chunk = run.kept.get((disk, int(sector)), ("", 0))
        if to == name and found[-1:] != [chunk]:
            found.append(chunk)
    return found


def check_copies(found, run, number, where, lines):
    """How many sectors the kernel read from each disk in a write are those that are copied from there, but for chunks
    that the request writes whole, which it doesn't copy."""
    _, device, start, count = run.requests[number - 1].split(" ")
    copied, whole = copies(run.snapshots.get(device), int(start), int(start) + int(count), lines)
    theirs = collections.Counter()
    for value in run.seen[number, "io"]:
        disk, _, read, _, _ = value.split(" ")
        theirs[disk] += int(read)
    ours = copied + whole
    if whole:
        found.departs(WHOLE, where, dict(ours), dict(ours), dict(+theirs))
    found.same("numbers of sectors copied", where, dict(copied), dict(+theirs))


def copies(snapshot, start, end, lines):
    """The numbers of sectors copied from each disk: of chunks that a write to `snapshot`, from `start` to before `end`,
    covers in part, and of those that it writes whole."""
    parts, whole = collections.Counter(), collections.Counter()
    at = start
    for line in lines:
        words = line.split(" ")
        if words[0] == "copy":
            first = at - at % snapshot.chunk if snapshot else 0
            is_whole = snapshot and start <= first and first + snapshot.chunk <= end
            (whole if is_whole else parts)[words[1]] += int(words[3])
        elif words[0] != "fill":
            at += int(words[-1])
    return parts, whole


def check_disks(found, run, disks):
    """Every sector of every disk after the last request; a store's own metadata isn't written by the program."""
    wrong = []
    for line in run.vector.lines("final.txt"):
        place, value = line.split(" = ")
        disk, start, count = place.split(" ")
        for at, theirs in enumerate(answers.spread(value.split(" "), int(count)), int(start)):
            name, chunk = run.kept.get((disk, at), ("", 0))
            if name and run.is_metadata(name, chunk):
                found.aside[METADATA] += 1
                theirs = ("old", disk, at)
            elif disks.at(disk, at) == theirs:
                found.agreed["sectors of disks at the end"] += 1
            if disks.at(disk, at) != theirs:
                wrong.append("sector %d of %s has %s, and not %s" % (at, disk, disks.at(disk, at), theirs))
    if wrong:
        found.fail(run.vector.name, "%d sectors at the end, the first: %s" % (len(wrong), wrong[0]))


def check_status(found, program, run, words):
    """The status lines after some of the requests, as each of them needs a run of its own."""
    theirs = collections.defaultdict(list)
    for line in run.vector.lines("status-each.txt"):
        number, _, status = line.partition("\t")
        theirs[int(number)].append(status)
    count = len(run.requests)
    for number in sorted({max(1, count * it // LOOKS) for it in range(1, LOOKS + 1)}):
        got = answers.of(program, ["map", "--status"] + words, run.requests[:number])
        where = "%s, the status after request %d" % (run.vector.name, number)
        found.same("status lines", where, sorted(got.others), sorted(theirs[number]))


def check_replay(found, program, run, words):
    """What `replay` says of each read, where the stack is tidy and all requests are to top devices."""
    outcome = program.run(["replay"] + words, given="".join(it + "\n" for it in run.requests))
    message = outcome.err.decode().strip()
    if re.fullmatch(r"dmremap: (replay: untidy|request \d+: not top)", message):
        found.aside["runs that are no replay"] += 1
        return
    ours = answers.values(outcome.out.decode())
    if found.holds("replays", run.vector.name, outcome.status == 0, message):
        for number, request in enumerate(run.requests, 1):
            if request.startswith("R"):
                where = "%s, request %d of a replay" % (run.vector.name, number)
                found.same("reads replayed", where, ours[number], run.answers[number])
