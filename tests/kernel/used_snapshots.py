"""Snapshots that were written to: the recorded runs of `snapshot_runs`, cut in two. After the first requests the stores are made
of the exceptions that the kernel wrote; what the program answers to the others from there on, by `map --paths`, has to be what it
answers to all of them in one run, which is compared with the kernel there.

Where a request before the cut departs in a known way, the kernel's stores have other chunks, and so have the answers.
"""

import collections
import struct

import answers
import snapshot_runs
import stores
from snapshot_runs import Run

MAGIC, SECTOR = 0x70416E53, 512
# The cuts after which the kernel's stores aren't the program's, as a request before did otherwise there: the run, how many
# requests came before, the departure, and the first answer that differs, which is the kernel's here.
DEPARTING = {
    # The kernel had no place for the last chunk, and its header says that the snapshot isn't valid.
    ("snap-area-cow34", 32): (stores.AREA, "error 64"),
    # It took a chunk that was written whole without a look at the origin, which fails there.
    ("snap-error-origin-whole", 1): (snapshot_runs.WHOLE, "R base 0 8, R cow 16 8"),
    ("snap-error-origin-whole", 2): (snapshot_runs.WHOLE, "W cow 17 1"),
    ("snap-error-origin-whole", 3): (snapshot_runs.WHOLE, "R base 0 8, R cow 16 8"),
    ("snap-error-origin-whole", 4): (snapshot_runs.WHOLE, "copy base 0 8 cow 24, W cow 24 1"),
    ("snap-error-origin-whole", 5): (snapshot_runs.WHOLE, "R cow 24 8, R cow 16 8"),
    # It served one chunk of the four that were written.
    ("snap-origin-not-resumed", 1): ("a snapshot made after its origin was last resumed", "R cow 16 8, R base 8 56"),
    ("snap-origin-not-resumed", 2): ("a snapshot made after its origin was last resumed", "s: 0 64 snapshot 24/128 16"),
    # It wrote to the last chunk, before the request reached the end.
    ("snap-past-the-end", 1): ("a request past the device's end", "R base 0 16, R cow 16 4"),
    ("snap-past-the-end", 2): ("a request past the device's end", "s: 0 20 snapshot 24/64 16"),
}


def jobs(folder):
    return snapshot_runs.jobs(folder)


def compare(found, program, vector):
    """Cuts a run at several places."""
    if not vector.has("answers.txt"):
        found.aside["runs that the kernel refused"] += 1
        return
    run = Run(vector)
    if any(it.kind != "P" for it in run.snapshots.values()):
        found.aside["runs of snapshots whose stores say nothing"] += 1
        return
    words = ["map", *vector.stack(program), "--status"]
    whole, count = answers.of(program, words, run.requests), len(run.requests)
    for cut in sorted({1, count // 3, count // 2, count - 2, count - 1} & set(range(1, count))):
        check_cut(found, program, run, words, whole, cut)


def check_cut(found, program, run, words, whole, cut):
    """Compares the answers after some requests, and the status at the end."""
    got = answers.of(program, [*words, "--paths", paths_of(program, run, cut)], run.requests[cut:])
    where = "%s, cut after request %d" % (run.vector.name, cut)
    ours = [", ".join(got.lines[number - cut]) for number in range(cut + 1, len(run.requests) + 1)] + got.others
    theirs = [", ".join(whole.lines[number]) for number in range(cut + 1, len(run.requests) + 1)] + whole.others
    if (run.vector.name, cut) in DEPARTING:
        departure, stated = DEPARTING[run.vector.name, cut]
        first = next(((one, other) for one, other in zip(ours, theirs) if one != other), ("", ""))
        found.departs(departure, where, first[0], stated, first[1])
    elif got.status:
        found.fail(where, got.message)
    else:
        found.same("answers after a cut", where, ours, theirs)


def paths_of(program, run, cut):
    """PATHS with images of the disks that the stores lie on, after some requests."""
    sectors = collections.defaultdict(list)
    for name, it in run.snapshots.items():
        content = store_of(run, name, cut)
        for at in range(0, len(content), SECTOR):
            if any(content[at:at + SECTOR]):
                disk, sector = run.home(it.store, at // SECTOR)
                sectors[disk].append((sector * SECTOR, content[at:at + SECTOR]))
    paths = ""
    for number, (disk, length) in enumerate(run.disks.items()):
        path = program.file("stores/%d" % number, b"")
        with open(path, "r+b") as image:
            for at, content in sectors[disk]:
                image.seek(at)
                image.write(content)
            image.truncate(length * SECTOR)
        paths += "%s %s\n" % (disk, path)
    return program.file("stores/paths", paths)


def store_of(run, name, cut):
    """The content of a snapshot's store after some requests, as the kernel wrote it."""
    it = run.snapshots[name]
    content, valid, pairs = bytearray(run.length(it.store) * SECTOR), 1, collections.OrderedDict()
    for number in range(1, cut + 1):
        for value in run.seen[number, "exception"]:
            of, index, old, new = value.split(" ")
            if of == name:
                pairs[int(index)] = int(old), int(new)
        for value in run.seen[number, "header"]:
            if value.split(" ")[0] == name:
                valid = int(value.split("valid=")[1].split(" ")[0])
    if len(content) >= 2 * it.chunk * SECTOR:
        struct.pack_into("<4I", content, 0, MAGIC, valid, 1, it.chunk)
        each = 32 * it.chunk
        for index, pair in pairs.items():
            struct.pack_into("<2Q", content, (1 + (each + 1) * (index // each)) * it.chunk * SECTOR + 16 * (index % each), *pair)
    return bytes(content)
