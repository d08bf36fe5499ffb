"""What sectors hold, and the bytes that `read` gives of a device, against what a kernel read there."""

import itertools
import struct

SECTOR, ERROR = 512, ("error",)
READS = "runs of `read`"


def content_of(value):
    """What a sector holds that has this value; of metadata the part that changed."""
    if value[0] == "meta":
        return struct.pack("<%dI" % (len(value) - 2), *map(int, value[2:]))
    if value[0] == "zero":
        return bytes(SECTOR)
    words = ["OLD" if value[0] == "old" else "NEW", *map(str, value[1:])]
    return ("%s\n" % " ".join(words)).encode().ljust(SECTOR, b".")


def check_read(found, program, words, where, device, start, values):
    """Reads the sectors of a device from `start` on, which have these values; after an error, from the next one on."""
    while values:
        wanted = [content_of(it) for it in itertools.takewhile(lambda it: it != ERROR, values)]
        at = start + len(wanted)
        theirs = (0, "", []) if len(wanted) == len(values) else (7, "dmremap: device: error at %d" % at, [])
        got = program.run(["read", *words, device, "--from", str(start), "--count", str(len(values))])
        ours = [got.out[it:it + SECTOR] for it in range(0, len(got.out), SECTOR)]
        wrong = [start + it for it, (one, other) in enumerate(itertools.zip_longest(ours, wanted)) if one != other]
        found.same(READS, "%s, from sector %d" % (where, start), (got.status, got.err.decode().strip(), wrong), theirs)
        values, start = values[len(wanted) + 1:], at + 1
