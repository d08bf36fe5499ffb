"""Sources that somebody made to be hard, in every format: each is answered within bounds of time and
memory. The bounds are wide, since machines differ, and yet far below what a quadratic check or a deep
recursion would take. Small texts that are only wrong are rows of the modules of their formats."""

import resource

import lvm_texts

MIB = 1048576
SECONDS = 10
MEMORY = 256 << 20
ZERO_LINES = "".join("a: %d 1 zero\n" % it for it in range(65537))
CHUNKS = 65536
ORIGIN = "o: 0 {0} snapshot-origin base\ns: 0 {0} snapshot base c N 1\nt: 0 {0} snapshot base d N 1\n".format(CHUNKS)


def row(count, last, form):
    """Devices d1, d2, .. of which each lies over the next, and the last over this."""
    below = ["/dev/mapper/d%d" % it for it in range(2, count + 1)] + [last]
    return "".join(form % (it, lower) for it, lower in enumerate(below, 1))


def halves(levels):
    """Devices d1, d2, .. of which each has stripes over both halves of the one before. Three levels of
    stripes lead each sector back to its place."""
    return "d1: 0 8 linear sda 0\n" + "".join(
        "d%d: 0 8 striped 2 1 /dev/mapper/d%d 0 /dev/mapper/d%d 4\n" % (it, it - 1, it - 1)
        for it in range(2, levels + 1))


def many_names(levels):
    """Devices d1, d2, .. of which each names the one before 128 times."""
    return "d1: 0 128 linear sda 0\n" + "".join(
        "d%d: 0 128 striped 128 1%s\n" % (it, " /dev/mapper/d%d 0" % (it - 1) * 128) for it in range(2, levels + 1))


def one_hash(number):
    """Names of which all have one hash. The first 16 bytes take the fixed seed to the 8 bytes that follow
    (found by trying some 50,000); by these it becomes 0, whatever the number is, and what follows is the same."""
    return "poHwoKYdp#GXXP3#1mG.coO=%08d" % number + "x" * 16


def named_columns(lines):
    """Stripes over the last of 1,024 disks, whose names have one hash."""
    columns = "".join(" %s 0" % one_hash(it) for it in range(896, 1024))
    return "".join("a: %d 128 striped 128 1%s\n" % (128 * it, columns) for it in range(lines))


def filled(part):
    """1 MiB of a text again and again."""
    return part * (MIB // len(part))


def group(extents, *volumes):
    """Metadata of these volumes on a physical volume of so many extents of one sector."""
    return lvm_texts.HEAD + lvm_texts.group("vg", 1, [lvm_texts.physical("pv", "/dev/sda", extents, 0, extents)], volumes)


def volumes(count):
    return group(1, *(lvm_texts.volume("v%d" % it, lvm_texts.segment(0, 1, "zero")) for it in range(count)))


LINE, DEVICE = "d%d: 0 8 linear %s 0\n", "d%d,,,,0 8 linear %s 0;"
NAMED = "d%d: 0 8 linear /dev/mapper/d1023 0\n"

# The format, FILE, DISKS, and the message of the refusal without its beginning `dmremap: `.
REFUSED = [
    # Each line of an origin has a copy of its snapshots, of which there may be as many as lines.
    ("12,000 origins in a table, and 12,000 snapshots", "table",
     "".join("o: %d 1 snapshot-origin base\n" % it for it in range(12000))
     + "".join("s: %d 1 snapshot base cow P 8\n" % it for it in range(12000)), "base 100000\ncow 100000\n", "source: snapshot at 1"),
    ("65,537 lines", "table", ZERO_LINES, "", "source: limit at 65537"),
    ("1,025 devices", "table", "".join("d%d: 0 1 zero\n" % it for it in range(1025)), "", "source: limit at 1025"),
    ("a ring of 1,024 devices", "table", row(1024, "/dev/mapper/d1", LINE), "", "source: cycle at 1"),
    ("1,022 devices over a ring", "table", "".join(NAMED % it for it in range(1, 1023)) + LINE % (1023,
     "/dev/mapper/d1024") + NAMED % 1024, "", "source: cycle at 1023"),
    ("1,024 devices in a row", "table", row(1024, "sda", LINE), "sda 8\n", "source: deep at 1"),
    ("33 levels of 128 names", "table", many_names(33), "sda 128\n", "source: deep at 33"),
    ("too many bytes", "table", ZERO_LINES + "a" * (MIB + 1 - len(ZERO_LINES)), "", "source: long"),
    ("1 MiB of newlines", "table", filled("\n"), "", "source: syntax at 1"),
    ("1 MiB of colons", "table", filled(":"), "", "source: syntax at 1"),
    ("1 MiB of digits", "table", "a: 0 " + "9" * (MIB - 11) + " zero\n", "", "source: field at 1"),
    ("1 MiB of columns", "table", "a: 0 8 striped 2 4" + " s 0" * 262138 + "\n", "", "source: field at 1"),
    ("1 MiB of disks with a name", "table", "a: 0 8 zero\n", filled("sda 8\n"), "disks: limit at 1025"),
 ("65,537 lines", "concise", "a,,,," + ZERO_LINES[3:-1].replace("\na: ", ","), "", "source: limit at 1"),
    ("1,025 devices", "concise", ";".join("d%d,,,,0 1 zero" % it for it in range(1025)), "", "source: limit at 1025"),
    ("a ring of 1,024 devices", "concise", row(1024, "/dev/mapper/d1", DEVICE)[:-1], "", "source: cycle at 1"),
    ("1,024 devices in a row", "concise", row(1024, "sda", DEVICE)[:-1], "sda 8\n", "source: deep at 1"),
    ("too many bytes", "concise", "a,,,," + "0" * (MIB - 4), "", "source: long"),
    ("1 MiB of semicolons", "concise", filled(";"), "", "source: syntax at 1"),
    ("1 MiB of commas", "concise", filled(","), "", "source: syntax at 1"),
    ("a uuid of 1 MiB", "concise", "a," + "u" * (MIB - 15) + ",,,0 8 zero", "", "source: name at 1"),
 ("1,025 volumes", "lvm", volumes(1025), None, "source: limit at 9230"),
    ("too many bytes", "lvm", lvm_texts.HEAD + "#" * (MIB + 1 - len(lvm_texts.HEAD)), None, "source: long"),
    ("sections that are never closed", "lvm", filled("a{"), None, "source: syntax at 1"),
    ("sections inside each other", "lvm", "a{" * 349525 + "}" * 349525, None, "source: deep at 1"),
    ("braces without a key", "lvm", filled("{\n"), None, "source: syntax at 1"),
    ("lists inside each other", "lvm", "a = " + "[" * (MIB - 4), None, "source: syntax at 1"),
    ("1 MiB of quotes", "lvm", "a = " + '"' * (MIB - 5), None, "source: syntax at 1"),
    ("a string without an end", "lvm", "a = \"" + "x" * (MIB - 5), None, "source: syntax at 1"),
    ("a word of 1 MiB", "lvm", filled("a"), None, "source: syntax at 1"),
    ("a number of 1 MiB", "lvm", "a = " + "1" * (MIB - 4), None, "source: field at 1"),
    ("a list of 1 MiB", "lvm", "a = [1" + ",1" * ((MIB - 7) // 2) + "]", None, "source: field at 1"),
    ("a comment of 1 MiB", "lvm", filled("#"), None, "source: field at 1"),
    ("many keys, the last twice", "lvm", "".join("k%d = 1\n" % it for it in range(90000)) + "k0 = 1\n", None,
     "source: twice at 90001"),
    ("many stripes of no physical volume", "lvm",
     group(1, lvm_texts.volume("v", lvm_texts.striped(0, 90000, *[("pw", 0)] * 90000, size=1))), None, "source: unknown at 17"),
]

# What is read: the format, FILE, DISKS, the requests and the output.
TAKEN = [
    ("65,536 lines", "table", ZERO_LINES[:ZERO_LINES.index("a: 65536")], "", "R a 0 65536\n", "1 zero 65536\n"),
    ("32 levels of stripes", "table", halves(32), "sda 8\n", "R d31 0 8\nR d32 0 8\n",
     "1 R sda 0 8\n" + "".join("2 R sda %d 1\n" % it for it in (0, 4, 1, 5, 2, 6, 3, 7))),
    ("32 levels of 128 names", "table", many_names(32), "sda 128\n", "R d32 5 3\n", "1 R sda 0 1\n" * 3),
    ("1 MiB of names with one hash", "table", named_columns(159),
     "".join("%s 1\n" % one_hash(it) for it in range(1024)), "R a 128 1\n", "1 R %s 0 1\n" % one_hash(896)),
    ("all places", "table", "s: 0 64 snapshot base cow P 1\n", "base 64\ncow 4325378\n", "W s 0 1\n",
     "1 copy base 0 1 cow 2\n1 W cow 2 1\n"),
    ("an origin that one of two snapshots has taken", "table", ORIGIN,
     "".join("%s %d\n" % (it, CHUNKS) for it in ("base", "c", "d")), "W s 0 %d\nW o 0 %d\n" % (CHUNKS, CHUNKS),
     "".join("1 copy base %d 1 c %d\n1 W c %d 1\n" % (it, it, it) for it in range(CHUNKS))
     + "".join("2 copy base %d 1 d %d\n2 W base %d 1\n" % (it, it, it) for it in range(CHUNKS))),
    ("64 snapshots that are lost", "table", "o: 0 {0} snapshot-origin base\n".format(MIB)
     + "".join("s%d: 0 %d snapshot base c%d N 1\n" % (it, MIB, it) for it in range(64)),
     "base %d\n" % MIB + "".join("c%d 1\n" % it for it in range(64)), "W o 0 %d\n" % MIB * 200,
     "".join("1 copy base 0 1 c%d 0\n" % it for it in range(64))
     + "".join("%d W base 0 %d\n" % (it, MIB) for it in range(1, 201))),
    ("1,024 volumes", "lvm", volumes(1024), None, "R vg-v1023 0 1\n", "1 zero 1\n"),
]

# A snapshot on one disk with its store, of which each chunk is copied for one sector, and which is then read.
COPIES = 64
COPIED = [(it, 1024 * (it - 1)) for it in range(1, COPIES + 1)]
READS = range(COPIES + 1, COPIES + 9)

# What is replayed: the format, FILE, DISKS, the requests and the output.
REPLAYED = [
    ("chunks copied within a disk", "table", "b: 0 {0} linear sda 0\nc: 0 {0} linear sda {0}\n"
     "s: 0 {0} snapshot /dev/mapper/b /dev/mapper/c N 1024\n".format(1024 * COPIES), "sda %d\n" % (2048 * COPIES),
     "".join("W s %d 1\n" % start for _, start in COPIED) + "R s 0 %d\n" % (1024 * COPIES) * len(READS),
     "".join("%d wrote %d %d 1\n" % (it, it, start) for it, start in COPIED)
     + "".join("%d wrote %d %d 1\n%d old sda %d 1023\n" % (read, it, start, read, start + 1)
               for read in READS for it, start in COPIED)),
    ("1,048,576 sectors apart", "table", "a: 0 %d striped 128 1%s\n" % (
        MIB, "".join(" base %d" % (MIB // 128 * it) for it in range(128))), "base %d\n" % MIB,
     "W a 0 {0}\nR a 0 {0}\n".format(MIB), "1 wrote 1 0 {0}\n2 wrote 1 0 {0}\n".format(MIB)),
    ("100,000 chunks of a sector", "table", "s: 0 100000 snapshot base cow P 1\n", "base 100000\ncow 200000\n",
     "W s 0 100000\nR s 0 100000\n", "1 wrote 1 0 100000\n2 wrote 1 0 100000\n"),
]


def test_rows(tally, program):
    for name, form, source, disks, message in REFUSED:
        got = bounded(program, form, source, disks, "R a 0 1\n")
        tally.same("%s, in the format %s" % (name, form), got, 1, "", "dmremap: %s\n" % message)
    for name, form, source, disks, requests, output in TAKEN:
        tally.same("%s, in the format %s" % (name, form), bounded(program, form, source, disks, requests), 0, output)
    for name, form, source, disks, requests, output in REPLAYED:
        tally.same("%s, replayed" % name, bounded(program, form, source, disks, requests, "replay"), 0, output)


def bounded(program, form, source, disks, requests, command="map"):
    """Maps or replays requests within the bounds; a run that passes the one of time ends by a signal, and one that
    passes the other with status 6."""
    files = [program.file("hostile/source", source)]
    if disks is not None:
        files.append(program.file("hostile/disks", disks))
    return program.run([command, form, *files], given=requests, before=bind)


def bind():
    resource.setrlimit(resource.RLIMIT_CPU, (SECONDS, SECONDS))
    resource.setrlimit(resource.RLIMIT_AS, (MEMORY, MEMORY))
