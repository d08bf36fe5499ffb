"""Large inputs up to their limits and one past them, many requests, how much memory they take, and a small stack."""

import os
import resource

import lvm_texts
from harness import Outcome
from streams import figure_of

BYTES = 1048576
LINES = 65536
# 65,536 lines are there within 1 MiB only if most of them are short.
ZERO_LINE = "a: %d 1 zero\n"
# How many chunks an origin has, and for how many more its store has places: all that there can be, and a few.
PLACES = ((10, 4194304), (1048576, 1052680))
# How much more memory may be touched than with a place for each chunk, as a ratio.
MOST_TOUCHED = 1.25
# How much more memory, in KiB, may be taken for 1,000 devices on 1,000 disks than for one of each.
MOST_LOADED = 5 << 9


def test_counts(tally, program):
    devices = "".join("d%d: 0 1 linear sda %d\n" % (it, it) for it in range(1024))
    disks = "".join("s%d 1\n" % it for it in range(1024))
    lines = "".join(ZERO_LINE % it for it in range(LINES))
    columns = "".join(" s%d 0" % it for it in range(128))
    each = "".join("1 R s%d 0 1\n" % it for it in range(128))
    tally.same("1,024 devices", program.map(devices, "sda 1024\n", "W d1023 0 1\n"), 0, "1 W sda 1023 1\n")
    tally.same("1,024 disks", program.map("a: 0 1 linear s1023 0\n", disks, "R a 0 1\n"), 0, "1 R s1023 0 1\n")
    tally.same("1,025 disks", program.map("", disks + "t 1\n"), 1, "", "dmremap: disks: limit at 1025\n")
    tally.same("65,536 lines", program.map(lines, "", "R a 0 65536\nR a 40000 1\n"), 0, "1 zero 65536\n2 zero 1\n")
    got = program.map(lines, "sda 150\n", "R a 65528 8\nW a 65535 2\n")
    tally.same("the last of 65,536 lines", got, 0, "1 zero 8\n2 error 2\n")
    tally.same("128 columns", program.map("a: 0 128 striped 128 1%s\n" % columns, disks, "R a 0 128\n"), 0, each)
    got = program.map("a: 0 129 striped 129 1%s s128 0\n" % columns, disks)
    tally.same("129 columns", got, 1, "", "dmremap: source: stripe at 1\n")
    # Columns of which each goes on where the one before it ends, so that the device is one piece of the disk.
    for count in (1, 64, 65, 128):
        columns = "".join(" sda %d" % (8 * it) for it in range(count))
        got = program.map("a: 0 %d striped %d 8%s\n" % (8 * count, count, columns), "sda 1024\n",
                          "R a 0 %d\n" % (8 * count))
        tally.same("%d columns side by side" % count, got, 0, "1 R sda 0 %d\n" % (8 * count))
    zeros = "".join("d%d: 0 8 zero\n" % it for it in range(1, 1025))
    tally.same("1,024 devices of zeros", program.map(zeros, "sda 150\n", "R d1024 0 8\n"), 0, "1 zero 8\n")
    most = 1 << 50
    got = program.map("a: 0 %d linear sda 0\n" % most, "sda %d\n" % most, "W a %d 1\n" % (most - 1))
    tally.same("2^50 sectors", got, 0, "1 W sda %d 1\n" % (most - 1))
    got = program.map("a: 0 %d linear sda 0\n" % most, "sda %d\n" % most, "R a 0 1048576\nR a 0 1048577\n")
    tally.same("1,048,576 sectors, and one more", got, 3, "1 R sda 0 1048576\n", "dmremap: request 2: length\n")


def test_rows(tally, program):
    """Rows of 64, 65 and more elements, in all that keeps one in memory: none of them is too long."""
    for count in (64, 65, 128):
        columns = "".join(" s%d 0" % it for it in range(count))
        table = "a: 0 %d striped %d 1%s\n" % (count, count, columns)
        disks = "".join("s%d 1\n" % it for it in range(count))
        files = [program.file("table", table), program.file("disks", disks)]
        report = "devices 1\ndisks %d\ndepth 1\ntidy\n" % count
        tally.same("check of %d columns" % count, program.run(["check", "table"] + files), 0, report)
        old = "".join("1 old s%d 0 1\n" % it for it in range(count))
        got = program.run(["replay", "table"] + files, given="R a 0 %d\n" % count)
        tally.same("replay of %d columns" % count, got, 0, old)
        got = program.run(["map", "lvm", program.file("group", group_of(count))], given="R vg-lv 0 %d\n" % count)
        tally.same("%d stripes of a volume" % count, got, 0, "".join("1 R /dev/s%d 8 1\n" % it for it in range(count)))
    stores = "".join("s%d: 0 8 snapshot sda c%d P 8\n" % (it, it) for it in range(65))
    disks = "sda 8\n" + "".join("c%d 64\n" % it for it in range(65))
    got = program.map(stores, disks, "W s64 0 1\nR s64 0 8\nR s0 0 8\n")
    tally.same("65 snapshots", got, 0, "1 copy sda 0 8 c64 16\n1 W c64 16 1\n2 R c64 16 8\n3 R sda 0 8\n")
    devices = "".join("d%d: 0 1 linear sda %d\n" % (it, it) for it in range(1024))
    files = [program.file("table", devices), program.file("disks", "sda 1024\n")]
    got = program.run(["check", "table"] + files)
    tally.same("check of 1,024 devices", got, 0, "devices 1024\ndisks 1\ndepth 1\ntidy\n")


def group_of(stripes):
    """Metadata of a volume of so many stripes, each an extent of one sector on a physical volume of its own."""
    physicals = [lvm_texts.physical("pv%d" % it, "/dev/s%d" % it, 9, 8, 1) for it in range(stripes)]
    volume = lvm_texts.volume("lv", lvm_texts.striped(0, stripes, *(("pv%d" % it, 0) for it in range(stripes)), size=1))
    return lvm_texts.HEAD + lvm_texts.group("vg", 1, physicals, [volume])


def test_sizes(tally, program):
    lines = [ZERO_LINE % it for it in range(LINES)]
    left = BYTES - sum(map(len, lines))
    # A line may have one space at its end, and the name of a device up to 127 bytes.
    padded = [it[:-1] + " \n" for it in lines[:left]] + lines[left:]
    table = "".join(padded)
    tally.holds("a table of 1 MiB", len(table) == BYTES, "this module made %d bytes" % len(table))
    tally.same("1 MiB of lines", program.map(table, "", "R a 65535 1\n"), 0, "1 zero 1\n")
    # The last of many lines is on a disk whose name fills the table up to the limit, and one byte past it.
    errors = "".join("a: %d 1 error\n" % it for it in range(62330))
    for letters, status, output, message in ((55, 0, "1 R %s 0 1\n2 error 1\n", ""),
                                             (56, 1, "", "dmremap: source: long\n")):
        name = "s" * letters
        table = errors + "a: 62330 1 linear %s 0\n" % name
        tally.holds("a table of 1 MiB on a disk", len(table) == BYTES + letters - 55, "it has %d bytes" % len(table))
        got = program.map(table, name + " 1\n", "R a 62330 1\nR a 62331 1\n")
        tally.same("a table of %d bytes" % len(table), got, status, output and output % name, message)
    # A list of this size has more disks than are allowed, so a later check refuses it.
    for letters, message in ((253, "disks: limit at 1025"), (254, "disks: long")):
        disks = ("s" * 253 + " 1\n") * 4095 + "s" * letters + " 1\n"
        tally.holds("a list of 1 MiB", len(disks) == BYTES + letters - 253, "it has %d bytes" % len(disks))
        got = program.map("a: 0 100 linear sda 50\n", disks, "R a 0 100\n")
        tally.same("a list of %d bytes" % len(disks), got, 1, "", "dmremap: %s\n" % message)
    for size, message in ((BYTES, "source: text at 1"), (BYTES + 1, "source: long"), (3 * BYTES, "source: long")):
        tally.same("%d bytes as FILE" % size, program.map("\t" * size, ""), 1, "", "dmremap: %s\n" % message)
    for size, message in ((BYTES, "disks: text at 1"), (BYTES + 1, "disks: long")):
        tally.same("%d bytes as DISKS" % size, program.map("", "\t" * size), 1, "", "dmremap: %s\n" % message)


def test_many_requests(tally, program):
    number = 200000
    given = "".join("R a %d 1\n" % (it % 1000) for it in range(number))
    output = "".join("%d R sda %d 1\n" % (it + 1, it % 1000 + 24) for it in range(number))
    tally.same("200,000 requests", program.map("a: 0 1000 linear sda 24\n", "sda 1024\n", given), 0, output)


def test_memory(tally, program):
    """Under a rising limit the program doesn't start, then has too little memory, then works."""
    table = "".join("a: %d 1 linear sda %d\n" % (it, it) for it in range(20000))
    got, limit, little = Outcome(None, b"", b""), 1 << 20, []
    while got.status != 0 and limit < 1 << 28:
        got = program.map(table, "sda 20000\n", "R a 0 20000\n", before=lambda: limit_memory(limit))
        # Where not even its libraries have room, the system ends it, with 127 or by a signal.
        has_started = got.status != 127 and (got.status or 0) >= 0
        if got.status != 0 and (has_started or little):
            little.append(got)
        limit += limit >> 3
    tally.same("memory enough", got, 0, "1 R sda 0 20000\n")
    if little:
        wrong = [it for it in little if (it.status, it.out, it.err) != (6, b"", b"dmremap: memory\n")]
        tally.same("too little memory", (wrong or little)[0], 6, "", "dmremap: memory\n")
    else:
        tally.skip("status 6", "no limit here leaves room to start and too little to load")


def test_touched_memory(tally, program):
    """Of the memory that is reserved for chunks, little is touched before they are taken, and no more for more places
    than the origin has chunks."""
    requests = "".join("W s %d 1\n" % (32 * it) for it in range(10))
    answers = "".join("%d copy base %d 32 cow %d\n%d W cow %d 1\n" % (it + 1, 32 * it, 64 + 32 * it, it + 1, 64 + 32 * it)
                      for it in range(10))
    for chunks, more in PLACES:
        table, touched = "s: 0 %d snapshot base cow P 32\n" % (32 * chunks), []
        for places in (chunks, more):
            # The header, an area before each 1,024 places, and the places.
            disks = "base %d\ncow %d\n" % (32 * chunks, 32 * (1 + (places + 1023) // 1024 + places))
            size, got = memory_of(program, "VmHWM", table, disks, requests, answers)
            tally.same("ten writes to a store of %d places" % places, got, 0, answers)
            touched.append(size)
        ratio = touched[1] / touched[0]
        tally.holds("the memory that they touch", ratio < MOST_TOUCHED,
                    "it is %.2f times that for %d places" % (ratio, chunks))


def test_loaded_memory(tally, program):
    """A load takes little more memory than its devices, disks and their names need."""
    taken = []
    for count in (1, 1000):
        table = "".join("device-%d: 0 1 linear disk-%d 0\n" % (it, it) for it in range(count))
        disks = "".join("disk-%d 1\n" % it for it in range(count))
        size, got = memory_of(program, "VmPeak", table, disks, "R device-0 0 1\n", "1 R disk-0 0 1\n")
        tally.same("a read of one of %d devices" % count, got, 0, "1 R disk-0 0 1\n")
        taken.append(size)
    more = taken[1] - taken[0]
    tally.holds("the memory of 1,000 devices", more < MOST_LOADED, "it is %d KiB" % more)


def memory_of(program, word, table, disks, requests, answers):
    """How many KiB of memory the system counts under a word once these requests were answered, and what came of the call."""
    words = ["map", "table", program.file("table", table), program.file("disks", disks)]
    return figure_of(program, words, requests, answers, "status", word)


def test_replay_memory(tally, program):
    """A replay out of memory has answered the requests before, in full."""
    number = 100000
    table, disks = "a: 0 %d linear sda 0\n" % (2 * number), "sda %d\n" % (2 * number)
    words = ["replay", "table", program.file("table", table), program.file("disks", disks)]
    given = "".join("W a %d 1\n" % (2 * it) for it in range(number))
    answers = "".join("%d wrote %d %d 1\n" % (it + 1, it + 1, 2 * it) for it in range(number)).encode()
    tally.same("a replay with memory enough", program.run(words, given=given), 0, answers)
    limit, little = 1 << 20, None
    while limit < 1 << 28:
        got = program.run(words, given=given, before=lambda: limit_memory(limit))
        if got.status == 0:
            break
        if got.out:
            little = got
        limit += limit >> 3
    if little:
        answered = little.out.endswith(b"\n") and answers.startswith(little.out)
        tally.holds("a replay with too little memory", answered, "it doesn't end after an answer")
        tally.same("how that replay ends", little, 6, little.out, "dmremap: memory\n")
    else:
        tally.skip("status 6 at a request", "no limit here leaves room to load and too little to replay")


def limit_memory(limit):
    resource.setrlimit(resource.RLIMIT_AS, (limit, limit))


def test_small_stack(tally, program):
    """A stack with too little room is refused before a file is opened. The least one has room for snapshots of
    snapshots as deep as they may be, each of a striped origin, and for the greatest environment that it allows."""
    most = resource.getrlimit(resource.RLIMIT_STACK)[1]
    for size in (64, 128, 224, 511):
        for words in (["map", "lvm", "missing"], ["--version"], []):
            got = program.run(words, before=lambda: limit_stack(size << 10))
            tally.same("%s with a stack of %d KiB" % (words, size), got, 6, "", "dmremap: memory\n")
        # The limit that holds is the soft one, also where more may be asked for.
        got = program.run(["--version"], before=lambda: limit_stack(size << 10, most))
        tally.same("a stack of %d KiB, which may get more" % size, got, 6, "", "dmremap: memory\n")
    got = program.run(["splitname", "a-b"], before=lambda: limit_stack(512 << 10, most))
    tally.same("a stack of 512 KiB, which may get more", got, 0, "a b\n")
    table, disks, given = deepest()
    files = ["table", program.file("table", table), program.file("disks", disks)]
    large = dict(os.environ, ROOM="r" * 100000)
    for words in (["map", *files, "--status"], ["replay", *files], ["check", *files], ["concise", *files]):
        wanted = program.run(words, given=given)
        got = program.run(words, given=given, env=large, before=lambda: limit_stack(512 << 10))
        tally.same("%s with a stack of 512 KiB" % words[0], got, wanted.status, wanted.out, wanted.err)
        tally.holds("%s of a deep stack" % words[0], wanted.out, "it is refused: %r" % wanted.err)


def deepest():
    """A table as deep as one may be, its disks, and requests that go all the way down."""
    table = "s0: 0 64 striped 2 8 sda 0 sdb 0\n" + "".join(
        "s%d: 0 64 snapshot /dev/mapper/s%d c%d P 8\n" % (it, it - 1, it) for it in range(1, 32))
    disks = "sda 32\nsdb 32\n" + "".join("c%d 128\n" % it for it in range(1, 32))
    return table, disks, "W s31 0 64\nR s31 0 64\nW s30 0 64\n"


def limit_stack(limit, most=None):
    """Sets the limit of the stack, and what a process may still ask for, which is no more if it isn't given."""
    resource.setrlimit(resource.RLIMIT_STACK, (limit, limit if most is None else most))
