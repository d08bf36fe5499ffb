"""The commands about layouts: rows, random stacks, and when stores are full."""

import itertools
import os
import random
import re

import tool_calls
from origins import SHARING, claims, disks_of, small_stack, tidiness
from snapshots import concise, place

STACKS = 12


def asked(words, table, disks, output, message=""):
    """What a stack of table text or concise text gives."""
    return words, table, disks, output, message


SHARED = ("s: 0 64 snapshot d x P 8\nt: 0 64 snapshot d y P 8\no: 0 64 snapshot-origin d\np: 0 64 snapshot-origin d\na: 0 1 linear d 2\n"
          "b: 0 1 linear d 3\n")
CHAIN = "".join("c%d: 0 8 linear /dev/mapper/c%d 0\n" % (it, it + 1) for it in range(31)) + "c31: 0 8 zero\n"
ROWS = [
    asked([], "a: 0 8 linear d 4\na: 8 16 striped 2 4 d 0 d 32\ns: 0 24 snapshot /dev/mapper/a d K 8\no: 0 24 snapshot-origin /dev/mapper/a\n", "d 64\n",
          "/dev/mapper/a 0 24 o 0 snapshot-origin\n/dev/mapper/a 0 24 s 0 origin\n/dev/mapper/a 24 24 - - end\n"
          "d 0 8 a 8 striped\nd 0 64 s 0 store\nd 4 12 a 0 linear\nd 32 40 a 8 striped\nd 64 64 - - end\n"),
    asked([], "a,,,rw,0 8 striped 2 4 d 4 d 4,8 4 zero\n", "d 64\n", "d 4 8 a 0 striped\nd 4 8 a 0 striped\nd 64 64 - - end\n"),
    asked([], "b: 0 8 zero\n", "d 9\ne 10\n", "d 9 9 - - end\ne 10 10 - - end\n"),
    asked(["--free"], "a: 0 4 linear d 4\nb: 0 1 linear d 6\n", "d 9\ne 5\n",
          "d 0 4 unnamed\nd 4 8 a 0 linear\nd 6 7 b 0 linear\nd 8 9 unnamed\ne 0 5 unnamed\n"),
    *(asked(it, "", "", "", "no disk and no device came\n") for it in ([], ["--free"], ["--clashes"])),
    asked(["--tree"], "", "", "", "no device came\n"),
    # Snapshots share an origin; a span that ended is met by none, also when it began late.
    asked(["--clashes"], SHARED, "d 64\nx 99\ny 99\n",
          "d 0 63 o p\nd 2 2 o a\nd 2 2 p a\nd 2 2 s a\nd 2 2 t a\nd 3 3 o b\nd 3 3 p b\nd 3 3 s b\nd 3 3 t b\n"),
    asked(["--tree"], "a: 0 8 striped 2 4 /dev/mapper/b 0 /dev/mapper/b 4\nb: 0 8 linear d 0\nc: 0 8 linear /dev/mapper/a 0\n", "d 9\n",
          "c\n+- 0 8 linear /dev/mapper/a 0\n|    a\n|    +- 0 8 striped 2 4 /dev/mapper/b 0 /dev/mapper/b 4\n"
          "|    |    b\n|    |    +- 0 8 linear d 0\n"),
    asked(["--tree"], "a,,,ro,0 8 linear d 0\n", "d 8\n", "a\n+- 0 8 linear d 0\n"),
    asked(["--tree"], CHAIN, "", "".join("%sc%d\n%s+- 0 8 %s\n" % (
        "|    " * it, it, "|    " * it, "linear /dev/mapper/c%d 0" % (it + 1) if it < 31 else "zero") for it in range(32))),
    asked(["--dot"], "s: 0 8 snapshot a\"b P P 8\nz: 0 8 zero\nt: 0 8 striped 2 4 d 0 d 4\n", 'a"b 8\nP 64\nd 8\n',
          'digraph stack {\n  "disk a\\"b" [shape=box]\n  "s" -> "disk a\\"b" [label="origin 0+8"]\n  "disk P" [shape=box]\n'
          '  "s" -> "disk P" [label="store 0+8"]\n  "s"\n  "z"\n  "disk d" [shape=box]\n  "t" -> "disk d" [label="striped 0+8"]\n  "t"\n}\n'),
]
# What dmremap refuses, and its message.
REFUSED = [
    ("a: 0 8 linear e 4\n", "d 64\n", "source: unknown at 1"), ("a: 0 8 linear /dev/mapper/a 0\n", "", "source: cycle at 1"),
    ("", "d 64 8\n", "disks: syntax at 1"), ("a 0 8 zero\n", "", "source: syntax at 1"),
    ("c: 0 8 linear /dev/mapper/c0 0\n" + CHAIN, "", "source: deep at 1"),
]


def test_rows(tally, program, top):
    """What each question gives; the words of a stack are those of dmremap."""
    for words, table, disks, output, message in ROWS:
        form = "concise" if ",," in table else "table"
        files = [program.file("layout/table", table), program.file("layout/disks", disks)]
        got = tool_calls.call(top, ["layout", "--program", program.path, *words, form, *files])
        tally.same("layout %s of %r" % (words, table[:60]), got, 0, output, message)
    for table, disks, message in REFUSED:
        files = [program.file("layout/table", table), program.file("layout/disks", disks)]
        got = tool_calls.call(top, ["layout", "--program", program.path, "table", *files])
        said = "dmremap: %s\ndmremap-tools layout: %s: it ends with status 1: see what it said\n" % (message, program.path)
        tally.same("layout of %r" % table[:60], got, 1, "", said)
    got = tool_calls.call(top, ["layout", "--free", "--tree", "table", "none", "none"])
    tally.tells("two questions", got, 2, "", "argument --tree: not allowed with argument --free\n")


def test_random(tally, program, top):
    """Stacks at random."""
    for seed in range(STACKS):
        check_stack(tally, program, top, random.Random(seed))


def test_many_clashes(tally, program, top):
    """Of ranges within each other all have clashes with all: a million are printed."""
    path = program.file("clashes/table", "".join("v: %d %d linear sda %d\n" % (10000 * it - it * (it - 1), 10000 - 2 * it, it) for it in range(3000)))
    words = ["layout", "--program", program.path, "--clashes", "table", path, program.file("clashes/disks", "sda 10000\n")]
    got = tool_calls.call(top, words)
    said = "dmremap-tools layout: %s: there are more than 1000000 clashes: take the lines of one disk, or of fewer devices\n" % path
    tally.holds("clashes of nested ranges", (got.status, got.out.count(b"\n"), got.err.decode()) == (1, 1000000, said),
                "status %s, %d lines, %r" % (got.status, got.out.count(b"\n"), got.err))


def test_full(tally, program, top):
    """When stores are full: as the status after each number of requests says it."""
    def full(requests, table, disks):
        files = ["--requests", program.file("full/requests", requests), "table", program.file("full/table", table), program.file("full/disks", disks)]
        return tool_calls.call(top, ["store", "--program", program.path, "--fresh", *files])

    for seed in range(5):
        dice = random.Random(seed)
        kinds = [(dice.choice("PNK"), 1 << dice.randrange(4)) for _ in range(2)]
        table = "o: 0 256 snapshot-origin base\n" + "".join("s%d: 0 256 snapshot base cow%d %s %d\n" % (2 * (it,) + kinds[it]) for it in range(2))
        lengths = [dice.randrange(1, 200) for _ in range(2)]
        disks = "base 256\n" + "".join("cow%d %d\n" % it for it in enumerate(lengths))
        requests = ["%s %s %d %d\n" % (dice.choice("RWW"), dice.choice(["o", "s0", "s1"]), dice.randrange(10 ** dice.randrange(1, 6)),
                                       dice.randrange(1, 20)) for _ in range(dice.randrange(40))]
        statuses = [statuses_after(program, table, disks, requests[:it]) for it in range(len(requests) + 1)]
        wanted = "".join(places_line("s%d" % it, 256, *kinds[it], lengths[it], True) for it in range(2))
        wanted += "".join(line_of(name, [it[name] for it in statuses]) for name in ("s0", "s1"))
        tally.same("when the stores of %r are full" % table, full("".join(requests), table, disks), 0, wanted)
        odd = ["\ufeff" + it.replace("\n", "\r\n") for it in ("".join(requests) or "R o 0 1\n", table, disks)]
        tally.same("the same with carriage returns", full(*odd), 0, wanted if requests else full("R o 0 1\n", table, disks).out)
    table, disks = "s: 0 8 snapshot base cow P 8\n", "base 8\ncow 24\n"
    ended = "dmremap-tools store: %s: it ends with status 3: see what it said\n" % program.path
    got = full("W s 0 1\nW s 0\n", table, disks)
    tally.same("a store and a bad request", got, 1, "", "dmremap: request 2: form\n" + ended)
    got = full("W s 0 1\nW s 0 1", table, disks)
    tally.same("a store and half a request", got, 1, "", "dmremap: request 2: unended\n" + ended)
    for place, name in enumerate(("requests", "table", "disks")):
        given = ["W s 0 1\n", table, disks]
        given[place] = "BZh"
        path = os.path.join(program.folder, "full", name)
        tally.same("stores by a compressed %s" % name, full(*given), 1, "", "dmremap-tools store: %s: it is compressed (bzip2): unpack it\n" % path)
    got = full("W a 0 1\n", "a: 0 8 zero\n", "")
    tally.same("no store", got, 1, "", "dmremap-tools store: %s: it has no snapshot: give the tables of one\n" % program.file("full/table", ""))
    got = tool_calls.call(top, ["store", "table", "none", "none", "--program", os.path.join(program.folder, "none")])
    tally.same("stores of no table", got, 1, "", "dmremap-tools store: none: No such file or directory\n")
    tally.same("stores by a list too many", tool_calls.call(top, ["store", "lvm", "none", "none"]), 2, "",
               "usage: FORMAT FILE [DISKS] [--requests REQUESTS]\ndmremap-tools store: give DISKS, or leave it out with lvm\n")
    got = tool_calls.call(top, ["store", "table", program.file("full/table", table), program.file("full/disks", disks), "--program", "no/where"])
    tally.same("stores by no program", got, 1, "", "dmremap-tools store: no/where: No such file or directory\n")


def test_places(tally, program, top):
    """Whether a store can be full: as a store that takes all chunks of its snapshot says it."""
    for seed in range(12):
        dice = random.Random(seed)
        kind, chunk, length = dice.choice("PNK"), 1 << dice.randrange(4), dice.randrange(1, 300)
        store = dice.choice([dice.randrange(1, 400), length + 2 * chunk, length + 3 * chunk, 9999])
        table, disks = "s: 0 %d snapshot base cow %s %d\n" % (length, kind, chunk), "base %d\ncow %d\n" % (length, store)
        if seed % 2:
            table += "o: 0 %d snapshot-origin base\n" % length
        files = [program.file("places/table", table), program.file("places/disks", disks)]
        got = tool_calls.call(top, ["store", "--program", program.path, "table", *files])
        tally.same("whether the store of %r is ever full" % table, got, 0, places_line("s", length, kind, chunk, store, seed % 2))
        status = statuses_after(program, table, disks, ["W s 0 %d\n" % length])["s"]
        is_full = status == "Invalid" or kind == "K" and b"error" in program.run(["map", "table", *files], given="W s 0 %d\n" % length).out
        tally.holds("a store that takes all chunks", is_full == (b"never" not in got.out), "%s, %r" % (status, got.out))


def places_line(name, length, kind, chunk, store, is_served):
    """The line of `store` for a snapshot, whose places are counted one by one."""
    has_place = lambda number: (place(kind, chunk, number) + 1) * chunk <= store
    places = sum(1 for _ in itertools.takewhile(has_place, itertools.count()))
    chunks = -(-length // chunk)
    said = ("it is never full" + ", unless a kernel has one place less" * (places == chunks and kind != "N") if places >= chunks
            else "it can be full, which makes the snapshot invalid" if kind != "K"
            else "it can be full; writes to the snapshot fail then" + ", and only one to the origin makes it invalid" * bool(is_served))
    return "%s: %d chunks, %d places in its store: %s\n" % (name, chunks, places, said)


def statuses_after(program, table, disks, requests):
    words = ["map", "table", program.file("full/table", table), program.file("full/disks", disks), "--status"]
    out = program.run(words, given="".join(requests)).out.decode()
    return dict(re.findall(r"^(\w+): 0 \d+ snapshot (.*)$", out, re.M))


def line_of(name, statuses):
    """The line of `store` for a snapshot that has these statuses, after each number of requests."""
    if "Invalid" not in statuses:
        return "%s: valid to the end, %s\n" % (name, statuses[-1])
    number = statuses.index("Invalid")
    return "%s: invalid by request %d, before it %s\n" % (name, number, statuses[number - 1])


def check_stack(tally, program, top, dice):
    """A random stack: each clash, and where each device lies."""
    stack = small_stack(dice)
    source, disks = program.file("stack/source", concise(stack) + "\n"), program.file("stack/disks", disks_of(stack))

    def tool(*words):
        return tool_calls.call(top, ["layout", "--program", program.path, *words, "concise", source, disks])

    got = tool("--clashes")
    wanted = clashes(stack)
    found = sorted(got.out.decode().splitlines())
    tally.holds("all clashes of " + concise(stack), got.status == 0 and found == wanted, "%r and not %r" % (found, wanted))
    said = "clash" if wanted else "tidy"
    tally.holds("whether there are any", tidiness(stack).startswith(said), "the rules say %s" % tidiness(stack))
    for name in stack.tables:
        found = tool("--fresh", "--device", name).out.decode()
        wanted = extents([stack.read("/dev/mapper/" + name, at) for at in range(stack.length("/dev/mapper/" + name))])
        tally.holds("the extents of %s" % name, found == wanted, "%r and not %r" % (found, wanted))


def clashes(stack):
    """Each two claims that have a sector in common, and are not let have it."""
    found, all_claims = [], list(claims(stack))
    for place, later in enumerate(all_claims):
        for earlier in all_claims[:place]:
            first, end = max(earlier[2], later[2]), min(earlier[3], later[3])
            if earlier[1] == later[1] and first < end and (earlier[4], later[4]) not in SHARING:
                names = [it[0] for it in sorted([earlier, later], key=lambda it: (it[2], it[3], it[0]))]
                found.append("%s %d %d %s %s" % (later[1], first, end - 1, *names))
    return sorted(found)


def extents(units):
    """The lines of a device whose sectors lie there."""
    found = []
    for at, (word, *place) in enumerate(units):
        disk, sector = place[0] if place else (word, None)
        if found:
            start, count, last, first = found[-1]
            if last == disk and (sector is None) == (first is None) and sector in (None, (first or 0) + count):
                found[-1] = (start, count + 1, last, first)
                continue
        found.append((at, 1, disk, sector))
    return "".join("%d %d %s\n" % (start, count, last if first is None else "%s %d" % (last, first))
                   for start, count, last, first in found)
