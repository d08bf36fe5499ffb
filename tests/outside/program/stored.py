"""Runs from what the stores of snapshots hold, `map --paths PATHS` and `replay --paths PATHS`: the list of paths, each refusal
of it and of a store at its edges, and that the state is the one from which requests are mapped or replayed, and earlier ones
played."""

import os
import shutil
import signal
import subprocess
import threading

import images
from harness import Outcome, become_nobody, run
from store_lists import MAGIC, SECTOR, end_of, parts, place, store, taken
from streams import figure_of
from tool_calls import read

# A snapshot of a length, whose chunks and whose store have these lengths.
TABLE = "s: 0 %d snapshot base cow P %d\n"
DISKS = "base %d\ncow %d\n"
# The same with a store that lies on two disks, in stripes, below a snapshot's device.
STRIPED = "s: 0 64 snapshot base /dev/mapper/cow P 8\ncow: 0 96 striped 2 8 sda 16 sdb 8\n"
STRIPED_DISKS = "base 64\nsda 64\nsdb 56\n"
# How many more reads a list of 1,024 rows takes than one of a single row: one area more, of 8 blocks.
MORE_READS = 8

# Texts of paths that are refused, and what is told of them. The stack has the disks base and cow.
REFUSED = [(text, message) for message, rows in [
    ("syntax at 1", ["\n", "cow c.img", "cow\n", "cow \n", " cow c.img\n"]),
    ("syntax at 2", ["cow c.img\nbase", "cow c.img\n\n"]),
    # An offset or a length alone, one within a sector, or that is no number of 1 to 18 digits, and anything else beside them.
    ("field at 1", ["cow c.img?%s\n" % keys for keys in (
        "offset=512", "length=512", "offset=", "length=", "offset=0&", "offset=0&length", "offset=0&length=", "offset=&length=512",
        *("offset=%d&length=512" % it for it in (1, 511, 513, 10 ** 18 - 1, 10 ** 18)),
        *("offset=512&length=%d" % it for it in (0, 1, 511, 513, 10 ** 18 - 1, 10 ** 18)),
        "offset=000000000000000511&length=512", "offset=0000000000000000512&length=512", "offset=512&length=0000000000000000512",
        "offset=+512&length=512", "offset=512&length=-512", "offset=0x200&length=512", "offset=512&length=512 ", "offset=512&length= 512",
        "length=512&offset=512", "offset=512,length=512", "offset=512&&length=512", "offset=512&length=512&", "offset=512&size=512",
        "offset=512&length=512&size=512", "offset=512&length=512&offset=512", "offset=512&Length=512", "offset=512&length=512?length=512")]),
    ("name at 1", ["a,b c.img\n", "/dev/mapper/cow c.img\n", "a" * 256 + " c.img\n", "caf\u00e9 c.img\n"]),
    ("twice at 2", ["cow c.img\ncow d.img\n", "none c.img\nnone c.img\n"]),
    ("twice at 3", ["base c.img\ncow c.img\nbase d.img\n"]),
    ("unknown at 1", ["none c.img\n", "a" * 255 + " c.img\n"]),
    ("unknown at 2", ["cow c.img\ns c.img\n"]),
    ("text at 1", [b"cow c\xff.img\n", b"cow c\0.img\n"]),
    ("text at 2", [b"cow c.img\n\xc3\n\xa9\n", b"cow c.img\nbase \xed\xa0\x80\n", b"\n\xff"]),
    # Each check is over the whole text, and comes before the next one.
    ("text at 2", [b"none\ncow c\xff\n"]),
    ("syntax at 2", ["a,b c.img?offset=512\ncow\n"]),
    ("field at 2", ["a,b c.img\ncow c.img?offset=512\n"]),
    ("name at 2", ["none c.img\na,b c.img\n"]),
    ("twice at 3", ["none c.img\ncow c.img\ncow c.img\n"]),
] for text in rows]

# What the pairs of a list may not be, where a chunk has 8 sectors, a snapshot 100 of them and its store a list of 256:
# a name, the pairs, and the word. The last pair of each is the one that is wrong.
LISTS = [
    ("no pair", [], ""),
    ("a first pair at the second place", [(0, 3)], "order"),
    ("a first pair at the header", [(0, 1)], "order"),
    ("a second pair at the first place", [(0, 2), (1, 2)], "order"),
    ("a pair of more than 32 bits", [(0, 2 + 2 ** 32)], "order"),
    ("a pair of 63 bits", [(0, 2 ** 63)], "order"),
    ("the last old chunk", [(99, 2)], ""),
    ("an old chunk past the end", [(100, 2)], "range"),
    ("the greatest old chunk", [(2 ** 64 - 1, 2)], "range"),
    ("the first old chunk again", [(7, 2), (8, 3), (7, 4)], "again"),
    ("an old chunk in a row again", [(7, 2), (7, 3)], "again"),
    ("a pair after a free one", [(7, 2), (0, 0), (8, 4)], "gap"),
    ("a pair after a free one, at the end of the area", [(7, 2)] + [(0, 0)] * 254 + [(8, 257)], "gap"),
    ("half a pair", [(7, 2), (8, 0)], "gap"),
    ("half a pair after a free one", [(7, 2), (0, 0), (8, 0)], "gap"),
    ("a wrong pair after a free one", [(7, 2), (0, 0), (100, 9)], "gap"),
    ("order, and then a gap", [(7, 9), (0, 0), (8, 4)], "gap"),
    ("again, and then order", [(7, 2), (7, 3), (8, 9)], "order"),
    ("order, and then again", [(7, 9), (7, 3)], "order"),
    ("range, and then order", [(100, 2), (7, 9)], "order"),
    ("again, and then range", [(7, 2), (7, 3), (100, 4)], "range"),
    ("range, and then again", [(100, 2), (7, 3), (7, 4)], "range"),
]

# Headers: magic, valid, version and chunk size, by a chunk of 8 sectors, and the word.
HEADERS = [
    ((0, 0, 0, 0), ""), ((0, 9, 9, 9), ""), ((MAGIC, 1, 1, 8), ""), ((MAGIC, 2 ** 32 - 1, 1, 8), ""),
    ((1, 1, 1, 8), "magic"), ((MAGIC - 1, 1, 1, 8), "magic"), ((MAGIC + 1, 0, 2, 9), "magic"),
    ((0x536E4170, 1, 1, 8), "magic"), ((MAGIC, 1, 0, 8), "version"), ((MAGIC, 1, 2, 8), "version"),
    ((MAGIC, 0, 2, 9), "version"), ((MAGIC, 1, 1, 7), "chunk"), ((MAGIC, 1, 1, 16), "chunk"), ((MAGIC, 0, 1, 0), "chunk"),
]

WRONG = [
    ("map table a b --paths", "a value is required for '--paths <PATHS>'"),
    ("map table a b --paths c --paths d", "cannot be used multiple times"),
    ("--paths c map table a b", "unexpected argument '--paths' found"),
    ("--paths c replay table a b", "unexpected argument '--paths' found"),
    ("check table a b --paths c", "unexpected argument '--paths'"),
    ("replay images a --paths c", "dmremap: words: disks"),
    ("map table a b --paths -", "unexpected argument '-' found"),
    ("map table a b -- --paths c", "unexpected argument"),
]


def put(program, name, chunk, pairs, header=None, size=None, start=0):
    """Makes an image with a store from a byte on, and returns its path. It has these pairs of an old and a new chunk, and ends
    after some bytes, or with the area that has the pair after them."""
    path = program.file(name)
    with open(path, "wb") as it:
        for at, part in parts(chunk, pairs, header):
            it.seek(start + at)
            it.write(part)
        it.truncate(start + (end_of(chunk, len(pairs)) * SECTOR if size is None else size))
    return path


def stored(program, table, disks, paths, requests="", *more, command="map", **how):
    """Maps or replays requests from the stores that this text of paths names."""
    words = [command, "table", program.file("table", table), program.file("disks", disks)]
    return program.run(words + ["--paths", program.file("paths", paths), *more], given=requests, folder=program.folder, **how)


def of_store(program, chunk, pairs, requests="", *more, length=800, store_len=4000, header=None, size=None, **how):
    """Maps or replays requests through a snapshot whose store has these pairs."""
    put(program, "c.img", chunk, pairs, header, size)
    return stored(program, TABLE % (length, chunk), DISKS % (length, store_len), "cow c.img\n", requests, *more, **how)


def told(word):
    return "dmremap: store s: %s\n" % word


def test_words(tally, program):
    for line, part in WRONG:
        tally.tells("the words %r" % line, program.run(line.split()), 2, "", part)
    put(program, "c.img", 8, [(1, 2)])
    table, disks, paths, earlier = (program.file(name, text) for name, text in (
        ("table", TABLE % (800, 8)), ("disks", DISKS % (800, 4000)), ("paths", "cow c.img\n"), ("earlier", "W s 16 1\n")))
    rest = ["table", table, disks]
    for words in (["map", *rest, "--paths", paths], ["map", "--paths=" + paths, *rest]):
        tally.same("the words %s" % words, program.run(words, given="R s 8 1\n", folder=program.folder), 0, "1 R cow 16 1\n")
    for words in (["map", *rest, "--paths", paths, "--before", earlier], ["map", "--before", earlier, *rest, "--paths", paths]):
        got = program.run(words, given="R s 8 1\nR s 16 1\nR s 24 1\n", folder=program.folder)
        tally.same("the words %s" % words, got, 0, "1 R cow 16 1\n2 R cow 24 1\n3 R base 24 1\n")


def test_texts(tally, program):
    for text, word in REFUSED:
        got = stored(program, TABLE % (800, 8), DISKS % (800, 4000), text, "R s 8 1\n")
        tally.same("the paths %r" % text[:60], got, 1, "", "dmremap: paths: %s\n" % word)


def test_files(tally, program):
    """What of PATHS can't be read, and what goes before it."""
    table, disks = program.file("table", TABLE % (800, 8)), program.file("disks", DISKS % (800, 4000))
    start = ["map", "table", table, disks, "--paths"]
    refused = (1, "", "dmremap: paths: read\n")
    for name, path in (("no such file", "missing"), ("no name", ""), ("a folder", program.folder)):
        tally.same("%s as PATHS" % name, program.run(start + [path], given="R s 8 1\n"), *refused)
    secret = program.file("secret", "cow c.img\n")
    os.chmod(secret, 0)
    tally.same("PATHS that may not be read", program.run(start + [secret], before=become_nobody), *refused)
    line = "cow " + "c" * 1000 + "\n"
    long = program.file("long", line.ljust(1048576, "x"))
    tally.same("paths of the greatest length", program.run(start + [long]), 1, "", "dmremap: paths: syntax at 2\n")
    long = program.file("long", line.ljust(1048577, "x"))
    tally.same("paths that are longer", program.run(start + [long]), 1, "", "dmremap: paths: long\n")
    for name, words, err in (("FILE", ["missing", disks], "source: read"), ("DISKS", [table, "missing"], "disks: read"),
                             ("what FILE describes", [program.file("empty", "s: 0 0 zero\n"), disks], "source: empty at 1")):
        got = program.run(["map", "table", *words, "--paths", "missing"])
        tally.same("%s is refused before PATHS" % name, got, 1, "", "dmremap: %s\n" % err)
    got = program.run(start + ["missing", "--before", "missing"])
    tally.same("PATHS is refused before earlier requests", got, *refused)
    path = os.path.join(program.folder, "paths.pipe")
    if not os.path.exists(path):
        os.mkfifo(path)
    writer = threading.Thread(target=endless, args=(path, line.encode()))
    writer.start()
    tally.same("paths that never end", program.run(start + [path]), 1, "", "dmremap: paths: long\n")
    writer.join()


def endless(path, line):
    """Writes lines into a pipe for as long as somebody reads them."""
    try:
        with open(path, "wb", buffering=0) as pipe:
            while True:
                pipe.write(line * 64)
    except OSError:
        return


def test_places(tally, program):
    """Where a disk lies: a file by any path, and a part of it."""
    size = end_of(8, 1) * SECTOR
    for name, text, file, start in [
            ("a path with spaces", "cow two  words .img\n", "two  words .img", 0),
            ("a path in UTF-8", "cow caf\u00e9.img\n", "caf\u00e9.img", 0),
            ("a path with a question mark", "cow a?b=c.img\n", "a?b=c.img", 0),
            ("a path with another key", "cow c.img?size=512&offset=512\n", "c.img?size=512&offset=512", 0),
            ("a path with a question mark after a part", "cow c.img?offset=512&length=512?\n", "c.img?offset=512&length=512?", 0),
            ("a path with a key and no question mark", "cow offset=512\n", "offset=512", 0),
            ("an offset of 0", "cow c.img?offset=0&length=%d\n" % size, "c.img", 0),
            ("numbers with zeros before them", "cow c.img?offset=000000000000000512&length=%018d\n" % size, "c.img", 512),
            ("a part", "cow c.img?offset=1048576&length=%d\n" % size, "c.img", 1048576),
            ("a part past the file's end", "cow c.img?offset=512&length=999999999999999488\n", "c.img", 512),
            ("other letters", "cow c.img?Offset=512\n", "c.img?Offset=512", 0),
            ("a part of a file that is called as one", "cow c.img?offset=0?offset=512&length=%d\n" % size, "c.img?offset=0", 512),
            ("a long path", "cow %s/c.img\n" % ("." + "/." * 1000), "c.img", 0)]:
        put(program, file, 8, [(1, 2)], start=start)
        got = stored(program, TABLE % (800, 8), DISKS % (800, 4000), text, "R s 8 1\nR s 16 1\n")
        tally.same("%s in PATHS" % name, got, 0, "1 R cow 16 1\n2 R base 16 1\n")
        os.unlink(os.path.join(program.folder, file))
    put(program, "c.img", 8, [(1, 2)])
    others = "".join("d%d 8\n" % it for it in range(1022))
    got = stored(program, TABLE % (800, 8), others + DISKS % (800, 4000), "cow c.img\n", "R s 8 1\n")
    tally.same("the store on the last of 1,024 disks", got, 0, "1 R cow 16 1\n")
    paths = "".join("d%d none\n" % it for it in range(1022)) + "base none\ncow c.img\n"
    got = stored(program, TABLE % (800, 8), others + DISKS % (800, 4000), paths, "R s 8 1\n")
    tally.same("the store at the last of 1,024 paths", got, 0, "1 R cow 16 1\n")
    got = stored(program, TABLE % (800, 8), DISKS % (800, 4000), "cow c.img?offset=999999999999999488&length=512\n")
    tally.same("the greatest offset", got, 1, "", told("read"))
    got = stored(program, TABLE % (800, 8), DISKS % (800, 4000), "", "R s 8 1\n")
    tally.same("no path at all", got, 1, "", told("missing"))
    got = stored(program, "a: 0 8 linear base 4\n", "base 64\n", "base missing\n", "R a 0 1\n")
    tally.same("an image of which nothing is asked", got, 0, "1 R base 4 1\n")


def test_headers(tally, program):
    for header, word in HEADERS:
        got = of_store(program, 8, [(1, 2)], "R s 8 1\n", header=header)
        if word:
            tally.same("the header %s" % (header,), got, 1, "", told(word))
        else:
            wanted = "1 R cow 16 1\n" if header[0] else "1 R base 8 1\n"
            tally.same("the header %s" % (header,), got, 0, wanted)
    got = of_store(program, 8, [(1, 2)], "R s 8 1\nW s 8 1\nR base 8 1\n", "--status", header=(MAGIC, 0, 1, 8))
    tally.same("a snapshot that is invalid", got, 3, "1 error 1\n2 error 1\n", "dmremap: request 3: unknown\n")
    got = of_store(program, 8, [(1, 2)], "", "--status", header=(MAGIC, 0, 1, 8))
    tally.same("the status of one", got, 0, "s: 0 800 snapshot Invalid\n")


def test_lists(tally, program):
    for name, pairs, word in LISTS:
        got = of_store(program, 8, pairs)
        tally.same("a list with %s" % name, got, 1 if word else 0, "", told(word) if word else "")
    for chunk in (1, 8, 1024):
        area = 32 * chunk
        counts = sorted({0, 1, 31, 32, 33, area - 1, area, area + 1, 2 * area} if chunk < 1024 else {1, 4097, area - 1, area, area + 1})
        for count in counts:
            pairs = taken(chunk, count)
            length, store_len = (count + 1) * chunk, place(chunk, count + area) * chunk
            requests = "".join("R s %d 1\n" % (old * chunk) for old in (0, count // 2, count))
            got = of_store(program, chunk, pairs, requests, "--status", length=length, store_len=store_len)
            wanted = "".join("%d R %s 1\n" % (at + 1, where_of(chunk, count, old)) for at, old in enumerate((0, count // 2, count)))
            areas = count // area + 1
            used = "s: 0 %d snapshot %d/%d %d\n" % (length, (1 + areas + count) * chunk, store_len, (1 + areas) * chunk)
            tally.same("%d chunks of %d sectors" % (count, chunk), got, 0, wanted + used)


def test_gaps(tally, program):
    """A sector of zeros in a list: a kernel leaves zeros behind the end of a list up to the end of its area, and anything in
    later areas."""
    for chunk, count in ((1, 100), (2, 150), (8, 700)):
        area, whole = 32 * chunk, taken(chunk, count)
        length, store_len = count * chunk, place(chunk, count + area) * chunk
        for first in range(0, count, 32):
            pairs = whole[:first] + [(0, 0)] * len(whole[first:first + 32]) + whole[first + 32:]
            got = of_store(program, chunk, pairs, "", "--status", length=length, store_len=store_len)
            name = "%d chunks of %d sectors, with zeros from number %d on" % (count, chunk, first)
            if any(new for _, new in pairs[first:first // area * area + area]):
                tally.same(name, got, 1, "", told("gap"))
            else:
                metadata = (2 + first // area) * chunk
                tally.same(name, got, 0, "s: 0 %d snapshot %d/%d %d\n" % (length, metadata + first * chunk, store_len, metadata))


def where_of(chunk, count, old):
    """Where a chunk is read after the first ones were taken, the last of them first."""
    return "cow %d" % (place(chunk, count - 1 - old) * chunk) if old < count else "base %d" % (old * chunk)


def test_ends(tally, program):
    """A store that ends near the end of an area."""
    chunk = 1
    for name, store_len, count, word in [
            ("a store that ends before the second area, full", 34, 32, ""),
            ("a store that ends with the second area", 35, 32, ""),
            ("a store with a place after the second area", 36, 33, ""),
            ("a store with one place", 3, 1, ""),
            ("a store with one place and two pairs", 3, 2, "order"),
            ("a store that ends in the data of an area", 20, 18, ""),
            ("a list that is longer than that", 20, 19, "order")]:
        pairs = taken(chunk, count)
        got = of_store(program, chunk, pairs, "R s 0 1\n", length=64, store_len=store_len, size=store_len * SECTOR)
        if word:
            tally.same(name, got, 1, "", told(word))
        else:
            tally.same(name, got, 0, "1 R cow %d 1\n" % place(chunk, count - 1))


def test_images(tally, program):
    """Images that end, and what can't be opened or read as one."""
    pairs = taken(8, 300)
    # The rows of the first area, and of the second, in which the list ends.
    areas = [area * 8 + row for area in (1, 1 + 257) for row in range(8)]
    for sectors in (0, 1, 8, 9, 15, 16, 2064, 2065, 2066, 2067, 2071, end_of(8, 300)):
        is_read = sectors >= 1 and all(it < sectors for it in areas)
        for more in (0, 1):
            got = of_store(program, 8, pairs, "R s 0 1\n", length=8000, store_len=8000, size=sectors * SECTOR + more)
            if is_read:
                tally.same("an image of %d sectors and %d bytes" % (sectors, more), got, 0, "1 R cow %d 1\n" % (place(8, 299) * 8))
            else:
                tally.same("an image of %d sectors and %d bytes" % (sectors, more), got, 1, "", told("read"))
        if sectors:
            put(program, "c.img", 8, pairs, start=SECTOR)
            part = "cow c.img?offset=512&length=%d\n" % (sectors * SECTOR)
            got = stored(program, TABLE % (8000, 8), DISKS % (8000, 8000), part, "R s 0 1\n")
            wanted = (0, "1 R cow %d 1\n" % (place(8, 299) * 8)) if is_read else (1, "", told("read"))
            tally.same("a part of %d sectors" % sectors, got, *wanted)
    for name, path, how in [*images.unreadable(program, store([(1, 2)])), ("an empty path", "?offset=0&length=512", {}),
                            ("a device of characters", "/dev/zero", {}), ("a file as a folder", "c.img/c", {})]:
        got = stored(program, TABLE % (800, 8), DISKS % (800, 4000), "cow %s\n" % path, "R s 8 1\n", **how)
        tally.same("%s as an image" % name, got, 1, "", told("read"))


def test_devices(tally, program):
    """A block device as an image."""
    image = put(program, "c.img", 8, [(1, 2)])
    made = run(["losetup", "-r", "-f", "--show", image]) if shutil.which("losetup") and not os.geteuid() else None
    if not made or made.status:
        tally.skip("a block device as an image", "that takes root and a loop device")
        return
    device = made.out.decode().strip()
    got = stored(program, TABLE % (800, 8), DISKS % (800, 4000), "cow %s\n" % device, "R s 8 1\n")
    run(["losetup", "-d", device])
    tally.same("a block device as an image", got, 0, "1 R cow 16 1\n")


def test_blocks(tally, program):
    """An image that ends inside a block of 128 rows: it is read row by row, up to the first that isn't there or is wrong."""
    chunk = 1024
    for count in (1, 32, 4095, 4096, 5000, 32 * chunk):
        for less in (0, 1, SECTOR, chunk * SECTOR // 2):
            got = of_store(program, chunk, taken(chunk, count), "R s 0 1\n", length=count * chunk,
                           store_len=(place(chunk, count) + 1) * chunk, size=end_of(chunk, count) * SECTOR - less)
            if less:
                tally.same("an image of %d pairs that ends %d bytes before the last area" % (count, less), got, 1, "", told("read"))
            else:
                tally.same("an image of %d pairs that ends with the last area" % count, got, 0, "1 R %s 1\n" % where_of(chunk, count, 0))
    for row, word in ((99, "gap"), (101, "read")):
        pairs = taken(chunk, 1) + [(0, 0)] * (32 * row - 1) + [(1, 3)]
        got = of_store(program, chunk, pairs, "R s 0 1\n", length=4000 * chunk, store_len=4000 * chunk, size=(chunk + 100) * SECTOR)
        tally.same("a pair in row %d, of which the image has 100" % row, got, 1, "", told(word))


def test_reads(tally, program):
    """A long list is read in blocks."""
    chunk, reads = 1024, []
    for count in (1, 32 * chunk):
        put(program, "c.img", chunk, taken(chunk, count))
        words = ["map", "table", program.file("table", TABLE % (count * chunk, chunk)),
                 program.file("disks", DISKS % (count * chunk, (place(chunk, count) + 1) * chunk)),
                 "--paths", program.file("paths", "cow c.img\n")]
        answer = "1 R %s 1\n" % where_of(chunk, count, 0)
        number, got = figure_of(program, words, "R s 0 1\n", answer, "io", "syscr")
        tally.same("a list of %d pairs" % count, got, 0, answer)
        reads.append(number)
    more = reads[1] - reads[0]
    tally.holds("the reads of 1,024 rows", more <= MORE_READS, "they are %d more than for one" % more)


def test_shrinks(tally, program):
    """An image that becomes shorter while its list is read: the program is stopped for that after the first blocks."""
    pairs = taken(8, 400000)
    path = put(program, "c.img", 8, pairs)
    words = ["map", "table", program.file("table", TABLE % (4000000, 8)), program.file("disks", DISKS % (4000000, 4000000)),
             "--paths", program.file("paths", "cow c.img\n")]
    ran = subprocess.Popen(
        [program.path, *words], stdin=subprocess.DEVNULL, stdout=subprocess.PIPE, stderr=subprocess.PIPE, cwd=program.folder)
    while ran.poll() is None and bytes_read(ran.pid) < 65536:
        pass
    ran.send_signal(signal.SIGSTOP)
    is_early = ran.poll() is None and bytes_read(ran.pid) < 16 * len(pairs)
    os.truncate(path, 16 * SECTOR)
    ran.send_signal(signal.SIGCONT)
    out, err = ran.communicate()
    if is_early or ran.returncode:
        tally.same("an image that shrinks", Outcome(ran.returncode, out, err), 1, "", told("read"))
    else:
        tally.skip("an image that shrinks", "its list was read before it did")


def bytes_read(process):
    """How many bytes a process has read so far."""
    with open("/proc/%d/io" % process, "rb") as it:
        return int(it.readline().split()[1])


def test_missing(tally, program):
    """Sectors of a store on disks that PATHS doesn't name, or whose image ends: the first in the order of the list."""
    # The header and half of the first area lie on sda, the other half of each on sdb.
    put(program, "whole.img", 8, taken(8, 1), size=96 * SECTOR)
    whole = read(os.path.join(program.folder, "whole.img"))
    program.file("a.img", spread(whole, 16, 0))
    program.file("b.img", spread(whole, 8, 1))
    both = stored(program, STRIPED, STRIPED_DISKS, "sda a.img\nsdb b.img\n", "R s 0 1\n")
    tally.same("a store on two disks", both, 0, "1 R sda 24 1\n")
    for name, text, word in [
            ("the disk of the header isn't named", "sdb b.img\n", "missing"),
            ("the disk of the first area isn't named", "sda a.img\n", "missing"),
            ("the disk of the header can't be read", "sda none\nsdb b.img\n", "read"),
            ("the disk of the first area can't be read", "sda a.img\nsdb none\n", "read"),
            ("one isn't named, and the other can't be read", "sdb none\n", "missing"),
            ("one can't be read, and the other isn't named", "sda none\n", "read")]:
        got = stored(program, STRIPED, STRIPED_DISKS, text, "R s 0 1\n")
        tally.same("a store of which %s" % name, got, 1, "", told(word))
    # A fault of the list, and then an area that isn't there: the list is read to its end first.
    pairs = [(0, 9)] + taken(8, 256)[1:]
    got = of_store(program, 8, pairs, length=8000, store_len=8000, size=16 * SECTOR)
    tally.same("a list out of order, and then an image that ends", got, 1, "", told("read"))
    table = "t: 0 64 snapshot base d P 8\ns: 0 64 snapshot base c P 8\n"
    put(program, "c.img", 8, [(100, 2)])
    put(program, "d.img", 8, [(0, 3)])
    for text, err in (("c c.img\nd d.img\n", "t: order"), ("d c.img\nc d.img\n", "t: range"), ("c c.img\n", "t: missing")):
        got = stored(program, table, "base 64\nc 800\nd 800\n", text)
        tally.same("the first of two stores in the source", got, 1, "", "dmremap: store %s\n" % err)


def spread(image, start, column):
    """The chunks of a store that one of two disks has, from a sector of it on."""
    found = bytearray(start * SECTOR)
    for at in range(column * 8 * SECTOR, len(image), 16 * SECTOR):
        found += image[at:at + 8 * SECTOR]
    return bytes(found).ljust(64 * SECTOR, b"\0")


def test_kinds(tally, program):
    put(program, "c.img", 8, [(1, 2)])
    for kind, paths, answer in (("P", "cow c.img\n", "cow 16"), ("K", "cow c.img\n", "cow 16"), ("N", "cow c.img\n", "base 8"), ("N", "", "base 8")):
        table = (TABLE % (800, 8)).replace(" P ", " %s " % kind)
        got = stored(program, table, DISKS % (800, 4000), paths, "R s 8 1\n")
        tally.same("a snapshot of the kind %s" % kind, got, 0, "1 R %s 1\n" % answer)
    # Below another snapshot's origin, and two on one disk.
    table = "s: 0 64 snapshot base /dev/mapper/c P 8\nt: 0 64 snapshot /dev/mapper/s /dev/mapper/d P 8\nc: 0 400 linear sda 0\nd: 0 400 linear sda 400\n"
    images = [put(program, name, 8, pairs, size=400 * SECTOR) for name, pairs in (("c.img", [(1, 2)]), ("d.img", [(2, 2), (1, 3)]))]
    program.file("a.img", b"".join(map(read, images)))
    got = stored(program, table, "base 64\nsda 800\n", "sda a.img\n", "R s 8 1\nR t 8 1\nR t 16 1\nR t 24 1\n")
    tally.same("two stores on one disk, one over the other", got, 0, "1 R sda 16 1\n2 R sda 424 1\n3 R sda 416 1\n4 R base 24 1\n")


def test_runs(tally, program):
    """A run goes on from the state: the next chunk has the next place, and a full store is full."""
    got = of_store(program, 8, [(3, 2), (1, 3)], "W s 0 8\nR s 0 8\nR s 24 8\n", "--status")
    tally.same("a write after two chunks", got, 0,
               "1 copy base 0 8 cow 32\n1 W cow 32 8\n2 R cow 32 8\n3 R cow 16 8\ns: 0 800 snapshot 40/4000 16\n")
    got = of_store(program, 8, taken(8, 2), "W s 16 1\nR s 0 1\n", "--status", store_len=32, size=32 * SECTOR)
    tally.same("a write to a full store", got, 0, "1 error 1\n2 error 1\ns: 0 800 snapshot Invalid\n")
    got = of_store(program, 8, [(3, 2)], "R s 24 1\nR s nine 1\n")
    tally.same("a bad request", got, 3, "1 R cow 16 1\n", "dmremap: request 2: number\n")
    program.file("earlier", "W s 8 nine\n")
    got = of_store(program, 8, [(3, 2)], "R s 24 1\n", "--before", os.path.join(program.folder, "earlier"))
    tally.same("a bad earlier request", got, 1, "", "dmremap: before: number at 1\n")
    path = program.file("requests", "R s 8 1\n")
    with open(path, "rb") as requests:
        put(program, "c.img", 8, [(100, 2)])
        words = ["map", "table", program.file("table", TABLE % (800, 8)), program.file("disks", DISKS % (800, 4000))]
        got = program.run(words + ["--paths", program.file("paths", "cow c.img\n")], stdin=requests, folder=program.folder)
        tally.same("requests after a refused store", got, 1, "", told("range"))
        tally.holds("no request is read after a refused store", os.lseek(requests.fileno(), 0, os.SEEK_CUR) == 0, "some were")


def test_replays(tally, program):
    """A replay begins from the state, too, on disks that hold what they held."""
    got = of_store(program, 8, [(3, 2), (1, 3)], "R s 8 1\nW s 0 1\nR s 0 16\nR s 24 1\n", command="replay")
    tally.same("a replay from two chunks", got, 0, "1 old cow 24 1\n2 wrote 2 0 1\n3 wrote 2 0 1\n3 old base 1 7\n"
               "3 old cow 24 8\n4 old cow 16 1\n")
    got = of_store(program, 8, taken(8, 2), "R s 0 1\nW s 16 1\nR s 0 1\n", command="replay", store_len=32, size=32 * SECTOR)
    tally.same("a replay of a write to a full store", got, 0, "1 old cow 24 1\n2 error 1\n3 error 1\n")
    got = of_store(program, 8, [(1, 2)], "R s 8 1\n", command="replay", header=(MAGIC, 0, 1, 8))
    tally.same("a replay of an invalid snapshot", got, 0, "1 error 1\n")
    for word in ("range", "order", "again"):
        pairs = next(pairs for _, pairs, why in LISTS if why == word)
        got = of_store(program, 8, pairs, "R s nine 1\n", command="replay")
        tally.same("a replay of a store refused for %s" % word, got, 1, "", told(word))
    for text, word in REFUSED[:2] + REFUSED[-2:]:
        got = stored(program, TABLE % (800, 8), DISKS % (800, 4000), text, "R s nine 1\n", command="replay")
        tally.same("a replay with the paths %r" % text, got, 1, "", "dmremap: paths: %s\n" % word)
    put(program, "c.img", 8, [(1, 2)])
    table = TABLE % (800, 8) + "a: 0 8 linear cow 0\n"
    for paths, message in (("cow c.img\n", "replay: untidy"), ("cow none.img\n", "store s: read")):
        got = stored(program, table, DISKS % (800, 4000), paths, "R s nine 1\n", command="replay")
        tally.same("an untidy replay with the paths %r" % paths, got, 1, "", "dmremap: %s\n" % message)
    words = ["replay", "table", program.file("table", TABLE % (800, 8)), program.file("disks", DISKS % (800, 4000))]
    got = program.run(words + ["--paths", "missing"], given="R s 8 1\n")
    tally.same("a replay without its PATHS", got, 1, "", "dmremap: paths: read\n")
