"""Memory that is asked for and refused: each growth of a run in turn, and all from it on.

The shim `growths.c` refuses them; it is built here and preloaded before the program. A growth that is
refused while files are loaded ends the run with status 6 and no output. `map` asks for none after
that, and `replay` ends at the request that meets it. Growths for the words of the command line come
before the first file is opened, and are left out.

A run is out of memory for no other reason, so there are rows here of many volumes, claims and requests."""

import itertools
import os
import shutil

import images
import lvm_texts
from harness import is_static, run, text_of
from lvm_texts import BOTH
from store_lists import taken
from stored import put

MEMORY = "dmremap: memory\n"
SNAPSHOT = ("s: 0 20 snapshot base cow P 8\n", "base 20\ncow 64\n")
# A write that goes on behind the second area of its store, where chunks of one sector are numbered.
AREAS = ("s: 0 64 snapshot base cow P 1\n", "base 64\ncow 64\n")
AREAS_ANSWER = "".join("1 copy base %d 1 cow %d\n1 W cow %d 1\n" % (it, it + 2, it + 2) for it in range(32)) + \
    "1 copy base 32 1 cow 35\n1 W cow 35 1\ns: 0 64 snapshot 36/64 3\n"
STRIPED = ("c: 0 32 striped 2 4 sdb 0 sdc 0\ns: 0 32 snapshot base /dev/mapper/c P 8\n", "base 32\nsdb 16\nsdc 16\n")
STRIPED_ANSWER = ("1 copy base 0 4 sdb 8\n1 copy base 4 4 sdc 8\n1 W sdc 10 2\n1 copy base 8 4 sdb 12\n"
                  "1 copy base 12 4 sdc 12\n1 W sdb 12 2\n2 R sdc 8 4\n2 R sdb 12 2\n3 error 1\n4 error 1\n")
CONCISE = ("a,,,ro,0 8 linear sda 0;b,,,,0 8 linear /dev/mapper/a 0", "sda 8\n")
CLASH = ("a: 0 8 linear sda 0\nb: 0 8 linear sda 4\n", "sda 16\n")
TIDY = ("a: 0 16 striped 2 4 sda 0 sdb 0\nb: 0 8 linear /dev/mapper/a 8\n", "sda 8\nsdb 8\n")

# The words before the files, the files, the words after them, the requests, and the output.
ROWS = [
    ("map table", AREAS, ["--status"], "W s 0 33\n", AREAS_ANSWER),
    ("map table", STRIPED, [], "W s 6 4\nR s 4 6\nW s 16 1\nR s 0 1\n", STRIPED_ANSWER),
    ("map lvm", (BOTH,), [], "R vg0-lv--1 120 16\nW vg0-lv--1 0 8\n",
     "1 R /dev/sda1 206968 8\n1 R /dev/sda1 223232 8\n2 error 8\n"),
    ("map concise", CONCISE, [], "W b 0 8\nR b 0 8\n", "1 error 8\n2 R sda 0 8\n"),
    ("concise concise", CONCISE, [], "", "a,,,ro,0 8 linear sda 0;b,,,rw,0 8 linear /dev/mapper/a 0\n"),
    ("table lvm", (BOTH,), [], "", "vg0-lv0: 0 204800 linear /dev/sda1 2048\n"
     "vg0-lv--1: 0 32768 striped 2 128 /dev/sda1 206848 /dev/sda1 223232\n"),
    ("check table", CLASH, [], "", "devices 2\ndisks 1\ndepth 1\nclash sda 4 a b\n"),
    ("check table", TIDY, [], "", "devices 2\ndisks 2\ndepth 2\ntidy\n"),
]
# These open no file, so their growths count from the start. A command of as many words whose name is
# refused asks for those of the words alone.
NAMES = [
    ("name a- b", "name a? b", "a---b\n"),
    ("name a b c-d", "name a b ?", "a-b-c--d\n"),
    ("splitname a---b", "splitname a--b", "a- b\n"),
]
REQUESTS = ["R s 18 2\n", "W s 18 1\n", "R s 16 4\n"]
ANSWERS = ["1 old base 18 2\n", "2 wrote 2 18 1\n", "3 old base 16 2\n3 wrote 2 18 1\n3 old base 19 1\n"]


def test_runs(tally, program):
    shim = Shim(program)
    if is_static(program.path):
        tally.skip("growths that are refused", "no shim is loaded into a static program")
    elif tally.holds("the shim growths.c", not shim.fault, shim.fault):
        for command, files, flags, given, output in [*ROWS, stored_row(program), *images_rows(program)]:
            words = words_of(program, command, files) + flags
            asked = check_growths(tally, shim, command, words, [given], [output])
            tally.holds(command + " after its load", asked[0] == asked[1], "it asks for %s growths" % asked)
        for command, refused, output in NAMES:
            for_words = shim.run(refused.split(), start="start").growths
            check_growths(tally, shim, command, command.split(), [""], [output], "start", for_words)
        asked = check_growths(tally, shim, "replay", words_of(program, "replay table", SNAPSHOT), REQUESTS, ANSWERS)
        tally.holds("replay asks for growths after its load", asked[0] < asked[-1], "it asks for %s" % asked)
        check_shrinks(tally, shim, program)
        check_reads(tally, shim, program)


def words_of(program, command, files):
    return command.split() + [program.file("growths/%d" % at, it) for at, it in enumerate(files)]


def images_rows(program):
    """A run from the images of a group's two disks, and their text."""
    paths = [images.paths_of(program, images.PAIR)]
    yield "map images", paths, [], images.ASKED, images.ANSWER % ("sda", "sdb")
    yield "metadata images", paths, [], "", images.TEXT[:-1].decode()
    yield "read images", paths, ["vg0-home"], "", "\0" * 56 * 512


def stored_row(program):
    """A run that starts from a store of two areas."""
    paths = program.file("growths/paths", "cow %s\n" % put(program, "growths/cow.img", 1, taken(1, 33)))
    return "map table", AREAS, ["--paths", paths], "R s 0 1\nW s 40 1\n", "1 R cow 35 1\n2 copy base 40 1 cow 36\n2 W cow 36 1\n"


class Shim:
    """The program under the shim; `fault` says why there is none."""

    def __init__(self, program):
        self.program = program
        self.path = os.path.join(program.folder, "growths.so")
        self.fault = ""
        source = os.path.join(os.path.dirname(os.path.abspath(__file__)), "growths.c")
        if shutil.which("cc") is None:
            self.fault = "there is no `cc` to build it with"
        else:
            built = run(["cc", "-shared", "-fPIC", "-O1", "-o", self.path, source])
            self.fault = "cc says %r" % built.err if built.status else ""

    def run(self, words, first=0, start="open", others=(), **how):
        """An outcome, with the numbers of growths, of refused calls and of reads."""
        report = self.program.file("report")
        variables = dict(os.environ, LD_PRELOAD=self.path, GROWTHS_REPORT=report, GROWTHS_FROM=start,
                         GROWTHS_REFUSED=str(first), **dict.fromkeys(others, "1"))
        got = self.program.run(words, env=variables, **how)
        got.growths, got.refused, got.reads = [int(word) for word in text_of(report).split()] or [0, 0, 0]
        return got


def check_growths(tally, shim, name, words, requests, answers, start="open", left_out=0):
    """Refuses each growth of a run but some first ones. Returns how many there are with no request, and
    with each one more."""
    asked = [shim.run(words, start=start, given="".join(requests[:it])).growths for it in range(len(requests) + 1)]
    for which, others in (("each growth refused", ()), ("all growths refused from each on", ("GROWTHS_ALL",))):
        wrong = []
        for first in range(left_out + 1, asked[-1] + 1):
            got = shim.run(words, first, start, others, given="".join(requests))
            # Where some requests alone ask for fewer growths, these are answered.
            answered = max(0, sum(it < first for it in asked) - 1)
            is_told = (got.status, got.out, got.err) == (6, "".join(answers[:answered]).encode(), MEMORY.encode())
            # A list that isn't given twice its room asks for less.
            is_whole = not others and (got.status, got.out, got.err) == (0, "".join(answers).encode(), b"")
            if not (is_told or is_whole) or got.refused == 0:
                wrong.append((first, got.status, got.out, got.err))
        tally.holds("%s with %s" % (name, which), not wrong, "of %d growths %s" % (asked[-1], wrong[:3]))
    tally.holds("growths of " + name, asked[-1] > left_out, "the shim sees none")
    got = shim.run(words, asked[-1] + 1, start, given="".join(requests))
    tally.same("%s with a growth refused that it doesn't ask for" % name, got, 0, "".join(answers))
    return asked


def check_shrinks(tally, shim, program):
    """A block that can't be made smaller does no harm: lists of metadata are cut to their length."""
    command, files, _, given, output = ROWS[2]
    got = shim.run(words_of(program, command, files), others=["GROWTHS_SHRINKS"], given=given)
    tally.same(command + " with blocks that don't shrink", got, 0, output)
    tally.holds("blocks that don't shrink", got.refused > 0, "none was to")


def check_reads(tally, shim, program):
    """Requests are read many at a time."""
    path = program.file("growths/requests", "R s 16 4\n" * 20000)
    for command in ("map", "replay"):
        with open(path, "rb") as given:
            got = shim.run(words_of(program, command + " table", SNAPSHOT), stdin=given)
        most = 10 + os.path.getsize(path) // 1024
        is_few = got.status == 0 and 0 < got.reads <= most
        tally.holds("reads of " + command, is_few, "%d, and %d are allowed" % (got.reads, most))
    # An area of 128 sectors is 64 KiB, one block; the pair after the list opens the fifth.
    chunk, areas = 128, 5
    count = 4096 * (areas - 1)
    table = "s: 0 %d snapshot base cow P %d\n" % (count * chunk, chunk), "base %d\ncow %d\n" % (count * chunk, 2 * count * chunk)
    words = words_of(program, "map table", table) + ["--paths"]
    others = shim.run(words + [program.file("growths/paths", "cow missing\n")]).reads
    paths = program.file("growths/paths", "cow %s\n" % put(program, "growths/cow.img", chunk, taken(chunk, count)))
    got = shim.run(words + [paths])
    is_few = got.status == 0 and got.reads - others <= 1 + areas + 2
    tally.holds("reads of a store", is_few, "%d, and %d for %d areas" % (got.reads, others, areas))


def test_volumes(tally, program):
    """Metadata of many volumes of many segments."""
    number = 40
    volumes, lines = [], ""
    for volume in range(number):
        extents = [(number - it) * number + volume for it in range(number)]
        volumes.append(lvm_texts.volume("lv%d" % volume, *(lvm_texts.striped(it, 1, ("pv", extent)) for it, extent in enumerate(extents))))
        lines += "".join("vg-lv%d: %d 1 linear /dev/sda %d\n" % (volume, it, 8 + extent) for it, extent in enumerate(extents))
    most = number * (number + 1)
    group = lvm_texts.HEAD + lvm_texts.group("vg", 1, [lvm_texts.physical("pv", "/dev/sda", most + 8, 8, most)], volumes)
    got = program.run(["table", "lvm", program.file("group", group)])
    tally.same("%d volumes of %d segments" % (number, number), got, 0, lines)


def test_claims(tally, program):
    """`check` of as many columns as a source holds: each on a sector of its own, and all on one."""
    disks = ["%c%c" % (first, second) for first in range(97, 123) for second in range(65, 104) if second != 92]
    apart = claims("%s %d" % (disk, sector) for sector in range(1000) for disk in disks)
    one = claims(itertools.repeat("s 0"))
    rows = [
        ("claims that meet nowhere", apart, disks, "tidy\n"),
        ("claims that all meet", one, ["s"], "clash s 0 a a\n"),
    ]
    for name, (source, number), disk_list, last in rows:
        tally.holds("many " + name, number > 100000 and len(source) <= 1048576, "there are %d" % number)
        words = words_of(program, "check table", [source, "".join("%s 1000\n" % it for it in disk_list)])
        tally.same(name, program.run(words), 0, "devices 1\ndisks %d\ndepth 1\n%s" % (len(disk_list), last))


def claims(columns):
    """Lines of 128 of these columns each, as many as fit in 1 MiB, and how many columns they have."""
    lines, size = [], 0
    while True:
        line = "a: %d 128 striped 128 1 %s\n" % (128 * len(lines), " ".join(itertools.islice(columns, 128)))
        size += len(line)
        if size > 1048576:
            return "".join(lines), 128 * len(lines)
        lines.append(line)


def test_last_sectors(tally, program):
    """A replay at the end of the greatest device."""
    most = 1 << 50
    files = ("a: 0 %d linear sda 0\n" % most, "sda %d\n" % most)
    given = "W a %d 8\nR a %d 16\nW a %d 1\nR a %d 2\n" % (most - 8, most - 16, most - 1, most - 1)
    answers = "1 wrote 1 %d 8\n2 old sda %d 8\n2 wrote 1 %d 8\n3 wrote 3 %d 1\n4 error 2\n" % (
        most - 8, most - 16, most - 8, most - 1)
    got = program.run(words_of(program, "replay table", files), given=given)
    tally.same("a replay of the last sectors below 2^50", got, 0, answers)
