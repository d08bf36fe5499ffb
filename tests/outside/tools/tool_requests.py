"""What the commands that make requests make of inputs, among them such as are easily taken wrong."""

import os

from harness import text_of
from tool_calls import bad, call, check_rows, good, lost

LAST = 1048576


def test_requests(tally, program, top):
    check_rows(tally, program, top, FILEFRAG + TRACE + REQUESTS + TABLES)


def test_times(tally, program, top):
    """Each request has its time, also where a long one is cut into several."""
    rows = [(0.5, " R 8 + 16"), (0.75, " R 0 + 3145729"), (1.25, " N 0 + 8"), (1.5, "WS 0 + 1048577"), (2.0, " R 8 + 1048576")]
    lines = "".join((QUEUED % what).replace("0.000000000", "%.9f" % time) for time, what in rows)
    folder = os.path.dirname(program.file("long-times/ls", LS))
    program.file("long-times/tables", KEPT)
    got = call(top, ["trace", "--write-times", "beside", "ls", "tables"], given=lines, folder=folder)
    cut = "R vg0-lv0 0 1048576\nR vg0-lv0 1048576 1048576\nR vg0-lv0 2097152 1048576\nR vg0-lv0 3145728 1\n"
    tally.same("a trace with long requests", got, 0, "R vg0-lv0 8 16\n%sW vg0-lv0 0 1048576\nW vg0-lv0 1048576 1\nR vg0-lv0 8 1048576\n" % cut,
               "left out: requests that are neither reads nor writes: 1\n")
    found = text_of(os.path.join(folder, "beside")).splitlines()
    tally.holds("the times of long requests", list(map(float, found)) == [0.5] + 4 * [0.75] + 2 * [1.5] + [2.0], found)


# Extents of a file.

HEAD = "Filesystem type is: ef53\nFile size of /f is %d (%d blocks of %d bytes)\n"
LIST = " ext:     logical_offset:        physical_offset: length:   expected: flags:\n"
V = ["v"]


def frag(extents, size=20480, block=512, found=1):
    """What filefrag prints of a file with these lines of extents."""
    return HEAD % (size, -(-size // block), block) + LIST + extents + "/f: %d extents found\n" % found


def frags(extents, output, message="", **how):
    return good("filefrag", V, [frag(extents, **how)], output, message)


def no_frags(text, message, output=""):
    return bad("filefrag", V, [text], "1:" + message, output)


TWO = ("   0:        0..      15:       8000..      8015:     16:            \n"
       "   1:       16..      23:      40960..     40967:      8:       8016: last,eof\n")
WHOLE = "   0:        0..       1:          8..         9:      2:             last,eof\n"
FILEFRAG = [frags(TWO, "R v 8000 16\nR v 40960 8\n", size=12288), frags(WHOLE, "R v 64 16\n", size=8192, block=4096),
    frags(WHOLE, "R v 16 4\n", size=2048, block=1024),
    frags("   0: 0.. 1048575: 0..1048575: 1048576: last\n", "R v 0 1048576\n"),
    frags("   0: 0.. 1048576: 0..1048576: 1048577: last\n", "R v 0 1048576\nR v 1048576 1\n"),
    frags("   0: 4194304.. 6694303: 6597069766656..6597072266655: 2500000: 40976: last,eof\n",
          "R v 6597069766656 %d\nR v 6597070815232 %d\nR v 6597071863808 402848\n" % (LAST, LAST)),
    frags("   0:        0..       7:         80..        87:      8:             last,merged,shared,eof\n", "R v 80 8\n", size=4096),
    frags(TWO.replace("last,eof", "") + "   2:       24..      31:      50000..     50007:      8:      40968: last,unwritten,eof\n",
          "R v 8000 16\nR v 40960 8\n",
          "unwritten, so that it reads as zeros: 2:       24..      31:      50000..     50007:      8:      40968: last,unwritten,eof\n",
          size=16384), frags("", "", found=0),
    good("filefrag", V, ["Filesystem type is: ef53\nFilesystem cylinder groups approximately 3\n" +
                         "File size of a b (3 blocks of 7 bytes) is 9 is 5 (2 block of 512 bytes)\n" + LIST + "a: 0 extents found\n"], ""),
    good("filefrag", V, [frag(WHOLE, 1024) + frag(WHOLE, 8192, 4096)], "R v 8 2\nR v 64 16\n"),
    good("filefrag", ["/dev/vg-0/lv"], [frag(WHOLE, 1024)], "R vg--0-lv 8 2\n"),
    bad("filefrag", [""], [frag(WHOLE, 1024)], "VOLUME: no name of a device, give it as dmsetup ls prints it: ''"),
    bad("filefrag", ["v w"], [frag(WHOLE, 1024)], "VOLUME: no name of a device, give it as dmsetup ls prints it: 'v w'"),
    bad("filefrag", ["/dev/dm-1"], [frag(WHOLE, 1024)], "VOLUME: no name of a device, give it as dmsetup ls prints it: '/dev/dm-1'"),
    no_frags("\n", "1: not a line of filefrag -v, make the text anew by `filefrag -s -v -b512`: "),
    no_frags("Filesystem type is: ef53\n", "1: no file: make the text anew by `filefrag -s -v -b512`"),
    no_frags(WHOLE, "1: not a line of filefrag -v, make the text anew by `filefrag -s -v -b512`: " + WHOLE[:-1]),
    no_frags(LIST + WHOLE, "1: not a line of filefrag -v, make the text anew by `filefrag -s -v -b512`: " + LIST[:-1]),
    no_frags(HEAD.split("\n")[1] % (8192, 2, 4096) + "\n" + LIST + WHOLE,
             "1: the line comes too early, make the text anew by `filefrag -s -v -b512`: File size of /f is 8192 (2 blocks of 4096 bytes)"),
    no_frags("Filesystem type is: 9123683e\n", "1: neither ext2, ext3, ext4 nor XFS, whose extents alone are places on the device: Filesystem type is: 9123683e"),
    no_frags(frag(WHOLE, 1000, 500), "4: blocks of 500 bytes, which are no whole sectors: give a multiple of 512"),
    no_frags(frag(WHOLE, 1024).replace("/f: 1 extents found\n", ""),
             "4: the end is missing, make the text anew by `filefrag -s -v -b512`: File size of /f is 1024 (2 blocks of 512 bytes)", "R v 8 2\n"),
    no_frags(frag(WHOLE.replace("last", "last,delalloc,unknown_loc"), 1024), "4: an extent whose place is not known, make the text anew by `filefrag -s -v -b512`: " +
             WHOLE.replace("last", "last,delalloc,unknown_loc")[3:-1]),
    no_frags(frag("   0:        0..       4:     171816..    171820:      5:             last,not_aligned,inline,eof\n", 5),
             "4: an extent whose place is not known, make the text anew by `filefrag -s -v -b512`: 0:        0..       4:     171816..    171820:      5:             last,not_aligned,inline,eof"),
    no_frags(frag(WHOLE.replace("last", "last,encoded"), 1024), "4: an extent whose place is not known, make the text anew by `filefrag -s -v -b512`: " +
             WHOLE.replace("last", "last,encoded")[3:-1]),
    no_frags(frag(TWO.replace("   1:", "   2:"), 12288), "5: an extent is missing, make the text anew by `filefrag -s -v -b512`: 2:       16..      23:      40960..     40967:"
             "      8:       8016: last,eof", "R v 8000 16\n"),
    no_frags(frag(TWO.replace("       16..      23", "       15..      22"), 12288), "5: an extent is missing, make the text anew by `filefrag -s -v -b512`: 1:       15..      22:"
             "      40960..     40967:      8:       8016: last,eof", "R v 8000 16\n"),
    no_frags(frag(TWO[:TWO.index("\n") + 1], 12288, found=2), "5: an extent is missing before, make the text anew by `filefrag -s -v -b512`: /f: 2 extents found", "R v 8000 16\n"),
    no_frags(frag("", 12288, found=2), "4: an extent is missing before, make the text anew by `filefrag -s -v -b512`: /f: 2 extents found"),
    no_frags(frag(WHOLE.replace(",eof", "") + "   1:        2..       3:         20..        21:      2:         10: last,eof\n", 2048),
             "5: an extent is missing, make the text anew by `filefrag -s -v -b512`: 1:        2..       3:         20..        21:      2:         10: last,eof", "R v 8 2\n"),
    no_frags(frag(WHOLE.replace("      2:", "      3:"), 1024), "4: ends and length differ, make the text anew by `filefrag -s -v -b512`: " + WHOLE.replace("      2:", "      3:")[3:-1]),
    no_frags(frag(WHOLE.replace(" 9:", "10:"), 1024), "4: ends and length differ, make the text anew by `filefrag -s -v -b512`: " + WHOLE.replace(" 9:", "10:")[3:-1]),
    no_frags((HEAD % (20480, 40, 512)).replace("512 bytes", "12 bytes"), "2: bytes and blocks differ, make the text anew by `filefrag -s -v -b512`: File size of /f is 20480 (40 blocks of 12 bytes)"),
    # Hexadecimal numbers, as -X prints them: with letters, and where only the file's end tells.
    no_frags(frag(WHOLE.replace(" 9:", " f:"), 1024), "4: not a line of filefrag -v, make the text anew by `filefrag -s -v -b512`: " + WHOLE.replace(" 9:", " f:")[:-1]),
    no_frags(frag("   0:        0..      10:         20..        30:     11:             last,eof\n", 17 * 512),
             "4: the file ends elsewhere, make the text anew by `filefrag -s -v -b512`: 0:        0..      10:         20..        30:     11:             last,eof"),
    frags("   0: 0.. 0: 9007199254740993..9007199254740993: 1: last\n", "R v 9007199254740993 1\n", size=512),
    no_frags(frag("   0: 0.. 0: 99999999999999999999..99999999999999999999: 1: last\n", 512),
             "4: not a line of filefrag -v, make the text anew by `filefrag -s -v -b512`:    0: 0.. 0: 99999999999999999999..99999999999999999999: 1: last"),
    no_frags(frag("   0: 0.. 0: 999999999999999999..999999999999999999: 1: last\n", 65536, 65536),
             "4: it goes past sector 2^64, give fewer:    0: 0.. 0: 999999999999999999..999999999999999999: 1: last"),
    no_frags(HEAD % (10 ** 20, 1, 512), "2: give a whole number below 2^64, and not '100000000000000000000'"),
    # A name of a file may hold anything, and be long.
    no_frags("Filesystem type is: \x1b[2J\n", "1: neither ext2, ext3, ext4 nor XFS, whose extents alone are places on the device: Filesystem type is: \\x1b[2J"),
    no_frags("Filesystem type is: ef53\n" + "\u202e" * 200 + "\n", "2: not a line of filefrag -v, make the text anew by `filefrag -s -v -b512`: " + "\\u202e" * 100 + ".."),
    # A name with a newline that looks like an extent.
    no_frags("Filesystem type is: ef53\nFile size of /x\n   0:        0..     119:   1..  120:    120:            \n"
             " is 0 (0 blocks of 4096 bytes)\n", "2: not a line of filefrag -v, make the text anew by `filefrag -s -v -b512`: File size of /x"),
]

# Requests of traces and bytes.

LS = "vg0-lv0\t(253:0)\nvg0-lv--1\t(253:1)\nmy disk\t(253:2)\nvg0-thin\t(253:3)\n"
KEPT = "vg0-lv0: 0 8 zero\nvg0-lv0: 8 8 error\nvg0-lv--1: 0 8 zero\n"
QUEUED = "253,0    0        7     0.000000000  4101  Q %s [fio]\n"


NO_REQUEST = "no request came to a device of the tables: a trace of the disks below them takes --lower\n"


def traced(lines, output="", message="", names=LS, tables=KEPT):
    return good("trace", [], [names, tables, lines], output, message + ("" if output else NO_REQUEST))


def no_trace(lines, message, output="", names=LS, tables=KEPT):
    return bad("trace", [], [names, tables, lines], message, output)


TRACE = [traced(QUEUED % "  R 8 + 16", "R vg0-lv0 8 16\n"),
    traced(QUEUED % "FWS 8 + 16" + QUEUED % "WFS 24 + 8" + QUEUED % " RA 0 + 8", "W vg0-lv0 8 16\nW vg0-lv0 24 8\nR vg0-lv0 0 8\n"),
    traced((QUEUED % "  R 8 + 16").replace("[fio]", "[Q R 0 + 8 a]"), "R vg0-lv0 8 16\n"),
    traced((QUEUED % "  R 8 + 16").replace("253,0 ", "  8,0 "), "", "left out: requests to 8,0, which is not in the output of dmsetup ls: 1\n"),
    traced(QUEUED % "  R 8 + 16", "R a 8 16\n", names="a\t(253, 0)\n", tables="a: 0 8 zero\n"),
    # Devices that were left out are told, in the order in which they come.
    traced("".join((QUEUED % "  R 8 + 16").replace("253,0", "253,%d" % it) for it in (3, 0, 2, 3, 1, 9)),
           "R vg0-lv0 8 16\nR vg0-lv--1 8 16\n", "left out: requests to vg0-thin (253,3), which is not in the tables: 2\n"
           "left out: requests to my disk (253,2), which is not in the tables: 1\nleft out: requests to 253,9, which is not in the output of dmsetup ls: 1\n"),
    no_trace(QUEUED % "  R 8 + 16", "2:1: not table text, give NAME: START LENGTH TARGET ..: No devices found", tables="No devices found\n"),
    no_trace(QUEUED % "  R 8 + 16", "2: no device in it: give what `dmremap table` prints", tables=""),
    traced(QUEUED % "  D 8 + 16" + QUEUED % "  N 8 + 16", "", "left out: requests that are neither reads nor writes: 2\n"),
    traced(QUEUED % "  R 0 + 1048577", "R vg0-lv0 0 1048576\nR vg0-lv0 1048576 1\n"),
    traced("  fio-1 [002] ..... 12.5: block_bio_queue: 253,1 RA 8 + 16 [x]\n", "R vg0-lv--1 8 16\n"),
    traced("fio 1 [002] 12.5: block:block_bio_queue: 253,1 W 8 + 16 [x]\n", "W vg0-lv--1 8 16\n"),
    traced("  fio-1 [002] ..... 12.5: block_bio_queue: 253,1 FF 0 + 0 [x]\n"),
    traced(QUEUED % "  R 8 + 16" + "CPU0 (253,0):\n Reads Queued:           1,        8KiB\nSkips: 0 forward (0 -   0.0%)\n", "R vg0-lv0 8 16\n"),
    no_trace(QUEUED % "  R 8 + 16" + "Skips: 2 forward (9 -   1.0%)\n", "3:2: events were lost, trace again with larger buffers: Skips: 2 forward (9 -   1.0%)", "R vg0-lv0 8 16\n"),
    no_trace("CPU:3 [LOST 12 EVENTS]\n", "3:1: events were lost, trace again with larger buffers: CPU:3 [LOST 12 EVENTS]"),
    no_trace("CPU:3 [12 EVENTS DROPPED]\n", "3:1: events were lost, trace again with larger buffers: CPU:3 [12 EVENTS DROPPED]"),
    no_trace(QUEUED % " ZA 8 + 16", "3:1: neither a read nor a write, leave it out: " + (QUEUED % " ZA 8 + 16")[:-1]),
    no_trace(QUEUED % "  R 8 / 16", "3:1: not a form of the event, trace with `blkparse`: " + (QUEUED % "  R 8 / 16")[:-1]),
    traced(QUEUED % "  R 9007199254740993 + 1", "R vg0-lv0 9007199254740993 1\n"),
    traced(QUEUED % "  R 18446744073709551614 + 1", "R vg0-lv0 18446744073709551614 1\n"),
    no_trace(QUEUED % "  R 18446744073709551615 + 2", "3:1: it goes past sector 2^64, give fewer: " + (QUEUED % "  R 18446744073709551615 + 2")[:-1]),
    no_trace(QUEUED % "  R 18446744073709551616 + 1", "3:1: give a whole number below 2^64, and not '18446744073709551616'"),
    no_trace(QUEUED % "  R x + 1", "3:1: give a whole number below 2^64, and not 'x'"),
    # Other actions, and a process whose name looks like the event.
    traced((QUEUED % "  R 8 + 16").replace("Q", "C") + QUEUED % "FWS" + QUEUED % "  R 8 + 16", "R vg0-lv0 8 16\n"),
    traced("  8,0 1 1 1 1 C x-4101 [002] ..... 12.5: block_bio_queue: 253,0 R 8 + 16 [x]\n", "R vg0-lv0 8 16\n"),
    no_trace("8,0 1 1 1 1 Q R-4101 [002] ..... 12.5: block_bio_queue: 253,0 R 8 [x]\n",
             "3:1: not a form of the event, trace with `blkparse`: 8,0 1 1 1 1 Q R-4101 [002] ..... 12.5: block_bio_queue: 253,0 R 8 [x]"),
    no_trace("block_bio_queue: 253,1 R 8 + 16 [x]\n", "3:1: not a form of the event, trace with `blkparse`: block_bio_queue: 253,1 R 8 + 16 [x]"),
    no_trace((QUEUED % "  R 8 + 16")[:40], "3:1: the text ends within a line, give all of it: " + (QUEUED % "  R 8 + 16")[:40]),
    # Tables in the concise form, which machines have.
    traced(QUEUED % "  R 8 + 16", "R vg0-lv0 8 16\n", tables="vg0-lv0,,,rw,0 8 zero\n"),
    no_trace("12.5: block_bio_queue: 253,1 R 8 [x]\n", "3:1: not a form of the event, trace with `blkparse`: 12.5: block_bio_queue: 253,1 R 8 [x]"),
    no_trace("hello\n", "3:1: no request in the trace: give what `blkparse` prints of the devices"),
    # Lines that tell of no request are counted, but not what a tracer prints beside its lines.
    traced("# tracer: nop\n\nhello\n" + QUEUED % "  R 8 + 16" + "a-1 [002] ..... 12.5: sched_switch: prev_comm=a\nTotal (253,0):\n Reads Queued:   1,  8KiB\n"
           "Throughput (R/W): 1KiB/s / 0KiB/s\nEvents (253,0): 2 entries\n" + (QUEUED % "  R 8 + 16").replace("Q", "X Q"), "R vg0-lv0 8 16\n",
           "left out: lines without a request: 2\n"),
    no_trace("", "3: no request in the trace: give what `blkparse` prints of the devices"),
    # A line that is refused among others.
    no_trace(QUEUED % "  R 8 + 16" + QUEUED % "  W 8 + 0" + QUEUED % "  R 8 + 8", "3:2: no sectors, give at least one: " + (QUEUED % "  W 8 + 0")[:-1], "R vg0-lv0 8 16\n"),
    no_trace("a-1 [002] 12.5: block_bio_queue: 253,1 R 8 + 16\na-1 [002] 12.5: block_bio_queue: 253,1 X 8 + 16\n",
             "3:2: neither a read nor a write, leave it out: a-1 [002] 12.5: block_bio_queue: 253,1 X 8 + 16", "R vg0-lv--1 8 16\n"),
    no_trace("hello\n", "1: not what `dmsetup ls` prints of devices", names="No devices found\n"),
    traced(QUEUED % "  R 8 + 16", "", "left out: requests to a\\x20b (253,0), which is not in the tables: 1\n", names="a\\x20b\t(253:0)\n"),
]

# Traces of the disks below.
LSBLK = "  8:0 512 sda \n8:1 512 sda1 sda\n8:16 512 sdb \n".lstrip()
LOWER = (QUEUED % "  R 8 + 16").replace("253,0 ", "  8,0 ") + (QUEUED % " WS 8 + 8").replace("253,0 ", " 8,16 ")
TRACE += [good("trace", ["--lower"], [LSBLK, "/dev/sda 99\n/dev/sdb 99\n", LOWER], "R /dev/sda 8 16\nW /dev/sdb 8 8\n"),
    good("trace", ["--lower"], [LSBLK, "/dev/sdb 99\n", LOWER + QUEUED % "  R 8 + 16"], "W /dev/sdb 8 8\n",
         "left out: requests to /dev/sda (8,0), which is not in DISKS: 1\nleft out: requests to 253,0, which is not in the output of lsblk: 1\n"),
    good("trace", ["--lower"], [LSBLK, "/dev/sdc 99\n", QUEUED % "  D 8 + 16"], "",
         "left out: requests to 253,0, which is not in the output of lsblk: 1\nno request came to a disk of DISKS\n"),
    bad("trace", ["--lower"], [LSBLK, "", LOWER], "2: no disk in it: give lines NAME SECTORS"),
    bad("trace", ["--lower"], [LS, "/dev/sda 99\n", LOWER], "1: not what `lsblk -brno MAJ:MIN,SIZE,KNAME,PKNAME` prints of devices"),
    ("trace", ["--cut", "--write-times", "times"], [""], "refused\n", "dmremap-tools trace: --write-times is for traces that have times: leave it out\n", 2),
    ("trace", ["--bytes"], [LS, KEPT], "refused\n", "dmremap-tools trace: give REQUESTS alone\n", 2),
    ("trace", [], [LS], "refused\n", "dmremap-tools trace: give LS, TABLES and perhaps TRACE\n", 2),
]

REQUESTS = [
    # Names of devices as paths.
    good("trace", ["--bytes"], ["R /dev/mapper/a 0 1\nW /dev/b-c/d-e 511 2\n"], "R a 0 1\nW b--c-d--e 0 2\n"),
    bad("trace", ["--bytes"], ["R /dev/dm-12 0 1\n"], "1:1: no name of a device, give it as dmsetup ls prints it: '/dev/dm-12'"),
    bad("trace", ["--bytes"], ["R /dev/sda 0 1\n"], "1:1: no name of a device, give it as dmsetup ls prints it: '/dev/sda'"),
    bad("trace", ["--bytes"], ["R /dev/disk/by-id/x 0 1\n"], "1:1: no name of a device, give it as dmsetup ls prints it: '/dev/disk/by-id/x'"),
    good("trace", ["--cut"], ["R /dev/mapper/a 0 1\n"], "R a 0 1\n"),
    good("trace", ["--bytes"], ["R a 0 1\nW a 511 2\nR a 1024 512\n"], "R a 0 1\nW a 0 2\nR a 2 1\n"),
    good("trace", ["--bytes"], ["R a 4503599627370496 1024\n"], "R a 8796093022208 2\n"),
    bad("trace", ["--bytes"], ["R a 0 0\n"], "1:1: no bytes, give at least one: R a 0 0"),
    bad("trace", ["--bytes"], ["R a -1 8\n"], "1:1: give a whole number below 2^64, and not '-1'"),
    bad("trace", ["--bytes"], ["R a 1e3 8\n"], "1:1: give a whole number below 2^64, and not '1e3'"),
    bad("trace", ["--bytes"], ["R a 0x10 8\n"], "1:1: give a whole number below 2^64, and not '0x10'"),
    bad("trace", ["--bytes"], ["R a 010 8\n"], "1:1: give a whole number below 2^64, and not '010'"),
    bad("trace", ["--bytes"], ["R a 8\n"], "1:1: give R or W, a device, an offset and a length, and not: R a 8"),
    good("trace", ["--cut"], ["R a 0 1048576\nW b 5 1048577\n"], "R a 0 1048576\nW b 5 1048576\nW b 1048581 1\n"),
    bad("trace", ["--cut"], ["R a 0 4398046511105\n"], "1:1: longer than 2 PiB, give it in parts: R a 0 4398046511105"),
    bad("trace", ["--cut"], ["R a 0 1\nR a 0 0\n"], "1:2: no sectors, give at least one: R a 0 0", "R a 0 1\n"),
    good("trace", ["--cut"], [""], "", "no line came\n"), good("trace", ["--bytes"], [""], "", "no line came\n"),
    bad("trace", ["--cut"], ["r a 0 1\n"], "1:1: not a request, give R or W, a device, a sector and how many: r a 0 1"),
    # Letters at which some would begin a line anew.
    bad("trace", ["--cut"], ["R a\x85b\u2028 0 1\n"], "1:1: not a request, give R or W, a device, a sector and how many: R a\\x85b\\u2028 0 1"),
    bad("trace", ["--cut"], ["R a,b 0 1\n"], "1:1: no name of a device, give it as dmsetup ls prints it: 'a,b'"),
]

# Texts of tables that are none.

TABLES = [
    bad("trace", [], [LS, "a: 0 8 linear sda 12"], "2:1: the text ends within a line, give all of it: a: 0 8 linear sda 12"),
    bad("trace", [], [LS, "a,,,rw,0 8 linear sda 12"], "2:1: the text ends within a line, give all of it: a,,,rw,0 8 linear sda 12"),
]
