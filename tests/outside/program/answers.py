"""Requests that are answered, up to the first that is bad.

Each row shows one rule of mapping, of joining or of the texts that are taken. Its numbers are small
enough to be followed by hand: what is wanted is written down from the rules, and never taken from a run.
"""

# A name, FILE, DISKS, the requests, what is answered, and why the run ended before their end, if it did.
ROWS = [
    # One device.
    ("a volume", "a: 0 100 linear sda 50\n", "sda 150\n", "R a 0 100\n", "1 R sda 50 100\n", ""),
    ("no requests", "a: 0 100 linear sda 50\n", "sda 150\n", "", "", ""),
    ("a read over the end is one error", "a: 0 100 linear sda 50\n", "sda 150\n",
     "R a 99 2\nR a 99 1\nW a 99 1\nR a 100 1\nR a 0 101\n",
     "1 error 2\n2 R sda 149 1\n3 W sda 149 1\n4 error 1\n5 error 101\n", ""),
    ("a line of errors", "a: 0 10 linear sda 0\na: 10 5 error\n", "sda 10\n", "R a 8 4\nW a 12 1\nW a 0 1\n",
     "1 R sda 8 2\n1 error 2\n2 error 1\n3 W sda 0 1\n", ""),
    ("a space at the end of a line", "a: 0 8 error \n", "", "R a 0 8\n", "1 error 8\n", ""),
    ("sources without a device", "", "", "", "", ""),
    # Lines that join, and lines that don't.
    ("two lines of consecutive sectors", "a: 0 10 linear sda 0\na: 10 10 linear sda 10\n", "sda 20\n",
     "R a 5 10\n", "1 R sda 5 10\n", ""),
    ("two disks", "a: 0 10 linear sda 0\na: 10 10 linear sdb 10\n", "sda 20\nsdb 20\n", "R a 5 10\n",
     "1 R sda 5 5\n1 R sdb 10 5\n", ""),
    ("one disk backwards, and twice the same sector", "a: 0 2 linear sda 2\na: 2 2 linear sda 0\na: 4 2 linear sda 1\n",
     "sda 4\n", "W a 0 6\n", "1 W sda 2 2\n1 W sda 0 2\n1 W sda 1 2\n", ""),
    ("two lines of errors", "a: 0 2 error\na: 2 2 error\na: 4 2 linear sda 0\na: 6 2 error\n", "sda 4\n",
     "R a 0 8\n", "1 error 4\n1 R sda 0 2\n1 error 2\n", ""),
    ("requests are not joined", "a: 0 100 linear sda 50\n", "sda 150\n", "R a 0 1\nR a 1 1\nW a 2 1\n",
     "1 R sda 50 1\n2 R sda 51 1\n3 W sda 52 1\n", ""),
    # Names.
    ("a name that ends with a colon", "a:: 0 8 error\n", "sda 150\n", "R a: 0 8\n", "1 error 8\n", ""),
    ("a disk of the device's name", "sda: 0 8 linear sda 1\n", "sda 9\n", "R sda 0 8\n", "1 R sda 1 8\n", ""),
    ("a disk beside the devices' folder", "a: 0 8 linear /dev/mapperx 0\n", "/dev/mapperx 8\n", "R a 0 8\n",
     "1 R /dev/mapperx 0 8\n", ""),
    ("every letter of a device's name", "#+-.:=@_Az09: 0 8 error\n", "sda 150\n", "R #+-.:=@_Az09 0 8\n",
     "1 error 8\n", ""),
    ("disks whose names begin and end alike",
     "a: 0 8 linear same-headA-same-tail 0\na: 8 8 linear same-headB-same-tail 0\n",
     "same-headA-same-tail 8\nsame-headB-same-tail 8\n", "R a 4 8\n",
     "1 R same-headA-same-tail 4 4\n1 R same-headB-same-tail 0 4\n", ""),
    # Great numbers.
    ("the greatest request", "a: 0 1048576 linear sda 0\n", "sda 1048576\n", "R a 0 1048576\n",
     "1 R sda 0 1048576\n", ""),
    ("the greatest start", "a: 0 100 linear sda 50\n", "sda 150\n",
     "R a 9999999999999999999 1\nW a 9999999999999999999 1048576\n", "1 error 1\n2 error 1048576\n", ""),
    ("the greatest device, and a start of 20 digits", "a: 0 1125899906842624 linear sda 0\n",
     "sda 1125899906842624\n", "R a 1125899906842623 1\nR a 1125899906842624 1\nR a 10000000000000000000 1\n",
     "1 R sda 1125899906842623 1\n2 error 1\n", "request 3: number"),
    ("the greatest offset of a sector", "a: 0 1 linear sda 1125899906842623\n", "sda 1125899906842624\n",
     "W a 0 1\n", "1 W sda 1125899906842623 1\n", ""),
    # Stripes.
    ("stripes of two columns", "a: 0 64 striped 2 8 sda 0 sdb 100\n", "sda 32\nsdb 132\n", "R a 4 16\n",
     "1 R sda 4 4\n1 R sdb 100 8\n1 R sda 8 4\n", ""),
    ("one column joins over its chunks", "a: 0 64 striped 1 8 sda 0\n", "sda 64\n", "R a 0 64\n", "1 R sda 0 64\n", ""),
    ("stripes that go on from a line and into one", "a: 0 8 linear sda 0\na: 8 16 striped 2 4 sda 8 sdb 0\na: 24 4 linear sdb 8\n",
     "sda 16\nsdb 12\n", "R a 4 24\nW a 8 16\n",
     "1 R sda 4 8\n1 R sdb 0 4\n1 R sda 12 4\n1 R sdb 4 8\n2 W sda 8 4\n2 W sdb 0 4\n2 W sda 12 4\n2 W sdb 4 4\n", ""),
    ("stripes of which two go on from each other", "a: 0 12 striped 2 2 sda 0 sda 2\n", "sda 12\n",
     "R a 0 12\nR a 1 5\n", "1 R sda 0 4\n1 R sda 2 4\n1 R sda 4 4\n2 R sda 1 3\n2 R sda 2 2\n", ""),
    ("stripes over disks and a device", "a: 0 24 striped 3 4 sda 0 /dev/mapper/b 0 sdb 0\nb: 0 2 zero\nb: 2 6 linear sdc 10\n",
     "sda 8\nsdb 8\nsdc 16\n", "R a 0 24\n",
     "1 R sda 0 4\n1 zero 2\n1 R sdc 10 2\n1 R sdb 0 4\n1 R sda 4 4\n1 R sdc 12 4\n1 R sdb 4 4\n", ""),
    ("stripes below another device", "a: 0 16 striped 2 4 sda 0 sdb 0\nc: 0 16 linear /dev/mapper/a 0\n", "sda 8\nsdb 8\n", "W c 2 14\n",
     "1 W sda 2 2\n1 W sdb 0 4\n1 W sda 4 4\n1 W sdb 4 4\n", ""),
    ("stripes after another line", "a: 0 3 zero\na: 3 12 striped 3 2 sda 0 sda 10 sda 20\n", "sda 24\n",
     "W a 2 9\n", "1 drop 1\n1 W sda 0 2\n1 W sda 10 2\n1 W sda 20 2\n1 W sda 2 2\n", ""),
    ("the most columns and the greatest chunk of one", "a: 0 4294967295 striped 1 4294967295 sda 1\n",
     "sda 4294967296\n", "R a 4294967294 1\n", "1 R sda 4294967295 1\n", ""),
    # Zeros.
    ("a line of zeros between two others", "a: 0 10 linear sda 0\na: 10 5 zero\na: 15 10 linear sda 10\n", "sda 20\n",
     "W a 0 25\nR a 8 9\n", "1 W sda 0 10\n1 drop 5\n1 W sda 10 10\n2 R sda 8 2\n2 zero 5\n2 R sda 10 2\n", ""),
    ("zeros and errors below another device", "z: 0 4 zero\nz: 4 4 error\na: 0 8 linear /dev/mapper/z 0\n",
     "sda 150\n", "R a 0 8\nW a 2 4\n", "1 zero 4\n1 error 4\n2 drop 2\n2 error 2\n", ""),
    ("errors beside errors, of two lines", "a: 0 4 error\na: 4 4 error\nb: 0 8 linear /dev/mapper/a 0\n", "",
     "R b 0 8\nW b 2 4\n", "1 error 8\n2 error 4\n", ""),
    # What lies below what.
    ("equals signs in names", "a=b: 0 8 linear /dev/mapper/c= 0\nc=: 0 8 linear s=a 0\n", "s=a 8\n", "R a=b 0 8\n",
     "1 R s=a 0 8\n", ""),
    ("a device that is named before it is described", "b: 0 8 linear /dev/mapper/a 2\na: 0 10 linear sda 5\n",
     "sda 150\n", "R b 0 8\nR a 0 10\nR b 7 2\n", "1 R sda 7 8\n2 R sda 5 10\n3 error 2\n", ""),
    ("a disk and a device of one name", "sda: 0 8 linear sda 1\nb: 0 8 linear /dev/mapper/sda 0\nc: 0 8 linear sda 0\n",
     "sda 150\n", "R b 0 8\nR c 0 8\n", "1 R sda 1 8\n2 R sda 0 8\n", ""),
    ("the greatest request through two devices", "a: 0 1048576 linear sda 0\nb: 0 1048576 linear /dev/mapper/a 0\n",
     "sda 1048576\n", "R b 0 1048576\n", "1 R sda 0 1048576\n", ""),
    ("the end of a lower device is no border of what joins",
     "a: 0 8 linear sda 0\nb: 0 8 linear sda 8\nc: 0 8 linear /dev/mapper/a 0\nc: 8 8 linear /dev/mapper/b 0\n",
     "sda 150\n", "W c 4 8\n", "1 W sda 4 8\n", ""),
    # The first bad line ends the run.
    ("after answers", "a: 0 100 linear sda 50\n", "sda 150\n", "R a 0 1\nW a 1 2\nR a 0 0\nR a 2 1\nx\n",
     "1 R sda 50 1\n2 W sda 51 2\n", "request 3: length"),
    ("before a rest", "a: 0 100 linear sda 50\n", "sda 150\n", "R b 0 1\nR a", "", "request 1: unknown"),
    ("without a device", "", "", "R a 0 1\n", "", "request 1: unknown"),
]


def test_rows(tally, program):
    for name, table, disks, requests, output, refused in ROWS:
        message = "dmremap: %s\n" % refused if refused else ""
        tally.same(name, program.map(table, disks, requests), 3 if refused else 0, output, message)
