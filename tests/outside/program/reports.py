"""The command `check`: what it counts, the depth, and the clash of two lines."""

# The format, FILE, DISKS, the report, and why the load is refused, if it is.
ROWS = [
    ("table", "", "", "devices 0\ndisks 0\ndepth 0\ntidy\n", ""),
    ("table", "a: 0 8 linear sda 0\nb: 0 8 linear sda 4\n", "sda 16\n",
     "devices 2\ndisks 1\ndepth 1\nclash sda 4 a b\n", ""),
    ("table", "a: 0 8 linear sda 0\nb: 0 8 linear sda 8\n", "sda 16\nsdb 1\n",
     "devices 2\ndisks 2\ndepth 1\ntidy\n", ""),
    ("table", "a: 0 8 zero\nb: 0 8 linear /dev/mapper/a 0\nc: 0 8 linear /dev/mapper/a 0\n", "",
     "devices 3\ndisks 0\ndepth 2\nclash /dev/mapper/a 0 b c\n", ""),
    ("table", "s: 0 8 snapshot base base P 1\n", "base 8\n", "devices 1\ndisks 1\ndepth 1\nclash base 0 s s\n", ""),
    # Two that read one origin get along.
    ("concise", "s,,,,0 8 snapshot base one P 1;t,,,,0 8 snapshot base two P 1\n", "base 8\none 8\ntwo 8\n",
     "devices 2\ndisks 3\ndepth 1\ntidy\n", ""),
    # The first that meets an earlier one is c, and the first that it meets is a, at 5.
    ("table", "a: 0 8 linear sda 0\nb: 0 8 linear sda 8\nc: 0 8 linear sda 5\nd: 0 8 linear sda 0\n", "sda 16\n",
     "devices 4\ndisks 1\ndepth 1\nclash sda 5 a c\n", ""),
    ("table", "a: 0 16 striped 2 8 sda 0 sda 4\n", "sda 16\n", "devices 1\ndisks 1\ndepth 1\nclash sda 4 a a\n", ""),
    ("table", "a: 0 8 linear sda 1\n", "sda 8\n", "", "source: range at 1"),
]


def test_rows(tally, program):
    for form, source, disks, report, refused in ROWS:
        got = program.run(["check", form, program.file("source", source), program.file("disks", disks)])
        message = "dmremap: %s\n" % refused if refused else ""
        tally.same("check of %r" % source, got, 1 if refused else 0, report, message)
