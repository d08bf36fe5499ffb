"""Refused tables and disk lists: each word of a refusal, its place and its status."""


def chain(levels):
    """Devices d1, d2, .. of which each lies over the one before."""
    return "d1: 0 8 linear sda 0\n" + "".join(
        "d%d: 0 8 linear /dev/mapper/d%d 0\n" % (it, it - 1) for it in range(2, levels + 1))


# FILE, DISKS, and the message without its beginning `dmremap: `.
REFUSED = [(table, disks, message) for message, rows in [
    ("source: text at 2", [("a: 0 8 error\nb:\t0 8 error\n", ""), ("a: 0 8 error\n\0", "")]),
    ("source: text at 1", [("a: 0 8 linear sd\u00e4 0\n", "")]),
    ("source: syntax at 2", [("a: 0 8 error\n\n", "")]),
    ("source: syntax at 1", [("a: 0 8  error\n", "")]),
    ("source: field at 1", [("a: 0 8 mirror\n", ""), ("a: 08 8 error\n", ""), ("a: 0 8 striped 2 4 sda 0 sdb\n", ""),
                            ("a: 0 10000000000000000000 error\n", "")]),
    ("source: field at 2", [("a!: 0 8 error\na: 8 8 zero 0\n", "")]),
    ("source: name at 1", [("a!: 0 8 error\n", ""), ("%s: 0 8 error\n" % ("a" * 128), "")]),
    # The greatest lengths of names pass this check, and show in a later one.
    ("source: gap at 1", [("%s: 1 8 error\n" % ("a" * 127), "sda 150\n")]),
    ("source: name at 1", [("%s: 1 8 error\n" % ("a" * 128), "sda 150\n"),
                           ("a: 0 8 linear /dev/mapper/%s 0\n" % ("a" * 128), "sda 150\n"),
                           ("a: 0 8 linear %s 0\n" % ("a" * 256), "sda 150\n"),
                           ("a: 0 8 linear %s 0\n" % ("s" * 256), "")]),
    ("source: unknown at 1", [("a: 0 8 linear /dev/mapper/%s 0\n" % ("a" * 127), "sda 150\n"),
                              ("a: 0 8 linear %s 0\n" % ("a" * 255), "sda 150\n"),
                              ("a: 0 100 linear sda 50\n", "%s 8\n" % ("a" * 255)),
                              ("a: 0 8 linear sdz 0\n", "sda 8\n"), ("a: 0 8 linear /dev/mapper/b 0\n", "sda 8\n"),
                              ("a: 0 8 linear same-headB-same-tail 0\n", "same-headA-same-tail 8\n")]),
    ("disks: name at 1", [("a: 0 100 linear sda 50\n", "%s 8\n" % ("a" * 256)),
                          ("a: 0 8 error\n", "/dev/mapper/a 8\n")]),
    ("disks: text at 1", [("a: 0 8 error\n", "sda 8\r\n")]),
    ("disks: syntax at 1", [("a: 0 8 error\n", "sda 8 \n"), ("a: 0 8 error\n", "sda 8")]),
    ("disks: syntax at 2", [("a: 0 8 error\n", "sda 8\nsdb\n")]),
    ("disks: field at 1", [("a: 0 8 error\n", "sda x\n")]),
    ("source: field at 1", [("a: 0 8 nothing\n", "sda x\n")]),
    ("source: limit at 1", [("a: 0 8 linear sda 9999999999999999999\n", "sda 8\n")]),
    ("disks: twice at 2", [("a: 0 8 error\n", "sda 8\nsda 9\n")]),
    ("disks: empty at 1", [("a: 0 8 error\n", "sda 0\n")]),
    ("source: deep at 33", [(chain(33), "sda 8\n")]),
    ("source: stripe at 1", [("a: 0 60 striped 2 8 sda 0 sdb 0\n", "sda 64\nsdb 64\n")]),
    ("source: range at 1", [("a: 0 100 linear sda 50\n", "sda 149\n"),
                            ("a: 0 64 striped 2 8 sda 0 sda 33\n", "sda 64\n")]),
] for table, disks in rows]

# A table that TABLES stand in place of, and a disk list that DISK_LISTS do.
VOLUME = "a: 0 100 linear sda 50\n"
DISK = "sda 150\n"

TABLES = [(table, message) for message, rows in [
    # Texts of tables.
    ("source: text at 2", ["a: 0 8 error\na: 8 8\terror\n", "a: 0 8 error\na: 8 8 error\x7f"]),
    ("source: text at 1", ["a: 0 8 error\r\n", "\u00e9: 0 8 error\n"]),
    ("source: syntax at 1", ["\n", "a: 0 8\n", "a 0 8 error\n", ": 0 8 error\n", "a : 0 8 error\n", " a: 0 8 error\n",
                             "a: 0  8 error\n", "a: 0 8 error  \n", "a: 0 8 error"]),
    ("source: syntax at 2", ["a: 0 8 error\n\na: 8 8 error\n", "a: 0 8 error\na: 8 8 error"]),
    ("source: field at 1", ["a: 00 8 error\n", "a: 0 08 error\n", "a: 0 -8 error\n",
                            "a: 10000000000000000000 8 error\n", "a: 0 8 error 0\n", "a: 0 8 linear\n",
                            "a: 0 8 linear sda\n", "a: 0 8 linear sda x\n", "a: 0 8 linear sda 0 0\n"]),
    ("source: field at 2", ["a: 0 8 error\na: 8 8 linea sda 0\n"]),
    ("source: name at 1", ["a,: 0 8 error\n", "a: 0 8 linear s\\a 0\n", "a: 0 8 linear /dev/mapper/ 0\n",
                           "a: 0 8 linear /dev/mapper/a/b 0\n"]),
    ("source: name at 2", ["a: 0 8 error\na: 8 8 linear s;a 0\n"]),
    # Snapshots.
    ("source: field at 1", ["a: 0 8 snapshot sda sdb PO 8\n", "a: 0 8 snapshot sda sdb P\n",
                            "a: 0 8 snapshot sda sdb P 8 0\n", "a: 0 8 snapshot sda sdb P 08\n"]),
    ("source: name at 1", ["a: 0 8 snapshot sd,a sdb P 8\n", "a: 0 8 snapshot sda /dev/mapper/ P 8\n"]),
    # What they describe.
    ("source: empty at 1", ["a: 0 0 error\n"]),
    ("source: empty at 2", ["a: 0 8 error\na: 8 0 error\n"]),
    ("source: gap at 1", ["a: 1 8 error\n"]),
    ("source: gap at 2", ["a: 0 8 error\na: 9 8 error\n"]),
    ("source: overlap at 2", ["a: 0 8 error\na: 7 8 error\n", "a: 0 8 error\na: 0 8 error\n"]),
    ("source: unknown at 1", ["a: 0 8 linear sdb 0\n", "a: 0 8 linear a 0\n", "a: 0 8 linear /dev/mapper/sda 0\n"]),
    ("source: unknown at 2", ["a: 0 8 error\na: 8 8 linear /dev/mapper/b 0\n"]),
    ("source: cycle at 1", ["a: 0 8 linear /dev/mapper/a 0\n", "a: 0 8 error\na: 8 8 linear /dev/mapper/a 0\n"]),
    ("source: range at 1", ["a: 0 100 linear sda 51\n", "a: 0 151 linear sda 0\n",
                            "a: 0 1 linear sda 1125899906842624\n"]),
    ("source: range at 2", ["a: 0 8 error\na: 8 1 linear sda 150\n"]),
    ("source: twice at 3", ["a: 0 8 zero\nb: 0 8 zero\na: 8 8 zero\n"]),
    ("source: limit at 1", ["a: 1125899906842625 1 error\n", "a: 0 1125899906842625 error\n",
                            "a: 0 9999999999999999999 error\n", "a: 0 1 linear sda 1125899906842625\n"]),
    ("source: limit at 2", ["a: 0 1125899906842624 error\na: 1125899906842624 1 error\n"]),
    # Stripes.
    ("source: stripe at 1", ["a: 0 8 striped 0 8\n", "a: 0 8 striped 1 0 sda 0\n", "a: 0 9 striped 2 1 sda 0 sda 8\n",
                             "a: 0 60 striped 2 8 sda 0 sda 64\n", "a: 0 8 striped 1 4294967296 sda 0\n",
                             "a: 0 8 striped 1 9999999999999999999 sda 0\n"]),
    # A column of a stripe ends with its share of the line.
    ("source: range at 1", ["a: 0 64 striped 2 8 sda 0 sda 119\n", "a: 0 64 striped 2 8 sda 119 sda 0\n"]),
    ("source: unknown at 1", ["a: 0 64 striped 2 8 sda 0 sdb 0\n"]),
    ("source: limit at 1", ["a: 0 64 striped 2 8 sda 0 sda 1125899906842625\n"]),
    # Arguments are counted without a sum that could pass the greatest number.
    ("source: field at 1", ["a: 0 8 striped\n", "a: 0 8 striped 1\n", "a: 0 8 striped 1 8\n",
                            "a: 0 8 striped 1 8 sda\n", "a: 0 8 striped 1 8 sda 0 sda\n",
                            "a: 0 8 striped 1 8 sda 0 sda 0\n", "a: 0 8 striped 2 8 sda 0\n",
                            "a: 0 8 striped 9223372036854775808 8\n", "a: 0 8 striped 9223372036854775809 8 sda 0\n",
                            "a: 0 8 striped 01 8 sda 0\n", "a: 0 8 striped 1 8 sda 00\n", "a: 0 8 zero 0\n"]),
    ("source: name at 1", ["a: 0 8 striped 2 4 sda 0 s;a 0\n"]),
    # Several devices: one that only leads into a ring is none of it.
    ("source: cycle at 2", [
        "d: 0 8 linear /dev/mapper/a 0\na: 0 8 linear /dev/mapper/b 0\nb: 0 8 linear /dev/mapper/a 0\n"]),
    # A ring takes precedence over a length, and is reported at its first device.
    ("source: cycle at 1", ["a: 0 9 linear /dev/mapper/b 0\nb: 0 8 linear /dev/mapper/a 0\n",
                            "a: 0 8 striped 2 4 sda 0 /dev/mapper/b 0\n"
                            "b: 0 8 linear sda 0\nb: 8 8 linear /dev/mapper/a 0\n"]),
    ("source: range at 2", ["a: 0 8 linear sda 0\nb: 0 8 linear /dev/mapper/a 1\n"]),
    ("source: range at 1", ["b: 0 9 linear /dev/mapper/a 0\na: 0 8 zero\n"]),
    ("source: unknown at 2", ["a: 0 8 zero\nb: 0 8 linear /dev/mapper/c 0\n"]),
    ("source: gap at 2", ["a: 0 8 zero\na: 9 8 zero\n"]),
    ("source: overlap at 2", ["a: 0 8 zero\na: 7 8 zero\n"]),
    # Stripes take precedence over ranges, over all devices.
    ("source: stripe at 2", ["a: 0 200 linear sda 0\nb: 0 8 striped 3 1 sda 0 sda 0 sda 0\n"]),
    ("source: empty at 2", ["a: 0 8 zero\nb: 0 0 zero\n"]),
    ("source: gap at 2", ["a: 0 8 zero\nb: 1 8 zero\n"]),
    # Several faults: each check of a text runs to its end before the next.
    ("source: text at 4", ["a,: 0 8 error\n\na: 8 8 erro\n\x7f"]),
    ("source: syntax at 3", ["a,: 0 8 error\na: 8 8 erro\n\n"]),
    ("source: syntax at 2", ["a: 8 8 erro\na: 8 8 error"]),
    ("source: field at 2", ["a,: 0 8 error\na: 8 8 erro\n"]),
    # And so does each check of what they describe.
    ("source: gap at 2", ["a: 0 8 linear sdb 0\na: 9 8 error\na: 0 8 error\n"]),
    ("source: overlap at 2", ["a: 0 8 linear sdb 0\na: 7 8 error\na: 99 8 error\n"]),
    ("source: unknown at 2", ["a: 0 8 linear /dev/mapper/a 0\na: 8 8 linear sdb 0\n"]),
] for table in rows]

DISK_LISTS = [(disks, message) for message, rows in [
    ("disks: text at 2", ["sda 150\nsdb\t1\n"]),
    ("disks: text at 1", ["sda 150\r\n"]),
    ("disks: syntax at 2", ["sda 150\n\n"]),
    ("disks: syntax at 1", ["sda\n", "sda 150 \n", " sda 150\n", "sda  150\n", "sda 150 1\n", "sda 150"]),
    ("disks: field at 1", ["sda 0150\n", "sda 10000000000000000000\n"]),
    ("disks: field at 2", ["sda 150\nsdb x\n"]),
    ("disks: name at 2", ["sda 150\ns,b 1\n", "sda 150\n/dev/mapper/b 1\n"]),
    ("disks: twice at 3", ["sda 150\nsdb 1\nsda 150\n"]),
    ("disks: empty at 2", ["sda 150\nsdb 0\n"]),
    ("disks: limit at 1", ["sda 1125899906842625\n", "sda 9999999999999999999\n"]),
    # Several faults.
    ("disks: text at 4", ["s,a 8\nsdb x\nsdc\n\x7f"]),
    ("disks: syntax at 3", ["s,a 8\nsdb x\nsdc\n"]),
    ("disks: field at 2", ["s,a 8\nsdb x\n"]),
] for disks in rows]

# FILE and DISKS where several checks would find something: the first takes precedence.
SEVERAL_FAULTS = [
    # The source's text takes precedence over the disk list's, and both over what they describe.
    ("a,: 0 8 error\n", "\x7f", "source: name at 1"),
    ("a: 1 0 error\nb: 0 8 error\n", "s,a 8\n", "disks: name at 1"),
    # Then the checks of what they describe, in their order.
    ("a: 1 1125899906842625 error\nb: 0 0 error\n", "sda 0\n", "source: limit at 1"),
    ("a: 1125899906842625 0 error\n", "sda 1125899906842625\n", "source: limit at 1"),
    ("a: 1 0 error\n", "sda 0\nsda 1125899906842625\n", "disks: limit at 2"),
    ("a: 1 0 error\n", "sda 0\nsda 0\n", "disks: twice at 2"),
    ("a: 1 8 error\na: 9 0 error\n", "sda 0\n", "source: empty at 2"),
    ("a: 1 8 linear sdb 0\n", "sda 0\n", "disks: empty at 1"),
    ("a: 0 9 linear sda 0\na: 9 8 linear /dev/mapper/a 0\n", "sda 8\n", "source: cycle at 1"),
]

# Texts that are read although they look odd.
TAKEN = [
    ("a: 0 8 error \n", "", "R a 0 8\n", "1 error 8\n"),
    ("a::: 0 8 zero\n", "", "R a:: 0 8\nW a:: 7 1\n", "1 zero 8\n2 drop 1\n"),
    ("%s: 0 8 zero\n" % ("a" * 127), "", "R %s 0 8\n" % ("a" * 127), "1 zero 8\n"),
    ("a: 0 8 linear %s 0\n" % ("s" * 255), "%s 8\n" % ("s" * 255), "R a 0 8\n", "1 R %s 0 8\n" % ("s" * 255)),
    ("sda: 0 8 linear sda 1\n", "sda 9\n", "W sda 0 8\n", "1 W sda 1 8\n"),
    ("a: 0 1 linear /dev/mapperx 0\n", "/dev/mapperx 1\n", "R a 0 1\n", "1 R /dev/mapperx 0 1\n"),
    (chain(32), "sda 8\n", "R d32 0 8\n", "1 R sda 0 8\n"),
]

# Lengths of lines. One of 8 to 64 bytes is cut in another way than others: its first bytes and its last ones at once.
LENGTHS = [6, 7, 8, 9, 10, 11, 14, 15, 16, 17, 18, 30, 31, 32, 33, 34, 48, 62, 63, 64, 65, 66, 130]


def test_lengths(tally, program):
    """Lines of these lengths, as they should be, and with one more space at each place."""
    def table(name, line):
        return program.map(line + "\n", "", "R %s 0 8\n" % name)

    def disks(name, line):
        return program.map("a: 0 8 linear %s 0\n" % name, line + "\n", "R a 0 8\n")

    def concise(name, line):
        words = ["map", "concise", program.file("concise", "a,,,,%s" % line), program.file("disks", "%s 8\n" % name)]
        return program.run(words, given="R a 0 8\n")

    # The line of a name, what of it may be written otherwise, its fault, the answer to a request, and how it is loaded.
    for form, others, fault, answer, load in [
        ("%s: 0 8 zero", ["%s: 0 8 zero "], "source: syntax at 1", "1 zero 8\n", table),
        ("%s 8", [], "disks: syntax at 1", "1 R %s 0 8\n", disks),
        ("0 8 linear %s 0", [" 0 8 linear %s 0", "0 8 linear %s 0 "], "source: syntax at 1", "1 R %s 0 8\n", concise),
    ]:
        for name in ["n" * (length - len(form % "")) for length in LENGTHS if length > len(form % "")]:
            line = form % name
            taken = [line] + [other % name for other in others]
            places = [0] + [at for at, byte in enumerate(line) if byte == " "] + [len(line)]
            for text in taken + [line[:at] + " " + line[at:] for at in places]:
                wanted = (0, answer.replace("%s", name)) if text in taken else (1, "", "dmremap: %s\n" % fault)
                tally.same("the line %r" % text, load(name, text), *wanted)


def test_rows(tally, program):
    tables = [(table, DISK, message) for table, message in TABLES]
    disk_lists = [(VOLUME, disks, message) for disks, message in DISK_LISTS]
    for table, disks, message in REFUSED + tables + disk_lists + SEVERAL_FAULTS:
        got = program.map(table, disks, "R a 0 1\n")
        tally.same("a load of %r, %r" % (table[:40], disks[:40]), got, 1, "", "dmremap: %s\n" % message)
    for table, disks, requests, output in TAKEN:
        tally.same("a load of %r" % table[:40], program.map(table, disks, requests), 0, output)
