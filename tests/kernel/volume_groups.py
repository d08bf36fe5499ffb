"""Volume groups: the texts that lvm2 wrote, against the tables that it loaded for them, which of their devices it made
read-only, and where sectors that were written through their volumes were found on the disks.

Beside them, dmsetup's own texts of the same devices are read; and the text of one group, edited in many ways, is taken
or refused as `vgcfgrestore` did, and read as lvm2 did where it was restored and activated.
"""

import re

import answers
from copies import copy_of
from partitions import PARTITIONS
from vectors import end_of, in_file, tables_of

# The length of a disk that dmsetup names by a number; no text here reaches its end.
LONG = 1 << 50
PLAIN = {"linear", "striped", "zero", "error", "snapshot", "snapshot-origin"}
# The disks below the device-mapper devices that are physical volumes, whose names for the program are their keys.
BELOW = {"pv3": "/dev/vdb", "pv4": "/dev/vdc"}

OTHER = "segments and targets of other types"
SHORTER = "a snapshot shorter than its origin"
INACTIVE = "a volume that isn't active"
MISSING = "a physical volume that is missing"
ON_DEVICE = "a physical volume on a device-mapper device"
REAL = "the layer `real` of a read-only origin"
SPELLED = "other spellings in metadata"
OCTAL = "integers with leading zeros in metadata"
FIELDS = "fields left out, or of another kind"
EXTENT_SIZE = "extent sizes of 0, or of no whole chunks"
LIMIT = "more than a limit allows"
STATUS = "other words in a volume's status"

# The vectors whose group has a snapshot shorter than its origin.
SHORTENED = {"lvm-snap-resized"}

# The devices whose lines differ, each with the departure and the program's lines, none where it has no such device.
LINES = {
    ("lvm-fragmented", "vg--frag-inact"): (INACTIVE, ["0 4096 linear /dev/sda1 77824"]),
    ("lvm-exported", "vgexp-a"): (INACTIVE, ["0 32768 linear /dev/vdb 2048"]),
    ("lvm-readonly", "vgro-noauto"): (INACTIVE, ["0 8192 linear /dev/vdb 75776"]),
    ("lvm-missing-pv", "vgm-gone"): (MISSING, ["0 24576 linear pv1 2048"]),
    ("lvm-missing-pv", "vgm-gone-missing_0_0"): (MISSING, None),
    ("lvm-missing-pv", "vgm-half"): (MISSING, ["0 24576 linear /dev/sdb 26624", "24576 16384 linear pv1 26624"]),
    ("lvm-missing-pv", "vgm-half-missing_1_0"): (MISSING, None),
    ("lvm-loop", "vgl-on--crypt"): (ON_DEVICE, ["0 24576 linear pv3 2048"]),
    ("lvm-loop", "vgl-on--mpath"): (ON_DEVICE, ["0 24576 linear pv4 2048"]),
}

# The devices that lvm2 makes read-only and the program writable.
WRITABLE = {("lvm-snap-store-striped", "vg0-ro-real"): REAL, ("lvm-virtual-snap", "vg0-sparse_vorigin-real"): REAL}

# The edits of a text that one side alone takes, each with the departure and the word of the program's refusal.
EDITS = {
    "no dev_size": (FIELDS, "field"),
    "no device": (FIELDS, "field"),
    "type linear": (FIELDS, "field"),
    "LV status one string": (FIELDS, "field"),
    "LV status WRITE_LOCKED": (STATUS, ""),
    "LV status unknown word": (STATUS, ""),
    "pe_count past dev_size": ("extents past the end of a physical volume", "extents"),
    "comma before the bracket": (SPELLED, "syntax"),
    "carriage returns": (SPELLED, "syntax"),
    "string in single quotes": (SPELLED, "syntax"),
    "unknown decimal": (SPELLED, "syntax"),
    "unknown negative": (SPELLED, "syntax"),
    "unknown bare word": (SPELLED, "syntax"),
    "a key twice": ("a key twice", "twice"),
    "extent_size 0": (EXTENT_SIZE, "field"),
    "extent_size 3": (EXTENT_SIZE, "stripe"),
    "segments in another order": ("segments in another order than their numbers", ""),
    "second section at the top": (FIELDS, "field"),
    "layer of 17 sections": (LIMIT, "deep"),
}

# The devices of restored texts that differ, each with the departure, and with the program's flag and lines.
RESTORED = {
    ("pe_start 04000", "vged-lin"): (OCTAL, ["rw", "0 24576 linear /dev/vdb 4000", "24576 16384 linear /dev/vdc 18432"]),
    ("pe_start 04000", "vged-st"): (OCTAL, ["rw", "0 32768 striped 2 128 /dev/vdb 28576 /dev/vdc 2048"]),
}


def jobs(folder):
    return in_file(folder, "groups")


def compare(found, program, vector):
    if not vector.has("table.txt"):
        return
    for section in sorted(it for it in vector.sections if it.startswith("backup")):
        check_text(found, program, vector, section)
    for form in ("table", "concise"):
        check_dmsetup(found, program, vector, form)
    for edit in vector.records("edits.jsonl"):
        check_edit(found, program, edit)
    for restored in vector.records("restored.jsonl"):
        check_restored(found, program, vector, restored)


def check_text(found, program, vector, section):
    """The text of a group, and the other text of it that stood in the metadata area; if it is refused, a copy of it."""
    where, source = "%s/%s" % (vector.name, section), vector.file(program, section)
    types = set(re.findall(r'^\s*type = "([^"]*)"', vector.text(section), re.M))
    got = answers.of(program, ["table", "lvm", source])
    is_copy = bool(types - PLAIN) or vector.name in SHORTENED
    if is_copy:
        departure, word = (OTHER, "field") if types - PLAIN else (SHORTER, "snapshot")
        found.departs(departure, where, got.word(), word, "")
        source, said = copy_of(program, source)
        if not source:
            found.holds("texts of which nothing is left", where, not on_disks(vector, prefix_of(vector.text(section))), said)
            return
        got = answers.of(program, ["table", "lvm", source])
    if found.holds("texts of groups", where, got.status == 0, got.message):
        check_tables(found, vector, where, prefix_of(vector.text(section)), tables_of("\n".join(got.others)), is_copy)
        check_flags(found, program, vector, where, source)
        check_probes(found, program, vector, where, source)
        if not is_copy:
            other = answers.of(program, ["table", "lvm", vector.file(program, section.replace("backup", "ondisk"))])
            found.same("texts of metadata areas", where, sorted(other.others), sorted(got.others))


def prefix_of(text):
    """What the names of a group's devices begin with."""
    return re.search(r"^(\S+) \{", text, re.M)[1].replace("-", "--") + "-"


def named(vector, tables):
    """Tables that dmsetup printed, with names in place of numbers."""
    names = dict(it.split(" ") for it in vector.lines("majmin.txt"))
    return {device: [" ".join(names.get(it, it) for it in line) for line in lines] for device, lines in tables.items()}


def on_disks(vector, prefix):
    """The devices of a group that are plain and lie on disks alone, but for layers of snapshots."""
    own = {it: lines for it, lines in named(vector, vector.tables()).items() if it.startswith(prefix)}
    return {it for it, lines in own.items() if not re.search(r"-(real|cow)$", it)
            and all(line.split(" ")[2] in PLAIN and "/dev/mapper/" not in line for line in lines)}


def check_tables(found, vector, where, prefix, tables, is_copy):
    """Each device of the group has the lines that lvm2 loaded for it. A copy lacks some, but none that lies on disks."""
    ours = {device: [" ".join(it) for it in lines] for device, lines in tables.items()}
    theirs = named(vector, vector.tables())
    devices = set(ours) | {it for it in theirs if it.startswith(prefix)}
    if is_copy:
        devices = (set(ours) & set(theirs)) | on_disks(vector, prefix)
    for device in sorted(devices):
        at, real = "%s, %s" % (where, device), device + "-real"
        if (vector.name, device) in LINES:
            departure, lines = LINES[vector.name, device]
            found.departs(departure, at, ours.get(device), lines, theirs.get(device))
        elif is_copy and real in theirs and real not in ours:
            # The copy lacks the snapshot, and its origin is a plain volume.
            found.departs(SHORTER, at, ours[device], theirs[real], theirs[device])
        else:
            found.same("volumes", at, ours.get(device), theirs.get(device))


def check_flags(found, program, vector, where, source):
    """Which devices lvm2 made read-only, by the fourth letter of what `dmsetup info -c` prints."""
    rows = [it.split() for it in vector.lines("info.txt")[1:]]
    flags = {it[0]: "ro" if it[2].endswith("r") else "rw" for it in rows if len(it) > 4}
    for device, _, _, ours, *_ in concise_of(program, source):
        at = "%s, %s" % (where, device)
        if (vector.name, device) in WRITABLE:
            found.departs(WRITABLE[vector.name, device], at, ours, "rw", flags[device])
        elif device in flags:
            found.same("read-only flags", at, ours, flags[device])


def concise_of(program, path):
    """The fields of each device of a group's text, as concise text has them."""
    got = answers.of(program, ["concise", "lvm", path])
    return [it.split(",") for line in got.others for it in line.split(";") if it]


def check_probes(found, program, vector, where, source):
    """Sectors that were written through a volume, and found by looking at the disks whole."""
    devices = {it[0] for it in concise_of(program, source)}
    probes = [it for it in vector.rows("probe.tsv") if it[0] in devices]
    got = answers.of(program, ["map", "lvm", source], ["W %s %s 1" % (it[0], it[1]) for it in probes])
    for number, (device, sector, disk, place) in enumerate(probes, 1):
        at = "%s, sector %s of %s" % (where, sector, device)
        theirs = ["error 1"] if disk == "error" else ["W %s %s 1" % (disk, place)]
        departure, lines = LINES.get((vector.name, device), ("", []))
        if departure == MISSING and disk == "error":
            found.departs(MISSING, at, got.lines[number], [by_lines(lines, int(sector))], theirs)
        else:
            found.same("sectors found on disks", at, [whole(it) for it in got.lines[number]], theirs)


def by_lines(lines, sector):
    """What a write of a sector is by linear lines."""
    rows = [it.split(" ") for it in lines]
    start, _, _, disk, offset = next(it for it in rows if int(it[0]) <= sector < int(it[0]) + int(it[1]))
    return "W %s %d 1" % (disk, int(offset) + sector - int(start))


def whole(line):
    """A line of the output with the whole disk in place of a partition or of a device on it."""
    words = line.split(" ")
    if words[0] != "W":
        return line
    disk, start = PARTITIONS.get(words[1], (BELOW.get(words[1], words[1]), 0))
    return "W %s %d 1" % (disk, int(words[2]) + start)


def check_dmsetup(found, program, vector, form):
    """What `dmsetup table` printed is read, and printed again; its numbers are disks."""
    tables, where = vector.tables(), "%s/%s.txt" % (vector.name, form)
    if not tables:
        found.aside["texts of dmsetup without a device"] += 1
        return
    names = dict(it.split(" ") for it in vector.lines("majmin.txt"))
    lengths = {"/dev/mapper/" + device: end_of(lines) for device, lines in tables.items()}
    numbers = sorted(set(re.findall(r"\b\d+:\d+\b", vector.text("table.txt"))))
    disks = program.file("disks", "".join("%s %d\n" % (it, lengths.get(names.get(it), LONG)) for it in numbers))
    got = answers.of(program, ["table", form, vector.file(program, form + ".txt"), disks])
    targets = {line[2] for lines in tables.values() for line in lines}
    if targets - PLAIN:
        found.departs(OTHER, where, got.word(), "field", "")
    elif vector.name in SHORTENED:
        found.departs(SHORTER, where, got.word(), "snapshot", "")
    else:
        theirs = ["%s: %s" % (device, " ".join(line)) for device, lines in tables.items() for line in lines]
        found.same("texts of dmsetup", where, sorted(got.others), sorted(theirs))


def check_edit(found, program, edit):
    """An edited text is taken, or it is refused, as `vgcfgrestore --test` does."""
    got = answers.of(program, ["table", "lvm", program.file("edit", edit["text"])])
    theirs = "refused" if edit["status"] else ""
    if edit["edit"] in EDITS:
        departure, word = EDITS[edit["edit"]]
        found.departs(departure, edit["edit"], got.word(), word, theirs)
    else:
        found.same("edited texts", edit["edit"], got.verdict(), theirs)


def check_restored(found, program, vector, restored):
    """The devices of an edited text that lvm2 restored and activated; a text that is refused is read through a copy."""
    text, edit = restored["text"], restored["edit"]
    theirs = named(vector, tables_of(restored["table"]))
    flags = dict(it.split(":") for it in restored["info"].split("\n") if ":" in it)
    keys = {} if len(set(re.findall(r'device = "([^"]*)"', text))) > 1 else {"/dev/vdb": "pv0", "/dev/vdc": "pv1"}
    source = program.file("restored", text)
    if edit in EDITS and EDITS[edit][1]:
        source, said = copy_of(program, source)
        if not source:
            found.fail(edit, said)
            return
    ours = {device: [flag] + lines for device, _, _, flag, *lines in concise_of(program, source)}
    # A volume that isn't visible is not activated.
    found.aside["restored volumes that are hidden"] += len(set(ours) - set(theirs))
    for device, lines in theirs.items():
        read = ["ro" if flags[device].endswith("r") else "rw"]
        read += [" ".join(keys.get(it, it) for it in line.split(" ")) for line in lines]
        if (edit, device) in RESTORED:
            departure, stated = RESTORED[edit, device]
            found.departs(departure, "%s, %s" % (edit, device), ours.get(device), stated, read)
        else:
            found.same("volumes of restored texts", "%s, %s" % (edit, device), ours.get(device), read)
