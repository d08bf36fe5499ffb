"""Texts of groups in many states, and what lvm2 loaded for them. `lvm2/README.md` says how they came about.

A text that the program refuses is read through a copy, from which what can't be followed is left out.
"""

import os
import re

import answers
from copies import copy_of
from vectors import end_of, in_file, tables_of

FOLDER = os.path.join(os.path.dirname(os.path.abspath(__file__)), "lvm2")
PLAIN = {"linear", "striped", "zero", "error", "snapshot", "snapshot-origin"}
# How many texts make a job.
ROWS = 4

REAL = "the layer `real` of a read-only origin"
SHORTER = "a snapshot shorter than its origin"
MISSING = "a physical volume that is missing"

# The names of devices that nobody looks for: parts of volumes of other types, and layers.
PARTS = re.compile(r"_(rimage|rmeta|mimage|mimagetmp|mlog|tdata|tmeta|cdata|cmeta|corig|cvol|vdata|imeta|iorig|vorigin|pmspare|pmspare0)"
                   r"(_\d+)*(-real|-cow)?$|-missing_\S*$|-pvmove\d+$")
LAYERS = re.compile(r"-(real|cow)$")
NUMBER = re.compile(r"\b\d+:\d+\b")


def jobs(_):
    vectors = [*in_file(FOLDER, "groups"), *in_file(FOLDER, "states")]
    return [vectors[at:at + ROWS] for at in range(0, len(vectors), ROWS)]


def compare(found, program, vectors):
    for vector in vectors:
        what, source, theirs = "texts as they are", vector.file(program, "text"), loaded(vector)
        got = answers.of(program, ["table", "lvm", source])
        if got.status == 1:
            what = "texts through a copy"
            source, said = copy_of(program, source)
            if not source:
                found.holds("texts of which nothing is left", vector.name, not wanted(vector, theirs), said)
                continue
            got = answers.of(program, ["table", "lvm", source])
        if found.holds(what, vector.name, got.status == 0, got.message):
            check_lines(found, vector, theirs, tables_of("\n".join(got.others)))
            check_flags(found, program, vector, source)


def loaded(vector):
    """The lines that lvm2 loaded for each device, with names in place of numbers."""
    names = {number: "/dev/mapper/" + device for device, number in re.findall(r"^(\S+)\t\((\d+:\d+)\)", vector.text("dm.ls"), re.M)}
    disks = {device: disk for disk, device in disks_of(vector).items()}
    places = [it.split(" ") for it in vector.lines("disks")] + [("/dev/" + it).split(" ") for it in vector.lines("pvs")]
    names.update({number: disks[path] for path, number, *_ in places if path in disks})
    tables = tables_of(vector.text("dm.table"))
    return {device: [" ".join(names.get(it, it) for it in line) for line in lines] for device, lines in tables.items()}


def disks_of(vector):
    """The name of each disk for the program, and the device that the text names as its physical volume's."""
    section = re.search(r"\n\tphysical_volumes \{\n(.*?)\n\t\}\n", vector.text("text"), re.S)
    volumes = re.findall(r"\n\t\t(\S+) \{\n(.*?)\n\t\t\}", "\n" + section[1], re.S) if section else []
    devices = {key: re.search(r'device = "((?:[^"\\]|\\.)*)"', body)[1] for key, body in volumes if "device = " in body}
    paths = list(devices.values())
    return {it if is_name(it) and paths.count(it) == 1 else key: it for key, it in devices.items()}


def is_name(path):
    return re.fullmatch(r"/[!-~]{0,254}", path) and not path.startswith("/dev/mapper/") and not re.search(r"[,;\\]", path)


def wanted(vector, theirs):
    """The devices of the group that somebody would look for, and that stand on plain ones down to the disks."""
    prefix = re.search(r"^([^\s#{}]+) \{", vector.text("text"), re.M)[1].replace("-", "--") + "-"
    own = [it for it in theirs if it.startswith(prefix) and not re.match("-(?!-)", it[len(prefix):])]
    return [it for it in own if not PARTS.search(it) and not LAYERS.search(it) and is_plain(it, theirs)]


def is_plain(device, theirs, above=()):
    """Whether a device and all below it have targets that the program has, and no snapshot is shorter than its origin."""
    if device not in theirs or device in above:
        return False
    for words in (it.split(" ") for it in theirs[device]):
        below = [it[len("/dev/mapper/"):] for it in words[3:] if it.startswith("/dev/mapper/")]
        if words[2] not in PLAIN or any(PARTS.search(it) or not is_plain(it, theirs, (*above, device)) for it in below):
            return False
        if words[2] == "snapshot" and end_of([it.split(" ") for it in theirs[below[0]]]) != end_of([words]):
            return False
    return True


def check_lines(found, vector, theirs, tables):
    """Each device that both have has lvm2's lines, and none is missing that somebody would look for."""
    ours = {device: [" ".join(it) for it in lines] for device, lines in tables.items()}
    for device in wanted(vector, theirs):
        if device not in ours:
            found.fail("%s, %s" % (vector.name, device), "the program lacks it")
    missing = [disk for disk, device in disks_of(vector).items() if device == "[unknown]"]
    for device in [it for it in ours if it in theirs]:
        at, real = "%s, %s" % (vector.name, device), theirs.get(device + "-real")
        if real and device + "-real" not in ours:
            # The copy lacks the snapshot, and its origin is a plain volume.
            found.departs(SHORTER, at, ours[device], real, theirs[device])
        elif missing and NUMBER.search(" ".join(theirs[device])):
            # The number is that of a disk that was still there when the device was loaded.
            stated = [[NUMBER.sub(disk, it) for it in theirs[device]] for disk in missing]
            found.departs(MISSING, at, ours[device], ours[device] if ours[device] in stated else stated[0], theirs[device])
        else:
            found.same("volumes", at, ours[device], theirs[device])


def check_flags(found, program, vector, source):
    """Which devices are read-only."""
    theirs = {it.split(",")[0]: it.split(",")[3] for it in vector.text("dm.concise").strip().split(";") if it.count(",") > 3}
    got = answers.of(program, ["concise", "lvm", source])
    for device, _, _, flag, *_ in (it.split(",") for line in got.others for it in line.split(";") if it):
        at = "%s, %s" % (vector.name, device)
        if theirs.get(device) == "ro" and device.endswith("-real") and device[:-len("-real")] in theirs:
            found.departs(REAL, at, flag, "rw", theirs[device])
        elif device in theirs:
            found.same("read-only flags", at, flag, theirs[device])
