"""Heads of physical volumes that lvm2 made, and that were changed since. `lvm2/README.md` says how they came about.

What lvm2 takes without a word is taken, with its text and its places. What it doesn't take, or warns of, is refused.
"""

import base64
import collections
import io
import lzma
import os
import re

import answers
from lvm2_texts import FOLDER, MISSING
from vectors import body, digest, in_file

SECTOR = 512
ROWS = 4

# The cases that are refused, by their words. In all others, the heads are taken.
REFUSED = {
    "array": "later-md-1.1 later-md-1.1-labelsector-0 later-md-1.2 later-md-1.2-copies-0 later-md-member-1.0 "
             "part-leg-whole",
    "differ": "area-one-of-two-disks-old area-second-older group-clone group-split-both missing-flagged missing-old "
              "missing-one-name-twice missing-twice-old missing-two-groups",
    "ends": "part-in-cut resized-cut resized-cut-by-a-sector resized-cut-half-a-sector "
            "resized-cut-in-extents resized-cut-in-ring resized-cut-to-extents resized-past-the-end "
            "resized-up-grown-cut",
    "foreign": "area-ignored-alone area-no-offset group-copies-0-alone group-no-group group-reduced-both "
               "group-removed missing-no-group-beside",
    "header": "area-one-of-two-wrong-sum area-wrong-magic area-wrong-start area-wrong-sum area-wrong-version",
    "label": "group-pvremoved label-no-labelone-first label-of-another-sector-alone label-other-type label-wrong-sum "
             "later-ext4 later-ext4-labelsector-3 later-ext4-one-of-two later-luks later-luks2 later-swap "
             "part-elsewhere part-sector-on",
    "missing": "missing-flagged-copies-0 missing-flagged-ignored missing-in-status",
    "partitions": "later-gpt later-gpt-protective later-mbr later-mbr-active later-mbr-fourth later-mbr-labelsector-0 "
                  "later-mbr-labelsector-0-sums later-mbr-labelsector-3 later-mbr-one-of-two later-mbr-type-0 "
                  "part-nested-disk",
    "read": "resized-cut-2 resized-cut-after-label",
    "text": "area-no-size area-no-size-beside area-one-of-two-disks-wrong area-one-of-two-wrong area-wrong-text",
    "twice": "missing-twice",
}
WORDS = {case: word for word, cases in REFUSED.items() for case in cases.split(" ")}
# The cases in which the program does otherwise than lvm2: their departure, and the word, if the program refuses them.
DEPARTING = {case: (departure, word) for departure, word, cases in (
    ("extents past the end of a physical volume", "extents", "area-dev-size-0 area-dev-size-less"),
    ("fields left out, or of another kind", "field", "area-no-dev-size"),
    ("more than a limit allows", "long", "ring-long"),
    ("areas and texts that lvm2 doesn't write", "header", "area-longer-than-pair area-three"),
    ("areas and texts that lvm2 doesn't write", "text", "area-without-newline"),
    ("a label without `LABELONE`", "label", "label-no-labelone"),
    ("a partition table within a partition", "partitions", "part-with-table"),
    ("a volume in a partition that was made shorter", "ends", "part-shorter"),
    ("a physical volume that was on an array", "array", "later-md-array-named later-md-member part-leg-as-disk"),
    ("a second label", "", "label-no-labelone-later label-of-another-sector label-two label-two-different "
                           "label-wrong-sum-later"),
    ("a header of an older lvm2", "", "label-no-extension label-old-header label-unused-flag"),
    ("a group with a system id", "", "group-systemid"),
    ("an array's superblock at the end of a disk", "", "later-md-0.90-grown later-md-1.0-grown"),
    ("the signature of LVM1 or GFS", "", "later-lvm1 later-pool"),
    (MISSING, "", "missing-flagged-away missing-missing missing-missing-unused"),
) for case in cases.split(" ")}
# The status of a question, what lvm2 printed, and what it said besides.
Answer = collections.namedtuple("Answer", "status out besides")


def jobs(_):
    vectors = in_file(FOLDER, "heads")
    return [vectors[at:at + ROWS] for at in range(0, len(vectors), ROWS)]


def compare(found, program, vectors):
    for vector in vectors:
        paths, said = paths_of(program, vector), {it[0]: Answer(*it[1:]) for it in vector.records("lvm2.jsonl")}
        is_taken, places = is_whole(vector, said), places_of(said)
        got = answers.of(program, ["map", "images", paths], ["R %s 0 1" % it for it in places])
        word = "" if got.status == 0 else re.sub(r"^.*: (\w+)(?: at \d+)?$", r"\1", got.message)
        if vector.name in DEPARTING:
            departure, stated = DEPARTING[vector.name]
            found.departs(departure, vector.name, word, stated, "" if is_taken else "refused, or warned of")
        else:
            stated = WORDS.get(vector.name, "")
            found.holds("heads", vector.name, is_taken == (stated == ""), "lvm2 says otherwise")
            found.holds("refusals", vector.name, word == stated, "the program has %r in place of %r" % (word, stated))
        if not word:
            check_texts(found, vector, said, program.run(["metadata", "images", paths]).out)
        for number, place in enumerate(places.values() if is_taken and not word else [], 1):
            found.same("places", vector.name, got.lines[number], [place])


def is_whole(vector, said):
    """Whether lvm2 has all disks in one group, and says nothing of them."""
    if any(it.status or it.besides for asked, it in said.items() if " " not in asked):
        return False
    groups = {disk: group for disk, group, *_ in rows(said["pvs"])}
    return groups.keys() == {it["disk"] for it in vector.records("disks.jsonl")} and "" not in groups.values() \
        and len(set(groups.values())) == 1


def places_of(said):
    """Where the first sector of each volume lies, as lvm2 says it."""
    starts, found = {disk: int(start) for disk, *_, start in rows(said["pvs"])}, {}
    for group, volume, extent, ranges in rows(said["lvs"]):
        disk, first = re.match(r"(\S+):(\d+)-", ranges).groups()
        name = "%s-%s" % (group.replace("-", "--"), volume.replace("-", "--"))
        found.setdefault(name, "R %s %d 1" % (disk, starts[disk] + int(extent) * int(first)))
    return found


def rows(answer):
    """The rows of a table that lvm2 printed, without what it says in between."""
    return [it.split(",") for it in answer.out if "," in it]


def check_texts(found, vector, said, text):
    """The text is that of each disk that has one, and that of vgcfgbackup, which marks disks that aren't there."""
    for asked in [it for it in said if it.startswith("metadata ") and said[it].out]:
        found.same("texts", "%s, %s" % (vector.name, asked), digest(text), said[asked].out)
    if said["vgcfgbackup"].out and "[unknown]" not in "".join(said["pvs"].out):
        found.same("texts", "%s, vgcfgbackup" % vector.name, digest(body(text)), said["vgcfgbackup"].out)


def paths_of(program, vector):
    """Makes the images, and the list of the disks."""
    held, images = io.BytesIO(lzma.decompress(base64.b85decode(vector.text("sectors.xz").strip()))), {}
    for image in vector.records("images.jsonl"):
        images[image["image"]] = program.file(os.path.join("heads", vector.name, image["image"]))
        with open(images[image["image"]], "r+b") as file:
            for first, count in image["runs"]:
                file.seek(first * SECTOR)
                file.write(held.read(count * SECTOR))
            file.truncate(image["bytes"])
    lines = []
    for disk in vector.records("disks.jsonl"):
        image, start = images[disk["image"]], disk["offset"]
        # Without a length, a partition goes up to the end of its image.
        length = disk["length"] or (os.path.getsize(image) - start) // SECTOR * SECTOR
        lines.append("%s %s%s\n" % (disk["disk"], image, "?offset=%d&length=%d" % (start, length) if start else ""))
    return program.file(os.path.join("heads", vector.name, "paths"), "".join(lines))
