"""The departures, where the program's answer is known not to be that of the kernel or of lvm2, and what docs/KERNEL.md
says of them and of what was compared.

Each departure is a row of the table there, which says what both answer, why, and what to do. The place is the heading of
FORMATS or MAPPING below which the program's own rule stands; the row begins with a link to it.
"""

import os
import re

from documents import anchors
from harness import text_of

PLACES = {
    "the last place before an area": "MAPPING.md#4-snapshots",
    "a store of less than two chunks": "FORMATS.md#17-stores",
    "other lists and chunk lengths": "FORMATS.md#what-a-store-holds",
    "a first write to a whole chunk": "MAPPING.md#4-snapshots",
    "a request that runs out of places partway": "MAPPING.md#4-snapshots",
    "a snapshot made after its origin was last resumed": "MAPPING.md#origins",
    "a store with something in it": "MAPPING.md#4-snapshots",
    "one device as two stores, or as store and origin": "MAPPING.md#13-claims",
    "a request past the device's end": "MAPPING.md#5-past-the-end",
    "a read-only device below a writable one": "MAPPING.md#6-read-only-devices",
    "the kind `PO`": "FORMATS.md#3-table-text",
    "the kind `K`": "FORMATS.md#3-table-text",
    "other words for a kind": "FORMATS.md#3-table-text",
    "arguments of `error`, features of a snapshot": "FORMATS.md#3-table-text",
    "other spellings in a table": "FORMATS.md#1-lines-and-numbers",
    "names that dmsetup mangles": "FORMATS.md#2-names",
    "more than a limit allows": "FORMATS.md#10-limits",
    "a snapshot shorter than its origin": "FORMATS.md#6-refused-loads",
    "a snapshot beside other lines": "FORMATS.md#6-refused-loads",
    "a store on other targets, or read-only": "FORMATS.md#6-refused-loads",
    "names that LVM doesn't allow": "FORMATS.md#13-lvm2-names",
    "a text of nothing": "FORMATS.md#12-lvm2-text",
    "a key twice": "FORMATS.md#12-lvm2-text",
    "other spellings in metadata": "FORMATS.md#12-lvm2-text",
    "integers with leading zeros in metadata": "FORMATS.md#12-lvm2-text",
    "segments and targets of other types": "FORMATS.md#11-gaps",
    "fields left out, or of another kind": "FORMATS.md#what-is-read",
    "other words in a volume's status": "FORMATS.md#what-it-becomes",
    "segments in another order than their numbers": "FORMATS.md#what-it-becomes",
    "a volume that isn't active": "FORMATS.md#what-it-becomes",
    "a physical volume that is missing": "FORMATS.md#what-it-becomes",
    "a physical volume on a device-mapper device": "FORMATS.md#what-it-becomes",
    "the layer `real` of a read-only origin": "FORMATS.md#snapshots",
    "extents past the end of a physical volume": "FORMATS.md#when-it-is-refused",
    "extent sizes of 0, or of no whole chunks": "FORMATS.md#when-it-is-refused",
    "a label without `LABELONE`": "FORMATS.md#18-heads",
    "a second label": "FORMATS.md#18-heads",
    "a header of an older lvm2": "FORMATS.md#18-heads",
    "a group with a system id": "FORMATS.md#18-heads",
    "areas and texts that lvm2 doesn't write": "FORMATS.md#18-heads",
    "a partition table within a partition": "FORMATS.md#18-heads",
    "a volume in a partition that was made shorter": "FORMATS.md#paths",
    "a physical volume that was on an array": "FORMATS.md#18-heads",
    "an array's superblock at the end of a disk": "FORMATS.md#18-heads",
    "the signature of LVM1 or GFS": "FORMATS.md#18-heads",
}

# A row of a table. The title of a group of rows follows its bar without a space, and is none.
ROW = re.compile(r"^\| ([^|]+) \|(.*)\|$", re.M)


def check(found, top, departed):
    """Each departure occurs, and is a row of the page that links to its rule; no row is of anything else."""
    rows = rows_of(text_of(os.path.join(top, "docs", "KERNEL.md")), "Departures")
    for departure, place in PLACES.items():
        document, anchor = place.split("#")
        is_there = anchor in anchors(text_of(os.path.join(top, "docs", document)))
        found.holds("departures", departure, departed[departure] > 0, "it occurs nowhere any more")
        found.holds("departures", departure, is_there, "there is no %s" % place)
        found.holds("departures", departure, link_of(departure) in rows,
                    "docs/KERNEL.md has no row of it that links to %s" % place)
    for it in sorted(set(departed) - set(PLACES)):
        found.fail(it, "departures.py doesn't have it")
    for it in sorted(set(rows) - set(map(link_of, PLACES))):
        found.fail(it, "docs/KERNEL.md has it, and departures.py doesn't")


def link_of(departure):
    """The first cell of a departure's row."""
    return "[%s](%s)" % (departure, PLACES[departure])


def check_figures(found, top, passed):
    """The page has the number of answers of each kind that agree, and their sum in the last line of a run."""
    page = text_of(os.path.join(top, "docs", "KERNEL.md"))
    rows = rows_of(page, "What was compared")
    for kind, count in passed.items():
        figure = rows.get(kind, "|").split("|")[-1].strip()
        found.holds("figures", kind, figure == "{:,}".format(count), "docs/KERNEL.md has %r of %d answers" % (figure, count))
    answers, checks = sum(passed.values()), found.passed() + 1
    last = "`%d passed, 0 failed`: the %s answers above, and %d checks" % (answers + checks, "{:,}".format(answers), checks)
    found.holds("figures", "the sum", last in page, "docs/KERNEL.md doesn't have: %s" % last)


def rows_of(text, heading):
    """The rows of the table below a heading, by their first cells, without its head."""
    section = text.split("\n## %s\n" % heading)[-1].split("\n## ")[0]
    return dict(ROW.findall(section)[1:])
