"""Names: what `dmsetup splitname` makes of them, and what libdevmapper builds."""

import re

import answers
from vectors import in_file

ROWS = 16
LONGEST = 127
ALLOWED = "names that LVM doesn't allow"


def jobs(folder):
    return [(vector, section, at) for vector in in_file(folder, "names") for section in ("splitname.tsv", "build_name.jsonl")
            for at in range(0, len(vector.lines(section)), ROWS)]


def compare(found, program, job):
    vector, section, at = job
    if section == "splitname.tsv":
        for name, *parts in vector.rows(section)[at:at + ROWS]:
            check_split(found, program, name, parts[:3])
    else:
        for row in vector.records(section)[at:at + ROWS]:
            layer = [row["layer"]] if row["layer"] is not None else []
            check_built(found, program, [row["vg"], row["lv"]] + layer, row["real"])


def check_split(found, program, name, theirs):
    """The parts of a name, where some parts build it; dmsetup says something of every name."""
    if len(theirs) > 2 and not theirs[2]:
        theirs = theirs[:2]
    got = answers.of(program, ["splitname", "--", name])
    if not refusal(theirs) and joined(theirs) == name:
        found.same("names split", name, got.others, [" ".join(theirs)])
    else:
        found.departs(ALLOWED, name, got.word(), "split", "")


def check_built(found, program, parts, theirs):
    """The name of some parts; libdevmapper builds one of any."""
    got = answers.of(program, ["name", "--"] + parts)
    if refusal(parts):
        found.departs(ALLOWED, repr(parts), got.word(), refusal(parts), "")
    else:
        found.same("names built", repr(parts), got.others, [theirs])


def refusal(parts):
    """The word for which these parts build no name; empty if they build one. docs/FORMATS.md has the rules."""
    for place, part in enumerate(parts):
        if not part:
            return "empty"
        if not re.fullmatch(r"[A-Za-z0-9+_.-]+", part) or (place == 2 and part.startswith("_")):
            return "letter"
        if part.startswith("-"):
            return "hyphen"
    return "long" if len(joined(parts)) > LONGEST else ""


def joined(parts):
    return "-".join(it.replace("-", "--") for it in parts)
