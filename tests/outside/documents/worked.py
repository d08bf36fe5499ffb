"""The examples of the pages on formats and on mapping, as they stand there, run by the program.

FORMATS has commands with their output, and examples of refusals in its tables of checks: a text, an arrow, and the word and the
place of the message. Which form the text has is said by the section. MAPPING has worked examples: blocks with a table, a list of
disks, and requests, each with its answers below it, and maybe a remark behind two spaces.
"""

import os
import re

import transcripts
from harness import run, text_of

ARROW = "→"
# A refused text, perhaps the disks that it stands over, and the answer.
REFUSED = re.compile(r"((?:`[^`]+`(?: / )?)+)(?: over ((?:`[^`]+`(?: / )?)+))? %s `([^`]+)`" % ARROW)
SECTION = re.compile(r"^##+ (\d+(?=\. )|Paths$)", re.M)
# The disks of an example that names none.
DISKS = "sda 64\nsdb 64\n"
# A line of one of the repository's examples, which an example of metadata changes.
CHANGED = re.compile(r"([\w.-]+):(\d+): (.*)")
# A worked example: the command and its options, and its texts.
EXAMPLE = re.compile(r"^```example ([^\n]*)\n(.*?)^```$", re.M | re.S)
REMARK = re.compile(r"  +\S.*$")
# The section of examples that are explained, and how many it has.
WORKED, COUNT = "## 10. Worked examples", 4


def test_formats(tally, program, top):
    formats = text_of(os.path.join(top, "docs", "FORMATS.md"))
    transcripts.check(tally, program, top, "docs/FORMATS.md", transcripts.of_markdown(formats))
    check_refused(tally, program, top, formats)


def test_mapping(tally, program, top):
    mapping = text_of(os.path.join(top, "docs", "MAPPING.md"))
    examples = EXAMPLE.findall(mapping)
    tally.holds("examples", len(examples) == mapping.count("\n```example"), "some aren't run")
    worked = EXAMPLE.findall(mapping.split(WORKED)[-1].split("\n## ")[0])
    tally.holds("worked examples", len(worked) == COUNT, "there are %d" % len(worked))
    for words, body in examples:
        check_worked(tally, program, words.split(), body)


def check_refused(tally, program, top, text):
    """The examples of each section, in the form of that section."""
    parts = SECTION.split(text)
    for number, part in zip(parts[1::2], parts[2::2]):
        found = REFUSED.findall(part)
        tally.holds("arrows of section %s" % number, len(found) == part.count(ARROW), "%d of %d have an example"
                    % (len(found), part.count(ARROW)))
        for texts, disks, answer in found:
            lines, over = lines_in(texts), lines_in(disks) or DISKS
            got = FORMS[number](program, top, lines, over)
            name = "in FORMATS, section %s: %s" % (number, texts)
            tally.same(name, got[0], got[1], err="dmremap: %s%s\n" % (got[2], answer))


def lines_in(cell):
    """The text of some pieces of code: a line each."""
    return "".join(it + "\n" for it in re.findall(r"`([^`]+)`", cell))


def of_table(program, top, lines, disks):
    return loaded(program, "table", lines, disks), 1, "source: "


def of_disks(program, top, lines, disks):
    return loaded(program, "table", "a: 0 8 zero\n", lines), 1, "disks: "


def of_paths(program, top, lines, disks):
    return loaded(program, "table", "v: 0 8 linear a 0\n", "a 8\n", options=["--paths", program.file("worked/paths", lines)]), 1, "paths: "


def of_concise(program, top, lines, disks):
    return loaded(program, "concise", lines, disks), 1, "source: "


def of_requests(program, top, lines, disks):
    return loaded(program, "table", "a: 0 8 zero\n", disks, lines), 3, "request 1: "


def of_metadata(program, top, lines, disks):
    """One of the repository's examples, with another line in place of one of its lines."""
    name, number, line = CHANGED.fullmatch(lines.rstrip("\n")).groups()
    changed = text_of(os.path.join(top, "examples", name)).splitlines()
    changed[int(number) - 1] = line
    source = program.file("worked/metadata", "".join(it + "\n" for it in changed))
    return run([program.path, "map", "lvm", source]), 1, "source: "


def loaded(program, form, lines, disks, requests="", command="map", options=()):
    files = [program.file("worked/source", lines), program.file("worked/disks", disks)]
    return run([program.path, command, form, *files, *options], given=requests)


FORMS = {"3": of_table, "4": of_disks, "Paths": of_paths, "5": of_requests, "6": of_table, "7": of_concise, "14": of_metadata}


def check_worked(tally, program, words, body):
    """The answers of an example to all its requests, in one run."""
    table, disks, run_of = body.split("\n\n", 2)
    lines = [(it.startswith(" "), REMARK.sub("", it.strip())) for it in run_of.splitlines() if it]
    requests, answers = ([it for is_answer, it in lines if is_answer == wanted] for wanted in (False, True))
    got = loaded(program, "table", table + "\n", disks + "\n", ended(requests), words[0], words[1:])
    tally.same("in MAPPING: %s .." % table.splitlines()[0], got, 0, ended(answers))


def ended(lines):
    return "".join(it + "\n" for it in lines)
