"""The documents: what they name and link to exists, and the commands that the README, the tutorial and the
page on programs show print what is shown there. The heads of the sources' files name files that exist, too."""

import glob
import os
import re

import diagnostics
import transcripts
from harness import text_of

# Where a path of this repository begins, as documents write it.
PATH = re.compile(r"(?:crates|docs|examples|tests|tools)/[\w./*-]*[\w*]")
# A file of definitions of a crate, and words that a document says are in files of a name.
SPECS = re.compile(r"\b(\w+)/specs/((?:[a-z]\w*/)*[A-Z]\w*)")
WORDS = re.compile(r"`([A-Z]\w*)` (?:\(((?:`\w+`(?:, )?)+)\)|(`\w+`))")
# Files of definitions as a section lists them for a crate, perhaps with words of theirs, and the name of such a file.
LISTED = re.compile(r"\bin `(\w+)`: ((?:`[A-Z]\w*`(?: \([^)]*\))?(?:, )?)+)")
FILE = re.compile(r"`([A-Z]\w*)`")
# A link to a file of the repository, and perhaps a heading there, or to a heading of the document itself.
LINK = re.compile(r"\]\((?!\w+:)([^)#\s]*)(?:#([^)\s]+))?\)")
HEADING = re.compile(r"^#+ (.*)", re.M)
# What a file of definitions declares: names, and the fields or constructors that are indented below them.
DECLARED = re.compile(r"^(?:(?:abbrev|unfoldable|pub|record|data) )+(\w+)|^  (?:pub )?(\w+) :", re.M)
# A file of definitions as a comment of its own crate names it, and perhaps of another crate.
HEAD = re.compile(r"`specs/([\w/]+)(?:\.antt)?`(?: of `(\w+)`)?")
COMMENT = re.compile(r"^ *(?://[/!]?|--) ?(.*)$", re.M)

# What a block of the tutorial begins with if its commands want more than the repository's files.
MARK = "# needs "


def test_names(tally, top):
    documents = [os.path.join(top, *it) for it in (("README.md",), ("CHANGELOG.md",), ("tests", "benches", "RESULTS.md"))]
    documents += sorted(glob.glob(os.path.join(top, "docs", "*.md")))
    for document in documents + sorted(glob.glob(os.path.join(top, "docs", "*.1"))):
        name = os.path.relpath(document, top)
        text = text_of(document)
        if document.endswith(".1"):
            text = diagnostics.plain(text)
        lost = lost_paths(text, top)
        tally.holds("files that %s names" % name, not lost, "there is no %s" % ", ".join(lost))
        lost = lost_words(text, top)
        tally.holds("definitions that %s names" % name, not lost, "there is no %s" % ", ".join(lost))
        lost = lost_links(text, document)
        tally.holds("links of %s" % name, not lost, "there is no %s" % ", ".join(lost))
    lost = lost_heads(top)
    tally.holds("definitions that comments name", not lost, "there is no %s" % ", ".join(lost))


def test_commands(tally, program, top):
    for name in ("README.md", os.path.join("docs", "TUTORIAL.md"), os.path.join("docs", "PYTHON.md")):
        text = text_of(os.path.join(top, name))
        transcripts.check(tally, program, top, name, transcripts.of_markdown(text))
    tutorial = text_of(os.path.join(top, "docs", "TUTORIAL.md"))
    others = [lines[0] for kind, lines in transcripts.blocks(tutorial) if kind != "console"]
    unmarked = [it for it in others if not it.startswith(MARK)]
    tally.holds("commands of the tutorial that aren't run", not unmarked,
                "no line %r before %s" % (MARK + "..", ", ".join(unmarked)))


def lost_paths(text, top):
    """The paths that a text names and that aren't there. What is built isn't looked for."""
    named = {re.sub("CRATE|NAME", "*", it) for it in PATH.findall(text) if not re.search(r"/out(/|$)", it)}
    named |= {"crates/%s/specs/%s.antt" % it for it in SPECS.findall(text) if it[0] != "CRATE"}
    named |= {"crates/%s/specs/**/%s.antt" % it for it in listed(text)}
    return sorted(it for it in named if not glob.glob(os.path.join(top, it), recursive=True))


def listed(text):
    """The files of definitions that a text lists for each crate, in whatever folder they are."""
    return [(crate, name) for crate, files in LISTED.findall(text) for name in FILE.findall(re.sub(r"\([^)]*\)", "", files))]


def lost_words(text, top):
    """The words that a text names after a file of definitions, and that no such file has."""
    lost = []
    for name, several, one in WORDS.findall(text):
        files = glob.glob(os.path.join(top, "crates", "*", "specs", "**", name + ".antt"), recursive=True)
        there = {word for it in files for pair in DECLARED.findall(text_of(it)) for word in pair}
        for word in re.findall(r"\w+", several or one):
            if files and word not in there and not os.path.isdir(os.path.join(top, "crates", word)):
                lost.append("%s in %s" % (word, name))
    return lost


def lost_heads(top):
    """The files of definitions that comments of the sources name, and that aren't there."""
    lost = []
    for path in sorted(glob.glob(os.path.join(top, "crates", "*", "s*", "**", "*.*t"), recursive=True)):
        crate = os.path.relpath(path, os.path.join(top, "crates")).split(os.sep)[0]
        for name, other in HEAD.findall(" ".join(COMMENT.findall(text_of(path)))):
            if not os.path.exists(os.path.join(top, "crates", other or crate, "specs", name + ".antt")):
                lost.append("specs/%s of %s" % (name, os.path.relpath(path, top)))
    return lost


def lost_links(text, document):
    """The links of a document to files and headings that aren't there."""
    lost = []
    for path, anchor in LINK.findall(text):
        target = os.path.join(os.path.dirname(document), path) if path else document
        if not os.path.exists(target) or anchor and anchor not in anchors(text_of(target)):
            lost.append(path + (anchor and "#" + anchor))
    return lost


def anchors(text):
    """What a link calls the headings of a document."""
    plain = [re.sub(r"[^\w\s-]", "", it.lower()) for it in HEADING.findall(text)]
    return {it.replace(" ", "-") for it in plain}
