"""The pages of the crates: each crate has one, which names and links what is there. Code that it shows stands in
the test that it links to, word for word and in one piece, so it is proved and run; its commands print what is shown."""

import os
import re
import textwrap

import documents
import source_names
import transcripts
from harness import text_of

# A link to a source, and a block of code: each block is in the source that was linked last before it.
SHOWN = re.compile(r"\]\(([\w./-]+\.rt)\)|^```rust\n(.*?)^```$", re.M | re.S)


def test_pages(tally, program, top):
    code = source_names.words_of_sources(top)
    for crate in re.findall(r"^(\w+):", text_of(os.path.join(top, "crates.txt")), re.M):
        name = os.path.join("crates", crate, "README.md")
        path = os.path.join(top, name)
        if not os.path.exists(path):
            tally.holds(name, False, "there is none")
            continue
        text = text_of(path)
        tally.holds("the head of " + name, text.startswith("# %s\n" % crate), "it is %r" % text.split("\n")[0])
        words = re.sub(r"\]\([^)]*\)", "]", text)
        lost = documents.lost_paths(words, top) + documents.lost_words(words, top) + documents.lost_links(text, path)
        tally.holds("what %s names" % name, not lost, "there is no %s" % ", ".join(lost))
        lost = sorted({it for it in re.findall(r"`(\w+)`", text) if "_" in it} - code)
        tally.holds("code that %s names" % name, not lost, "there is no %s" % ", ".join(lost))
        lost = lost_blocks(text, os.path.dirname(path))
        tally.holds("code that %s shows" % name, not lost, "no test has %s" % "; ".join(map(repr, lost)))
        shown = transcripts.of_markdown(text)
        tally.holds("examples of " + name, shown or "```rust" in text, "it has none")
        if shown:
            transcripts.check(tally, program, top, name, shown)


def lost_blocks(text, folder):
    """The first lines of blocks that don't stand in the tests that a page links to."""
    lost, source = [], ""
    for link, block in SHOWN.findall(text):
        if link:
            source = text_of(os.path.join(folder, link))
        elif not stands_in(block, source):
            lost.append(block.split("\n")[0])
    return lost


def stands_in(block, source):
    """Whether lines stand in a source of tests, in a row, however deep they are indented there."""
    wanted, lines = block.rstrip("\n").split("\n"), source.split("\n")
    rows = (lines[at:at + len(wanted)] for at, line in enumerate(lines) if line.strip() == wanted[0].strip())
    return "#[test]" in source and any(textwrap.dedent("\n".join(it)) == "\n".join(wanted) for it in rows)
