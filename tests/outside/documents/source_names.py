"""The documents for those who change something: names of code in them are those of sources, the number of must-fail edits
is that of the files, and the picture of the crates has the arrows that crates.txt has."""

import glob
import os
import re

from harness import text_of

PAGES = ("ARCHITECTURE.md", "DECISIONS.md", "DEVELOPING.md", "PROMISES.md")
SOURCES = ("crates/*/*/**/*.rt", "crates/*/*/**/*.antt", "crates/*/must-fail/*", "crates.txt", "HANDLES", "tools/*/*",
           "tests/benches/*", "tools/**/*.py", "tests/**/*.py", "docs/*.patch", "[a-z]*")
# Wrong changes that the gate has to refuse, and how many of them a document says that there are.
EDITS, SAID = "crates/*/must-fail/*.edit", re.compile(r"at most (\d+) must-fail edits; there are (\d+)\b")
# A name in marks of code: of one word, or with the type before.
NAME = re.compile(r"`([\w:]+)`")


def test_pages(tally, top):
    words = words_of_sources(top)
    for name in PAGES:
        text = text_of(os.path.join(top, "docs", name))
        lost = sorted({word for it in NAME.findall(text) for word in it.split("::")} - words)
        tally.holds("names that docs/%s has of the sources" % name, not lost, "there is no %s" % ", ".join(lost))
    edits = len(glob.glob(os.path.join(top, EDITS)))
    most, said = map(int, SAID.search(text_of(os.path.join(top, "docs", "DEVELOPING.md"))).groups())
    tally.holds("the number of must-fail edits in docs/DEVELOPING.md", said == edits <= most, "there are %d" % edits)
    drawn, wanted = closed(arrows_in(top)), arrows_of(top)
    tally.holds("the arrows in docs/crates.svg", drawn == wanted, "they differ in %s" % sorted(drawn ^ wanted))


def arrows_in(top):
    """The arrows of the picture: pairs of crates, of which the first stands on the second."""
    return {tuple(it.split("-")) for it in re.findall(r'<path id="([\w-]+)"', text_of(os.path.join(top, "docs", "crates.svg")))}


def arrows_of(top):
    """The same as crates.txt has them, those over other crates included."""
    stands_on = dict(re.findall(r"^(\w+): (.*)", text_of(os.path.join(top, "crates.txt")), re.M))
    return closed({(it, other) for it, others in stands_on.items() for other in others.split() if other in stands_on})


def closed(pairs):
    """Pairs, and those that two or more in a row make."""
    more = pairs | {(first, last) for first, second in pairs for other, last in pairs if second == other}
    return pairs if more == pairs else closed(more)


def words_of_sources(top):
    """All words of the sources, and of the names of their files."""
    files = [it for pattern in SOURCES for it in glob.glob(os.path.join(top, pattern), recursive=True)]
    files = [it for it in files if os.path.isfile(it) and "/out/" not in it]
    return {word for it in files for text in (os.path.relpath(it, top), text_of(it)) for word in re.findall(r"\w+", text)}
