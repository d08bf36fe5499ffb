"""What a reader has to read: the lists of `tests/reading` lack nothing, and docs/PROMISES.md names the same contracts,
with clauses that are there, and how much `map` names."""

import os
import re
import sys

from harness import run

# A line of a list: a number of a line, what kind of item there is if it is no definition, and its name.
ENTRY = re.compile(r"^ +\d+  (?:(?:type|trait|constant) )?([^ :,\n]+)", re.M)


def test_lists(tally, top):
    def printed(*words):
        made = run([sys.executable, "-B", os.path.join(top, "tests", "reading"), *words])
        tally.holds("reading %s" % " ".join(words), made.status == 0, (made.out + made.err).decode().strip())
        return made.out.decode()

    printed("--check")
    names = set(ENTRY.findall(printed("map", "--whole")))
    own = set(ENTRY.findall(printed("map")))
    tally.holds("what map leaves to other promises", own < names and "DescribesTable" not in own, "it has %d names" % len(own))
    fewer = set(ENTRY.findall(printed("map", "--whole", "--format", "table")))
    book = printed("map", "--whole", "--book")
    tally.holds("what table text alone needs", fewer < names and "DescribesTable" in fewer and "DescribesGroup" not in fewer,
                "it has %d of %d names" % (len(fewer), len(names)))
    lost = [it for it in names if it not in book]
    tally.holds("the book", not lost, "it lacks %s" % ", ".join(lost[:9]))
    tally.holds("the contracts of the book", "pub fn map_whole" in book.rpartition("The contracts:")[2], "it doesn't end with them")
