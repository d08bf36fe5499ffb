"""The page that lists the promises: the contracts that docs/PROMISES.md names, and how much a reader of `map` reads."""

import os
import re

from promises import PROMISES, counts, in_order, named, needed

PAGE = os.path.join("docs", "PROMISES.md")
COLUMN = re.compile(r"^\|(.*\| Contract \|.*)\n\|[-|]+\n((?:\|.*\n)*)", re.M)
CODE = re.compile(r"`([^`]+)`")
# How much `map` names, as the page has it.
FIGURES = ("For `map`: %d definitions and %d types, traits and constants, %d lines; "
           "with `--whole` %d and %d, %d lines.")


def lacks(sources):
    """What the page lacks, and where a list would have an item before one that it names."""
    with open(os.path.join(sources.top, PAGE), encoding="utf-8") as it:
        text = it.read()
    figures = FIGURES % tuple(count for is_whole in (False, True) for count in counts(needed(sources, "map", is_whole=is_whole)))
    found = [] if figures in text else ["%s lacks: %s" % (PAGE, figures)]
    for name, _, _ in PROMISES:
        for is_whole in (False, True):
            found += ["the list of %s: %s" % (name, it) for it in disorder(sources, needed(sources, name, is_whole=is_whole))]
    return found + NamedContracts(sources, text).lacks()


def disorder(sources, items):
    """Where the order of reading lacks an item, or has it twice, or before one that it names and that doesn't name it."""
    row = [it for _, found in in_order(sources, items) for it in found]
    at = {it: place for place, it in enumerate(row)}
    found = [] if len(row) == len(items) and set(row) == set(items) else ["it isn't what the contracts name"]
    for it in row:
        early = [other.name for other in it.uses if at.get(other, -1) > at[it] and not leads(other, it)]
        found += ["%s before %s" % (it.name, other) for other in early]
    return found


def leads(item, other):
    """Whether an item names another, over whatever others."""
    found, left = set(), [item]
    while left and other not in found:
        found.add(left[-1])
        left += [it for it in left.pop().uses if it not in found]
    return other in found


class NamedContracts:
    """The contracts that the page names in its tables: functions, with their clauses."""

    def __init__(self, sources, text):
        self.sources, self.text = sources, text
        self.listed = [it for _, names, _ in PROMISES for it in names]
        # The functions and types so far; what is lacking; and the function that was named last, with its items.
        self.there, self.found, self.name, self.last = set(), [], None, []

    def lacks(self):
        for head, cells in COLUMN.findall(self.text):
            column = [it.strip() for it in head.split("|")].index("Contract") + 1
            for row in cells.splitlines():
                for word in CODE.findall(row.split("|")[column]):
                    self.read(word)
        there = self.there | {it.split("::")[0] for it in self.there}
        return self.found + ["%s doesn't name %s" % (PAGE, it) for it in self.listed if it not in there]

    def read(self, word):
        """Takes in a word of code: a function or a type, or a clause of the one before."""
        if word in self.listed or word.split("::")[0] in self.listed:
            self.name, self.last = word, named(self.sources, word)
            self.there.add(word)
        elif not any(word in it.clauses for it in self.last):
            self.found.append("%s: %s is no clause of %s" % (PAGE, word, self.name))
