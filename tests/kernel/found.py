"""What the comparison found: what agreed, which departures occurred, what was not compared, and what failed."""

import collections

SHORT = 240


class Found:
    """The counts of a kind of vectors. Those of several jobs are added up."""

    def __init__(self):
        self.agreed, self.departed, self.aside = (collections.Counter() for _ in range(3))
        self.failed = []

    def add(self, other):
        self.agreed += other.agreed
        self.departed += other.departed
        self.aside += other.aside
        self.failed += other.failed

    def fail(self, where, why):
        self.failed.append("%s: %s" % (where, why))

    def holds(self, what, where, is_so, why):
        """Counts a comparison under `what`, and says whether it holds."""
        if is_so:
            self.agreed[what] += 1
        else:
            self.fail(where, why)
        return is_so

    def same(self, what, where, ours, theirs):
        """Counts an answer of the program that has to be that of the kernel or of lvm2."""
        return self.holds(what, where, ours == theirs, "%s: the program has %s, and what was recorded is %s"
                          % (what, short(ours), short(theirs)))

    def departs(self, departure, where, ours, stated, theirs):
        """Counts an answer that is known to differ: the program's has to be the one that is stated for it, and theirs another."""
        if ours != stated:
            self.fail(where, "%s: the program has %s in place of %s" % (departure, short(ours), short(stated)))
        elif ours == theirs:
            self.fail(where, "%s: both have %s, so it no longer occurs here" % (departure, short(ours)))
        else:
            self.departed[departure] += 1

    def passed(self):
        return sum(self.agreed.values())


def short(value):
    shown = value if isinstance(value, str) else repr(value)
    return shown if len(shown) <= SHORT else shown[:SHORT] + ".."
