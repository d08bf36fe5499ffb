"""Lookers: none is copied, and no call hands out a looker's stack or finds lines past its counts.

What does not compile has no test of its own, so this reads the sources of `dm_stack`."""

import os
import re

from harness import text_of


def test_sources(tally, top):
    sources = os.path.join(top, "crates", "dm_stack", "src")
    looker, stack = (text_of(os.path.join(sources, name)) for name in ("looker.rt", "stack.rt"))
    derived = re.search(r"#\[derive\((.*)\)\]\npub struct Looker<'s> \{\n((?:    .*\n)*)\}", looker)
    names = derived[1].split(", ") if derived else []
    tally.holds("a looker is not copied", names == ["Drop"] and " for Looker" not in looker.replace("Model for Looker", ""),
                "it derives %s, or has an impl" % names)
    public = re.findall(r"^    pub ", derived[2], re.M) if derived else ["?"]
    tally.holds("the fields of a looker are its own", not public, "some are public")
    told = re.findall(r"pub fn (\w+)\([^)]*\) -> [^\n]*\bStack\b", looker)
    tally.holds("a looker hands out no stack", not told, "%s does" % ", ".join(told))
    finds = re.findall(r"^ *(pub(?:\(crate\))?) fn find_line\(", stack, re.M)
    tally.holds("only a looker finds lines", finds == ["pub(crate)"], "find_line is %s" % finds)
