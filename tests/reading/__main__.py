"""What somebody reads who wants to believe a promise: the contracts that make it, and all that they name.

    python3 tests/reading                         prints the promises, and how much each names
    python3 tests/reading PROMISE                 prints what it names, in an order to read it in
    python3 tests/reading PROMISE --book          prints that itself: the sources, and last the contracts
    python3 tests/reading PROMISE --whole         also has what is left to other promises
    python3 tests/reading PROMISE --format FORMAT leaves out what only texts of other formats need
    python3 tests/reading --check                 tells what docs/PROMISES.md lacks
    python3 tests/reading --unused                prints the definitions that no contract and no proof uses

PROMISE is a word of the first list, or `all`, as if none is given to the later ones. FORMAT is table, concise or lvm.

A name means what the language says: what a binder around it binds, what its file declares or imports,
and in a contract also what the code has in scope. A name that is found nowhere fails every call, as
what is printed would lack something.
"""

import argparse
import os
import signal
import sys

sys.dont_write_bytecode = True

import pages
from definitions import FORMATS
from promises import DEFINITIONS, OWN_PROMISE, PROMISES, contracts, counts, in_order, library_words, named_only, needed, reach
from sources import Sources

TOP = os.path.dirname(os.path.dirname(os.path.dirname(os.path.abspath(__file__))))


def overview(sources):
    """The promises, a line for each."""
    rows = ["%-10s %11s %6s  %11s %6s  %s" % ("promise", "definitions", "lines", "whole", "lines", "what it says")]
    for name, _, says in PROMISES:
        own, whole = [("%d + %d" % it[:2], it[2]) for it in (counts(needed(sources, name, is_whole=it)) for it in (False, True))]
        rows.append("%-10s %11s %6d  %11s %6d  %s" % (name, *own, *whole, says))
    return rows + ["", "The second number counts types, traits and constants. Where `whole` is more, the rest is left to other promises."]


def listing(sources, items):
    """What items there are, by files: of each its line, its name and what is said of it."""
    rows = []
    for file, found in in_order(sources, items):
        rows += ["", file] + ["%5d  %s" % (it.line + 1, entry(it)) for it in found]
    return rows


def entry(item):
    kind = "" if item.kind in DEFINITIONS else item.kind + " "
    members = ", with " + ", ".join(item.members) if item.members else ""
    return "%s%s%s%s" % (kind, item.name, members, ": " + item.about if item.about else "")


def book(sources, items):
    """The sources of items, by files, in an order to read them in."""
    rows = []
    for file, found in in_order(sources, items):
        for it in found:
            rows += text_of(sources, it)
    return rows


def text_of(sources, item):
    """The lines of an item, below a line that says where it stands, with `..` for what is left out."""
    lines = sources.lines(item)
    rows = ["", "%s:%d" % (item.file, item.parts[0][0])]
    for first, last in item.parts:
        rows += [] if first == item.parts[0][0] else ["    .."]
        rows += lines[first - 1:last]
    return rows


def printed(sources, names, read_as, is_book, is_whole):
    """What the promises of these names need, and the contracts themselves."""
    functions = [it for name in names for it in contracts(sources, name)]
    items = set().union(*(needed(sources, name, read_as, is_whole) for name in names)) - set(functions)
    prelude, others = library_words(items | set(functions))
    left = ["`%s` (%s)" % (it, OWN_PROMISE[it]) for it in named_only(items | set(functions))]
    rows = ["%d definitions, and %d types, traits and constants: %d lines" % counts(items), "",
            "Of the toolchain's library: %d words of its prelude, and %s" % (prelude, ", ".join(others))]
    rows += ["", "Only named here, and read with another promise: " + ", ".join(left)] if left else []
    rows += book(sources, items) if is_book else listing(sources, items)
    rows += ["", "The contracts:"]
    for it in functions:
        rows += text_of(sources, it) if is_book else ["%s:%d %s" % (it.file, it.line + 1, it.name)]
    return rows


def unused(sources):
    """The definitions that no contract and no proof uses, and no definition or lemma that is used."""
    proofs = [item for path, file in sources.definitions.items() if path[2] == "proofs" and len(path) > 4
              for item in file.items.values()]
    declared = [item for file in sources.code.values() for item in file.items.values()]
    used = reach(sources.code_items + declared + proofs + [sources.handed])
    return [item for path, file in sources.definitions.items() if path[2] == "specs"
            for item in file.items.values() if item not in used]


def asked():
    words = argparse.ArgumentParser(description=__doc__, formatter_class=argparse.RawDescriptionHelpFormatter)
    words.add_argument("promise", nargs="?", choices=[it[0] for it in PROMISES] + ["all"], metavar="PROMISE")
    words.add_argument("--format", choices=sorted(FORMATS))
    for it in ("--book", "--whole", "--check", "--unused"):
        words.add_argument(it, action="store_true")
    return words.parse_args()


def main():
    words = asked()
    # Whoever reads what is printed may stop before its end.
    signal.signal(signal.SIGPIPE, signal.SIG_DFL)
    sources = Sources(TOP, with_all=words.unused)
    if sources.unknown and not words.unused:
        print("These names mean nothing: " + "; ".join(sources.unknown[:9]), file=sys.stderr)
        return 1
    if words.unused:
        rows = ["%s: %s" % (it.file, it.name) for it in unused(sources)]
    elif words.check:
        rows = pages.lacks(sources)
    elif words.promise or words.format or words.book or words.whole:
        names = [words.promise] if words.promise not in (None, "all") else [it[0] for it in PROMISES]
        rows = printed(sources, names, words.format, words.book, words.whole)
    else:
        rows = overview(sources)
    sys.stdout.buffer.write("".join(it + "\n" for it in rows).encode())
    return 1 if words.check and rows else 0


sys.exit(main())
