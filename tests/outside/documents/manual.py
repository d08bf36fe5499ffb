"""The manual page: it shows without a warning, has the program's commands, formats, statuses and messages,
and its examples print what is shown. The page on formats has a rule for each word of a message, too."""

import glob
import os
import re
import shutil

import help_words
import transcripts
from harness import run, text_of

# The words that a part of the diagnostics explains, as the sources have them.
WORDS = [
    ("FILE and DISKS", r'LoadKind::\w+ => "(\w+)"'),
    ("requests", r'RequestWord::\w+ => b"(\w+)"'),
    ("names", r'"dmremap: name: (\w+)\\n"'),
]
# The words of a row of FORMATS' tables of checks, after what says their order.
RULED = re.compile(r"^\|[^|`]*\| ((?:`\w+`(?:, )?)+) \|", re.M)
# The word of a refused request that only a replay has.
NOT_TOP = "not top"
# The word of a load that has a message of its own.
MEMORY = "memory"
# Messages without a word that another text puts in.
WHOLE = re.compile(r'"(dmremap: (?!name: |device: )\w+(?:: \w+)?)(?:\\n)?"')


def test_page(tally, program, top):
    path = os.path.join(top, "docs", "dmremap.1")
    text = text_of(path)
    check_shown(tally, path)
    parts = dict(parts_of(r"^\.SH (.*)\n", text))
    formats = text_of(os.path.join(top, "docs", "FORMATS.md"))
    check_words(tally, parts.get("DIAGNOSTICS", ""), formats, os.path.join(top, "crates"))
    check_help(tally, program, parts)
    transcripts.check(tally, program, top, "the manual", transcripts.of_manual(text))


def check_shown(tally, path):
    """Each reader of manual pages that is there shows it, and warns of nothing."""
    readers = [["man", "--warnings", "-l", path], ["mandoc", "-T", "lint", "-W", "warning", path]]
    env = dict(os.environ, LC_ALL="C.UTF-8", MANWIDTH="80", PAGER="cat", MANPAGER="cat")
    for words in readers:
        if shutil.which(words[0]) is None:
            tally.skip("the manual by " + words[0], "it isn't there")
            continue
        got = run(words, env=env)
        is_shown = got.status == 0 and got.err == b"" and (got.out == b"") == (words[0] == "mandoc")
        tally.holds("the manual by " + words[0], is_shown, "status %s, %r, and on standard output %r"
                    % (got.status, got.err, got.out[:200]))


def check_words(tally, diagnostics, formats, crates):
    """Each message, and each word of one, has an entry of its own."""
    paths = glob.glob(os.path.join(crates, "*", "src", "**", "*.rt"), recursive=True)
    sources = "".join(text_of(it) for it in sorted(paths) if "tests" not in os.path.relpath(it, crates))
    entries = {title: entries_of(part) for title, part in parts_of(r"^\.SS Messages about (.*)\n", diagnostics)}
    ruled = set(re.findall(r"`(\w+)`", " ".join(RULED.findall(formats))))
    wanted = [("requests", NOT_TOP)]
    for title, pattern in WORDS:
        words = set(re.findall(pattern, sources)) - {MEMORY}
        tally.holds("words about %s in the sources" % title, len(words) > 4, "they are %s" % words)
        wanted += [(title, word) for word in sorted(words)]
        lost = sorted(words - ruled)
        tally.holds("FORMATS on %s" % title, not lost, "it has no rule for %s" % ", ".join(lost))
    for title, word in wanted:
        tally.holds("the manual on %s, %s" % (title, word), word in entries.get(title, []), "it has no entry")
    messages = set(WHOLE.findall(sources))
    tally.holds("messages in the sources", len(messages) > 4, "they are %s" % messages)
    for message in sorted(messages):
        tally.holds("the manual on %s" % message, message in entries_of(diagnostics), "it has no entry")


def check_help(tally, program, parts):
    """What help lists is in the manual."""
    listed, there = help_words.statuses(program), entries_of(parts["EXIT STATUS"])
    tally.holds("the statuses of the manual", listed and there == listed, "help has %s" % listed)
    listed, there = help_words.commands(program), entries_of(parts["COMMANDS"])
    tally.holds("the commands of the manual", listed and listed <= set(there), "help has %s" % listed)
    listed, there = help_words.formats(program), dict(parts_of(r"^\.SS (.*)\n", parts["FORMATS"]))
    tally.holds("the formats of the manual", listed and listed <= set(there), "help has %s" % listed)


def entries_of(text):
    """What the entries of a list are about, without fonts."""
    return [re.sub(r'^\.\w+ |"', "", it) for it in re.findall(r"^\.TP\n(.*)", text, re.M)]


def parts_of(heading, text):
    """The parts of a text, each with its title, which a pattern finds."""
    found = re.split(heading, text, flags=re.M)
    return list(zip(found[1::2], found[2::2]))
