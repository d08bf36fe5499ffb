"""What help says of the words of messages is what the manual says, whatever part of a message is given; help lists them, and
explains itself."""

import os
import re

import diagnostics
import explanations
from harness import FULL_OUTPUT, text_of

# What a message may have in place of what its form names.
NAMED = {"PART": "source", "NUMBER": "20", "SECTOR": "8", "WORD": "field", "NAME": "vg0-snap", "LINE": "3", "N": "7"}
# The bare words that are commands, too, of which help says something else.
COMMANDS = {"name", "read"}


def test_words(tally, program, top):
    sections = diagnostics.section_of(text_of(os.path.join(top, "docs", "dmremap.1")), "DIAGNOSTICS")
    listed = help_of(program, "map").partition("\nMessages, ")[2].partition("\n\n")[0]
    found = 0
    for form, entries in diagnostics.forms_of(sections):
        words = [it for it in entries if not it.startswith("dmremap: ")]
        if form and words and form != "name: WORD":
            first = form.replace("PART", "source")
            there = re.search(r"dmremap: %s.*\n((?: {6}.*\n?)*)" % re.escape(first), listed)
            told = re.split(r",?\s+", there[1].strip(), flags=re.M) if there else []
            wanted = " ".join(it for it in words if it != "not top")
            tally.holds("the words of %s in help" % form, " ".join(told) == wanted, "they are %s, and in the manual %s" % (told, wanted))
        for word, text in entries.items():
            for message in word.split(", ") if word.startswith("dmremap: ") else messages_of(form, word):
                found += 1
                check_said(tally, program, message, text)
    tally.holds("entries of the manual", found > 60, "there are %d" % found)


def messages_of(form, word):
    """Messages with a word, as they are told."""
    forms = [form, *[form.replace("PART", "disks")] * (word in explanations.OF_DISKS), *["before: WORD at N"] * (form == "request N: WORD")]
    for it in sorted(set(forms)):
        yield "dmremap: " + re.sub("[A-Z]+", lambda part: word if part[0] == "WORD" else NAMED[part[0]], it)


def check_said(tally, program, message, text):
    """The whole message, without its beginning, and without its place: help prints its entry. With the word alone, all entries."""
    short = message.partition(": ")[2]
    bare = short.rpartition(": ")[2].partition(" at ")[0]
    forms = {message, short, short.partition(" at ")[0]}
    said = {it: program.run(["help", it]) for it in forms | {bare} - COMMANDS}
    for form, got in said.items():
        is_said = (got.status, got.err) == (0, b"") and plain(text) in plain(got.out.decode())
        tally.holds("help on %r" % form, is_said, "status %s, %r, %r" % (got.status, got.out, got.err))
    outs = {said[it].out for it in forms - {bare}}
    tally.holds("help on %r in all its forms" % message, len(outs) < 2 and not any(b"\n\n" in it for it in outs), "it prints %s" % outs)


def plain(text):
    return " ".join(text.split())


def help_of(program, word):
    return program.run(["help", word]).out.decode()


def test_command(tally, program):
    """A command is meant where it has the name of a word."""
    for command in COMMANDS:
        tally.same("help on the command " + command, program.run(["help", command]), 0, program.run([command, "--help"]).out)
    tally.tells("help on no word", program.run(["help", "no: such: word"]), 2, "", "\n  again, ")


def test_itself(tally, program):
    """How to ask for help."""
    wanted = program.run(["help", "help"])
    tally.tells("help help", wanted, out="WORD", err="")
    for word in "--help", "-h":
        tally.same("help " + word, program.run(["help", word]), 0, wanted.out)


def test_streams(tally, program):
    tally.same("help on a word and a full output", program.run(["help", "field"], stdout=FULL_OUTPUT), 5, "", "dmremap: output: write\n")
    got = program.run(["help", "field"], before=lambda: os.close(1))
    tally.same("help on a word and a closed output", got, 5, "", "dmremap: output: write\n")
