"""Texts: which of them libdevmapper's parser takes. Each stands inside of a group, which then loads or is refused."""

import answers
from vectors import in_file

ROWS = 8
GROUP = 'contents = "Text Format Volume Group"\nversion = 1\nvg {\nextent_size = 8\nphysical_volumes { }\n%s\n}\n'
SPELLED = "other spellings in metadata"
TWICE = "a key twice"
EMPTY = "a text of nothing"

# The texts that are taken by one side alone, each with the departure and the word of the refusal.
DEPARTING = {
    "": (EMPTY, ""), "# x": (EMPTY, ""),
    "a = 1\na { }": (TWICE, "twice"), "a = 1\na = 2\n": (TWICE, "twice"), "a { b = 1 }\na { c = 2 }\n": (TWICE, "twice"),
    "a = 00000000000000000000000001": (SPELLED, "field"),
}
DEPARTING.update({it: (SPELLED, "syntax") for it in (
    # commas before a bracket
    "a = [1, ]", 'a = [ "x" , ]',
    # other numbers
    "a = -1", "a = +1", "a = 1.5", "a = 1.0", "a = .5", "a = 1.", "a=1b=2",
    # other keys
    "a/b = 1", "a/b { c = 1 }", "-a = 1", "é = 1", '"a b" = 1', '"a" { b = 1 }',
    # other strings
    'a = "x\\ny"', 'a = "x\\ty"', 'a = "x\ny"', "a = 'x'", "a = 'x\"y'", "a = x", "a = true", "a = @x", 'a = @"x"',
    'a = "unterminated', 'a = "tr\\',
    # carriage returns
    "a\t=\t1\r\n")})


def jobs(folder):
    return [(vector, at) for vector in in_file(folder, "texts") for at in range(0, len(vector.lines("cases.jsonl")), ROWS)]


def compare(found, program, job):
    vector, at = job
    for case in vector.records("cases.jsonl")[at:at + ROWS]:
        text, theirs = case["text"], "" if case["accepted"] else "refused"
        got = answers.of(program, ["table", "lvm", program.file("text", GROUP % text)])
        if text in DEPARTING:
            departure, word = DEPARTING[text]
            found.departs(departure, repr(text), got.word(), word, theirs)
        else:
            found.same("texts", repr(text), got.verdict(), theirs)
