"""The DIAGNOSTICS of the program's manual as plain text, an entry for each message or word of one."""

import re
import shlex
from typing import Dict, Iterator, List, Tuple

ESCAPES = [("\\&", ""), ("\\(aq", "'"), ("\\(ti", "~"), ("\\(ha", "^"), ("\\~", " "), ("\\-", "-"), ("\\e", "\\")]
FONT, FORM = re.compile(r"\\f[BIRP]"), re.compile(r"^\.EX\ndmremap: (.*)\n\.EE\n", re.M)


def section_of(manual: str, title: str) -> str:
    """The text of a section of a manual."""
    return re.search(r"^\.SH %s\n(.*?)^\.SH " % title, manual, re.M | re.S)[1]


def forms_of(text: str) -> Iterator[Tuple[str, Dict[str, str]]]:
    """Each form of messages in DIAGNOSTICS, without `dmremap: `, with the entries below it; an empty one for those before."""
    for section in re.split(r"^\.SS .*\n", text, flags=re.M)[1:]:
        pieces = FORM.split(section)
        yield from zip([""] + pieces[1::2], map(entries_of, pieces[::2]))


def entries_of(part: str) -> Dict[str, str]:
    """What the entries of a section say, by what they are about."""
    entries = {}
    for entry in re.split(r"^\.TP\n", part, flags=re.M)[1:]:
        head, _, body = re.split(r"^\.PP\n", entry, flags=re.M)[0].partition("\n")
        entries[plain(_line(head)).replace("`", "")] = plain_text(body)
    return entries


def plain_text(body: str) -> str:
    """The text of an entry: a line for each of its paragraphs."""
    paragraphs: List[List[str]] = [[]]
    for line in body.splitlines():
        if line in (".IP", ".PP"):
            paragraphs.append([])
        elif line not in (".EX", ".EE"):
            paragraphs[-1].append(_line(line))
    return "\n".join(plain(" ".join(it)) for it in paragraphs)


def plain(text: str) -> str:
    """A text without the escapes of the manual."""
    text = FONT.sub("", text)
    for escape, meant in ESCAPES:
        text = text.replace(escape, meant)
    return text


def _line(line: str) -> str:
    """A line of the manual, with backquotes where words are bold, as what is typed is."""
    macro, _, rest = line.partition(" ")
    if macro not in (".B", ".BI", ".BR", ".RB", ".I", ".IR", ".RI"):
        return line
    words = _words(rest)
    if macro in (".BR", ".RB"):
        return "".join("`%s`" % it if at % 2 == (macro == ".RB") else it for at, it in enumerate(words))
    joined = (" " if macro in (".B", ".I") else "").join(words)
    typed, _, rest = joined.partition("\\fR")
    return "`%s`%s" % (typed, rest) if macro in (".B", ".BI") else joined


def _words(text: str) -> List[str]:
    """The arguments of a macro, of which some are in quotes."""
    lexer = shlex.shlex(text, posix=True)
    lexer.whitespace_split, lexer.commenters, lexer.escape, lexer.quotes = True, "", "", '"'
    return list(lexer)
