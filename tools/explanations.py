"""What `dmremap help WORD` prints: a table in Rattle, made of the DIAGNOSTICS of the program's manual."""

import re
import textwrap
from typing import Dict, Iterator, List, Tuple

import diagnostics

HEAD = '''//! What each word of a message means, its causes and what to do, as the manual says it.
//!
//! Made by tools/derive from the DIAGNOSTICS in docs/dmremap.1: don't edit.

use crate::help::HELP;

/// The words that `help` explains, in lines of their own.
pub(crate) const WORDS: &str = "
%s";

/// The two parts whose messages an entry explains (the same twice if there is only one), the word, and its text.
pub(crate) type Entry<'a> = ((&'a str, &'a str), &'a str, &'a str);

/// The entries for the first words. There are two tables because the proof of a larger one takes too long.
pub(crate) static FIRST_ENTRIES: [Entry<'static>; %d] = [
%s];

/// The entries for the other words, and for how to ask for help, which belongs to no part.
pub(crate) static LATER_ENTRIES: [Entry<'static>; %d] = [
%s];
%s'''
# The form of messages about requests, and the other one that has their words, save the last of these.
REQUESTS, EARLIER, LATE = "request N: WORD", "before: WORD at N", "not top"
# What stands for a part in the form of messages about FILE and DISKS, and the words that the second of these has, too.
PART, OF_DISKS = "PART", ("read", "long", "text", "syntax", "field", "name", "twice", "empty", "limit")
NO_PLACE = "has no number"
# Words that ask for the help of `help`; and the first word of the second table.
ASKED, MIDDLE = ("help", "--help", "-h"), "not top"
WIDTH = 80


def module_of(path: str) -> str:
    """The text of the module: for each entry a row, and a text that is named after its part if others have its word."""
    with open(path, encoding="utf-8") as it:
        manual = it.read()
    said: Dict[str, List[Tuple[List[str], str]]] = {}
    for word, parts, text in _explained(diagnostics.section_of(manual, "DIAGNOSTICS")):
        said.setdefault(word, []).append((parts, text))
    first: List[str] = []
    later: List[str] = []
    texts = []
    for word, found in sorted(said.items()):
        for parts, text in found:
            name = "_".join([*parts[:len(found) > 1], *word.split()]).upper()
            (first if word < MIDDLE else later).append(_row(parts[0], parts[-1], word, name))
            texts.append('\nconst %s: &str = "\\\n%s";\n' % (name, _escaped(text)))
    later += [_row("", "", it, "HELP") for it in ASKED]
    tables = [it for rows in (first, later) for it in (len(rows), "".join(rows))]
    return HEAD % (_wrapped(", ".join(sorted(said))), *tables, "".join(texts))


def _row(first: str, last: str, word: str, name: str) -> str:
    return '    (("%s", "%s"), "%s", %s),\n' % (first, last, word, name)


def _explained(text: str) -> Iterator[Tuple[str, List[str], str]]:
    """Each word of DIAGNOSTICS with the parts of an entry, and what is printed of it."""
    for form, entries in diagnostics.forms_of(text):
        for word, said in entries.items():
            if word.startswith("dmremap: "):
                for message in word.split(", "):
                    yield message.rpartition(": ")[2], _parts([message[len("dmremap: "):]]), _block([message], said)
            else:
                forms = _forms(form, word, said)
                yield word, _parts(forms), _block(["dmremap: " + it.replace("WORD", word) for it in forms], said)


def _parts(forms: List[str]) -> List[str]:
    """The parts of messages."""
    return [re.split("[ :]", it)[0] for it in forms]


def _forms(form: str, word: str, text: str) -> List[str]:
    """The forms of messages with a word, by the form that stands above its entry."""
    form = form.partition(" at ")[0] if NO_PLACE in text else form
    if form.startswith(PART):
        return [form.replace(PART, it) for it in (["source", "disks"] if word in OF_DISKS else ["source"])]
    return [form, EARLIER] if form == REQUESTS and word != LATE else [form]


def _block(messages: List[str], text: str) -> str:
    """What is printed of an entry: its messages, and its paragraphs below them."""
    return "".join(it + "\n" for it in messages) + "".join(_wrapped(it) + "\n" for it in text.splitlines())


def _wrapped(text: str) -> str:
    """A paragraph in lines, with what is typed in one piece."""
    whole = re.sub("`[^`]*`", lambda it: it[0].replace(" ", "\0"), text)
    lines = textwrap.wrap(whole, WIDTH, initial_indent="  ", subsequent_indent="  ", break_long_words=False, break_on_hyphens=False)
    return "\n".join(lines).replace("\0", " ")


def _escaped(text: str) -> str:
    return text.replace("\\", "\\\\").replace('"', '\\"')
