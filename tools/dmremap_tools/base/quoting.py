"""Foreign text, made fit to be shown: a name or a line may hold whatever somebody wrote to a disk."""

from typing import List

MOST_SHOWN = 100
# How many things a message names.
MOST_NAMED = 16


def escaped(text: str, kept: str = "") -> str:
    """The text with an escape for each character that a terminal might obey, but for those that are kept."""
    if text.isprintable():
        return text
    # What was no UTF-8 is shown as the byte that it was.
    escapes = (chr(ord(it) - 0xDC00 * ("\udc80" <= it <= "\udcff")).encode("unicode_escape").decode() for it in text)
    return "".join(it if it in kept or it.isprintable() else escape for it, escape in zip(text, escapes))


def shown(text: str) -> str:
    """At most 100 characters of a text for a message, escaped, with two dots where there are more."""
    return escaped(text[:MOST_SHOWN]) + (".." if len(text) > MOST_SHOWN else "")


def some(words: List[str], between: str = ", ") -> str:
    """The first of some words as one text, with two dots where there are more."""
    return between.join(words[:MOST_NAMED] + [".."] * (len(words) > MOST_NAMED))


def printable(text: str) -> str:
    """The text as it is, or in quotes and with escapes where it has letters that don't print."""
    return text if text.isprintable() else escaped(quoted(text))


def quoted(text: str) -> str:
    """The text in quotes, with a backslash before each quote and each backslash."""
    return '"%s"' % text.replace("\\", "\\\\").replace('"', '\\"')
