"""The configuration language of lvm2 (lvm.conf(5)), read as lvm2 reads it, with the place of each part, in linear time.
It is wider than what dmremap reads: single quotes and words without quotes, signs and fractions, octal numbers, commas
that are missing or left over, keys in quotes, other white space."""

import functools
import itertools
import re
from typing import Dict, Iterator, List, NamedTuple, Optional, Tuple, Type, TypeVar, Union

from dmremap_tools.base import Refusal, quoting

# White space and comments, and then a sign, a string, a word, or nothing at the end. A comment ends with its line, so
# that there is one way to read them.
SPACE = rb"[ \t\n\v\f\r]*(?:#[^\n]*(?:\n[ \t\n\v\f\r]*|\Z))*"
TOKEN = re.compile(SPACE + rb"""([][{}=,]|"[^"\\]*(?:\\.[^"\\]*)*"|'[^']*'|["']|[^ \t\n\v\f\r#={}]+|\Z)""", re.S)
SIGNS, QUOTES = (b"[", b"]", b"{", b"}", b"=", b",", b""), (b'"', b"'")
# After these a value comes, of which digits or a sign are a number that ends where they do; elsewhere a key comes.
BEFORE_VALUE = (b"=", b"[", b",")
NUMBER, OCTAL = re.compile(rb"[0-9+-]?[0-9]*\.[0-9]*|[0-9+-][0-9]*"), re.compile(rb"[+-]?0[0-7]*")
MOST_DIGITS = 20
# What to do about a text that breaks off, or isn't lvm2's.
ANEW = "take the text anew, from /etc/lvm/backup"
# How many keys and values a text has at most, as each takes memory; and in how many bytes lines are counted at a time.
MOST_PARTS, BLOCK = 150000, 1 << 16
# An integer, the bytes of a string, or None for a number that is neither whole nor in range.
Value = Union[int, bytes, None]
# What a value is asked for as.
Kind = TypeVar("Kind", int, bytes)
# A token, and where it begins. The one at the end is empty.
Token = Tuple[bytes, int]


class Item(NamedTuple):
    """A value as it is written, and where it begins."""

    text: bytes
    start: int

    @property
    def value(self) -> Value:
        """What it says: a number as C reads it, or a string without its quotes and backslashes."""
        if not NUMBER.match(self.text):
            return unquoted(self.text)
        octal = OCTAL.match(self.text)
        if b"." in self.text or not octal and (len(self.text) > MOST_DIGITS or not self.text.strip(b"+-")):
            return None
        # C reads the digits up to the first that is none.
        value = int(octal[0], 8) if octal else int(self.text)
        return value if -(1 << 63) <= value < 1 << 63 else None


class Node:
    """A key with its values or a section, and where in the text it begins and ends, and what is after the key."""

    __slots__ = ("key", "start", "value_at", "end", "level", "items", "children")

    def __init__(self, key: bytes, start: int, value_at: int, level: int) -> None:
        self.key, self.start, self.value_at, self.end, self.level = key, start, value_at, value_at, level
        self.items: List[Item] = []
        self.children: Optional[Dict[bytes, "Node"]] = None

    def child(self, key: bytes) -> Optional["Node"]:
        """The field or the section of this key in a section, or None."""
        return (self.children or {}).get(key)

    def add(self, node: "Node") -> None:
        """Puts a field or a section into this one, in the place of another that has its key."""
        self.children = {} if self.children is None else self.children
        self.children[node.key] = node

    def sections(self) -> List["Node"]:
        """The sections in a section, in their order."""
        return [it for it in (self.children or {}).values() if it.children is not None]

    def sections_in(self, key: bytes) -> List["Node"]:
        """The sections in the section of this key."""
        child = self.child(key)
        return child.sections() if child else []

    def values(self, key: bytes) -> List[Value]:
        """The values of a field, of which there is one if it is no list."""
        child = self.child(key)
        return [it.value for it in child.items] if child else []

    def pairs(self, key: bytes) -> List[Tuple[Value, Value]]:
        """The values of a field two by two, as names and extents."""
        values = self.values(key)
        return list(zip(values[::2], values[1::2]))

    def value(self, key: bytes, kind: Type[Kind]) -> Optional[Kind]:
        """The value of a field that has one, if it is of this kind, or None."""
        values = self.values(key)
        return values[0] if len(values) == 1 and isinstance(values[0], kind) else None

    @property
    def identity(self) -> str:
        """The id of what a section is of, or nothing."""
        return (self.value(b"id", bytes) or b"").decode("ascii", "replace")


class Document:
    """A text and the tree that it says, without what is after a NUL, as for lvm2. A key that is there twice, which lvm2
    never writes, is refused."""

    def __init__(self, path: str, content: bytes) -> None:
        self.path, self.content = path, content.split(b"\0", 1)[0] if b"\0" in content else content
        self._parts = 0
        self.top = self._tree(self.tokens())

    @functools.cached_property
    def _lines(self) -> List[int]:
        """How many lines end before each block of the text."""
        starts = range(0, len(self.content), BLOCK)
        return [0, *itertools.accumulate(self.content.count(b"\n", start, start + BLOCK) for start in starts)]

    def line_at(self, at: int) -> int:
        """The number of the line that has a byte, from 1 on."""
        block = at // BLOCK
        return 1 + self._lines[block] + self.content.count(b"\n", block * BLOCK, at)

    def refused(self, at: int, why: str) -> Refusal:
        """The refusal of the text for what stands at a byte."""
        return Refusal(f"{self.path}:{self.line_at(at)}", why)

    def tokens(self) -> Iterator[Token]:
        """All tokens of the text."""
        text, end, token, number = b"{", 0, TOKEN.match, NUMBER.match
        while text:
            found, may_be_number = token(self.content, end), text in BEFORE_VALUE
            assert found, "a token stands everywhere, at the end an empty one"
            text, (start, end) = found[1], found.span(1)
            figure = number(text) if may_be_number else None
            if figure:
                text, end = figure[0], start + len(figure[0])
            elif text in QUOTES:
                raise self.refused(start, "a string without an end: " + ANEW)
            yield text, start

    def _tree(self, tokens: Iterator[Token]) -> Node:
        """The section without a key that holds the text."""
        top = Node(b"", 0, 0, 0)
        top.children, opened = {}, [top]
        for text, start in tokens:
            if text == b"}" and len(opened) > 1:
                opened.pop().end = start + 1
            elif text:
                node = self._node(text, start, tokens, len(opened))
                before = opened[-1].child(node.key)
                if before:
                    raise self.refused(start, f"{shown(node.key)} is there twice, first in line "
                                       f"{self.line_at(before.start)}: put the two together")
                opened[-1].add(node)
                opened += [node] if node.children is not None else []
        if len(opened) > 1:
            raise self.refused(len(self.content), f"the end is missing: {shown(opened[-1].key)}, "
                               f"line {self.line_at(opened[-1].start)}, isn't closed: {ANEW}")
        return top

    def _node(self, text: bytes, start: int, tokens: Iterator[Token], level: int) -> Node:
        """A field, or a section without what is in it, that begins with this token."""
        self._count_part(start)
        key = unquoted(text)
        if text == b"}":
            raise self.refused(start, "a brace that closes nothing: " + ANEW)
        if text in SIGNS or not key or b"/" in key:
            fault = "no key" if text in SIGNS else "a key that lvm2 never writes"
            raise self.refused(start, f"{fault}, {ANEW}: {shown(text)}")
        sign, at = next(tokens)
        node = Node(key, start, at, level)
        if sign == b"=":
            self._read_values(node, tokens)
        elif sign == b"{":
            node.children = {}
        else:
            raise self.refused(at, f"neither a brace nor an equals sign after {shown(key)}: {ANEW}")
        return node

    def _read_values(self, node: Node, tokens: Iterator[Token]) -> None:
        """Reads the values of a field, which follow its equals sign."""
        text, start = next(tokens)
        is_list, node.value_at, needs_comma = text == b"[", start, False
        for text, start in tokens if is_list else [(text, start)]:
            if is_list and text == b"]":
                break
            if text == b"," and needs_comma:
                needs_comma = False
                continue
            # Only a string may come where a comma is missing.
            if text in SIGNS or text[:1] not in QUOTES and needs_comma:
                raise self.refused(start, f"no value, {ANEW}: {shown(text) or 'the end'}")
            if is_list:
                self._count_part(start)
            node.items.append(Item(text, start))
            needs_comma = True
        node.end = start + len(text)

    def _count_part(self, at: int) -> None:
        """Counts a key or a value at a byte. Refuses a text that has too many."""
        self._parts += 1
        if self._parts > MOST_PARTS:
            raise self.refused(at, f"more than {MOST_PARTS} keys and values: give the text of one group, "
                               "without other volumes")


def unquoted(text: bytes) -> bytes:
    """The bytes of a string or a word: between double quotes a backslash is none before a quote and a backslash."""
    if text[:1] == b'"':
        return re.sub(rb'\\(["\\])', rb"\1", text[1:-1]) if b"\\" in text else text[1:-1]
    return text[1:-1] if text[:1] == b"'" else text


def shown(content: bytes) -> str:
    """Bytes of a text, fit to be shown in a message."""
    return quoting.shown(content.decode("utf-8", "surrogateescape"))
