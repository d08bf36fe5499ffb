"""The terms of definitions and contracts: their tokens, and which names in them are bound inside."""

import re

ANTT = re.compile(r'(?P<skip>--[^\n]*|//[^\n]*)|"(?:\\.|[^"\\])*"|«[^»]*»|[^\s(){}.;,@"«»]+|[(){}.;,@]')
OPENERS, CLOSERS = {"(", "{", "["}, {")", "}", "]"}
RESERVED = set("""data record deriving module where use mod pub package open as unfoldable abbrev axiom unfold
    unfolding ruleset mutual infix infixl infixr elim let in do Type λ = | : [ ] → × ↦ ← _ ?""".split())


class Token:
    """A word or a sign, where it begins in its text, and in which column."""

    __slots__ = ("text", "start", "column")

    def __init__(self, text, start, column):
        self.text, self.start, self.column = text, start, column


def tokens_of(text, pattern, begin=0, end=None):
    """The tokens of a part of a text, without those that the pattern skips."""
    found = []
    for it in pattern.finditer(text, begin, len(text) if end is None else end):
        if not it.group("skip"):
            found.append(Token(it.group(), it.start(), it.start() - text.rfind("\n", 0, it.start()) - 1))
    return found


def is_name(word):
    return word not in RESERVED and not re.match(r'[\d(){}.;,@"?]|$', word)


class Terms:
    """Goes over tokens with the names that are bound where they stand, and tells `refer` all other names.

    A name is told with what follows it by dots, as a list, and where it begins. `is_constructor` says
    whether a name in a pattern stands for a constructor, and so binds nothing.
    """

    def __init__(self, text, tokens, refer, is_constructor):
        self.text, self.tokens, self.refer, self.is_constructor = text, tokens, refer, is_constructor

    def word(self, at):
        return self.tokens[at].text if 0 <= at < len(self.tokens) else ""

    def term(self, at, bound, stops=()):
        """Goes on to a closing bracket that opens before, or to one of the stops, and returns its place."""
        outer = bound
        while at < len(self.tokens):
            word = self.word(at)
            if word in CLOSERS or word in stops:
                break
            if word in (",", ";", "|"):
                at, bound = at + 1, outer
            elif self.binder(at):
                names = self.binder(at)
                at, bound = self.term(at + len(names) + 2, bound) + 1, bound.union(names)
            elif word == "(":
                at = self.term(at + 1, bound) + 1
            elif word == "{":
                at = self.fields(at + 1, bound)
            elif word == "[":
                at = self.cases(at + 1, bound)
            elif word == "λ":
                at, bound = self.parameters(at + 1, bound)
            elif word == "let":
                at, bound = self.let(at + 1, bound)
            elif word == "unfold":
                at = self.term(at + 1, bound, ("in",)) + 1
            elif word == "open":
                at, bound = self.opened(at + 1, bound)
            else:
                at = self.name(at, bound)
        return at

    def binder(self, at):
        """The names of a binder such as `(a b : A)` or `{A : B}`, if one begins here."""
        if self.word(at) not in ("(", "{") or self.word(at - 1) == "record":
            return []
        after = at + 1
        while is_name(self.word(after)) or self.word(after) == "_":
            after += 1
        return [self.word(it) for it in range(at + 1, after)] if self.word(after) == ":" else []

    def fields(self, at, bound):
        """Goes over braces: the fields of a record or of its type, or an argument by its name."""
        while at < len(self.tokens) and self.word(at) != "}":
            name, sign = self.word(at), self.word(at + 1)
            at = self.term(at + 2 if sign in ("=", ":") else at, bound, (";", ","))
            bound = bound | {name} if sign == ":" else bound
            at += 1 if self.word(at) in (";", ",") else 0
        return at + 1

    def cases(self, at, bound):
        """Goes over the cases of an `elim`."""
        while at < len(self.tokens) and self.word(at) != "]":
            begin = at
            while self.word(at) not in ("↦", ""):
                at += 1
            at = self.term(at + 1, bound | self.pattern(begin, at), ("|",))
            at += 1 if self.word(at) == "|" else 0
        return at + 1

    def parameters(self, at, bound):
        """Goes over the parameters of a λ, up to its dot."""
        while self.word(at) not in (".", ""):
            names = self.binder(at)
            if names:
                at = self.term(at + len(names) + 2, bound) + 1
            else:
                names = [self.word(at)]
                at += 1
            bound = bound.union(names)
        return at + 1, bound

    def let(self, at, bound):
        """Goes over `let name : Type = term in`."""
        names = set()
        while self.word(at) not in (":", "=", ""):
            names.add(self.word(at))
            at += 1
        if self.word(at) == ":":
            at = self.term(at + 1, bound, ("=",))
        return self.term(at + 1, bound, ("in",)) + 1, bound | names

    def opened(self, at, bound):
        """Goes over `open value use {field, ..}`, which brings in fields of a value."""
        at = self.term(at, bound, ("use",)) + 1
        names = set()
        while self.word(at) not in ("}", ""):
            names.add(self.word(at))
            at += 1
        return at + 1, bound | names

    def pattern(self, at, end):
        """The names that the patterns between two places bind."""
        names = set()
        while at < end:
            chain, after = self.chain(at)
            is_label = self.word(after) == "=" and after < end
            if chain and not is_label:
                if len(chain) > 1 or self.is_constructor(chain[0]):
                    self.refer(chain, self.tokens[at].start)
                else:
                    names.add(chain[0])
            at = after
        return names

    def name(self, at, bound):
        chain, after = self.chain(at)
        if chain and chain[0] not in bound:
            self.refer(chain, self.tokens[at].start)
        return after

    def chain(self, at):
        """The name that stands here with what follows it by dots, and the place after that."""
        if not is_name(self.word(at)):
            # What follows a bracket by a dot is a field.
            return [], at + 2 if self.is_dot(at) else at + 1
        chain = [self.word(at).strip("«»")]
        at += 1
        while self.is_dot(at):
            chain.append(self.word(at + 1))
            at += 2
        return chain, at

    def is_dot(self, at):
        """Whether a dot stands here that joins what is on both sides."""
        start = self.tokens[at].start if self.word(at) == "." else 0
        return start > 0 and not self.text[start - 1].isspace() and not self.text[start + 1:start + 2].isspace()
