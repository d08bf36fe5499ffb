"""The files of definitions and of proofs: what each declares and imports, and what its names mean."""

import os
import re

from terms import ANTT, CLOSERS, OPENERS, Terms, tokens_of

# Constructors that no import brings, or that the library has under a name in lower case.
CONSTRUCTORS = {"true", "false", "zero", "suc", "tt", "refl", "pos", "negsuc", "inl", "inr", "yes", "no", "[]", "∷"}

# The formats of texts, as the command line names them; the types that tell them apart, and their variants.
FORMATS = frozenset(["table", "concise", "lvm"])
FORMAT_TYPES = ("Format", "TableForm")
FORMATS_OF = {"Lvm": {"lvm"}, "Tables": {"table", "concise"}, "Table": {"table"}, "Concise": {"concise"}}

# What a name means that is none of the repository's, where nothing tells its path.
ELSEWHERE = "elsewhere"


class Item:
    """A definition, a law or a lemma, or a type, a trait, a constant or a function of the code.

    It has what it names (`uses`, each with the formats for whose texts it names that, and `library` for
    names of the toolchain's own), the ghost members of a type or a trait, the names of the clauses of a
    function, what is said of it above it, and the lines where it stands (`parts`, first and last of each).
    """

    def __init__(self, kind, crate, file, name, line=0, about=""):
        self.kind, self.crate, self.file, self.name, self.line, self.about = kind, crate, file, name, line, about
        self.uses, self.library, self.members, self.clauses, self.parts = {}, set(), [], [], []

    def names(self, other, formats):
        """Notes that it names another item, where a text is of one of these formats."""
        self.uses[other] = self.uses.get(other, frozenset()) | formats


class Scope:
    """The names that a file, or a part of it, declares and imports."""

    def __init__(self, sources):
        self.sources = sources
        self.items, self.constructors, self.imports, self.passed_on, self.operators = {}, {}, {}, {}, {}

    def bring(self, line, is_passed_on=False):
        """Takes in what stands after the `use` of a line: each name with the path that it stands for."""
        head, brace, names = line.strip().rstrip(";").partition("{")
        path, _, other = head.strip().rstrip(".").partition(" as ")
        path = tuple(path.strip().split("."))
        brought = {} if brace else {other.strip() or path[-1]: path}
        for it in names.rstrip().rstrip("}").split(",") if brace else ():
            name, _, other = it.strip().partition(" as ")
            if name:
                brought[(other or name.split(".")[-1]).strip()] = path + tuple(name.strip().split("."))
        self.imports.update(brought)
        self.passed_on.update(brought if is_passed_on else {})
        for name in brought:
            self.operators.update({part: name for part in name.split("◌") if part and "◌" in name})

    def imports_name(self, name):
        return name in self.imports or name in self.operators

    def imported(self, name):
        """The path that a name, or a part of an operator, stands for."""
        return self.imports.get(name) or self.imports[self.operators[name]]

    def meaning(self, chain):
        """What a name with its dots means here: an item, the path of a name of the library, or None."""
        name = chain[0]
        if name in self.items:
            return self.items[name]
        if name in self.constructors:
            return self.constructors[name]
        if name == "Rattle":
            return self.sources.at(tuple(chain))
        return self.sources.at(self.imported(name) + tuple(chain[1:])) if self.imports_name(name) else None

    def is_constructor(self, name):
        if name in self.constructors or name in self.items:
            return name in self.constructors
        if not self.imports_name(name):
            return name in CONSTRUCTORS
        path = self.imported(name)
        return self.sources.is_constructor(path) if self.sources.is_ours(path) else name in CONSTRUCTORS or name[0].isupper()


class DefinitionFile(Scope):
    """A file of definitions or of proofs."""

    def __init__(self, sources, crate, file, path):
        Scope.__init__(self, sources)
        self.crate, self.file, self.path = crate, file, path
        with open(os.path.join(sources.top, file), encoding="utf-8") as it:
            self.text = it.read()
        self.lines = self.text.split("\n")
        # The statements of each item: its signature and its clauses.
        self.statements = {}
        self.declare(cut(tokens_of(self.text, ANTT), 0))

    def declare(self, statements):
        item = None
        for tokens in statements:
            words = [it.text for it in tokens]
            if "use" in words[:3]:
                begin, end = tokens[words.index("use")], tokens[-1]
                self.bring(self.text[begin.start + len("use"):end.start + len(end.text)], "pub" in words)
            elif "mod" in words[:2]:
                self.imports[words[-1]] = (self.path[:-1] if self.path[-1] == "Lib" else self.path) + (words[-1],)
            else:
                if declared(words):
                    item = self.new_item(tokens, words)
                if item:
                    self.statements[item].append(tokens)
                    item.parts = [(item.parts[0][0], self.line_at(tokens[-1].start) + 1)]

    def new_item(self, tokens, words):
        line = self.line_at(tokens[0].start)
        comment = self.comment(line)
        item = Item(self.kind(words), self.crate, self.file, declared(words), line, " ".join(comment))
        item.parts = [(line - len(comment) + 1, line + 1)]
        self.items[item.name] = item
        self.statements[item] = []
        if item.kind == "data":
            self.constructors.update({it[0].text: item for it in after_where(tokens)})
        return item

    def kind(self, words):
        found = {"data", "record", "ruleset"}.intersection(words[:2])
        if found:
            return found.pop()
        if words[0] in ("abbrev", "unfoldable"):
            return "definition"
        return "law" if self.path[2] == "specs" else "lemma"

    def comment(self, line):
        """The lines of the comment right above a line."""
        end = line
        while line > 0 and re.match(r"-- (?!----)", self.lines[line - 1]):
            line -= 1
        return [it[len("-- "):].strip() for it in self.lines[line:end]]

    def line_at(self, start):
        return self.text.count("\n", 0, start)

    def resolve(self):
        """Finds what the names in each item mean."""
        for item, statements in self.statements.items():
            for it in statements:
                formats = self.formats_of(it)

                def refer(chain, start, item=item, formats=formats):
                    self.sources.note(self, item, chain, start, self.meaning(chain), formats)
                self.resolve_statement(it, refer, frozenset())

    def formats_of(self, tokens):
        """The formats for which a statement says something: those that its patterns name, if it is a clause."""
        formats = FORMATS
        if not declared([it.text for it in tokens]):
            for it in tokens[:next((at for at, it in enumerate(tokens) if it.text == "="), 0)]:
                meaning = self.meaning([it.text]) if it.text in FORMATS_OF else None
                if isinstance(meaning, Item) and meaning.name in FORMAT_TYPES:
                    formats = formats & FORMATS_OF[it.text]
        return formats

    def resolve_statement(self, tokens, refer, bound):
        words = [it.text for it in tokens]
        terms = Terms(self.text, tokens, refer, self.is_constructor)
        if words[0] in ("unfolding", "deriving") or "ruleset" in words[:2]:
            terms.term(words.index("=") + 1 if "=" in words else 1, bound)
        elif declared(words) and {"data", "record"}.intersection(words[:2]):
            self.resolve_type(terms, words, bound)
        elif declared(words):
            colon = words.index(":")
            levels = set(words[:colon]) if "{" in words[:colon] else set()
            terms.term(colon + 1, bound | levels)
        else:
            self.resolve_clause(terms, words, bound)

    def resolve_type(self, terms, words, bound):
        """A record or a data type: its parameters, and its fields, each of which the later ones may name."""
        tokens, where = terms.tokens, words.index("where") if "where" in words else len(words)
        terms.tokens = tokens[:where]
        terms.term(words.index(declared(words)) + 1, bound)
        for at in range(where):
            bound = bound.union(terms.binder(at))
        for it in after_where(tokens):
            field = [token.text for token in it]
            colon = field.index(":")
            Terms(self.text, it, terms.refer, self.is_constructor).term(colon + 1, bound)
            bound = bound | set(field[:colon]) if "record" in words[:2] else bound

    def resolve_clause(self, terms, words, bound):
        """A clause: patterns, a term, and maybe helpers after `where`."""
        depth, equals, where = 0, None, len(words)
        for at, word in enumerate(words):
            depth += (word in OPENERS) - (word in CLOSERS)
            if depth == 0 and word == "=" and equals is None:
                equals = at
            elif depth == 0 and word == "where":
                where = at
        if equals is None:
            return
        bound = bound | terms.pattern(1, equals)
        helpers = after_where(terms.tokens) if where < len(words) else []
        bound = bound | {it[0].text for it in helpers}
        for it in helpers:
            self.resolve_statement(it, terms.refer, bound)
        terms.tokens = terms.tokens[:where]
        terms.term(equals + 1, bound)


def declared(words):
    """The name that a statement declares, or None for a clause of what was declared before."""
    at = 0
    while words[at] in ("pub", "abbrev", "unfoldable", "pattern", "axiom"):
        at += 1
    if words[at] in ("data", "record", "ruleset"):
        return words[at + 1]
    if at:
        return words[at]
    head = words[:words.index(":")] if ":" in words else []
    is_signature = len(head) == 1 or (len(head) > 1 and head[1] == "{" and "=" not in head)
    return head[0] if is_signature and head[0] != "unfolding" else None


def cut(tokens, column):
    """Cuts tokens where one stands in this column outside of all brackets."""
    found, depth = [], 0
    for it in tokens:
        if it.column == column and depth == 0:
            found.append([])
        depth += (it.text in OPENERS) - (it.text in CLOSERS)
        found[-1].append(it)
    return found


def after_where(tokens):
    """The lines after `where`, each with what belongs to it."""
    words = [it.text for it in tokens]
    rest = tokens[words.index("where") + 1:] if "where" in words else []
    return cut(rest, rest[0].column) if rest else []
