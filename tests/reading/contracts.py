"""The files of code: their types, traits, constants and functions, and what their contracts name."""

import os
import re

from definitions import ELSEWHERE, FORMATS, Item, Scope
from terms import ANTT, CLOSERS, OPENERS, Terms, tokens_of

CODE = re.compile(r'(?P<skip>//[^\n]*)|r#"[\s\S]*?"#|b?"(?:\\[\s\S]|[^"\\])*"|b?\'(?:\\.[^\']*|[^\\\'\n])\'|\'\w+|\w+|->|=>|::|\S')
WORD = re.compile(r"[^\W\d]")
CLAUSES = ("requires", "ensures", "ghost")


class Place(Scope):
    """Where a clause stands: in a file, a type, a trait, an impl, a function or its body, each within others."""

    def __init__(self, file, item, outer=None):
        Scope.__init__(self, file.sources)
        self.file, self.item, self.outer = file, item, outer
        # The names of values, and the type parameters with the traits that bound them.
        self.values, self.bounds = set(), {}
        # The trait that it stands in; or the type of the impl, and the trait that this implements.
        self.trait, self.of, self.implements = (outer.trait, outer.of, outer.implements) if outer else (None, None, None)

    def places(self):
        """This place and those around it."""
        here = self
        while here:
            yield here
            here = here.outer

    def all_values(self):
        return frozenset().union(*(it.values for it in self.places()))

    def all_bounds(self, name):
        """The traits that bound a type parameter, or None where there is none of this name."""
        found = [it.bounds[name] for it in self.places() if name in it.bounds]
        return sum(found, []) if found else None

    def nearest(self, name):
        """The nearest place that imports a name for clauses."""
        return next((it for it in self.places() if it.imports_name(name)), None)

    def is_constructor(self, name):
        return Scope.is_constructor(self.nearest(name) or self, name)

    def meaning(self, chain):
        """What a name means in a clause: what is imported nearest, a member of a bound, or a name of the code."""
        name = chain[0]
        if self.trait and name in self.trait.members:
            return self.trait
        # The two ends of a quote such as ⟦<Type as Trait>⟧, which names both as the code does.
        quoted = re.match(r"⟦<(\w+)(?:<'\w+>)?$|(\w+)>⟧$", name)
        if quoted:
            return self.code_meaning([quoted[1] or quoted[2]])
        importing = self.nearest(name)
        if importing:
            return self.sources.at(importing.imported(name) + tuple(chain[1:]))
        bounds = self.all_bounds(name)
        return self.code_meaning(chain) if bounds is None else self.member_of(bounds, chain)

    def member_of(self, bounds, chain):
        """The trait that has a ghost member of a type parameter: one of the repository, or of the library."""
        traits = [self.file.code_item([it]) for it in bounds]
        traits = [it for it in traits if isinstance(it, Item) and it.kind == "trait"]
        named = [it for it in traits if len(chain) < 2 or chain[1] in it.members]
        return (named or traits or [ELSEWHERE])[0]

    def code_meaning(self, path):
        """The item that a path of the code names."""
        path = [self.of if it in ("Self", "self") and self.of else it for it in path]
        found = self.file.code_item(path[:1])
        found = self.file.code_item(path) if isinstance(found, CodeFile) else found
        return found if isinstance(found, Item) else None


class CodeFile(Scope):
    """A file of code. It is read twice: for what there is, and for what the names mean."""

    def __init__(self, sources, crate, file, modules):
        Scope.__init__(self, sources)
        self.crate, self.file, self.modules = crate, file, modules
        with open(os.path.join(sources.top, file), encoding="utf-8") as it:
            self.text = it.read()
        self.lines = self.text.split("\n")
        self.tokens = tokens_of(self.text, CODE)
        self.words = [it.text for it in self.tokens]
        self.pairs = pairs_of(self.words)
        # What `use` lines of the code bring, and the steps that are left for the second reading.
        self.brought, self.later = {}, []
        # For each type that contracts see as another value, the item that its fields count for.
        self.hidden = {}
        self.whole = Place(self, Item("file", crate, file, ""))
        self.read_items(0, len(self.words), self.whole)

    def resolve(self):
        for step, arguments in self.later:
            step(*arguments)

    # ---- what there is

    def read_items(self, at, end, place):
        while at < end:
            word, following = self.words[at], self.words[at + 1] if at + 1 < end else ""
            if word == "#":
                bracket = self.words.index("[", at)
                self.later.append((self.resolve_attribute, (bracket, self.pairs[bracket])))
                at = self.pairs[bracket] + 1
            elif word == "use":
                at = self.read_use(at + 1, self.words.index(";", at), [])
            elif word == "ghost" and following == "use":
                after = self.words.index(";", at)
                place.bring(self.text[self.tokens[at + 1].start + len("use"):self.tokens[after].start])
                at = after
            elif word == "ghost":
                at = self.read_member(at, place)
            elif word in ("struct", "enum", "trait"):
                at = self.read_type(at)
            elif word in ("const", "static", "type") and following != "fn":
                at = self.read_constant(at, place)
            elif word == "impl":
                at = self.read_impl(at)
            elif word == "fn":
                at = self.read_function(at, place)
            else:
                at += 1

    def read_use(self, at, end, path):
        """A `use` line of the code, or what stands in braces of one."""
        names = list(path)
        while at < end:
            word = self.words[at]
            if word == "{":
                self.read_use(at + 1, self.pairs[at], names)
                at, names = self.pairs[at], []
            elif word == ",":
                self.bring_code(names)
                names = list(path)
            elif word == "as":
                self.brought[self.words[at + 1]] = names
                at, names = at + 1, []
            elif word != "::":
                names = names + [word]
            at += 1
        self.bring_code(names if len(names) > len(path) else [])
        return end

    def bring_code(self, names):
        names = names[:-1] if names and names[-1] == "self" else names
        if names:
            self.brought[names[-1]] = names

    def read_member(self, at, place):
        """A ghost member or a ghost field: its name, and terms in braces after `:`, `=` or `by`."""
        name, after = self.words[at + 1], at + 2
        while self.words[after] in (":", "=", "by", "{"):
            if self.words[after] == "{":
                self.later.append((self.resolve_term, (after, place, name)))
                after = self.pairs[after]
            after += 1
        if place.item.kind == "impl" and place.implements != "Model":
            place.item.parts.append(self.lines_of(at, after - 1))
        elif name == "Value":
            # The value that contracts see is read with the type.
            self.items[place.of].parts.append(self.lines_of(at, after - 1))
        return after

    def read_type(self, at):
        kind, name = self.words[at], self.words[at + 1]
        item = self.new_item("trait" if kind == "trait" else "type", name, at)
        self.items[name] = item
        place = Place(self, item, self.whole)
        head = self.read_generics(at + 2, place)
        after = next(it for it in range(head, len(self.words)) if self.words[it] in ("{", "(", ";"))
        end = self.pairs.get(after, after)
        item.parts = [self.lines_of(at, end)]
        if self.words[after] == ";":
            return after
        members = [self.words[it + 1] for it in range(after, end) if self.words[it] == "ghost" and self.words[it + 2] == ":"]
        item.members = members
        if kind == "trait":
            place.trait = item
            place.bounds["Self"] = [name] + [it for it in self.words[head:after] if WORD.match(it)]
            self.later.append((self.resolve_types, (head, after, place)))
            self.read_items(after + 1, end, place)
        else:
            place.values.update(members)
            self.read_fields(after + 1, end, place, kind == "enum")
        return end

    def read_fields(self, at, end, place, are_variants):
        """The fields of a struct, or the variants of an enum."""
        while at < end:
            word = self.words[at]
            if word == "#":
                at = self.pairs[at + 1]
            elif word == "ghost":
                at = self.read_member(at, place) - 1
            elif word in OPENERS:
                self.later.append((self.resolve_types, (at + 1, self.pairs[at], place)))
                at = self.pairs[at]
            elif self.words[at + 1] == ":":
                place.values.add(word)
                at += 1
            elif not are_variants:
                self.later.append((self.resolve_types, (at, at + 1, place)))
            at += 1

    def read_constant(self, at, place):
        kind, name, after = self.words[at], self.words[at + 1], at
        while self.words[after] != ";":
            after = self.pairs.get(after, after) + 1
        if place.item.kind == "file":
            item = self.new_item("type" if kind == "type" else "constant", name, at)
            item.parts = [self.lines_of(at, after)]
            self.items[name] = item
            place = Place(self, item, self.whole)
        if place.item.kind != "impl":
            self.later.append((self.resolve_types, (at + 2, after, place)))
        return after

    def read_impl(self, at):
        place = Place(self, Item("impl", self.crate, self.file, ""), self.whole)
        head = self.read_generics(at + 1, place)
        after = self.words.index("{", head)
        words = self.words[head:after]
        split = words.index("for") if "for" in words else -1
        place.implements = words[0] if split >= 0 else None
        place.of = next((it for it in words[split + 1:] if WORD.match(it) and it not in ("mut", "dyn")), "()")
        place.bounds["Self"] = words[:1] if split >= 0 else []
        if place.implements == "Model":
            item = self.items[place.of]
            item.members = []
            # Its fields are left out: what is read is its head, and the value that contracts see.
            item.parts = [self.lines_of(item.at, item.at)]
            self.hidden[item] = place.item
        elif place.implements:
            place.item.name, place.item.line = "%s for %s" % (place.implements, place.of), self.line_at(at)
            place.item.parts = [self.lines_of(at, after)]
            self.later.append((self.resolve_types, (head, after, place)))
        self.sources.code_items.append(place.item)
        self.read_items(after + 1, self.pairs[after], place)
        return self.pairs[after]

    def read_generics(self, at, place):
        """Notes what `<..>` says of type parameters, and returns the place after it."""
        if self.words[at] != "<":
            return at
        depth, name = 1, None
        while depth:
            at += 1
            word = self.words[at]
            depth += (word == "<") - (word == ">")
            if WORD.match(word) and depth == 1 and self.words[at - 1] in ("<", ",", "const"):
                name = word
                place.bounds.setdefault(name, [])
            elif WORD.match(word) and name:
                place.bounds[name].append(word)
        return at + 1

    def read_function(self, at, outer):
        """A function: what its signature, its clauses and those of closures in its body name."""
        name, item = self.words[at + 1], outer.item
        if not outer.trait:
            item = self.new_item("function", "%s::%s" % (outer.of, name) if outer.of else name, at)
            item.is_promised = self.words[at - 1] == "pub"
            self.sources.code_items.append(item)
        place = Place(self, item, outer)
        begin = after = self.read_generics(at + 2, place)
        while self.words[after] not in ("{", ";") and self.words[after] not in CLAUSES:
            after = self.pairs.get(after, after) + 1
        self.read_signature(begin, after, place)
        if item.kind == "function":
            # What a trait asks for stands there; an implementation may promise more.
            item.is_promised |= bool(outer.implements) and self.words[after] in CLAUSES
        while self.words[after] in CLAUSES:
            brace = self.words.index("{", after)
            if self.words[after] == "ghost":
                place.values.add(self.words[after + 1])
            elif self.words[after] == "ensures" and brace > after + 1:
                item.clauses.append(self.words[brace - 1])
            self.later.append((self.resolve_term, (brace, place, None)))
            after = self.pairs[brace] + 1
        if item.kind == "function":
            item.parts = [self.lines_of(at, after - 1)]
        if self.words[after] == ";":
            return after
        self.read_body(after, place)
        return self.pairs[after]

    def read_signature(self, begin, end, place):
        parameters = range(begin + 1, self.pairs[begin])
        place.values |= {"self", "result"} | {self.words[it] for it in parameters if self.words[it + 1] == ":"}
        where = self.words.index("where", begin, end) if "where" in self.words[begin:end] else end
        for it in range(where, end):
            if self.words[it] == ":":
                place.bounds.setdefault(self.words[it - 1], []).append(self.words[it + 1])
        self.later.append((self.resolve_types, (begin, end, place)))

    def read_body(self, begin, outer):
        """The clauses of closures. What their parameters are called isn't read, so their names may mean nothing."""
        place = Place(self, Item("body", self.crate, self.file, ""), outer)
        self.sources.code_items.append(place.item)
        for at in range(begin, self.pairs[begin]):
            if self.words[at] in ("requires", "ensures") and "{" in self.words[at + 1:at + 4]:
                self.later.append((self.resolve_term, (self.words.index("{", at), place, None)))
            elif self.words[at:at + 2] == ["#", "["]:
                self.later.append((self.resolve_attribute, (at + 1, self.pairs[at + 1])))

    def new_item(self, kind, name, at):
        line = self.line_at(at)
        item = Item(kind, self.crate, self.file, name, line, self.doc(line))
        item.at = at
        return item

    def line_at(self, at):
        return self.text.count("\n", 0, self.tokens[at].start)

    def lines_of(self, first, last):
        """The lines from one token to another, with what is said above."""
        return self.above(self.line_at(first)) + 1, self.line_at(last) + 1

    def above(self, line):
        """Where what is said above a line begins, attributes included."""
        while line > 0 and re.match(r"\s*(///|#\[|\)\])", self.lines[line - 1]):
            line -= 1
        return line

    def doc(self, line):
        """The first sentence of what is said above a line."""
        found = [it.strip() for it in self.lines[self.above(line):line]]
        text = " ".join(it[len("///"):].strip() for it in found if it.startswith("///"))
        return re.split(r"(?<=\.)\s+(?=[A-Z`#|])|\s\s", text)[0].strip().rstrip(".")

    # ---- what the names mean

    def resolve_types(self, at, end, place):
        """The types that stand between two places of the code."""
        while at < end:
            path = [self.words[at]]
            while self.words[at + 1] == "::" and WORD.match(self.words[at + 2]):
                at += 2
                path.append(self.words[at])
            is_parameter = path[0] != "Self" and place.all_bounds(path[0]) is not None
            if WORD.match(path[0]) and self.words[at + 1] != ":" and not is_parameter:
                found = place.code_meaning(path)
                if found and found.kind != "function":
                    self.hidden.get(place.item, place.item).names(found, FORMATS)
            at += 1

    def resolve_attribute(self, begin, end):
        """The lemmas that an attribute hands to the tactics."""
        for it in re.findall(r"crate::((?:proofs|specs)(?:::[^,:()\s]+)+)", self.text[self.tokens[begin].start:self.tokens[end].start]):
            found = self.sources.at(("Rattle", self.crate) + tuple(it.split("::")))
            if isinstance(found, Item):
                self.sources.handed.names(found, FORMATS)

    def resolve_term(self, brace, place, member):
        """A term of a clause, in braces. The value that contracts see of a type is named by the type itself."""
        tokens = tokens_of(self.text, ANTT, self.tokens[brace].start + 1, self.tokens[self.pairs[brace]].start)
        item = self.hidden.get(place.item, place.item)
        if place.implements == "Model" and member == "Value":
            item = self.items[place.of]

        def refer(chain, start):
            self.sources.note(self, item, chain, start, place.meaning(chain))
        Terms(self.text, tokens, refer, place.is_constructor).term(0, place.all_values())

    def code_item(self, path, tried=()):
        """What a path of the code names from here: an item, a file for a module, or None."""
        name, rest = path[0], path[1:]
        if (self.file, name) in tried:
            return None
        tried = tried + ((self.file, name),)
        if name in ("crate", "self", "super"):
            modules = {"crate": (), "self": self.modules, "super": self.modules[:-1]}[name]
            found = self.sources.code.get((self.crate,) + modules)
        elif name in self.items:
            return self.items[name]
        elif (self.crate,) + self.modules + (name,) in self.sources.code:
            found = self.sources.code[(self.crate,) + self.modules + (name,)]
        elif self.brought.get(name, [name]) != [name]:
            return self.code_item(self.brought[name] + rest, tried)
        else:
            found = self.sources.code.get((name,))
        return found.code_item(rest, tried) if found and rest else found


def pairs_of(words):
    """For each opening bracket, the place of the one that closes it."""
    pairs, opened = {}, []
    for at, word in enumerate(words):
        if word in OPENERS:
            opened.append(at)
        elif word in CLOSERS:
            pairs[opened.pop()] = at
    return pairs
