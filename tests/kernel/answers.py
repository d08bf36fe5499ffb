"""What the program's output says: lines of a request, pieces of units, and the values that disks then hold.

A unit is ("R", disk, sector), ("W", disk, sector), ("zero",), ("drop",) or ("error",). A value of a sector is
("old", disk, sector), what the disk had there at the start, ("wrote", request, sector of its device), ("zero",)
or ("error",).
"""

import collections
import re

ANSWER = re.compile(r"(\d+) ((?:R|W|zero|drop|error|copy|fill) .*)")


class Answers:
    """A run of the program: its status and message, and the lines of its output by request."""

    def __init__(self, outcome):
        self.status, self.message = outcome.status, outcome.err.decode().strip()
        self.lines, self.others = collections.defaultdict(list), []
        for line in outcome.out.decode().splitlines():
            match = ANSWER.fullmatch(line)
            if match:
                self.lines[int(match[1])].append(match[2])
            else:
                self.others.append(line)

    def word(self):
        """The word that says why a text or a name is refused; empty if it is taken."""
        match = re.fullmatch(r"dmremap: \w+: (\w+)(?: at \d+)?", self.message)
        if self.status == 1 and match:
            return match[1]
        return "" if self.status == 0 else "status %s, %s" % (self.status, self.message)

    def verdict(self):
        """Whether it is refused, whatever the word."""
        return "refused" if self.word() and self.status == 1 else self.word()


def of(program, words, requests=()):
    """The answers of the program to some words and requests."""
    return Answers(program.run(words, given="".join(it + "\n" for it in requests)))


def pieces(units):
    """The fewest lines that have these units: those of one kind, at sectors that follow each other, are one."""
    found = []
    for unit in units:
        if found:
            first, count = found[-1]
            if unit == first[:2] + tuple(it + count for it in first[2:]):
                found[-1] = (first, count + 1)
                continue
        found.append((unit, 1))
    return [" ".join(map(str, first)) + " %d" % count for first, count in found]


def values(text):
    """The values that each request has in lines `REQUEST old DISK START LEN`, and the like."""
    found = collections.defaultdict(list)
    for line in text.splitlines():
        words = line.split(" ")
        found[int(words[0])] += spread(words[1:-1], int(words[-1]))
    return found


def spread(first, count):
    """The values of so many sectors, the first of which is given by its words."""
    if len(first) == 1:
        return [(first[0],)] * count
    kind, of_what, start = first
    return [(kind, of_what if kind == "old" else int(of_what), int(start) + it) for it in range(count)]


class Disks:
    """Disks on which the lines of the output are played, with no knowledge of chunks or stores."""

    def __init__(self):
        self.values = {}

    def at(self, disk, sector):
        return self.values.get((disk, sector), ("old", disk, sector))

    def play(self, request, start, lines):
        """Plays the lines of a request that begins at this sector of its device, and returns the value that each
        of its sectors answers."""
        answered = []
        for line in lines:
            word, *rest = line.split(" ")
            if word == "copy":
                source, first, count, target, to = rest[0], int(rest[1]), int(rest[2]), rest[3], int(rest[4])
                for it in range(count):
                    self.values[target, to + it] = self.at(source, first + it)
            elif word == "fill":
                for it in range(int(rest[0])):
                    self.values[rest[1], int(rest[2]) + it] = ("zero",)
            elif word == "R":
                answered += [self.at(rest[0], int(rest[1]) + it) for it in range(int(rest[2]))]
            elif word == "W":
                for it in range(int(rest[2])):
                    value = ("wrote", request, start + len(answered))
                    self.values[rest[0], int(rest[1]) + it] = value
                    answered.append(value)
            else:
                answered += [("error" if word == "error" else "zero",)] * int(rest[0])
        return answered
