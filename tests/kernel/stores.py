"""Stores: how many chunks fit into one of each length, where each is kept, and what the kernel says of it."""

import answers
from vectors import in_file

AREA = "the last place before an area"
SHORT = "a store of less than two chunks"
# How many rows make a job, and how many places the vectors have of each store, at its end.
ROWS, LAST = 8, 3


class Case:
    """A row: a store of `length` sectors and the writes to chunk after chunk until the first that fails."""

    def __init__(self, row):
        self.name, chunk, length, self.how, self.created, taken, self.last, self.end, _, _, _, _, places, _ = row
        self.chunk, self.length = int(chunk), int(length)
        self.taken = int(taken) if taken != "-" else 0
        self.places = [int(it) for it in places.split(" ")] if places != "-" else []
        self.count = max(4, min(self.length // self.chunk + 2, 64 * self.chunk + 8))

    def requests(self):
        return ["W s %d %d" % (it * self.chunk, 1 if self.how == "first" else self.chunk) for it in range(self.count)]

    def is_before_area(self):
        """Whether the store ends after the last place before an area, and that is the place that the kernel did not take."""
        areas, rest = divmod(self.taken + 1, 32 * self.chunk)
        place = (32 * self.chunk + 1) * areas
        return rest == 0 and (place + 1) * self.chunk <= self.length < (place + 2) * self.chunk


def jobs(folder):
    return [(vector, at) for vector in in_file(folder, "stores") for at in range(0, len(vector.rows("cases.tsv")), ROWS)]


def compare(found, program, job):
    vector, at = job
    for row in vector.rows("cases.tsv")[at:at + ROWS]:
        check_case(found, program, Case(row))


def check_case(found, program, case):
    """Writes to chunk after chunk, once to the end and once only as far as the kernel still took them."""
    words = ["table", program.file("table", "s: 0 %d snapshot base cow P %d\n" % (case.count * case.chunk, case.chunk)),
             program.file("disks", "base %d\ncow %d\n" % (case.count * case.chunk, case.length))]
    got = answers.of(program, ["map", "--status"] + words, case.requests())
    if case.created != "ok":
        found.departs(SHORT, case.name, got.status, 0, "refused")
        return
    taken = next((it for it in range(case.count) if "error" in " ".join(got.lines[it + 1])), case.count)
    if case.is_before_area():
        found.departs(AREA, case.name, taken, case.taken + 1, case.taken)
        return
    found.same("stores", case.name, taken, case.taken)
    if case.places:
        found.same("last places", case.name, kept(case, got)[-LAST:], case.places[-LAST:])
    found.same("figures of a store that ran full", case.name, status_of(got), "s: " + case.end)
    if case.taken:
        got = answers.of(program, ["map", "--status"] + words, case.requests()[:case.taken])
        found.same("figures of a store before its end", case.name, status_of(got), "s: " + case.last)


def kept(case, got):
    """The chunks of the store into which the writes copied that the kernel took."""
    copies = [line.split(" ") for it in range(case.taken) for line in got.lines[it + 1] if line.startswith("copy ")]
    return [int(it[5]) // case.chunk for it in copies]


def status_of(got):
    return got.others[0] if got.others else ""
