"""Tables: which the kernel takes, and which it refuses."""

import answers
from vectors import in_file

ROWS = 8
ARGUMENTS = "arguments of `error`, features of a snapshot"
SPELLED = "other spellings in a table"
LIMIT = "more than a limit allows"
KIND = "other words for a kind"
SHORTER = "a snapshot shorter than its origin"
BESIDE = "a snapshot beside other lines"
TARGETS = "a store on other targets, or read-only"
MANGLED = "names that dmsetup mangles"
SHARED = "one device as two stores, or as store and origin"
SHORT = "a store of less than two chunks"

# The tables that the program refuses and the kernel takes, each with the departure and the word of the refusal.
REFUSED = {
    "error-arg": (ARGUMENTS, "field"),
    "linear-offset-leading-0": (SPELLED, "field"),
    "start-leading-0": (SPELLED, "field"),
    "tab": (SPELLED, "text"),
    "two-spaces": (SPELLED, "syntax"),
    "two-trailing-spaces": (SPELLED, "syntax"),
    "striped-129": (LIMIT, "stripe"),
    "depth33": (LIMIT, "deep"),
    "snap-chunk0": (LIMIT, "snapshot"),
    "snap-chunk2048": (LIMIT, "snapshot"),
    "snap-chunk65536": (LIMIT, "snapshot"),
    "snap-lower-p": (KIND, "field"),
    "snap-lower-n": (KIND, "field"),
    "snap-NO": (KIND, "field"),
    "snap-PO": ("the kind `PO`", "field"),
    "snap-shorter": (SHORTER, "snapshot"),
    "origin-shorter": (SHORTER, "snapshot"),
    "snap-two-lines": (BESIDE, "snapshot"),
    "snap-and-zero": (BESIDE, "snapshot"),
    "origin-two-lines": (BESIDE, "snapshot"),
    "origin-and-zero": (BESIDE, "snapshot"),
    "snap-features": (ARGUMENTS, "field"),
    "snap-0-features": (ARGUMENTS, "field"),
    "snap-store-zero-dev": (TARGETS, "store"),
    "snap-store-ro-dev": (TARGETS, "store"),
    "store-over-origin": (TARGETS, "store"),
    "name-comma": (MANGLED, "name"),
    "name-space": (MANGLED, "syntax"),
    "name-tilde": (MANGLED, "name"),
    "name-percent": (MANGLED, "name"),
}

# The tables that the program takes and the kernel refuses.
TAKEN = {
    "snap-K": "the kind `K`",
    "snap-store-is-origin": SHARED,
    "snap-store-shared": SHARED,
    "snap-store-1-chunk": SHORT,
    "snap-store-less": SHORT,
    "snap-store-old-magic": "a store with something in it",
}


def jobs(folder):
    return [(vector, at) for vector in in_file(folder, "tables") for at in range(0, len(vector.lines("cases.jsonl")), ROWS)]


def compare(found, program, job):
    vector, at = job
    for case in vector.records("cases.jsonl")[at:at + ROWS]:
        form = "concise" if ",ro," in case["concise"] else "table"
        got = answers.of(program, ["map", form, program.file("source", case[form]), program.file("disks", case["disks"])])
        theirs = "refused" if case["kernel"] == "refused" else ""
        if case["case"] in REFUSED:
            departure, word = REFUSED[case["case"]]
            found.departs(departure, case["case"], got.word(), word, theirs)
        elif case["case"] in TAKEN:
            found.departs(TAKEN[case["case"]], case["case"], got.word(), "", theirs)
        else:
            found.same("tables", case["case"], got.verdict(), theirs)
