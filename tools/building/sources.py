"""What the program is made of: the sources of its crates, and their sums. Run by itself, it prints the path of the program that
fits them, and builds none."""

import contextlib
import glob
import hashlib
import os
import re

from calls import Failed

TOP = os.path.realpath(os.path.join(os.path.dirname(os.path.realpath(__file__)), "..", ".."))
OUT = os.path.join(TOP, "out")
PARTS = ("src", "specs", "proofs")
# What is built, and what rt links it from.
BUILT = ("crates/dmremap/out/dmremap", "crates/dmremap/out/dmremap.o")
# Where ./try keeps its program, with its names and sums.
TRIED = "out/try/dmremap"


def stands_on(top):
    """Returns for each crate that is listed those of this repository that it stands on."""
    with open(os.path.join(top, "crates.txt"), encoding="utf-8") as it:
        found = re.findall(r"^(\w+)(?: [^:\n]*)?:(.*)$", it.read(), re.M)
    crates = os.path.join(top, "crates")
    return {name: [it for it in below.split() if os.path.isdir(os.path.join(crates, it))] for name, below in found}


def in_order(below, name="dmremap", order=()):
    """Returns a crate and those that it stands on, lowest first."""
    for it in below.get(name, ()):
        order = in_order(below, it, order)
    return order if name in order else (*order, name)


def names_in(top):
    """Returns the names of all sources, and of the folders that they are in, from a folder on. Links are followed."""
    found = ["HANDLES", "crates.txt"]
    for name in in_order(stands_on(top)):
        for part in PARTS:
            for at, _, files in os.walk(os.path.join(top, "crates", name, part), followlinks=True):
                found += [os.path.relpath(os.path.join(at, it), top) for it in sorted({".", *files} - {*loose(at, files)})]
    return found


def loose(folder, names):
    """Returns which of the names are links that lead nowhere: Emacs makes one beside each file that isn't saved."""
    return [it for it in names if not os.path.exists(os.path.join(folder, it))]


def made_of(top, *built):
    """Returns the names of the sources and of what was built, and a line for each file, as sha256sum -z writes it."""
    names, sums = sorted(map(os.fsencode, (*names_in(top), *built))), []
    for name in names:
        with contextlib.suppress(IsADirectoryError), open(os.path.join(os.fsencode(top), name), "rb") as it:
            sums.append(b"%s  %s" % (hashlib.sha256(it.read()).hexdigest().encode(), name))
    return [b"".join(it + b"\0" for it in lines) for lines in (names, sums)]


def state():
    """Returns what differs once a source was touched, also if it was changed back."""
    found = []
    for name in names_in(TOP):
        with contextlib.suppress(FileNotFoundError):
            it = os.stat(os.path.join(TOP, name))
            found.append((name, it.st_dev, it.st_ino, it.st_size, it.st_mtime_ns, it.st_ctime_ns))
    return found


def keep(made, folder=OUT):
    """Keeps in a folder the names and sums of what a program was made of. Each file is put there whole, or not at all."""
    for name, content in zip(("names", "sums"), made):
        with open(os.path.join(folder, name + ".new"), "wb") as it:
            it.write(content)
        os.replace(it.name, os.path.join(folder, name))


def fits(built=BUILT, folder=OUT):
    """Whether a program is made of exactly the sources that are here, by what is kept in a folder."""
    try:
        kept = []
        for name in ("names", "sums"):
            with open(os.path.join(folder, name), "rb") as it:
                kept.append(it.read())
        return os.access(os.path.join(TOP, built[0]), os.X_OK) and kept == made_of(TOP, *built)
    except OSError:
        return False


def is_seen():
    """Whether nothing of the proved program has changed since ./dmremap compared its sums, by what it kept of stat then."""
    try:
        with open(os.path.join(OUT, "names"), "rb") as names, open(os.path.join(OUT, "seen"), "rb") as seen:
            parts = ["crates/*/" + part for part in PARTS]
            found = [sorted(glob.glob(os.path.join(glob.escape(TOP), part))) or [os.path.join(TOP, part)] for part in parts]
            rows = [os.path.relpath(path, TOP) for paths in found for path in paths]
            for name in names.read().split(b"\0")[:-1]:
                it = os.stat(os.path.join(os.fsencode(TOP), name))
                rows.append("%d %d.%09d" % (it.st_ino, *divmod(it.st_ctime_ns, 10 ** 9)))
            return seen.read() == b"".join(os.fsencode(row) + b"\n" for row in rows)
    except OSError:
        return False


def found():
    """Returns the path of the program that fits the sources: the proved one, or else that of ./try, or nothing."""
    kept = ((BUILT, OUT), ([TRIED], os.path.join(TOP, os.path.dirname(TRIED))))
    return next((os.path.join(TOP, built[0]) for built, folder in kept if built is BUILT and is_seen() or fits(built, folder)), "")


def look_at_made(before, built=BUILT, folder=OUT):
    """Fails where a program that was just made doesn't fit, though the sources are as before: another would fit no more."""
    if not fits(built, folder) and state() == before:
        may_run = os.access(os.path.join(TOP, built[0]), os.X_OK)
        raise Failed("%s was built, and %s" % (built[0], "then changed" if may_run else "there is no leave to run it"))


if __name__ == "__main__":
    os.write(1, os.fsencode(found()))
