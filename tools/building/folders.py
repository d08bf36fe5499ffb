"""The folders in which crates are built beside each other.

`rt` holds the folders of a crate and of all below it while it works, so that two crates which stand on a common one are
built one after the other. Each is a repository of its own: a copy of all sources as they stood when the build began, and
links to the libraries below, as they were built of that copy. What `rt` keeps of the crate itself is moved there, and back
at the end, or when the next build begins."""

import contextlib
import os
import shutil
import time

from calls import take
from sources import PARTS, TOP, in_order, loose, stands_on, state

# It is in the crate's `out`, where rt looks for no crates.
SITE = os.path.join(TOP, "crates", "dmremap", "out", "site")
COPY, FOLDERS = os.path.join(SITE, "copy"), os.path.join(SITE, "folders")


def folder_of(name):
    """Returns the folder that a crate is built in."""
    return os.path.join(FOLDERS, name, "crates", name)


def outs(top=None):
    """Returns what rt keeps of each crate that the program is built of: in the folders, or below a top."""
    order = in_order(stands_on(top or COPY))
    return [os.path.join(top, "crates", name, "out") if top else os.path.join(folder_of(name), "out") for name in order]


@contextlib.contextmanager
def site(order):
    """Waits until no other rt works on these crates, and holds them while they are built of a copy of the sources."""
    held = [take(os.open(os.path.join(TOP, "crates", name), os.O_RDONLY), "waiting for another rt in crates/" + name)
            for name in sorted(order)]
    clear()
    try:
        copy_sources(order)
        yield
    finally:
        clear()
        for it in held:
            os.close(it)


def copy_sources(order):
    """Makes the copy that all is built of: once more, if they were changed meanwhile."""
    while True:
        before = state()
        try:
            copy(TOP, COPY, order, shutil.copy2)
        except OSError:
            if state() == before:
                raise
        if state() == before:
            return
        shutil.rmtree(COPY, ignore_errors=True)
        time.sleep(0.1)


def clear():
    """Brings back what is kept of each crate, and removes the folders, also those of a build that was killed."""
    with contextlib.suppress(FileNotFoundError):
        for name in os.listdir(FOLDERS):
            move(os.path.join(folder_of(name), "out"), os.path.join(TOP, "crates", name, "out"))
    with contextlib.suppress(FileNotFoundError):
        shutil.rmtree(SITE)


def furnish(name, below):
    """Makes the folder of a crate, of which `below` are those that it stands on, near and far."""
    copy(COPY, os.path.join(FOLDERS, name), [*below, name], link)
    for it in below:
        to = os.path.join(FOLDERS, name, "crates", it, "out", "rlib")
        shutil.copytree(os.path.join(folder_of(it), "out", "rlib"), to, copy_function=link)
    move(os.path.join(TOP, "crates", name, "out"), os.path.join(folder_of(name), "out"))


def copy(top, to, names, how):
    """Gives a folder the sources of some crates that are below another one, and the files that lie beside them: what rt
    keeps of a program also says with which words and status it was last tried. Of each other crate it looks for the
    folder alone."""
    for name in os.listdir(os.path.join(top, "crates")):
        one, other = (os.path.join(it, "crates", name) for it in (top, to))
        if name not in names:
            os.makedirs(os.path.join(other, "src"))
            continue
        os.makedirs(other)
        for it in os.listdir(one):
            if it in PARTS and os.path.isdir(os.path.join(one, it)):
                shutil.copytree(os.path.join(one, it), os.path.join(other, it), ignore=loose, copy_function=how)
            elif os.path.isfile(os.path.join(one, it)):
                how(os.path.join(one, it), os.path.join(other, it))
    for name in ("HANDLES", "crates.txt"):
        how(os.path.join(top, name), os.path.join(to, name))


def link(one, other):
    """Gives a file a second name, or makes a copy of it. rt removes a file of a library before it makes it anew."""
    try:
        os.link(one, other)
    except OSError:
        shutil.copy2(one, other)


def move(source, to):
    """Moves what is in one folder to another, in place of what has these names there."""
    if not os.path.isdir(source):
        return
    os.makedirs(to, exist_ok=True)
    for name in os.listdir(source):
        one, other = os.path.join(source, name), os.path.join(to, name)
        if one != SITE:
            if os.path.isdir(other):
                shutil.rmtree(other)
            os.replace(one, other)
