"""Copies of texts that the program refuses: what `dmremap-tools lvm2-text` makes of them, for the program to read."""

import os

from harness import run

TOOL = os.path.join(os.path.dirname(os.path.abspath(__file__)), "..", "..", "dmremap-tools")


def copy_of(program, path):
    """The path of a copy, or none where the command says that nothing is left, and what it says."""
    made = run([TOOL, "lvm2-text", "--program", program.path, path])
    return None if made.status else program.file("copy", made.out), made.err.decode()
