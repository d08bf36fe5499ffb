"""What follows a message on a terminal: a line that names what explains it. A pipe gets the message alone."""

import os
import pty
import subprocess

NEXT = "what it means: dmremap help WORD; what mends it: dmremap-tools explain COMMAND\n"
LOADED = ["table", "tables", "disks"]
# Words, requests, and the exit status. The line follows each but 0.
ROWS = [
    (["map", "table", "disks", "tables"], "", 1),
    (["map", *LOADED], "R a 0 1\nR b 0 1\n", 3),
    (["replay", *LOADED], "R b 0 1\n", 3),
    (["map", *LOADED, "--paths", "no"], "", 1),
    (["name", "vg0", "a/b"], "", 1),
    (["map", "table", "tables"], "", 2),
    (["help", "nothing"], "", 2),
    ([], "", 2),
    (["map", *LOADED], "R a 0 1\nR a 8 1\n", 0),
    (["help", "syntax"], "", 0),
]


def told(command, given, folder):
    """What a terminal shows of the standard error of a command."""
    ours, theirs = pty.openpty()
    with subprocess.Popen(command, stdin=subprocess.PIPE, stdout=subprocess.DEVNULL, stderr=theirs, cwd=folder) as ran:
        os.close(theirs)
        ran.communicate(given.encode())
    shown = b""
    try:
        while True:
            shown += os.read(ours, 4096)
    except OSError:
        # The other end is closed.
        os.close(ours)
    return shown.decode().replace("\r\n", "\n")


def test_told(tally, program):
    folder = os.path.join(program.folder, "terminals")
    program.file(os.path.join(folder, "tables"), "a: 0 8 linear sda 4\n")
    program.file(os.path.join(folder, "disks"), "sda 12\n")
    for words, given, status in ROWS:
        piped = program.run(words, given=given, folder=folder)
        tally.holds("in a pipe, %s" % words, piped.status == status and NEXT.encode() not in piped.err, "status %s, %r" % (piped.status, piped.err))
        shown, wanted = told([program.path, *words], given, folder), piped.err.decode() + NEXT * (status != 0)
        tally.holds("on a terminal, %s" % words, shown == wanted, "it shows %r, and not %r" % (shown, wanted))
