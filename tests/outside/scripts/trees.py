"""Small trees with the scripts ./dmremap, tools/building/build and ./try, and a few crates, in which `rt` is a script that tells how
it was called."""

import os
import re
import shutil
import signal
import subprocess
import time

from harness import run, text_of

TABLE = "a: 0 8 linear sda 4\n"
DISKS = "sda 12\n"
REQUESTS = "W a 2 3\n"
ANSWER = "1 W sda 6 3\n"
# Each stands on those before it, and the program on nothing else.
CRATES = ["low", "middle", "dmremap"]
LINES = "# a comment: low\nlow: memchr\ndmremap: clap low middle\nbeside: low\nmiddle: low itoa\n"
BUILD, TOOLCHAIN = "tools/building/build", "tools/building/toolchain"
SCRIPTS = ["dmremap", "try", "tools/building"]
BUILDING = ("dmremap: building the proved program; the first time this takes 25 to 40 minutes on four processors, "
            "4.3 GB of memory, and 7 GB of disk, of which 1 GB stays\n")
ANEW = "dmremap: building the proved program; the sources were changed meanwhile\n"
WAITING = "dmremap: another call builds the program; waiting for it\n"
# How long crates took, which no two runs have in common.
TOOK = re.compile(rb"after \d+ min \d+ s"), b"after 0 min 0 s"
LOGIC = "logic 2"
VERSION = "a kit 1 " + LOGIC
# What the scripts call, for a path where there is no rt.
TOOLS = ["awk", "cat", "cmp", "cp", "date", "find", "readlink", "sed", "sha256sum", "sort", "stat", "tr", "xargs"]

# Notes where it runs and with which words, and what is on its input, which is to be nothing. A crate whose sources it
# has built, it leaves as it is. In the place of the object file it puts the text of all sources that it sees. Where it
# is told to, it changes a source, makes nothing, or is killed.
RT = """\
#!/bin/sh
[ "$1" != version ] || { echo "${VERSION:-%s}"; exit; }
name=$(basename "$PWD")
echo "$name $*" >> "$CALLS"
cat >> "$CALLS"
echo "rt: this is $name"
[ "$name" != "$BROKEN" ] && [ "$BROKEN" != all ] || exit 1
[ "$name" != "$KILLED" ] || kill -9 $$
[ "$name" != "$IDLE" ] || exit 0
mkdir -p out/rlib || exit 1
[ ! -f "$SAVED" ] || { cp "$SAVED" "$AT"; rm "$SAVED"; }
sleep "${PAUSE:-0}"
[ "$1" = run ] || exit 0
tries=0
until [ -e "${AWAITED:-.}" ]; do [ $((tries += 1)) -lt 200 ] || exit 1; sleep 0.1; done
cp "$PROGRAM" out/dmremap && cat ../*/src/* > out/dmremap.o
""" % VERSION

# Tells who it is, and takes its time.
SLOW_RT = """\
#!/bin/sh
[ "$1" != version ] || { echo %s; exit; }
echo $$ > "$CALLS"
exec sleep 60
""" % VERSION

# Tells how far it is, and goes on once it is let.
HELD_RT = """\
#!/bin/sh
[ "$1" != version ] || { echo %s; exit; }
echo "$(basename "$PWD")" >> "$CALLS"
echo "so far: 1 of 7 functions checked; the verdict comes last"
echo "so far: 3 of 7 functions checked"
mkdir -p out/rlib
case " $FREE " in *" $(basename "$PWD") "*) ;; *) until [ -e "$LET" ]; do sleep 0.1; done ;; esac
pwd >> out/rlib/places
[ "$1" != run ] || { cp "$PROGRAM" out/dmremap && cat ../*/src/* > out/dmremap.o; }
""" % VERSION

# Writes its words, one a line.
ECHO = """\
#!/bin/sh
printf '%s\\n' "$@"
exit 3
"""


class Tree:
    """A tree with the scripts and a few crates, of one source each."""

    def __init__(self, program, top, name="a tree"):
        self.program, self.folder, self.repository = program, program.folder, top
        self.top = os.path.join(self.folder, name)
        self.calls = os.path.join(self.folder, "calls")
        for crate in [*CRATES, "beside"]:
            for part in ("src", "specs", "proofs"):
                program.file(os.path.join(self.top, "crates", crate, part, "text"), "%s of %s\n" % (part, crate))
        program.file(os.path.join(self.top, "crates.txt"), LINES)
        program.file(os.path.join(self.top, "HANDLES"), "Handles allowed: none.\n")
        for it in SCRIPTS:
            how = shutil.copytree if os.path.isdir(os.path.join(top, it)) else shutil.copy
            how(os.path.join(top, it), os.path.join(self.top, it))
        program.file(os.path.join(self.top, TOOLCHAIN), LOGIC + "\n")
        self.script, self.build = os.path.join(self.top, "dmremap"), os.path.join(self.top, BUILD)
        self.built = os.path.join(self.top, "crates", "dmremap", "out", "dmremap")
        self.made = program.path
        self.rt(RT)

    def rt(self, text):
        os.chmod(self.program.file("bin/rt", text), 0o755)

    def path(self, name):
        return os.path.join(self.top, name)

    def write(self, name, text):
        return self.program.file(self.path(name), text)

    def remove(self):
        """Removes all that was built and kept."""
        for it in [self.path("out"), *(self.path(os.path.join("crates", it, "out")) for it in (*CRATES, "beside"))]:
            shutil.rmtree(it, ignore_errors=True)

    def put(self, content=None):
        """Builds a program that answers as it should, or one of that content."""
        self.made = self.program.path if content is None else self.program.file("a program", content)
        os.chmod(self.made, 0o755)
        self.remove()
        return self.run([], self.build)

    def words(self):
        return ["map", "table", self.program.file("the table", TABLE), self.program.file("the disks", DISKS)]

    def environment(self, **variables):
        """The variables of a run, in which `rt` is that of this tree."""
        self.program.file("calls")
        return self.other_environment(**variables)

    def other_environment(self, **variables):
        """The variables of a run beside another one, whose calls of rt stay noted."""
        path = os.path.join(self.folder, "bin") + os.pathsep + os.environ["PATH"]
        return {**os.environ, "PATH": path, "CALLS": self.calls, "PROGRAM": self.made, **variables}

    def run(self, words, script=None, variables=None, **how):
        got = run([script or self.script, *words], env=self.environment(**(variables or {})), **how)
        got.err = without_times(got.err)
        return got

    def start(self, words, err, script=None, env=None, closed=None, **variables):
        """Starts a call whose standard error goes to a file, or to what has that number; another stream may be closed."""
        def before():
            # Who calls these tests may have told all below to pass signals over.
            restore_signals()
            if closed is not None:
                os.close(closed)

        return subprocess.Popen([script or self.script, *words], env=env or self.environment(**variables),
                                stdin=subprocess.DEVNULL, stdout=subprocess.PIPE, stderr=err, preexec_fn=before)

    def called(self):
        """How rt was called, but for the number of jobs."""
        return re.sub(r" --jobs \d+", "", text_of(self.calls)).splitlines()

    def made_of(self):
        """The text that the program was made of."""
        return text_of(self.built + ".o")

    def leaves_nothing(self):
        """Whether no folder is left of a build."""
        return not os.path.exists(self.path(os.path.join("crates", "dmremap", "out", "site")))


def told(crates=CRATES):
    """What is told of crates that are built."""
    return "".join("dmremap: %s is proved and built (%d of %d, after 0 min 0 s)\n" % (it, at + 1, len(crates))
                   for at, it in enumerate(crates))


def restore_signals():
    for number in (signal.SIGINT, signal.SIGTERM, signal.SIGHUP):
        signal.signal(number, signal.SIG_DFL)


def without_times(text):
    return TOOK[0].sub(TOOK[1], text)


def runs(process):
    """Whether a process runs; one that has ended may still be listed."""
    try:
        return text_of("/proc/%s/stat" % process).rpartition(")")[2].split()[0] != "Z"
    except OSError:
        return False


def becomes(is_so, seconds=30):
    """Whether it is so within a while."""
    end = time.monotonic() + seconds
    while not is_so() and time.monotonic() < end:
        time.sleep(0.02)
    return is_so()
