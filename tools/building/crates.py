"""The work of rt on a crate, in its own folder."""

import os
import re
import signal
import subprocess

import folders
from calls import Failed, write
from sources import BUILT, TOP


class Crate:
    """A crate that is being built in its folder, in a process group of its own, and not in a session: Linux shares processors
    out between sessions first, whatever their niceness."""

    def __init__(self, name, jobs, lock, gives_way):
        self.name = name
        self.folder = os.path.join(folders.FOLDERS, name)
        self.said = os.path.join(self.folder, "said")
        is_program = name == "dmremap"
        self.makes = BUILT if is_program else ["crates/%s/out/rlib" % name]
        command = [*["nice", "-n", "10"] * gives_way, "rt", "run" if is_program else "lib", "--jobs", str(jobs),
                   *["--", "--help"] * is_program]
        with open(self.said, "wb") as said:
            self.ran = subprocess.Popen(command, cwd=folders.folder_of(name), stdin=subprocess.DEVNULL, stdout=said,
                                        stderr=subprocess.STDOUT, preexec_fn=os.setpgrp, pass_fds=[lock])

    def lines(self):
        """What rt said, of files in its folder as of those that they are copies of."""
        with open(self.said, encoding="utf-8", errors="replace") as it:
            return it.read().replace(self.folder, TOP).splitlines()

    def checked(self):
        """Returns how many functions of how many rt has checked."""
        found = re.findall(r"^so far: (\d+) of (\d+) functions", "\n".join(self.lines()), re.M) or [(0, 0)]
        return int(found[-1][0]), int(found[-1][1])

    def is_built(self):
        """Whether rt has ended. Fails where it failed, was killed, or left nothing."""
        status = self.ran.poll()
        if status is None:
            return False
        lacking = [it for it in self.makes if not os.path.exists(os.path.join(self.folder, it))]
        if status == 0 and not lacking:
            return True
        write("".join(it + "\n" for it in self.lines()[-20:]))
        why = ": rt was killed by signal %d" % -status if status < 0 else "" if status else ": rt left no " + lacking[0]
        raise Failed("the build of %s failed%s" % (self.name, why))

    def stop(self):
        if self.ran.poll() is None:
            os.killpg(self.ran.pid, signal.SIGTERM)
            self.ran.wait()
