"""How far a build is, and how long it still takes, by what each crate is known to take.

The file `pace` beside this one has a line for each crate: its name, its number of functions, and at how many seconds of a
build it was begun, was checked by a tenth, two tenths and so on up to all of its functions, and was built.
Each build writes the lines of its own into `out/pace`, for when that one no longer fits."""

import os
import time

from calls import say_for_now
from sources import OUT

TIMED = os.path.join(os.path.dirname(os.path.realpath(__file__)), "pace")
# A crate that takes less than this part of the time that it took then was kept from an earlier build.
KEPT = 0.2
# Until a minute has passed, the estimate rather trusts the build that was timed.
TRUSTED = 60


class Pace:
    """The crates of a build, each with its functions, how many of them are checked, and when each tenth of them was."""

    def __init__(self, order, now=time.monotonic):
        self.now, self.begun = now, now()
        self.order, self.timed, self.crates = order, read_timed(), {}
        # What has passed here and there of what no estimate is made by.
        self.passed, self.passed_then = 0.0, 0.0

    def seconds(self):
        return self.now() - self.begun

    def note(self, name, checked, functions):
        """Notes that a crate runs, or how far it is: so many of its functions are checked."""
        one = self.crates.setdefault(name, {"functions": 0, "checked": 0, "since": self.seconds(), "times": [self.seconds()]})
        if functions and (functions, checked) != (one["functions"], one["checked"]):
            one.update(functions=functions, checked=checked, since=self.seconds())
            while len(one["times"]) <= 10 * checked // functions:
                one["times"].append(self.seconds())

    def note_built(self, name):
        """Notes that a crate is built. One that was kept tells nothing of how fast this build is."""
        self.note(name, 0, 0)
        one, then = self.crates[name], self.timed.get(name)
        one["times"] += [self.seconds()] * (12 - len(one["times"]))
        one["checked"] = one["functions"]
        if then and self.seconds() - one["times"][0] < KEPT * (then[1][-1] - then[1][0]):
            self.passed, self.passed_then = self.seconds(), self.seconds_then()

    def seconds_then(self):
        """Returns after how many seconds the timed build was where this one is: the mean of the crates that run."""
        places = [self.place(name) for name, one in self.crates.items() if len(one["times"]) < 12 and name in self.timed]
        built = [self.timed[name][1][-1] for name, one in self.crates.items() if len(one["times"]) == 12 and name in self.timed]
        return sum(places) / len(places) if places else max([0.0, *built])

    def place(self, name):
        """Returns after how many seconds the timed build was where this one is in a crate that runs."""
        one, times = self.crates[name], self.timed[name][1]
        tenths = 10 * one["checked"] / one["functions"] if one["functions"] else 0
        at = min(int(tenths), 10)
        there = times[at] + (tenths - at) * (times[at + 1] - times[at] if at < 10 else 0)
        return min(there + self.seconds() - one["since"], times[at + 1])

    def left(self):
        """Returns how many seconds are left, or None where no build of these crates was timed."""
        if not {*self.order} <= {*self.timed}:
            return None
        then = self.seconds_then()
        speed = (self.seconds() - self.passed + TRUSTED) / (max(then - self.passed_then, 0) + TRUSTED)
        return (max(self.timed[name][1][-1] for name in self.order) - then) * speed

    def show(self, running):
        """Tells how many functions of all crates are checked, how long it still takes, and which crates run."""
        functions = sum(self.crates[it]["functions"] if it in self.crates and self.crates[it]["functions"]
                        else self.timed.get(it, (0,))[0] for it in self.order)
        checked, left = sum(it["checked"] for it in self.crates.values()), self.left()
        minutes = "" if left is None else ", %d min to go" % max(1, round(left / 60))
        say_for_now("proved %d of %d functions%s: %s" % (checked, functions, minutes, ", ".join(running)))

    def keep(self):
        """Writes what this build took, as the next one can be estimated by."""
        with open(os.path.join(OUT, "pace"), "w", encoding="ascii") as it:
            for name in self.order:
                one = self.crates[name]
                it.write("%s %d %s\n" % (name, one["functions"], " ".join("%d" % second for second in one["times"])))


def read_timed():
    """Returns the functions and the seconds of each crate of the build that was timed; nothing where there is no such file."""
    try:
        with open(TIMED, encoding="ascii") as it:
            lines = [line.split() for line in it]
    except OSError:
        lines = []
    return {name: (int(functions), [int(second) for second in seconds]) for name, functions, *seconds in lines}
