"""Power cuts and restarts: each write is cut after any of its units, and the stores list any of the chunks that were copied
whole, as a kernel may have, but all whose write was carried out. The next run starts from these stores, and each device reads
what it held, or what was last written through it. A replay that starts from them has there what a read of `map` finds, and
what it wrote."""

import random

from store_lists import place
from stored import put, stored

ROUNDS, CUTS = 4, 20
CHUNK, LENGTH = 4, 40
# Two snapshots of one origin, and one of a snapshot. Stores of 64 sectors have places for all chunks.
TABLE = ("o: 0 40 snapshot-origin base\na: 0 40 snapshot base one P 4\nb: 0 40 snapshot base two P 4\n"
         "p: 0 40 snapshot-origin /dev/mapper/b\nc: 0 40 snapshot /dev/mapper/b three P 4\n")
DISKS = "base 40\none 64\ntwo 64\nthree 64\n"
STORES, TOPS = ("one", "two", "three"), "oapc"


class Machine:
    """Disks with what they hold, the lists of their stores, and what each top device would hold alone."""

    def __init__(self, program):
        self.program = program
        self.held = {}
        self.rows = {(top, at): ("base", at) for top in TOPS for at in range(LENGTH)}
        self.lists = {store: [] for store in STORES}

    def answers(self, command, requests):
        """The lines of answers to requests by a command that starts from the stores, cut into words after their number."""
        for store, chunks in self.lists.items():
            pairs = [(chunk, place(CHUNK, number)) for number, chunk in enumerate(chunks)]
            put(self.program, store + ".img", CHUNK, pairs, header=None if pairs else (0, 0, 0, 0))
        paths = "".join("%s %s.img\n" % (store, store) for store in STORES)
        got = stored(self.program, TABLE, DISKS, paths, requests, command=command)
        if got.status:
            raise AssertionError("%r for %r, from the lists %s" % (got.err, requests, self.lists))
        return [line.split()[1:] for line in got.out.decode().splitlines()]

    def units(self, requests):
        """The units of requests, in a run that starts from the stores: a word, and where it reads and writes."""
        for word, *rest in self.answers("map", requests):
            first, start, count = rest[:3]
            for at in range(int(count)):
                to = (rest[3], int(rest[4]) + at) if rest[3:] else None
                yield word, (first, int(start) + at), to

    def value(self, place_of):
        return self.held.get(place_of, place_of)

    def cut(self, dice, number):
        """Plays the first units of a write, and lists chunks that they copied."""
        top, start = dice.choice(TOPS), dice.randrange(LENGTH)
        length = dice.randint(1, min(12, LENGTH - start))
        units = list(self.units("W %s %d %d\n" % (top, start, length)))
        at, copied = start, {}
        for word, first, to in units[:dice.randint(0, len(units))]:
            if word == "copy":
                self.held[to] = self.value(first)
                copied[to[0]] = copied.get(to[0], 0) + 1
                continue
            self.held[first] = self.rows[top, at] = (number, at)
            self.enter(copied, at // CHUNK, lambda: True)
            at, copied = at + 1, {}
        # The write of this sector was prevented: the chunks that were copied for it may be listed, in any of the stores.
        self.enter(copied, at // CHUNK, lambda: dice.random() < 0.5)

    def enter(self, copied, chunk, is_listed):
        for store, sectors in copied.items():
            if sectors == CHUNK and is_listed():
                self.lists[store].append(chunk)

    def reads(self):
        """What each sector of the top devices reads now."""
        units = self.units("".join("R %s 0 %d\n" % (top, LENGTH) for top in TOPS))
        return dict(zip(self.rows, (self.value(first) for _, first, _ in units)))


    def replayed(self, dice):
        """What a replay of a write that starts from the stores reads of each sector after it, and what it has to."""
        top, start = dice.choice(TOPS), dice.randrange(LENGTH)
        length = dice.randint(1, LENGTH - start)
        whole = "".join("R %s 0 %d\n" % (each, LENGTH) for each in TOPS)
        wanted = {it: ("old",) + first for it, (_, first, _) in zip(self.rows, self.units(whole))}
        wanted.update({(top, at): ("wrote", "1", at) for at in range(start, start + length)})
        lines = self.answers("replay", "W %s %d %d\n" % (top, start, length) + whole)
        values = [(word, first, int(at) + more) for word, first, at, count in lines for more in range(int(count))]
        return dict(zip(self.rows, values[length:])), wanted


def test_restarts(tally, program):
    for seed in range(ROUNDS):
        dice, machine = random.Random(seed), Machine(program)
        wrong = []
        for number in range(CUTS):
            machine.cut(dice, number)
            found = machine.reads()
            wrong += [(number, it, found.get(it), held) for it, held in machine.rows.items() if found.get(it) != held]
            replayed, wanted = machine.replayed(dice)
            wrong += [(number, it, replayed.get(it), value) for it, value in wanted.items() if replayed.get(it) != value]
        tally.holds("restarts after %d cuts, seed %d" % (CUTS, seed), not wrong, "%d sectors differ, as %s" % (len(wrong), wrong[:3]))
        tally.holds("chunks in each store, seed %d" % seed, all(machine.lists.values()), "%s" % machine.lists)
