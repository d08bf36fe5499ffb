#!/usr/bin/env python3
"""Runs the gate and prints what it cost: gate.py [COMMAND..]

COMMAND is `rt ci` where none is given. Its output is passed through, and its exit status is this one's. Before its
last line, `N passed, M failed`, come two tables: the processor minutes of each crate's proof, tests and must-fail
edits, and what took longest. `rt` prints no times, so they are read from /proc, three times a second, of each process
that it started. What a process took after its last reading is in the row of the rest, since the sum is that of the
whole command. What another run on this machine had passed already takes no time here. Where /proc can't be read, the
tables say less; the gate is not touched by that.

As many checks run at a time as there are processors, or fewer where there is less memory. RT_JOBS says another number.
"""

import collections
import contextlib
import os
import pathlib
import re
import resource
import signal
import subprocess
import sys
import threading
import time

PARTS = ("proof", "tests", "first check", "edits")
REST = ("", "", "")
COUNT = re.compile(rb"\d+ passed, \d+ failed\b.*\n?")
TICKS = os.sysconf("SC_CLK_TCK")
PAGE = os.sysconf("SC_PAGE_SIZE")
# The free memory that a check has to find, in bytes.
ROOM = 4_500_000_000
# What a control group may hold, and what it holds, for both kinds of groups.
GROUPS = (("memory.max", "memory.current"), ("memory/memory.limit_in_bytes", "memory/memory.usage_in_bytes"))


def free():
    """Returns the free memory in bytes, under the limit of the control group too."""
    with open("/proc/meminfo", encoding="ascii") as it:
        found = [1024 * int(re.search(r"MemAvailable: *(\d+) kB", it.read())[1])]
    for names in GROUPS:
        with contextlib.suppress(OSError, ValueError):
            most, held = (int(pathlib.Path("/sys/fs/cgroup", name).read_text()) for name in names)
            found.append(most - held)
    return min(found)


def lanes():
    """Returns RT_JOBS for `rt`, if that gains. By itself it plans 3 to 9 GB for a check, by its lines, so it has work for
    two or three of four processors, where a check takes less than half of that. With RT_JOBS it asks for no memory."""
    with contextlib.suppress(OSError, TypeError):
        count = min(len(os.sched_getaffinity(0)), free() // ROOM)
        if count > 1 and "RT_JOBS" not in os.environ:
            return {"RT_JOBS": str(count)}
    return {}


def edit_of(crate, number):
    """Returns the name of the crate's edit of this number, by the order of their names."""
    names = sorted(it for it in os.listdir(f"crates/{crate}/must-fail") if it.endswith(".edit"))
    return names[number][: -len(".edit")]


def part_of(words, folder):
    """Returns the crate, the part and the edit that a process works for, by its words and its folder, if these say so."""
    after = dict(zip(words, words[1:]))
    crate = after.get("--crate-name")
    if not crate:
        # a test program that is linked or run
        found = next(filter(None, (re.fullmatch(r"(?:.*/)?(\w+)_tests(?:\.o)?", it) for it in words)), None)
        return (found[1], "tests", "") if found else None
    kept = after.get("--incremental", "")
    if "/rt-edits-" in kept:
        # `rt` checks the crate as it is, and tries each edit over a copy of what that check kept
        name = os.path.basename(kept)
        return (crate, "first check", "") if name == "seed" else (crate, "edits", edit_of(crate, int(name)))
    if "/rt-edit-" in folder:
        return crate, "edits", "an edit, from nothing"
    return crate, "tests" if "--test" in words or after.get("-o", "").endswith("_tests.o") else "proof", ""


def own(pid):
    """Returns what a process works for, if its own words say so. One that is over has none."""
    with contextlib.suppress(OSError, ValueError, IndexError):
        with open(f"/proc/{pid}/cmdline", errors="replace") as words:
            return part_of(words.read().split("\0"), os.readlink(f"/proc/{pid}/cwd"))
    return None


def look(top, taken):
    """Notes what the processes below `top` work for, and how many seconds each took, by its number and its start. Returns
    the bytes that they hold; what several share is counted for each."""
    seen, parts, held = {}, {top: REST}, 0
    for pid in filter(str.isdigit, os.listdir("/proc")):
        with contextlib.suppress(OSError), open(f"/proc/{pid}/stat", errors="replace") as stat:
            fields = stat.read().rpartition(")")[2].split()
            if fields:
                seen[int(pid)] = fields

    def part(pid):
        """Returns what a process works for, which is what the one above it does if its own words don't say."""
        if pid not in parts:
            above = part(int(seen[pid][1])) if pid in seen else None
            parts[pid] = above and (own(pid) or above)
        return parts[pid]

    for pid, fields in seen.items():
        found, key = part(pid), (pid, fields[19])
        found = taken.get(key, (REST, 0))[0] if found == REST else found
        if found:
            taken[key] = found, (int(fields[11]) + int(fields[12])) / TICKS
            held += int(fields[21]) * PAGE
    return held


def watch(top, over, taken, most):
    while not over.wait(0.3):
        with contextlib.suppress(Exception):
            most[0] = max(most[0], look(top, taken))


def tables(taken, whole, clock, most):
    """Returns the lines of the two tables, of seconds by what they went to, of the whole, and of the most bytes held."""
    sums = collections.Counter()
    for part, seconds in taken:
        sums[part] += seconds
    minutes = lambda crate, part: sum(it for key, it in sums.items() if key[:2] == (crate, part)) / 60
    crates = sorted({crate for crate, _, _ in sums} - {""})
    rows = [(crate, *[f"{minutes(crate, part):.1f}" for part in PARTS], str(sum(crate == key[0] and bool(key[2]) for key in sums))) for crate in crates]
    all_of = [sum(minutes(crate, part) for crate in crates) for part in PARTS]
    rows.append(("all of them", *[f"{it:.1f}" for it in all_of], str(sum(int(row[-1]) for row in rows))))
    lines = [f"{name:<12}{''.join(f'{it:>13}' for it in row)}" for name, *row in [("crate", *PARTS, "tried"), *rows]]
    lines.append(f"{whole / 60:.1f} processor minutes in {clock / 60:.1f} minutes, {whole / 60 - sum(all_of):.1f} of them the rest: rt itself, and ends of processes; {most / 1e9:.1f} GB held at most")
    longest = sorted(((seconds, *part) for part, seconds in sums.items() if part != REST), reverse=True)[:12]
    return [*lines, "took longest, in processor seconds:", *[f"{seconds:>6.0f}  {crate} {part} {edit}".rstrip() for seconds, crate, part, edit in longest]]


def main(command):
    began, over, taken, most = time.monotonic(), threading.Event(), {}, [0]
    child = subprocess.Popen(command, stdout=subprocess.PIPE, env={**os.environ, **lanes()})
    signal.signal(signal.SIGTERM, lambda *_: child.terminate())
    watcher = threading.Thread(target=watch, args=(child.pid, over, taken, most), daemon=True)
    watcher.start()
    last = b""
    for line in child.stdout:
        # only what may be the last line waits for the one after it
        last, ready = (line, last) if COUNT.fullmatch(line) else (b"", last + line)
        sys.stdout.buffer.write(ready)
        sys.stdout.buffer.flush()
    status = child.wait()
    over.set()
    with contextlib.suppress(Exception):
        watcher.join()
        used = resource.getrusage(resource.RUSAGE_CHILDREN)
        print(*tables(taken.values(), used.ru_utime + used.ru_stime, time.monotonic() - began, most[0]), sep="\n", flush=True)
    sys.stdout.buffer.write(last)
    return status if status >= 0 else 128 - status


if __name__ == "__main__":
    sys.exit(main(sys.argv[1:] or ["rt", "ci"]))
