"""The scripts of tests/benches that time the tools and weigh proofs run to their end, also over what ./dmremap packed."""

import importlib
import os
import shutil
import sys

from harness import run

# What rt keeps of two functions of a crate, by the names of their stages, and how many bytes.
STAGES = {"Rattle-low-.put.Lts.oantt": 3000000, "Rattle-low-.put.Proof.oantt": 10, "Rattle-low-proofs.take.Lts.oantt": 2000000, "records/x.Lts.oantt": 5}
WEIGHED = "   MB seconds  function\n  3.0       1  low: put  (Proof 1)\n  2.0       7  low: take  (Lts 7)\n"


def test_tools(tally, program, top):
    script = os.path.join(top, "tests", "benches", "tools.py")
    got = run([sys.executable, "-B", script, "--program", program.path, "--runs", "1", "1000"])
    timed = {line.split()[0] for line in got.out.decode().splitlines()}
    wanted = {"trace", "filefrag", "report", "layout", "lvm2-text", "machine", "metadata", "owner", "save", "dd"}
    tally.holds("the commands that are timed", got.status == 0 and timed == wanted, "status %s, %s, %r" % (got.status, sorted(wanted - timed), got.err[-500:]))


def test_proofs(tally, program, top):
    script, out = os.path.join(top, "tests", "benches", "proofs.py"), os.path.join(program.folder, "weighed", "low", "out")
    for second, (name, size) in enumerate(STAGES.items()):
        path = program.file(os.path.join(out, "incremental", name), bytes(size))
        os.utime(path, (1000 + second ** 3, 1000 + second ** 3))
    words = [sys.executable, "-B", script, os.path.dirname(out)]
    tally.same("what is kept of proofs", run(words), 0, WEIGHED)
    if not shutil.which("zstd"):
        tally.skip("what is packed of proofs", "there is no zstd")
        return
    sys.path.append(os.path.join(top, "tools", "building"))
    importlib.import_module("kept").pack([out], 1)
    tally.holds("a crate that is packed", os.listdir(out) == ["kept.tar.zst"], os.listdir(out))
    tally.same("what is packed of proofs", run(words), 0, WEIGHED)
