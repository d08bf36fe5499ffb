"""Records new vectors: a Linux kernel is booted with an lvm2 of its own, and all that `tests/kernel` compares is tried in it.

    python3 tests/kernel/record FOLDER [--kernel KERNEL] [--modules FOLDER] [--guests NAME,..] [--at-once N]
                                       [--minutes N] [--qemu WORDS] [--work FOLDER]
    python3 tests/kernel/record --same FOLDER FOLDER

The vectors go into FOLDER, a file for each kind of experiment; what a guest didn't record is left there as it was. KERNEL is a
package of Debian, or the path of a kernel's image, with --modules as the folder of its modules. The second form compares
two folders of vectors, apart from what differs between any two recordings.

A vector stands below a line `== NAME ==`, and is a text of sections. Each begins with a line `-- NAME --`, and below that
stands what was recorded, unchanged, up to the next such line: a table of text with tabs, lines, or values in JSON where a
text has more than one line. A section that has such a line itself, or no end of its last line, is not written, and is a
fault of the recording.

It needs Debian or a system derived from it (apt-get and dpkg-deb, whose sources have lvm2, and the kernel where none
is given), QEMU for x86-64 (the package qemu-system-x86), 1 GB on the disk, and 3 GB of memory for each guest at a time.
It needs no root, and changes nothing outside of FOLDER and a temporary folder. QEMU emulates a processor if --qemu says
nothing else; so five guests take 11 to 14 minutes, two at a time, and that of the power cuts about ten more. With KVM,
`--qemu 'qemu-system-x86_64 -accel kvm -cpu host'` may do, which isn't tried. A guest is stopped after --minutes, 60 if
not given.
"""

import argparse
import concurrent.futures
import os
import shlex
import shutil
import sys
import tempfile

sys.dont_write_bytecode = True
HERE = os.path.dirname(os.path.abspath(__file__))
# The partitions are those that the comparison knows.
sys.path.append(os.path.dirname(HERE))

import same
from guests import Guest, jobs
from image import complete, pack
from packages import Failed, fetch_kernel, fetch_userland
from writing import Writer

PACKAGE = "linux-image-cloud-amd64"
QEMU = "qemu-system-x86_64 -accel tcg,thread=multi -cpu max"


def main():
    given = words()
    if given.same:
        found = list(same.differences(*given.folders))
        print("\n".join(found + ["%d differences" % len(found)]))
        return 1 if found else 0
    work = tempfile.mkdtemp(prefix="dmremap-record-", dir=given.work)
    try:
        return record(given, work)
    except Failed as why:
        print(why, file=sys.stderr)
        return 1
    finally:
        shutil.rmtree(work)


def words():
    parser = argparse.ArgumentParser(description=__doc__, formatter_class=argparse.RawDescriptionHelpFormatter)
    parser.add_argument("folders", nargs="+", metavar="FOLDER")
    parser.add_argument("--same", action="store_true")
    parser.add_argument("--kernel", default=PACKAGE)
    parser.add_argument("--modules")
    parser.add_argument("--guests", default=",".join(jobs()))
    parser.add_argument("--at-once", type=int, default=2)
    parser.add_argument("--minutes", type=int, default=60)
    parser.add_argument("--qemu", default=QEMU)
    parser.add_argument("--work")
    given = parser.parse_args()
    if len(given.folders) != (2 if given.same else 1):
        parser.error("two folders are compared, and one is recorded")
    if os.path.exists(given.kernel) and not given.modules:
        parser.error("the image of a kernel needs --modules")
    if set(given.guests.split(",")) - set(jobs()):
        parser.error("the guests are " + ", ".join(jobs()))
    return given


def record(given, work):
    """Records what the guests try, and returns the status: 0 where each of them ended well, with nothing missing."""
    root, packages = fetch_userland(work)
    kernel, modules = given.kernel, given.modules
    if not os.path.exists(kernel):
        kernel, modules, package = fetch_kernel(kernel, work)
        packages.append(package)
    complete(root, modules, os.path.join(HERE, "guest"))
    archive = os.path.join(work, "root.gz")
    pack(root, archive)
    chosen = {name: job for name, job in jobs().items() if name in given.guests.split(",")}
    writer = Writer(given.folders[0])
    with concurrent.futures.ThreadPoolExecutor(given.at_once) as pool:
        booted = {pool.submit(boot, name, job, work, kernel, archive, given): job for name, job in chosen.items()}
        for it in concurrent.futures.as_completed(booted):
            results, why = it.result()
            writer.faults += [why] if why else []
            writer.write(booted[it], results)
            if "versions" in results:
                writer.write_versions(results["versions"], packages)
    for it in writer.faults:
        print("FAILED %s" % it)
    print("%d faults; the vectors are in %s" % (len(writer.faults), given.folders[0]))
    return 1 if writer.faults else 0


def boot(name, job, work, kernel, archive, given):
    """Runs a guest, and returns what it wrote and what went wrong."""
    guest = Guest(name, job, work, kernel, archive)
    why = guest.run(shlex.split(given.qemu), given.minutes)
    print("\n".join("%s: %s" % (name, it) for it in guest.told() + [why or "done"]), flush=True)
    results = guest.results()
    shutil.rmtree(guest.folder)
    return results, why and "%s: %s" % (name, why)


sys.exit(main())
