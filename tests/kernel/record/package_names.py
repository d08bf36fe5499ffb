"""Compares what the tools say with what other projects expect of the images that they made for their own tests: of util-linux all
signatures and partition tables, and physical volumes put below those of layers that aren't followed; of cryptsetup sound and broken
headers; of e2fsprogs damaged file systems, by what blkid calls them.

    python3 tests/kernel/record/package_names.py [--program PROGRAM] FOLDER

Run by hand, as it takes the network: the packages' sources come by apt-get from where the machine's own packages come from, and are
unpacked in FOLDER, to be used again. Each check is told that differs, then for each package how many agree, are refused or called
unknown, and differ; the status is 1 where one differs. Each image is looked at twice, the other time without wipefs and blkid."""

import argparse
import bz2
import collections
import contextlib
import glob
import gzip
import io
import lzma
import os
import pathlib
import re
import subprocess
import sys
import tarfile

sys.dont_write_bytecode = True
TOP = os.path.abspath(os.path.join(os.path.dirname(__file__), *[os.pardir] * 3))
sys.path += [os.path.join(TOP, *names) for names in (("tests", "outside"), ("tests", "outside", "tools"), ("tools",))]

import piles
import owned
from dmremap_tools.formats import signatures
from dmremap_tools.base.numbers import SECTOR
from dmremap_tools.base.program import found
from dmremap_tools.images import scan
from dmremap_tools.model.pile import SAME, Pile

MEMBERS = {"lvm2": "physical volume", "luks": "LUKS", "linux_raid_member": "m(ember of|d member)"}
AGREE, REFUSED, DIFFER = "agree", "refused", "differ"
OPENERS = {".xz": lzma.open, ".gz": gzip.open, ".bz2": bz2.open}


class Checks:
    """Counts the checks of a package, and tells those that differ."""

    def __init__(self, folder, program):
        self.folder, self.program, self.counts = folder, program, collections.Counter()
        self.path, self.without = os.path.join(folder, "image"), ""

    def count(self, verdict, name, wanted, got):
        self.counts[verdict] += 1
        if verdict == DIFFER:
            print("DIFFERS: %s%s: %s is wanted, not %s" % (name, self.without, wanted, got))

    def pile(self, content):
        """What an image holds, in the whole of which labels are looked for."""
        write(self.path, content)
        signatures.named_by_blkid.cache_clear()
        with contextlib.redirect_stderr(io.StringIO()):
            pile = Pile([self.path], self.program)
            pile.search()
        return pile

    def both(self, check, *given):
        """A check with wipefs and blkid, and one without them."""
        check(self, *given)
        self.without_others(check, *given)

    def without_others(self, check, *given):
        """A check with programs in the place of wipefs and blkid that find nothing."""
        path, self.without = os.environ["PATH"], ", without blkid"
        os.environ["PATH"] = os.path.join(self.folder, "nothing") + os.pathsep + path
        check(self, *given)
        os.environ["PATH"], self.without = path, ""


def main():
    words = argparse.ArgumentParser(prog="package_names.py")
    words.add_argument("--program")
    words.add_argument("folder", metavar="FOLDER")
    asked = words.parse_args()
    folder = os.path.abspath(asked.folder)
    os.makedirs(os.path.join(folder, "nothing"), exist_ok=True)
    for name in ("wipefs", "blkid"):
        write(os.path.join(folder, "nothing", name), b"#!/bin/sh\nexit 2\n")
        os.chmod(os.path.join(folder, "nothing", name), 0o755)
    status = 0
    for package, compare in (("util-linux", compare_signatures), ("cryptsetup", compare_headers), ("e2fsprogs", compare_file_systems)):
        try:
            sources, checks = fetch(folder, package), Checks(folder, asked.program)
            compare(checks, sources)
        except (OSError, subprocess.CalledProcessError) as fault:
            print("not tried: %s: %s" % (package, fault))
            continue
        counts = checks.counts
        status |= counts[DIFFER] > 0
        print("%s: %d checks, %d agree, %d refused, %d differ" % (
            os.path.basename(sources), sum(counts.values()), counts[AGREE], counts[REFUSED], counts[DIFFER]))
    return status


def fetch(folder, package):
    """The folder with the sources of a package, which come from where the machine's own packages come from."""
    pattern = os.path.join(folder, package + "-[0-9]*")
    if not glob.glob(pattern):
        own = os.path.join(folder, "apt")
        os.makedirs(os.path.join(own, "parts"), exist_ok=True)
        os.makedirs(os.path.join(own, "lists", "partial"), exist_ok=True)
        config = subprocess.run(["apt-config", "shell", "list", "Dir::Etc::sourcelist/f", "parts", "Dir::Etc::sourceparts/d"],
                                check=True, stdout=subprocess.PIPE, text=True).stdout
        for place in re.findall("'(.*)'", config):
            for path in glob.glob(os.path.join(place, "*")) if os.path.isdir(place) else filter(os.path.exists, [place]):
                sources = re.sub(r"(?m)^(Types: *)?deb\b(?!-)", r"\1deb-src", read(path))
                write(os.path.join(own, "parts", os.path.basename(path)), sources.encode())
        apt = ["apt-get", "-qq", *(word for name, place in (("Etc::sourcelist", os.devnull), ("Etc::sourceparts", own + "/parts"), (
            "State::lists", own + "/lists"), ("Cache", own)) for word in ("-o", "Dir::%s=%s" % (name, place)))]
        subprocess.run([*apt, "update"], check=True, stdout=subprocess.DEVNULL)
        subprocess.run([*apt, "source", "--download-only", package], check=True, cwd=folder, stdout=subprocess.DEVNULL, stderr=subprocess.DEVNULL)
        source, = glob.glob(os.path.join(folder, package + "_*.dsc"))
        subprocess.run(["dpkg-source", "--no-check", "--skip-patches", "-x", source], check=True, cwd=folder, stdout=subprocess.DEVNULL)
    return next(filter(os.path.isdir, sorted(glob.glob(pattern))))


def write(path, content):
    pathlib.Path(path).write_bytes(content)


def read(path):
    return pathlib.Path(path).read_text()


def content_of(path):
    return OPENERS[os.path.splitext(path)[1]](path).read()


def verdict_of(kind, said):
    """Whether what is said of an image fits what blkid calls it."""
    kind = SAME.get(kind, kind)
    if re.match(MEMBERS.get(kind, re.escape(kind) + "(:|$)"), said) or "a signature of %s at" % kind in said:
        return AGREE
    return REFUSED if ": " in said or said == "nothing is found in it" else DIFFER


def check_kind(checks, name, content, kind):
    pile = checks.pile(content)
    said = scan.held_by(pile, pile.spots()[0].device)
    table = next(iter(pile.tables.values()), None)
    said = "a table (%s) of %s" % (table.kind, "; ".join(said)) if table else said[0]
    checks.count(verdict_of(kind, said), name, kind, said)


def below(content, kind, path):
    """An image with a physical volume below what it has, on the whole disk or in a partition, or None where wipefs no longer finds
    that. A disk is made longer in its midst, as signatures count from both ends."""
    for eighth in (4, 6, 7, 2, 1, 8):
        cut = len(content) * eighth // 8 // SECTOR * SECTOR
        first = max(cut, len(owned.OLD)) + piles.MIB & -piles.MIB
        made = bytearray(content[:cut] + bytes(first + 2 * len(owned.OLD) - cut) + content[cut:])
        if any(made[:len(owned.OLD)]):
            made[440:SECTOR] = owned.physical_volumes.mbr((0x8E, first // SECTOR, len(owned.OLD) // SECTOR))[440:]
        else:
            first = 0
        made[first:first + len(owned.OLD)] = owned.OLD
        write(path, made)
        printed = subprocess.run([found("wipefs"), "--no-act", path], check=True, stdout=subprocess.PIPE, text=True).stdout
        if re.search(r"\b%s\b" % kind, printed):
            return bytes(made)
    return None


def check_below(checks, name, content):
    """Nothing of a group is given that lies below a layer that isn't followed."""
    pile = checks.pile(content)
    whys = [volume.why() for group in pile.groups for volume in group.volumes]
    checks.count(REFUSED if not whys else AGREE if all(whys) else DIFFER, name + " over a group", "a doubt", [(group.name, group.state) for group in pile.groups])


def check_partitions(checks, name, content, expected):
    """The partitions of a table; or one that isn't followed is told, on the disk or in a partition of it."""
    kind = re.search("PT: ([^,]*)", expected).group(1)
    wanted = {tuple(map(int, row)) for row in re.findall(r"(?m)^#(\d+): +(\d+) +(\d+)", expected)}
    pile = checks.pile(content)
    said = scan.held_by(pile, pile.spots()[0].device)
    parts = {(number, part.start // SECTOR, part.size // SECTOR) for table in pile.tables.values() for number, part in table.partitions.items()}
    others = [part for part in wanted - parts if not any(part[1] >= start and part[1] + part[2] <= start + size for _, start, size in parts)]
    is_told = any("a partition table (" in each and "that isn't followed" in each for each in said)
    is_right = parts <= wanted and not others and (is_told or parts == wanted)
    verdict = AGREE if is_right and parts or is_told and not parts else REFUSED if not parts and said == ["nothing is found in it"] else DIFFER
    checks.count(verdict, name, "%s %s" % (kind, sorted(wanted)), "%s %s" % (sorted(parts), said))


def compare_signatures(checks, sources):
    for path in sorted(glob.glob(os.path.join(sources, "tests/ts/blkid/images-fs/*.img.xz"))):
        name, content = os.path.basename(path)[:-len(".img.xz")], content_of(path)
        expected = os.path.join(sources, "tests/expected/blkid/low-probe-" + name)
        kind = re.search("(?m)^ID_FS_TYPE=(.*)", read(expected)) if os.path.exists(expected) else None
        if kind:
            checks.both(check_kind, name, content, kind.group(1))
        if kind and signatures.is_foreign(kind.group(1)):
            made = below(content, kind.group(1), checks.path)
            if made and len(made) % SECTOR == 0:
                checks.both(check_below, name, made)
            else:
                print("not tried: a group below %s: %s" % (name, "no disk has such a length" if made else "wipefs finds it no more"))
    for path in sorted(glob.glob(os.path.join(sources, "tests/ts/blkid/images-pt/*.img.xz"))):
        name = os.path.basename(path)[:-len(".img.xz")]
        checks.both(check_partitions, name, content_of(path), read(os.path.join(sources, "tests/expected/blkid/lowprobe-pt-" + name)))


def check_header(checks, name, content, wanted=None):
    """A container, which cryptsetup takes or not."""
    write(checks.path, content)
    words = [found("cryptsetup"), "luksDump", checks.path]
    is_taken = subprocess.run(words, stdout=subprocess.DEVNULL, stderr=subprocess.DEVNULL).returncode == 0
    if wanted not in (None, is_taken):
        print("not tried: %s: the cryptsetup here answers otherwise than its sources expect" % name)
        return
    pile = checks.pile(content)
    whys = [container.fault for _, container in pile.containers]
    is_sound = whys == [None]
    verdict = AGREE if is_sound == is_taken else REFUSED if is_taken else DIFFER
    checks.count(verdict, name, "a sound header" if is_taken else "a damaged one", whys or scan.held_by(pile, pile.spots()[0].device))


def compare_headers(checks, sources):
    tests, made = os.path.join(sources, "tests"), os.path.join(checks.folder, "headers")
    for path in sorted({path for form in ("*hdr*.xz", "*luks2*.img.xz", "compat*.img.xz") for path in glob.glob(os.path.join(tests, form))}):
        check_header(checks, os.path.basename(path), content_of(path))
    for path in sorted(glob.glob(os.path.join(tests, "luks*.tar.xz")) + [os.path.join(tests, "conversion_imgs.tar.xz")]):
        with tarfile.open(path) as packed:
            for each in packed:
                if each.size >= piles.MIB:
                    check_header(checks, each.name, packed.extractfile(each).read())
    os.makedirs(made, exist_ok=True)
    write(os.path.join(made, "luks2_valid_hdr.img"), content_of(os.path.join(tests, "luks2_valid_hdr.img.xz")))
    for name, wanted in re.findall(r'(?m)^RUN (\S+)\s+"([RF])"', read(os.path.join(tests, "luks2-validation-test"))):
        script = os.path.join(tests, "generators", "generate-%s.sh" % name)
        words = ["bash", script, made, os.path.join(made, "luks2_valid_hdr.img")]
        if subprocess.run(words, cwd=os.path.dirname(script), stdout=subprocess.DEVNULL, stderr=subprocess.DEVNULL).returncode:
            print("not tried: %s: its generator needs jq and xxd" % name)
            continue
        check_header(checks, name, pathlib.Path(made, name).read_bytes(), wanted == "R")
        os.unlink(os.path.join(made, name))


def compare_file_systems(checks, sources):
    """What blkid calls images of file systems, most of them damaged; the tools without it."""
    for path in sorted(glob.glob(os.path.join(sources, "tests", "*", "image.gz"))):
        content = content_of(path)
        write(checks.path, content)
        signatures.named_by_blkid.cache_clear()
        kind = signatures.named_by_blkid(checks.path, 0, len(content)).get("TYPE")
        if kind:
            checks.without_others(check_kind, os.path.basename(os.path.dirname(path)), content, kind)


if __name__ == "__main__":
    sys.exit(main())
