"""Records heads: physical volumes that lvm2 makes on loop devices, and what it then says of them.

    python3 tests/kernel/record/lvm2_heads.py FOLDER [NAME ..]

The vectors go into FOLDER: all cases of tried_heads.py, or those that are named. It needs root, lvm2, losetup and loop
devices, but no device-mapper, and takes ten minutes. The loop devices have the names of disks in a /dev of its own, so
that lvm2 finds no other device.
"""

import base64
import ctypes
import json
import lzma
import os
import re
import shlex
import struct
import subprocess
import sys
import tempfile
import traceback
import zlib

sys.dont_write_bytecode = True
HERE = os.path.dirname(os.path.abspath(__file__))
sys.path.append(os.path.dirname(HERE))

import tried_heads
import vectors

SECTOR, MIB = 512, 1 << 20
# Flags of unshare(2): for mounts, and for the host's name.
MOUNTS, HOST = 0x00020000, 0x04000000
NODES = {"null": (1, 3), "zero": (1, 5), "random": (1, 8), "urandom": (1, 9), "loop-control": (10, 237)}
LOOP, FIRST, LOOP_CTL_REMOVE = 7, 51200, 0x4C81
CONFIG = """
devices { dir="/dev" scan=["/dev"] use_devicesfile=0 hints="none" types=["loop",16] }
global { activation=0 use_lvmlockd=0 use_lvmpolld=0 event_activation=0 locking_dir="%s" }
activation { udev_sync=0 udev_rules=0 verify_udev_operations=0 monitoring=0 }
backup { backup=0 archive=0 }
"""
# What lvm2 says of this machine, and not of the disks.
ASIDE = re.compile(r" *WARNING: (Activation disabled\. No device-mapper interaction will be attempted\.|"
                   r"This metadata update is NOT backed up\.)\n")
# What is kept of `pvck --dump headers`: the numbers that aren't 0.
FIELDS = re.compile(r"^ *(?:pv_header\.)?((?:label_header\.sector|device_size|pv_header_extension\.version"
                    r"|(?:pv_header_extension\.)?disk_locn\[\d\]\.\w+"
                    r"|mda_header_\d\.(?:start|size|raw_locn\[\d\]\.\w+)) (?!0$|0x0$)\S+)$", re.M)


class Machine:
    """The disks of a case, and lvm2 beside them. The methods are commands of the scripts."""

    def __init__(self):
        # The number of each loop device, and which part of which image is attached: its name, start and length.
        self.numbers, self.listed, self.kept = {}, {}, None
        os.mkdir("lvm")
        with open("lvm/lvm.conf", "w", encoding="ascii") as config:
            config.write(CONFIG % os.path.abspath("lock"))

    def disk(self, name, size):
        """A new disk of so many MiB. lvm2 looks for partitions on loop devices whose number is a multiple of 16."""
        self.numbers[name] = FIRST + 16 * len(self.numbers)
        self.size(name, size)
        self.back(name)

    def part(self, name, disk, start, length):
        """A partition of a disk, in sectors."""
        self.numbers[name] = self.numbers[disk] + int(name[-1])
        self.back(name, disk, start, length)

    def name(self, name, image):
        """An image under another name."""
        self.numbers[name] = FIRST + 16 * len(self.numbers)
        self.back(name, image)

    def back(self, name, image=None, start=0, length=0, *how):
        """Attaches an image, or a part of it."""
        node, start, length = os.path.join("/dev", name), int(start) * SECTOR, int(length) * SECTOR
        if not os.path.exists(node):
            os.mknod(node, 0o600 | 0o060000, os.makedev(LOOP, self.numbers[name]))
        limit = ["--sizelimit", str(length)] if length else []
        must(["losetup", "-o", str(start), *limit, *how, node, image or name])
        self.listed[name] = (image or name, start, length)

    def away(self, name):
        must(["losetup", "-d", os.path.join("/dev", name)])
        del self.listed[name]

    def again(self, name, *how):
        """Attaches a whole disk again, if it is attached, so that lvm2 sees its image as it is now."""
        if name in self.listed:
            self.away(name)
            self.back(name, name, 0, 0, *how)

    def size(self, name, size):
        """Makes an image so many MiB long, or with a `b` behind so many bytes."""
        os.close(os.open(name, os.O_CREAT))
        os.truncate(name, int(size[:-1]) if size.endswith("b") else int(size) * MIB)
        self.again(name)

    def copy(self, source, name):
        must(["cp", "--sparse=always", source, name])
        self.again(name)

    def put(self, name, at, *what):
        """Writes bytes, in hexadecimal, at a byte of a disk."""
        with open(name, "r+b") as image:
            image.seek(int(at))
            image.write(bytes.fromhex("".join(what)))
        self.again(name)

    def sums(self, name, *sectors):
        """Makes the sums of labels and of first sectors of areas right."""
        for it in map(int, sectors):
            at, start = (16, 20) if it < 4 else (0, 4)
            self.put(name, it * SECTOR + at, struct.pack("<I", sum_of(read(name, it)[start:])).hex())

    def move(self, name, source, target):
        """Copies a sector to another place of its disk."""
        self.put(name, int(target) * SECTOR, read(name, int(source)).hex())

    def keep(self, name, sector):
        self.kept = int(sector), read(name, int(sector))

    def put_back(self, name):
        """Puts back what was kept."""
        self.put(name, self.kept[0] * SECTOR, self.kept[1].hex())

    def table(self, name, *parts):
        """Writes a partition table. A partition is a boot byte, a type, a start and a length."""
        parts = [it.split(",") for it in parts]
        entries = b"".join(struct.pack("<B3xB3xII", int(boot, 16), int(kind, 16), int(start), int(length))
                           for boot, kind, start, length in parts)
        self.put(name, 446, entries.ljust(64, b"\0").hex(), "55aa")

    def shorten(self, name, count):
        """Takes so many bytes from the end of the text."""
        self._change(name, lambda text: text[:-int(count)])

    def edit(self, name, old, new):
        """Puts words in the place of others, which are as long or longer."""
        self._change(name, lambda text: text.replace(old.encode(), new.encode().ljust(len(old))))

    def _change(self, name, change):
        """Changes the text in a disk's first area, and its sums."""
        offset, size = struct.unpack_from("<QQ", read(name, 8), 40)
        text = change(read(name, 8, 2048)[offset:offset + size])
        self.put(name, 4096 + offset, text.hex())
        self.put(name, 4144, struct.pack("<QI", len(text), sum_of(text)).hex())
        self.sums(name, 8)

    def third(self, name):
        """Lists a third metadata area: a copy of the first one, at 2 MiB."""
        label, area = read(name, 1), read(name, 8, 128)
        self.put(name, 512, (label[:120] + struct.pack("<QQ", 2 * MIB, MIB) + label[120:-16]).hex())
        self.put(name, 2 * MIB, (area[:24] + struct.pack("<Q", 2 * MIB) + area[32:]).hex())
        self.sums(name, 1, 2 * MIB // SECTOR)

    def restore(self, name, text):
        """Makes a volume anew from a text, with pvcreate."""
        with open(text, encoding="utf-8") as it:
            uuid = re.search(r'id = "(\S+)"\n\s*device = "/dev/%s"' % name, it.read())[1]
        self._lvm("pvcreate", "-y", "-ff", "--uuid", uuid, "--restorefile", text, "/dev/" + name)

    def grow(self, group, count):
        """Gives a group so many tags of a thousand bytes."""
        for it in range(0, int(count), 50):
            tags = ["%d-%s" % (tag, "x" * 1000) for tag in range(it, it + 50)]
            self._lvm("vgchange", *(word for tag in tags for word in ("--addtag", tag)), group)

    def lv(self, name, extents, group="vg", *how):
        self._lvm("lvcreate", "-y", "-an", "-Zn", "-Wn", "-n", name, "-l", extents, group, *how)

    def times(self, count, *words):
        """Carries out a command so often; `%` is its number."""
        for it in range(int(count)):
            self.do([word.replace("%", str(it)) for word in words])

    def until_round(self, name, *words):
        """Carries out a command until the newest text goes round the end of its ring."""
        said = {"offset": 0, "size": 0, "end": 1}
        for it in range(2000):
            if said["offset"] + said["size"] > said["end"]:
                return
            self.do([word.replace("%", str(it)) for word in words])
            said = dict(zip(("end", "offset", "size"), struct.unpack_from("<QQQ", read(name, 8), 32)))
        raise RuntimeError("no text went round")

    def unless(self, *words):
        """Runs a command of lvm2 that may fail."""
        lvm(words)

    def _lvm(self, *words):
        status, _, said = lvm(words)
        if status:
            raise RuntimeError("%s: %s" % (" ".join(words), said))

    def do(self, words):
        """Carries out a command of a script: a method, another program, or else one of lvm2."""
        if hasattr(self, words[0]):
            getattr(self, words[0])(*words[1:])
        elif words[0] in tried_heads.OTHERS:
            must(words)
        else:
            self._lvm(*words)

    def ask(self):
        """What lvm2 says of the disks that are there: the question, its status, what was printed, and said besides."""
        for device in (os.path.join("/dev", it) for it in self.listed):
            sector = read(device, 0, 4).find(b"LABELONE") // SECTOR % 4
            dump = ["pvck", "--labelsector", str(sector), "--dump"]
            status, out, said = lvm([*dump, "headers", device])
            yield "headers " + device, status, "; ".join(FIELDS.findall(out)), said
            status, _, said = lvm([*dump, "metadata", "-f", "dumped", device])
            yield "metadata " + device, status, digest_of("dumped", bytes), said
        for words in tried_heads.ASKED:
            status, out, said = lvm(words.split(" "))
            yield words.split(" ")[0], status, [it.strip() for it in out.splitlines()], said
        status, _, said = lvm(["vgcfgbackup", "-f", "backup"])
        yield "vgcfgbackup", status, digest_of("backup", vectors.body), said

    def close(self):
        control = os.open("/dev/loop-control", os.O_RDWR)
        for name, number in self.numbers.items():
            if name in self.listed:
                self.away(name)
            ctypes.CDLL(None).ioctl(control, LOOP_CTL_REMOVE, number)
            os.remove(os.path.join("/dev", name))
        os.close(control)


def read(path, sector, count=1):
    with open(path, "rb") as it:
        it.seek(sector * SECTOR)
        return it.read(count * SECTOR)


def sum_of(content):
    """lvm2's sum."""
    return zlib.crc32(content, 0xF597A6CF ^ 0xFFFFFFFF) ^ 0xFFFFFFFF


def must(words):
    subprocess.run(words, check=True, capture_output=True)


def lvm(words):
    """Runs a command of lvm2: its status, what it printed, and what it said besides."""
    how = dict(os.environ, LVM_SYSTEM_DIR=os.path.abspath("lvm"), LVM_SUPPRESS_FD_WARNINGS="1", LC_ALL="C")
    done = subprocess.run(["lvm", *words], env=how, capture_output=True, check=False)
    return done.returncode, done.stdout.decode(errors="replace"), ASIDE.sub("", done.stderr.decode(errors="replace"))


def told(answers):
    """Answers with what was said besides as lines, each only when it is said for the first time."""
    before = []
    for asked, status, out, said in answers:
        new = [it for it in dict.fromkeys(map(str.strip, said.splitlines())) if it not in before]
        before += new
        yield asked, status, out, new


def digest_of(path, part):
    """What tells a text apart that lvm2 wrote into a file, which is removed; nothing if it wrote none."""
    if not os.path.exists(path):
        return None
    with open(path, "rb") as it:
        found = vectors.digest(part(it.read()))
    os.remove(path)
    return found


def image_of(name):
    """An image: its length, the runs of its sectors that aren't zeros, and what these hold."""
    runs, held = [], b""
    with open(name, "rb") as image:
        for it in sectors_of(image.fileno(), os.path.getsize(name)):
            content = os.pread(image.fileno(), SECTOR, it * SECTOR)
            if any(content):
                if not runs or sum(runs[-1]) != it:
                    runs.append([it, 0])
                runs[-1][1] += 1
                held += content
    return {"image": name, "bytes": os.path.getsize(name), "runs": runs}, held


def sectors_of(image, size):
    """The sectors of a file that aren't holes."""
    end = 0
    while end < size:
        try:
            start = os.lseek(image, end, os.SEEK_DATA)
        except OSError:
            return
        end = os.lseek(image, start, os.SEEK_HOLE)
        yield from range(start // SECTOR, -(-end // SECTOR))


def record(script):
    """Carries out a script, and returns the sections of its vector."""
    machine = Machine()
    try:
        for line in script:
            machine.do(shlex.split(line.replace("{zeros}", "0" * 2 * SECTOR)))
        answers, listed = list(told(machine.ask())), dict(machine.listed)
    finally:
        machine.close()
    disks = [{"disk": "/dev/" + name, "image": image, "offset": start, "length": length}
             for name, (image, start, length) in listed.items()]
    images = [image_of(it) for it in dict.fromkeys(it["image"] for it in disks)]
    held = lzma.compress(b"".join(held for _, held in images), lzma.FORMAT_ALONE)
    return {"commands.txt": "".join(it + "\n" for it in script), "disks.jsonl": lines(disks),
            "images.jsonl": lines(it for it, _ in images), "sectors.xz": base64.b85encode(held).decode() + "\n",
            "lvm2.jsonl": lines(answers)}


def lines(values):
    return "".join(json.dumps(it) + "\n" for it in values)


def main(folder, *names):
    if ctypes.CDLL(None).unshare(MOUNTS | HOST):
        sys.exit("it needs root, for a /dev of its own")
    folder, failed = os.path.abspath(folder), []
    for words in ("hostname host", "mount --make-rprivate /", "mount -t tmpfs none /dev"):
        subprocess.run(words.split(), check=True)
    for name, numbers in NODES.items():
        os.mknod("/dev/" + name, 0o666 | 0o020000, os.makedev(*numbers))
    for name, script in tried_heads.cases().items():
        with tempfile.TemporaryDirectory(prefix="dmremap-heads-") as work:
            os.chdir(work)
            try:
                if not names or name in names:
                    vectors.put(folder, "heads", name, record(script))
            except Exception:
                print("FAILED %s\n%s" % (name, traceback.format_exc()), file=sys.stderr)
                failed.append(name)
    print("%d faults; the vectors are in %s" % (len(failed), folder))
    return 1 if failed else 0


sys.exit(main(*sys.argv[1:]))
