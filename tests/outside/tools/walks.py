"""From images of disks alone to metadata, tables, a file's bytes and a lost file's name: over the samples of the tutorial, and
over a file system that is made here."""

import os
import random
import shutil

import lvm_texts
import tool_calls
from harness import run
from lvm_texts import dashed
from physical_volumes import FIRST, SECTOR, TIME, area, gpt, patched, volume, with_backup
from tool_calls import read

# Sectors of an extent, those before the first, and the bytes of a metadata area, which ends there.
EXTENT, BEFORE, AREA = 8, 24, 8192
# Where the partition begins on the disk that has one, and the sectors of a partition table, which follow it.
PARTITION, TABLE = 40, 32
IDS = ("AAAAAAbbbbccccddddeeeeffffGGGGG1", "AAAAAAbbbbccccddddeeeeffffGGGGG2", "AAAAAAbbbbccccddddeeeeffffGGGGG3")
HINTS = ("/dev/sda1", "/dev/sda", "/dev/sdc")
NAMES = ("a.img", "b.img", "c.img")

def laid_out(count):
    """Segments of a volume of so many extents: striped over the first two disks, linear on the third, striped again. Each is its
    extents and columns, which are a disk and an extent of it."""
    ends, middle = count // 3 // 2 * 2, count - 2 * (count // 3 // 2 * 2)
    return [(ends, [(0, 0), (1, 0)]), (middle, [(2, 0)]), (ends, [(0, ends // 2), (1, ends // 2)])]


def metadata(segments, sizes):
    """What lvm2 writes into a metadata area of this group."""
    physicals = [lvm_texts.physical("pv%d" % place, HINTS[place], size, BEFORE, (size - BEFORE) // EXTENT, 'id = "%s"' % dashed(IDS[place]))
                 for place, size in enumerate(sizes)]
    made, at = [], 0
    for count, columns in segments:
        size = EXTENT if len(columns) > 1 else None
        made.append(lvm_texts.striped(at, count, *(("pv%d" % disk, extent) for disk, extent in columns), size=size))
        at += count
    home = lvm_texts.volume("home", *made, more=['id = "%s"' % dashed("AAAAAAbbbbccccddddeeeeffffGGGGG9")])
    text = lvm_texts.group("vg", EXTENT, physicals, [home], 'id = "%s"' % dashed("AAAAAAbbbbccccddddeeeeffffGGGGG0"), "seqno = 4")
    return (text + lvm_texts.HEAD + 'creation_host = "host"\n').encode() + TIME + b"\0"


def images(content):
    """Three images that a volume with this content lies on: a disk with a GPT, and two whole disks."""
    segments = laid_out(len(content) // SECTOR // EXTENT)
    sizes = [BEFORE + EXTENT * sum(count // len(columns) for count, columns in segments for disk, _ in columns if disk == number)
             for number in range(len(IDS))]
    text = metadata(segments, sizes)
    made = [bytearray(volume((FIRST, area(text, SECTOR, size=AREA)), length=size * SECTOR, size=size * SECTOR, identity=it.encode()))
            for size, it in zip(sizes, IDS)]
    at = 0
    for count, columns in segments:
        for extent in range(count):
            disk, first = columns[extent % len(columns)]
            to = (BEFORE + EXTENT * (first + extent // len(columns))) * SECTOR
            made[disk][to:to + EXTENT * SECTOR] = content[at:at + EXTENT * SECTOR]
            at += EXTENT * SECTOR
    entry = (PARTITION, PARTITION + sizes[0] - 1)
    disk = gpt(entry, last=PARTITION + sizes[0] + TABLE).ljust(PARTITION * SECTOR, b"\0") + bytes(made[0])
    return [with_backup(disk, entry), bytes(made[1]), bytes(made[2])]


def lost(image, areas):
    """An image as ddrescue leaves it where these areas, a first sector and a number, couldn't be read, and its map."""
    image, rows, at = bytearray(image), [], 0
    for first, count in areas:
        image[first * SECTOR:(first + count) * SECTOR] = bytes(count * SECTOR)
        rows += [(at, first * SECTOR - at, "+"), (first * SECTOR, count * SECTOR, "-")]
        at = (first + count) * SECTOR
    rows.append((at, len(image) - at, "+"))
    return bytes(image), "# Mapfile. Created by GNU ddrescue version 1.27\n0x00000000     +               1\n" \
        + "".join("0x%08X  0x%08X  %s\n" % it for it in rows if it[1])


def sample_images(home):
    """The images and the map of the tutorial: on the third disk the sectors of two names of one file are lost."""
    made = images(home)
    damaged, rescue = lost(made[2], [(BEFORE + 54 - EXTENT * laid_out(len(home) // SECTOR // EXTENT)[0][0], 4)])
    return dict(zip(NAMES, [made[0], made[1], damaged])), rescue


def test_samples(tally, top):
    folder = tool_calls.samples(top)
    home = read(os.path.join(folder, "home.img"))
    made, rescue = sample_images(home)
    for name, content in [*made.items(), ("c.map", rescue.encode())]:
        found = read(os.path.join(folder, name))
        tally.holds("the sample " + name, found == content, "it is not what this module makes")


def test_walks(tally, program, top):
    missing = [it for it in ("mke2fs", "debugfs") if not shutil.which(it, path=os.environ["PATH"] + ":/sbin:/usr/sbin")]
    if missing:
        tally.skip("a walk from images to files", "there is no " + missing[0])
        return
    for seed in range(2):
        check_walk(tally, program, top, random.Random(seed))


def file_system(program, dice):
    """The image of a file system, and the content of each of its files."""
    files = {"f%d" % it: os.urandom(dice.choice([100, 5000, 70000])) for it in range(12)}
    for name, content in files.items():
        program.file("walk/files/" + name, content)
    path = os.path.join(program.folder, "walk", "system")
    made = run(["mke2fs", "-q", "-F", "-t", "ext4", "-b", "1024", "-d", os.path.join(program.folder, "walk", "files"), path, "4M"],
               env=dict(os.environ, PATH=os.environ["PATH"] + ":/sbin:/usr/sbin"))
    assert made.status == 0, made.err
    return read(path), files


def check_walk(tally, program, top, dice):
    """The commands of the tutorial, over disks of which one has lost its partition table's first copy, and one some sectors."""
    folder = os.path.dirname(program.file("walk/disks"))
    shutil.rmtree(folder)
    os.mkdir(folder)
    content, files = file_system(program, dice)
    a, b, c = images(content)
    linear = laid_out(len(content) // SECTOR // EXTENT)[0][0] * EXTENT
    gone = sorted(dice.sample(range(BEFORE, len(c) // SECTOR - 2, 2), 30))
    damaged, rescue = lost(c, [(it, 2) for it in gone])
    for name, image in zip(NAMES, [bytes(34 * SECTOR) + a[34 * SECTOR:], b, damaged]):
        program.file("walk/" + name, image)
    program.file("walk/c.map", rescue)

    def tool(*words, to=None):
        got = tool_calls.call(top, [*words, *(["--program", program.path] if words[0] in ("save", "owner", "lost") else [])], folder=folder)
        tally.holds("the step %s of a walk" % words[0], got.status == 0, "status %s, %r" % (got.status, got.err))
        if to:
            program.file("walk/" + to, got.out)
        return got.out.decode()

    tool("metadata", *NAMES, to="vg.backup")
    text = tool("metadata", "a.img?offset=%d" % (PARTITION * SECTOR))
    tally.holds("the text of the partition", text.encode() == read(os.path.join(folder, "vg.backup")), "it is another")
    tool("save", "vg/home", "saved", *NAMES)
    wanted = patched(content, *((it - BEFORE + linear, bytes(2 * SECTOR)) for it in gone), unit=SECTOR)
    tally.holds("a volume that was saved", read(os.path.join(folder, "saved")) == wanted, "it is another")
    # By the ids in the labels, a whole disk will do for its partition.
    program.file("walk/paths", "".join("%s %s\n" % it for it in zip(HINTS, NAMES)))
    tool("save", "--paths", "paths", "vg-home", "again", "lvm", "vg.backup")
    tally.holds("a volume out of its group", read(os.path.join(folder, "again")) == wanted, "it is another")
    # An image without anything says nothing.
    program.file("walk/empty", "")
    program.file("walk/lacking", "".join("%s %s\n" % it for it in zip(HINTS, ("a.img", "empty", "c.img"))))
    got = tool_calls.call(top, ["save", "--program", program.path, "--paths", "lacking", "vg-home", "gaps", "lvm", "vg.backup"], folder=folder)
    is_refused = got.status == 1 and b"vg-home: empty ends at byte 0; or give" in got.err and not os.path.exists(os.path.join(folder, "gaps"))
    tally.holds("a volume of a disk without an image", is_refused, "%s, %r" % (got.status, got.err))
    owned = tool("owner", *NAMES, "--map", "c.img=c.map").splitlines()
    tally.holds("who has the sectors that are lost", len(owned) == len(rescue.split("-")) - 1 and all("= vg/home" in line for line in owned), owned)
    named = set(tool("lost", "vg/home", *NAMES, "--map", "c.img=c.map").replace(": ", " ").split())
    lacking = {"/" + name for name, data in files.items() if dumped(folder, name) != data}
    tally.holds("the files that are lost", lacking and lacking <= named, "%s are not named" % sorted(lacking - named))
    kept = {"/" + name for name in files} - named
    tally.holds("the files that are whole", kept and not kept & lacking, "of %s some are not" % sorted(kept))


def dumped(folder, name):
    """A file of the file system that was saved."""
    env = dict(os.environ, PATH=os.environ["PATH"] + ":/sbin:/usr/sbin")
    return run(["debugfs", "-R", "cat /" + name, "saved"], folder=folder, env=env).out
