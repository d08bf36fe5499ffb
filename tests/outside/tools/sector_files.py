"""The files that `lost` names: of the sample, of what is no file system, of names that look like lines of debugfs, and of file
systems that are made here, whole ones and such as lost the sectors that are asked for."""

import os
import random
import re
import shutil
import sys
import unittest

import tool_calls
from harness import Case, run
from tool_calls import read

# Names that debugfs prints as they are. The last makes a line that looks like one about another inode.
ODD = ["plain", "sp ace ", "two\nlines", "esc\x1b[2Jape", 'q"uote \\back', b"bad\xff".decode("utf-8", "surrogateescape")]


UNCOMPARED = b": nothing of the volume is there with which it could be compared\n"


def found(name):
    """The path of a program, which may stand where only the administrator's programs do."""
    return shutil.which(name) or shutil.which(name, path="/usr/sbin:/sbin")


def files(program, top, asked, image):
    """What `lost` says of these sectors of an image: runs of a first one and how many."""
    size, areas, at = -(-os.path.getsize(image) // 512), [], 0
    for first, count in asked:
        areas += [(at, first, "+"), (first, first + count, "-")]
        at = first + count
    rows = "".join("0x%x 0x%x %s\n" % (512 * begin, 512 * (end - begin), status) for begin, end, status in [*areas, (at, size, "+")] if begin < end)
    rescue = program.file("files/map", "0x0 ?\n" + rows)
    got = tool_calls.call(top, ["lost", "--program", program.path, image, image, "--saved", image, "--map", "%s=%s" % (image, rescue)])
    got.err = got.err.replace(image.encode() + UNCOMPARED, b"")
    return got


def said(*rows, sectors, lost):
    """The lines of files with how many sectors each lost, and the last one."""
    return "".join("%d sectors: %s\n" % row for row in rows) + "%d sectors lost of %d\n" % (lost, sectors)


def test_sample(tally, program, top):
    """Sectors of the sample."""
    sample = os.path.join(tool_calls.samples(top), "home.img")
    sectors = os.path.getsize(sample) // 512
    for asked, rows in [
            ([(46, 5)], [(5, "/numbers.txt")]),
            ([(51, 12)], [(4, "/old/copy.txt"), (4, "/old/list.txt"), (1, "/numbers.txt"), (2, "/report.odt"), (2, "folder /old"), (3, "unused")]),
            ([(0, 4), (58, 1)], [(1, "/report.odt"), (4, "in use")])]:
        rows = sorted(rows, key=lambda row: row[1].replace("folder ", ""))
        tally.same("files of %s" % asked, files(program, top, asked, sample), 0, said(*rows, sectors=sectors, lost=sum(count for _, count in asked)))


def test_refusals(tally, program, top):
    """What is no file system, of which the sectors are counted; what looks like one, without debugfs and with it."""
    image = program.file("files/none", bytes(100352))
    tally.same("files of no file system", files(program, top, [(0, 1), (7, 2)], image), 0, said((3, "no file system"), sectors=196, lost=3))
    image = program.file("files/magic", bytes(1080) + b"\x53\xef" + bytes(100352 - 1082))
    got = files(program, top, [(0, 1)], image)
    begins = ("dmremap-tools lost: %s: debugfs says: " % image).encode()
    tally.holds("files of a damaged file system", (got.status, got.out) == (1, b"") and got.err.startswith(begins), got.err)


def test_saved(tally, program, top):
    """What --saved names is the copy of the volume, by its length and by its first bytes, where these are there."""
    sample, size = read(os.path.join(tool_calls.samples(top), "home.img")), os.path.getsize(os.path.join(tool_calls.samples(top), "home.img"))
    image, rescue = program.file("files/volume", sample), "0x0 ?\n0x0 %s +\n%s 0x200 -\n%s %s +\n" % (hex(size - 1024), hex(size - 1024), hex(size - 512), hex(512))
    other = sample[:1024 + 104] + b"another id......" + sample[1024 + 120:]
    give = "give the copy of %s that `save` made, or leave --saved out" % image
    for name, content, why in (
            ("the copy", sample, ""), ("a copy in which the lost sector is zeros", sample[:-1024] + bytes(512) + sample[-512:], ""),
            ("a longer file", sample + bytes(512), "it has %d bytes, and the volume %d: %s" % (size + 512, size, give)),
            ("another file system", other, "it has other bytes than the volume, from byte 0 on: " + give),
            ("no file system", bytes(size), "it has other bytes than the volume, from byte 0 on: " + give)):
        saved = program.file("files/saved", content)
        got = tool_calls.call(top, ["lost", "--program", program.path, image, image, "--saved", saved, "--map", "%s=%s" % (image, program.file("files/map", rescue))])
        tally.tells("files by " + name, got, 1 if why else 0, "" if why else "1 sectors lost of", "dmremap-tools lost: %s: %s\n" % (saved, why) if why else "")


def test_large_inodes(tally, program, top):
    """Inodes of two sectors, of which either one is asked for."""
    image = made(tally, program, "large inodes", {it: b"x" for it in ("one", "two", "three", "four", "five")}, "-t", "ext4", "-b", "4096", "-I", "1024")
    if not image:
        return
    for name in ("one", "two", "three", "four", "five"):
        printed = run([found("debugfs"), "-R", "imap /" + name, image]).out.decode()
        block, offset = re.search(r"located at block (\d+), offset (0x[0-9a-f]+)", printed).groups()
        sector = 8 * int(block) + int(offset, 16) // 512
        for at in (sector, sector + 1):
            got = files(program, top, [(at, 1)], image)
            tally.same("sector %d of the inode of %s" % (at - sector, name), got, 0, said((1, "inode table: /" + name), sectors=16384, lost=1))


def test_killed(tally, program, top):
    """A debugfs that is killed: where it is asked for something besides, that is no answer; and where other options help, it is."""
    sample, real = os.path.join(tool_calls.samples(top), "home.img"), found("debugfs")
    folder = os.path.dirname(program.file("killed/map", "0x0 ?\n0x0 0x8000 -\n0x8000 0x7000 +\n"))
    words = [sys.executable, os.path.join(top, tool_calls.TOOL), "lost", "--program", program.path, sample, sample, "--saved", sample, "--map", sample + "=" + os.path.join(folder, "map")]
    whole = run(words).out
    for at, pattern, status in (("many", '*" -f "*', 5), ("first", '*" -R stats "*', 5), ("plain", '"plain -R"*', 0)):
        script = program.file("killed/debugfs", '#!/bin/sh\ncase "$DIES_AT $*" in %s) kill -9 $$ ;; esac\nexec %s "$@"\n' % (pattern, real))
        os.chmod(script, 0o755)
        got = run(words, env=dict(os.environ, DIES_AT=at, PATH=folder + os.pathsep + os.environ["PATH"]))
        is_told = (script + ": it was ended by signal 9\n").encode() in got.err
        # Other options don't tell what is free.
        rows, wanted = ([row for row in out.splitlines() if b"/" in row] for out in (got.out, b"" if status else whole))
        is_so = is_told and got.status == status and bool(got.out) == (not status) and rows == wanted
        tally.holds("files by a debugfs that is killed, " + at, is_so, "%s, %r, %r" % (got.status, got.out, got.err))


def made(tally, program, name, contents, *words, size="8M"):
    """A file system with these files, or None."""
    for path, content in contents.items():
        program.file("%s/%s" % (name, path), content)
    image = os.path.join(program.folder, name + ".img")
    words = words or ("-t", "ext4", "-b", "1024")
    ran = run([found("mke2fs"), "-q", *words, "-d", os.path.join(program.folder, name), image, size])
    return image if tally.holds("the file system %s is made" % name, ran.status == 0, ran.err) else None


def all_files(program, top, image):
    """How many sectors of a file system each file has, and what else is said of them."""
    got = files(program, top, [(0, os.path.getsize(image) // 512)], image)
    lines = [row.split(" sectors: ", 1) for row in got.out.decode("utf-8", "surrogateescape").splitlines()[:-1]]
    return got, {name[len("folder "):] if name.startswith("folder ") else name: int(count) for count, name in lines}


def test_odd_names(tally, program, top):
    """Names with line feeds, escapes and quotes, and folders that look as if the next line were about another inode."""
    contents = {name: os.urandom(3000) for name in ODD}
    contents.update({"d\n%d\t/victim%d" % (inode, inode): os.urandom(1024) for inode in range(11, 30)})
    image = made(tally, program, "odd names", contents)
    if not image:
        return
    got, found_files = all_files(program, top, image)
    wanted = {"/plain": 6, "/sp ace ": 6, '"/two\\nlines"': 6, '"/esc\\x1b[2Jape"': 6, '/q"uote \\back': 6, '"/bad\\xff"': 6}
    wanted.update({'"/d\\n%d\\t/victim%d"' % (inode, inode): 2 for inode in range(11, 30)})
    named = {name: count for name, count in found_files.items() if ("/" in name and count != 2 or "victim" in name) and "inode table" not in name}
    named.pop("/lost+found", None)
    tally.holds("odd names", (got.status, got.err, named) == (0, b"", wanted), "%r, %r" % (got.err, found_files))


def asked_of(image, request):
    """What debugfs answers."""
    return run([found("debugfs"), "-R", request, image]).out.decode()


KINDS = [("-t", "ext2", "-b", "1024"), ("-t", "ext3", "-b", "2048"), ("-t", "ext4", "-b", "4096"),
         ("-t", "ext4", "-b", "1024", "-g", "1024"), ("-t", "ext4", "-O", "^sparse_super,^resize_inode", "-b", "1024", "-g", "2048"),
         ("-t", "ext4", "-O", "sparse_super2,^resize_inode", "-b", "1024", "-g", "2048"), ("-t", "ext4", "-O", "bigalloc", "-b", "1024"),
         ("-t", "ext4", "-O", "meta_bg,^resize_inode", "-b", "1024", "-g", "1024"), ("-t", "ext4", "-I", "1024", "-N", "64"),
         # A label of what str.isdigit takes for digits, and int doesn't.
         ("-t", "ext4", "-b", "1024", "-L", "²²")]


def test_whole(tally, program, top):
    """In whole file systems of many kinds each block in use is a file's or the system's, and each file has its blocks."""
    for number, words in enumerate(KINDS):
        image = made(tally, program, "whole%d" % number, {"a": os.urandom(9), "d/e": os.urandom(400000), "d/f": os.urandom(3000)}, *words)
        if not image:
            continue
        got, found_files = all_files(program, top, image)
        size = int(re.search(r"^Block size: +(\d+)$", asked_of(image, "stats -h"), re.M)[1]) // 512
        wanted = {name: size * len(asked_of(image, "blocks " + name).split()) for name in ("/a", "/d", "/d/e", "/d/f")}
        is_so = got.status == 0 and not got.err and "no inode" not in found_files and all(found_files.get(name, 0) >= count for name, count in wanted.items())
        tally.holds("the whole file system of %s" % " ".join(words), is_so, "%r, %r, %r" % (got.err, found_files, wanted))


def test_lost(tally, program, top):
    """File systems whose sectors read as zeros, as ddrescue leaves them: the files of what was lost there are named."""
    names = ["/d/f%d" % it for it in range(6)]
    image = made(tally, program, "lost", {**{it[1:]: os.urandom(3000) for it in names}, "big": os.urandom(200000)}, size="24M")
    if not image:
        return
    stats = asked_of(image, "stats")
    table, bitmap = (int(re.search(form, stats)[1]) for form in (r"inode table at (\d+)", r"block bitmap at (\d+)"))
    inodes = {it: int(re.search(r"Inode (\d+) is part", asked_of(image, "imap " + it))[1]) for it in names}
    # Two inodes of 256 bytes lie in a sector.
    place = 2 * table + (inodes[names[-1]] - 1) // 2
    mates = [(1, "inode table: " + it) for it in names if 2 * table + (inodes[it] - 1) // 2 == place]
    inode = inodes[names[-1]]
    directory, data = (int(asked_of(image, "blocks " + it).split()[0]) for it in ("/d", names[-1]))
    rows = [
        ("an inode", [(place, 1)], [*mates, (2, "no inode")], None),
        ("a directory", [(2 * directory, 2)], [(2, "folder /d"), (2, "inode %d" % inode)], "debugfs: ncheck: "),
        ("the superblock", [(2, 2)], [(2, names[-1]), (2, "in use")], "debugfs: Bad magic number"),
        ("the descriptors", [(4, 2)], [(2, names[-1]), (2, "in use")], "debugfs: "),
        ("a bitmap", [(2 * bitmap, 2)], [(2, names[-1]), (2, "in use")], "debugfs: "),
    ]
    for name, lost, lines, message in rows:
        damaged = program.file("lost.damaged", read(image))
        for at, count in lost:
            write_at(damaged, 512 * at, bytes(512 * count))
        asked = sorted([*lost, (2 * data, 2)])
        got = files(program, top, asked, damaged)
        wanted = said(*lines, sectors=49152, lost=sum(count for _, count in asked))
        is_so = (got.status, got.out) == (0, wanted.encode()) and (got.err == b"" if not message else got.err.startswith(message.encode()))
        tally.holds("files where %s is lost" % name, is_so, "%r and not %r; %r" % (got.out, wanted, got.err))


def test_lost_inodes(tally, program, top):
    """Where many inodes are lost, each of their names is found, though debugfs doesn't know any more how many there are."""
    names = {"/%s%d" % (kind, it) for kind in ("f", "linked") for it in range(6)}
    for it in range(6):
        os.link(program.file("inodes/f%d" % it), os.path.join(program.folder, "inodes", "linked%d" % it))
    image = made(tally, program, "inodes", {})
    if not image:
        return
    table = int(re.search(r"inode table at (\d+)", asked_of(image, "stats"))[1])
    inode_of = {it: int(re.search(r"Inode (\d+) is part", asked_of(image, "imap " + it))[1]) for it in names}
    inodes = sorted(inode_of.values())
    # Two inodes of 256 bytes lie in a sector.
    first, last = (2 * table + (it - 1) // 2 for it in (inodes[0], inodes[-1]))
    write_at(image, 512 * first, bytes(512 * (last + 1 - first)))
    got = files(program, top, [(first, last + 1 - first)], image)
    # Each is told with the lost sectors of its block, which has four inodes; the one before these is that of /lost+found.
    blocks = {name: (inode - 1) // 4 for name, inode in [*inode_of.items(), ("/lost+found", inodes[0] - 1)]}
    lost = range(first, last + 1)
    rows = [(sum(2 * (table + at) + half in lost for half in (0, 1)), "inode table: " + name) for name, at in sorted(blocks.items())]
    tally.same("the names of lost inodes", got, 0, said(*rows, sectors=16384, lost=len(lost)))


def test_xfs(tally, program, top):
    """An XFS file system: its files, the files of its inodes, and data whose inode is lost. btrfs is named."""
    image = program.file("btrfs.img", bytes(65536 + 64) + b"_BHRfS_M" + bytes(440))
    got = files(program, top, [(0, 1)], image)
    tally.same("files of btrfs", got, 1, "", "dmremap-tools lost: %s: it is btrfs, whose files have no places: see "
               "`btrfs inspect-internal logical-resolve`\n" % image)
    lost = [it for it in ("mkfs.xfs", "xfs_db") if not found(it)]
    if not found("xfs_db"):
        image = program.file("xfs.head", b"XFSB".ljust(4096, b"\0"))
        tally.same("files of XFS without xfs_db", files(program, top, [(0, 1)], image), 1, "",
                   "dmremap-tools lost: %s: it is XFS, which xfs_db reads, and that isn't here: install xfsprogs\n" % image)
    if lost:
        tally.skip("files of XFS", "there is no " + lost[0])
        return
    check_xfs_inodes(tally, program, top)
    image = made_xfs(tally, program)
    if image:
        check_whole_xfs(tally, program, top, image)
        check_damaged_xfs(tally, program, top, image)


def check_xfs_inodes(tally, program, top):
    """An inode of two sectors, of which either one is asked for."""
    image = made_xfs(tally, program, "-i", "size=1024")
    if not image:
        return
    with open(image, "rb") as file:
        # It begins so, as that of a file that all may read.
        sector = file.read(8 << 20).index(b"IN\x81\xa4") // 512
    for at in (sector, sector + 1):
        got = files(program, top, [(at, 1)], image)
        is_so = got.status == 0 and re.match(rb"1 sectors: inode table: /(d/f\.|g)\n", got.out)
        tally.holds("sector %d of an inode of XFS" % (at - sector), is_so, "%r, %r" % (got.out, got.err))


def made_xfs(tally, program, *words):
    """An XFS file system with two files, or None."""
    image = os.path.join(program.folder, "xfs.img")
    big, small = program.file("xfs/big", os.urandom(50000)), program.file("xfs/small", b"x")
    proto = program.file("xfs/proto", "/none\n0 0\nd--755 0 0\nd d--755 0 0\nf. ---644 0 0 %s\n$\ng ---644 0 0 %s\n$\n" % (big, small))
    ran = run([found("mkfs.xfs"), "-q", "-f", "-d", "file,name=%s,size=300m" % image, *words, "-p", proto])
    return image if tally.holds("an XFS file system is made", ran.status == 0, ran.err) else None


def check_whole_xfs(tally, program, top, image):
    """Its files."""
    got, place = all_files(program, top, image)
    wanted = {"/g": 8, "/d/f.": 104, "inode table: /d": 8, "inode table: /g": 8}
    is_so = (got.status, got.err) == (0, b"") and all(place.get(name) == count for name, count in wanted.items())
    tally.holds("files of XFS", is_so and "no inode" not in place, "%r, %r" % (got.err, place))


def check_damaged_xfs(tally, program, top, image):
    """One that is cut, and some with a changed superblock."""
    with open(image, "rb") as file:
        head = file.read(4096)
    cut = program.file("cut.img", head)
    got = files(program, top, [(0, 8)], cut)
    # What xfs_db says of it differs between its versions.
    begins, ends = ("dmremap-tools lost: %s: xfs_db says: " % cut).encode(), b"; see `xfs_repair -n`\n"
    is_told = got.err.startswith(begins) and got.err.endswith(ends)
    tally.holds("files of an XFS that is cut", (got.status, got.out) == (1, b"") and is_told, got.err)
    dice = random.Random(1)
    for _ in range(10):
        changed = bytearray(head)
        for _ in range(4):
            changed[dice.randrange(4, 272)] = dice.choice([0, 1, 255, dice.randrange(256)])
        write_at(image, 0, changed)
        got = files(program, top, [(0, 800)], image)
        tally.holds("files of a changed XFS", got.status in (0, 1) and b"Traceback" not in got.err, "%s, %r" % (got.status, got.err))


def write_at(path, at, content):
    with open(path, "r+b") as file:
        file.seek(at)
        file.write(content)


class SectorFiles(Case):
    """Files of the sample, and of file systems that are made here."""

    @classmethod
    def setUpClass(cls):
        lost = [it for it in ("mke2fs", "debugfs") if not found(it)]
        if lost:
            raise unittest.SkipTest("files of sectors: there is no " + lost[0])
