"""The command that finds metadata at the head of a physical volume: over its sample, over heads that are damaged or
easily taken wrong, over each length of one, and over each bit that may have been flipped where one of three sums is kept."""

import contextlib
import importlib
import os

import containers
import images
import tool_calls
from dmremap_tools.formats import luks_header
from harness import NOBODY, Case, run
from physical_volumes import (FIRST, MAGIC, SECTOR, area, damaged, gpt, label, mbr, md_member, patched, text_of_area,
                              volume, with_backup)
from tool_calls import read

# Where the sample has the text of a group that was removed, and where the valid one, which goes round the ring.
OLD, VALID = 2048, 3840
SIZE = 4096
OTHER = ": try another physical volume of the group, or a file in /etc/lvm/backup"
LISTED = OTHER + ", or see what is left of older texts with --list"
ONE = "the metadata area at byte 4096: "
# Where the second area of the images here begins.
SECOND = 65536
TEXT = b'vg0 {\nid = "AAAAAA"\nseqno = 7\n}\ncontents = "x"\n\0'
NEWER = TEXT.replace(b"7", b"10")
SEARCHED = "metadata areas were looked for in the first and last 4 MiB\n"
NOTHING, UNLABELLED = "no physical volume is found", "there is no label in the first four sectors"
SAID = "dmremap-tools metadata: "


class Command:
    """The command, and what is made of its answers. Those about files and about the sample are run as from a shell."""

    def __init__(self, tally, program, top):
        self.tally, self.program, self.top = tally, program, top
        self.path = program.file("head", "")
        self.folder = os.path.dirname(self.path)

    def run(self, *words, **how):
        """Runs it in the folder of the images."""
        return run([os.path.join(self.top, tool_calls.TOOL), "metadata", *words], folder=self.folder, **how)

    def answer(self, words):
        """What it answers to these words in that folder."""
        return tool_calls.call(self.top, ["metadata", *words], folder=self.folder)

    def takes(self, name, head, text, message="", words=("head",)):
        """It prints this text, and says this of it."""
        self.program.file("head", head)
        self.tally.same("the text of " + name, self.answer(words), 0, text.rstrip(b"\0"), message and "head: " + message)

    def refuses(self, name, head, message, words=("head",), path="head", told=""):
        """It refuses an image, with this message, and tells something before."""
        self.program.file("head", head)
        self.tally.same("the text of " + name, self.answer(words), 1, "", told + SAID + path + ": " + message + "\n")


def sample(group):
    """The valid text goes round the ring, and one of a group that was removed has the higher number."""
    gone = group.replace(b"pe_start = 2048", b"pe_start = 4096").replace(b"pe_count = 128", b"pe_count = 127")
    old, valid = text_of_area(gone, b"AAAAAA", 13), text_of_area(group, b"BBBBBB", 2)
    return volume((FIRST, area(valid, VALID, others=[(OLD, old)]))), old[:-1], valid[:-1]


def test_sample(tally, program, command, group):
    head, _, valid = sample(group)
    path = os.path.join(tool_calls.samples(command.top), "vg0-head.img")
    tally.holds("the sample of a metadata area", read(path) == head, "it is not what this module makes")
    got = command.run(path)
    tally.same("the text of a metadata area", got, 0, valid)
    wanted = program.run(["table", "lvm", os.path.join(command.top, "examples", "vg0.backup")]).out
    tally.same("the table of that text", program.run(["table", "lvm", program.file("area", got.out)]), 0, wanted)


def test_rings(command, group):
    whole = text_of_area(group, b"CCCCCC", 3)
    for size in (SECTOR + len(whole), SIZE, 1 << 21):
        for offset in (SECTOR, size - 1, size - len(whole)):
            head = volume((FIRST, area(whole, offset, size=size)), length=FIRST + size // SECTOR * SECTOR + SECTOR)
            command.takes("one at %d of an area of %d bytes" % (offset, size), head, whole)


def test_flips(tally, group):
    """No bit of the label's sector, of the area's header and of the text may be another: it is refused, or the text is right."""
    whole = text_of_area(group, b"CCCCCC", 3)
    parts = [("label", range(SECTOR, 2 * SECTOR), True), ("header", range(FIRST, FIRST + SECTOR), False)]
    for offset in (VALID, SECTOR, SIZE - 1, SIZE - 20):
        head = bytearray(volume((FIRST, area(whole, offset))))
        ring = [FIRST + (it if it < SIZE else it - SIZE + SECTOR) for it in range(offset, offset + len(whole))]
        for name, places, may_be_taken in parts * (offset in (VALID, SECTOR)) + [("text", ring, False)]:
            found = [flipped(head, place, bit) for place in places for bit in range(8)]
            wanted = whole[:-1] if may_be_taken else None
            wrong = [place for place, it in enumerate(found) if it != wanted]
            tally.holds("each bit of the %s flipped, of a text at %d" % (name, offset), not wrong,
                        "other answers for the bits %s of %d" % (wrong[:5], len(found)))


def flipped(head, place, bit):
    """The text with a bit flipped, or None where it is refused."""
    head[place] ^= 1 << bit
    try:
        return text_in(head)
    finally:
        head[place] ^= 1 << bit


def text_in(head):
    """The text of a head, or None where it is refused."""
    device, metadata, refusal = (importlib.import_module("dmremap_tools." + it) for it in ("model.device", "metadata.metadata", "base.refusal"))
    with contextlib.suppress(refusal.Refusal), unsaid():
        sectors = len(head) // SECTOR * SECTOR
        volume = metadata.volume_of(device.Known("head", sectors, lambda start, size: bytes(head[start:start + size])))
        return volume and metadata.valid_text(volume).content
    return None


@contextlib.contextmanager
def unsaid():
    """What is told within isn't shown."""
    streams = importlib.import_module("dmremap_tools.base.streams")
    tell, streams.tell = streams.tell, lambda text: None
    try:
        yield
    finally:
        streams.tell = tell


def test_lengths(tally, group):
    """An image that ends anywhere is refused in words, with and without its label, or the text is right."""
    whole = text_of_area(group, b"CCCCCC", 3)
    head = volume((FIRST, area(whole)))
    at = -(-(FIRST + SECTOR + len(whole)) // SECTOR) * SECTOR
    for name, image in (("a head", head), ("one without a label", patched(head, (SECTOR, bytes(SECTOR))))):
        found = [text_in(image[:length]) for length in range(len(image))]
        wrong = [length for length, it in enumerate(found) if it != (whole[:-1] if length >= at else None)]
        tally.holds("each length of " + name, not wrong, "other answers for the lengths %s" % wrong[:5])


ONE_AREA = volume((FIRST, area(TEXT)))
TWO_AREAS = volume((FIRST, area(TEXT)), (SECOND, area(NEWER, start=SECOND)))
NO_LABEL = patched(ONE_AREA, (SECTOR, bytes(SECTOR)))
OTHER_GROUP = TEXT.replace(b"AAAAAA", b"BBBBBB")

SUMMARY = "vg0 seqno %d, volumes: none\n"
OLDER = (ONE + "its text is older: " + SUMMARY % 7).join(["passed over: ", "head: taken: the metadata area at byte 65536: " + SUMMARY % 10])
BOTH_TOLD = "head: " + ONE + SUMMARY % 7 + "head: the metadata area at byte 65536: " + SUMMARY % 7

REFUSED = [
    ("zeros", bytes(8192), NOTHING + OTHER),
    ("no group", volume((FIRST, area(b"")), is_used=False), "the physical volume belongs to no group: see what is left of older texts with --list"),
    # Labels of version 1 don't say whether the volume belongs to a group.
    ("no text, and a label of version 1", volume((FIRST, area(b"")), is_used=False, version=1), ONE + "it has no text" + LISTED),
    ("no text, of a group", volume((FIRST, area(b""))), ONE + "it has no text" + LISTED),
    ("no area", volume(), "this physical volume keeps no metadata" + OTHER),
    ("an area that is not used", volume((FIRST, area(TEXT, flags=1))), ONE + "lvm2 keeps no text in it" + LISTED),
    ("an area whose header is gone", patched(ONE_AREA, (FIRST, bytes(SECTOR))), ONE + "it has no header" + LISTED),
    ("a flipped bit in the header", damaged(ONE_AREA, FIRST + 40), ONE + "the sum of its header is wrong" + LISTED),
    ("a flipped bit in the text", damaged(ONE_AREA, FIRST + SECTOR), ONE + "the sum of its text is wrong" + LISTED),
    ("an area of another version", volume((FIRST, area(TEXT, version=2))), ONE + "its header has the version 2" + LISTED),
    ("an area that was moved", volume((FIRST, area(TEXT, start=FIRST + SECTOR))),
     ONE + "its header says that it begins at byte 4608" + LISTED),
    ("a text in the header", volume((FIRST, area(TEXT, SECTOR - 1))), ONE + "its header names a place outside of it" + LISTED),
    ("a text after the area", volume((FIRST, area(TEXT[:1], SIZE))), ONE + "its header names a place outside of it" + LISTED),
    ("a text longer than the area", volume((FIRST, area(TEXT * 80))), ONE + "its header names a place outside of it" + LISTED),
    ("an area after the volume", patched(ONE_AREA, (SECTOR, label([(FIRST, SIZE)], size=FIRST + SIZE - 1))),
     ONE + "the label says that it ends after the volume" + LISTED),
    ("an area of more than 64 MiB", patched(ONE_AREA, (SECTOR, label([(FIRST, 65 << 20)], size=1 << 40))),
     ONE + "it has 68157440 bytes, and no more than 67108864 are read" + LISTED),
    ("an area larger than the label says", patched(ONE_AREA, (SECTOR, label([(FIRST, SIZE - SECTOR)]))),
     ONE + "its header says that it has 4096 bytes, of which there are 3584" + LISTED),
    ("an image that ends in the text", ONE_AREA[:FIRST + SECTOR + 10],
     ONE + "the image ends before it does: take more of the disk"),
    ("an image that ends in the header", ONE_AREA[:FIRST + 10],
     ONE + "the image ends before it does: take more of the disk"),
    ("an image that ends in the label", ONE_AREA[:SECTOR + 100], NOTHING + OTHER),
    ("two areas of different groups", volume((FIRST, area(TEXT)), (SECOND, area(OTHER_GROUP, start=SECOND))), BOTH_TOLD,
     "the metadata areas at byte 4096 and 65536 have texts of different groups" + OTHER),
    ("two texts with one seqno", volume((FIRST, area(TEXT)), (SECOND, area(TEXT.replace(b"}", b"x = 1\n}"), start=SECOND))), BOTH_TOLD,
     "the metadata areas at byte 4096 and 65536 have different texts with one seqno" + OTHER),
    ("two areas that are damaged", damaged(damaged(TWO_AREAS, FIRST + 40), SECOND + SECTOR),
     ONE + "the sum of its header is wrong; the metadata area at byte 65536: the sum of its text is wrong" + LISTED),
    ("neither label nor header", damaged(NO_LABEL, FIRST + 40), UNLABELLED + OTHER),
    ("a volume without its first sector", ONE_AREA[SECTOR:], "the label in sector 0 says that it belongs in sector 1" + OTHER),
    ("many areas that are damaged", (bytes(4) + MAGIC).ljust(SECTOR, b"\0") * 20, UNLABELLED + OTHER),
    ("an image that ends after the text", ONE_AREA[:FIRST + SECTOR + len(TEXT)], ONE + "the image ends before it does: take more of the disk"),
    ("an image in another format", b"QFI\xfb" + bytes(8186), "it is an image of qcow2: convert it with qemu-img convert -O raw"),
    ("an image of VMDK", b"KDMV" + bytes(8188), "it is an image of VMDK: convert it with qemu-img convert -O raw"),
    ("an image that is compressed", b"\x28\xb5\x2f\xfd" + bytes(8188), "it is compressed (zstd): unpack it"),
    ("an encrypted disk", b"LUKS\xba\xbe" + bytes(8186), NOTHING
     + " (head: %s)" % (luks_header.DAMAGED if containers.is_read() else luks_header.UNASKED) + OTHER),
]

TAKEN = [
    ("a sound volume", ONE_AREA, TEXT, ""),
    ("a label in the fourth sector", patched(NO_LABEL, (3 * SECTOR, label([(FIRST, SIZE)], 3))), TEXT, ""),
    ("a damaged label before a sound one", damaged(patched(ONE_AREA, (3 * SECTOR, label([(FIRST, SIZE)], 3))), SECTOR + 50), TEXT, ""),
    ("a volume behind other sectors", bytes(8 * SECTOR) + ONE_AREA, TEXT, ""),
    ("five areas without a label", b"".join([bytes(SIZE)] + [area(TEXT, start=(1 + it) * SIZE) for it in range(5)]), TEXT, UNLABELLED + ": " + SEARCHED),
    ("one without a label", NO_LABEL, TEXT, UNLABELLED + ": " + SEARCHED),
    ("one whose label's sum is wrong", damaged(ONE_AREA, SECTOR + 50), TEXT, "the label in sector 1 has a wrong sum: " + SEARCHED),
    ("one whose label is for another sector", damaged(ONE_AREA, SECTOR + 8), TEXT,
     "the label in sector 1 says that it belongs in sector 0: " + SEARCHED),
    ("one whose label isn't called so", damaged(ONE_AREA, SECTOR), TEXT, UNLABELLED + ": " + SEARCHED),
    ("one with a volume of a guest on it", NO_LABEL.ljust(1 << 20, b"\0") + volume((FIRST, area(OTHER_GROUP))), TEXT,
     UNLABELLED + ": " + SEARCHED),
    ("two areas", TWO_AREAS, NEWER, OLDER),
    ("two areas, of which the first is damaged", damaged(TWO_AREAS, FIRST + SECTOR), NEWER,
     "passed over: the metadata area at byte 4096: the sum of its text is wrong\n"),
    ("two areas, of which the second is damaged", damaged(TWO_AREAS, SECOND + 40), TEXT,
     "passed over: the metadata area at byte 65536: the sum of its header is wrong\n"),
    # Of this one, dmremap itself answers.
    ("two areas, of which the first isn't used", volume((FIRST, area(TEXT, flags=1)), (SECOND, area(NEWER, start=SECOND))), NEWER, ""),
    ("two areas, of which the image has one", TWO_AREAS[:SECOND], TEXT,
     "passed over: the metadata area at byte 65536: the image ends before it does\n"),
    ("two areas with one text of different times", volume((FIRST, area(TEXT)), (SECOND, area(TEXT.replace(b"x", b"y"), start=SECOND))),
     TEXT, ""),
    ("two areas without a label", patched(TWO_AREAS, (SECTOR, bytes(SECTOR))), NEWER, UNLABELLED + ": "
     + SEARCHED + "head: " + OLDER),
    # The last bytes of a large image are searched too.
    ("a second area at the end, without a label", patched(volume((9 << 20, area(TEXT, start=9 << 20))), (SECTOR, bytes(SECTOR))),
     TEXT, UNLABELLED + ": " + SEARCHED),
]


def test_whole(tally, program, command):
    """Of a whole image dmremap's own answer is printed, so that nothing is told of an area that isn't used."""
    path = program.file("whole", images.disk("a", images.area(), images.area(b"x", flags=1)))
    env = dict(os.environ, PATH=os.path.dirname(program.path) + os.pathsep + os.environ["PATH"])
    tally.same("the text of a whole image", command.run(path, env=env), 0, images.TEXT[:-1])


def test_rows(command):
    for name, head, *told, message in REFUSED:
        command.refuses(name, head, message, told="".join(told))
    for name, head, text, message in TAKEN:
        command.takes(name, head, text, message)


def test_disks(command):
    """Images of whole disks, whose partitions have the physical volume."""
    for name, disk, message in DISKS:
        command.refuses(name, disk, message)
    for name, disk, start, text in PARTITIONS:
        command.takes(name, disk, text, "", ("head?offset=%d" % (start * SECTOR),))
    for name, disk in WHOLE:
        command.takes(name, disk, TEXT)
    for words in ("--list",), ("--at", "4608"):
        command.refuses("one of two volumes", TWO_VOLUMES, "it has several physical volumes: take one, as HEAD?offset=BYTES", (*words, "head"))


def disk_of(head, *parts):
    """The image of a disk: its first sectors, and parts from other sectors on."""
    return patched(head.ljust(max(at * SECTOR + len(it) for at, it in parts), b"\0"), *parts, unit=SECTOR)


MBR_DISK = disk_of(mbr((0x83, 64, 8), (0x8E, 128, 256)), (128, ONE_AREA))
GPT_DISK = disk_of(gpt((64, 71), None, (128, 255)), (128, ONE_AREA))
LARGE_SECTORS = disk_of(gpt((16, 31), sector=4096), (128, ONE_AREA))
BOTH = disk_of(mbr((0x83, 64, 8)), (1, ONE_AREA[SECTOR:]))
DAMAGED_GPT = "both copies of its partition table (GPT) are damaged: repair it in a copy with gdisk, or cut the partition out with dd"
WHOLE_DISK = "the image of a whole disk, which ends before its partition table (GPT) does: take more of the disk"

DISKS = [
    ("a disk without a physical volume", disk_of(mbr((0x83, 64, 8)), (72, b"")), NOTHING + OTHER),
    ("the beginning of a disk", MBR_DISK[:100 * SECTOR], NOTHING + OTHER),
    ("the beginning of a disk with a GPT", GPT_DISK[:50 * SECTOR], NOTHING + OTHER),
    ("a disk whose GPT isn't all there", GPT_DISK[:20 * SECTOR], "%s (%s)%s" % (NOTHING, WHOLE_DISK, OTHER)),
    ("a GPT with a damaged header", damaged(GPT_DISK, SECTOR + 72), "%s (%s)%s" % (NOTHING, DAMAGED_GPT, OTHER)),
    ("a GPT with a damaged entry", damaged(GPT_DISK, 2 * SECTOR + 32), "%s (%s)%s" % (NOTHING, DAMAGED_GPT, OTHER)),
    ("a GPT whose header is gone", patched(GPT_DISK, (SECTOR, bytes(SECTOR))), "%s (%s)%s" % (NOTHING, DAMAGED_GPT, OTHER)),
]

TWO_VOLUMES = disk_of(gpt((64, 127), (128, 255)), (64, ONE_AREA), (128, ONE_AREA))
WHOLE = [
    ("a disk with an MBR", MBR_DISK),
    ("a disk with two physical volumes", TWO_VOLUMES),
    ("a partition table beside a label", BOTH),
    ("the beginning of a disk with a physical volume", disk_of(gpt((64, 127), (128, 255)), (64, ONE_AREA))[:128 * SECTOR]),
]

PARTITIONS = [
    ("a partition", MBR_DISK, 128, TEXT),
    ("the disk itself", BOTH, 0, TEXT),
    ("the image of a partition", ONE_AREA, 0, TEXT),
]


def test_places(command):
    """Volumes that begin elsewhere, by a label, a partition table's second copy, or an array's superblock."""
    for name, disk, words in PLACES:
        command.takes(name, disk, TEXT, words=words or ["head"])
    for name, disk, words, message in NO_PLACES:
        command.refuses(name, disk, message, words or ["head"])


WITH_BACKUP = with_backup(GPT_DISK.ljust(256 * SECTOR, b"\0"), (64, 71), None, (128, 255))
LARGE_WITH_BACKUP = with_backup(LARGE_SECTORS.ljust(256 * SECTOR, b"\0"), (16, 31), sector=4096)
FAR = bytes(5 << 20) + ONE_AREA + bytes(5 << 20)
PLACES = [
    ("a volume that begins elsewhere", FAR, ["head?offset=%d" % (5 << 20)]),
    ("a label in the middle of an image", FAR, []),
    ("two labels", FAR + FAR, []),
    ("a GPT whose entries are damaged", damaged(WITH_BACKUP, 2 * SECTOR + 32), []),
    ("a GPT of large sectors whose beginning is gone", bytes(34 * SECTOR) + LARGE_WITH_BACKUP[34 * SECTOR:], []),
    # A volume on the whole disk goes before what is left of a table.
    ("a volume before a GPT that was", with_backup(ONE_AREA.ljust(256 * SECTOR, b"\0"), (128, 255)), []),
    ("a member of an array, version 1.1", md_member(ONE_AREA, 16), []),
    ("a member of an array, version 1.2", md_member(ONE_AREA, 2048, 4096), []),
    ("a member of an array in a partition", disk_of(mbr((0xFD, 128, 256)), (128, md_member(ONE_AREA, 16))), ["head?offset=65536"]),
    ("a member of an array on a whole disk", disk_of(mbr((0xFD, 128, 256)), (128, md_member(ONE_AREA, 16))), []),
]
OF_ARRAY = "md:" + b"an array of disks"[:16].hex()
NO_PLACES = [
    ("a start before the volume", bytes(16 * SECTOR) + ONE_AREA, ["head?offset=4096"], NOTHING + OTHER),
    ("a partition before the volume", disk_of(mbr((0x8E, 64, 256)), (72, ONE_AREA)), ["head?offset=32768"], NOTHING + OTHER),
    ("a start after the end", ONE_AREA, ["head?offset=1048576"], "it ends before byte 1048576: give a lower offset, or more of the disk"),
    ("a GPT whose copies are both damaged", damaged(damaged(WITH_BACKUP, SECTOR + 72), len(WITH_BACKUP) - SECTOR + 72), [],
     "%s (%s)%s" % (NOTHING, DAMAGED_GPT, OTHER)),
    ("a member of an array without a volume", md_member(bytes(8192), 16), [], "%s (%s: member 1 of %s is missing, and nothing else has its bytes: give its image)%s"
     % (NOTHING, OF_ARRAY, OF_ARRAY, OTHER)),
]


def test_heads(command):
    """Heads of several volumes of a group."""
    volumes = "}\nlogical_volumes {\nhome {\n}\nroot {\n}\n}"
    apart = TEXT.replace(b"7\n}", ("6\n" + volumes[2:] + "\n}").encode())
    texts = {"a": TEXT, "b": TEXT.replace(b'"x"', b'"y"'), "c": apart, "d": apart.replace(b"home", b"e\x1b")}
    for name, text in texts.items():
        command.program.file(name, volume((FIRST, area(text))))
    command.tally.same("two heads that agree", command.answer(["a", "b"]), 0, TEXT[:-1])
    said = "a: vg0 seqno 7, volumes: none\n"
    differ = SAID + "%s: the texts differ: look at what each has, and take the volume that is right alone\n"
    command.tally.same("two heads that differ", command.answer(["a", "c"]), 1, "", said + "c: vg0 seqno 6, volumes: home, root\n" + differ % "a")
    command.tally.same("heads with an escape", command.answer(["a", "d"]), 1, "", said + "d: vg0 seqno 6, volumes: e\\x1b, root\n" + differ % "a")
    # A whole disk among them, and one with volumes of two groups.
    command.program.file("disk", MBR_DISK)
    command.tally.same("a disk and a volume", command.answer(["disk", "b"]), 0, TEXT[:-1])
    command.program.file("disk", disk_of(gpt((64, 127), (128, 255)), (64, ONE_AREA), (128, volume((FIRST, area(apart))))))
    command.tally.same("volumes that differ", command.answer(["disk"]), 1, "",
                       "disk:1: vg0 seqno 7, volumes: none\ndisk:2: vg0 seqno 6, volumes: home, root\n" + differ % "disk:1")


def test_files(tally, program, command):
    """What can't be read: one line, status 1, and nothing of Python."""
    program.file("head", "")
    tally.same("the text of an empty file", command.run("head"), 1, "", SAID + "head: it is empty: give the image of a disk\n")
    program.file("head", bytes(74))
    tally.same("the text of a short file", command.run("head"), 1, "", SAID + "head: it is too short: it has 74 bytes: give the image of a disk\n")
    program.file("head", ONE_AREA)
    os.chmod(command.path, 0)
    with as_nobody():
        got = command.answer(["head"])
    os.chmod(command.path, 0o644)
    tally.same("the text of an unreadable file", got, 1, "", SAID + "head: Permission denied\n")
    tally.same("the text of a pipe", command.run("-", given=ONE_AREA), 1, "",
               SAID + "/dev/stdin: neither a file nor a disk: give an image of the disk\n")
    got = command.run("--list", "head", "head")
    tally.same("the list of two heads", got, 2, "", SAID + "--list and --at take one HEAD\n")


@contextlib.contextmanager
def as_nobody():
    """As root reads every file, what is within is done as somebody else."""
    user = os.geteuid()
    if user == 0:
        os.seteuid(NOBODY)
    try:
        yield
    finally:
        os.seteuid(user)


def test_texts(tally, command, group):
    """The texts that are left where the header is lost; one that the end of the area cuts is not printed."""
    head, old, valid = sample(group)

    def texts(image, *words):
        command.program.file("head", image)
        return command.answer([*words, "head"])

    lost = head.replace(MAGIC, bytes(len(MAGIC)))
    listed = "%d vg0 AAAAAA seqno 13 - Tue Nov 14 22:13:20 2023\n%d vg0 BBBBBB seqno 2 - Tue Nov 14 22:13:20 2023\n" % (FIRST + OLD, FIRST + VALID)
    tally.same("the texts of an area", texts(lost, "--list"), 0, listed)
    tally.same("one of them", texts(lost, "--at", str(FIRST + OLD)), 0, old)
    tally.same("one that goes round the ring", texts(lost, "--at", str(FIRST + VALID)), 0, valid)
    tally.same("the texts of a group that was removed", texts(no_group(head), "--list"), 0, listed)
    nowhere = patched(lost, (SECTOR, bytes(SECTOR)))
    cut = listed.replace("2 - Tue Nov 14 22:13:20 2023", "2 - cut")
    tally.same("the texts of an area that nothing tells of", texts(nowhere, "--list"), 0, cut)
    for place, message in (FIRST + VALID, "the text is cut"), (FIRST + OLD + 1, "there is no text"):
        tally.same("the text at %d" % place, texts(nowhere, "--at", str(place)), 1, "", SAID + "head: %s at byte %d: see with --list which are whole\n" % (message, place))
    tally.same("the texts of no area", texts(bytes(8192), "--list"), 1, "", SAID + "head: there is no text of a group: take another physical volume, or a file in /etc/lvm/archive\n")
    escapes = patched(lost, (FIRST + OLD, old.replace(b"AAAAAA", b"A\x1b[7mA")))
    tally.same("a text with an escape", texts(escapes, "--list"), 0, listed.replace("AAAAAA", "A\\x1b[7mA"))
    # A text whose end another one has taken is no whole one, though a time follows.
    taken = patched(lost, (FIRST + OLD + SECTOR, old))
    lines = texts(taken, "--list").out.decode().splitlines()
    tally.holds("a text that another one cuts", [it.split(" - ")[1] for it in lines] == [
        "cut", "Tue Nov 14 22:13:20 2023", "Tue Nov 14 22:13:20 2023"], "the list is %r" % lines)
    for name, filler in HOSTILE:
        tally.same("the texts of " + name, texts(bytes(FIRST) + filler, "--list"), 1, "", SAID + "head: there is no text of a group: take another physical volume, or a file in /etc/lvm/archive\n")


def no_group(head):
    """The sample after its group was removed: label and header say so."""
    emptied = patched(head, (FIRST, area(b"", size=SIZE)[:SECTOR]))
    return patched(emptied, (SECTOR, label([(FIRST, SIZE)], is_used=False)))


# Half a MiB on which a search may take too long.
HOSTILE = [("a long word", b"a" * (1 << 19)), ("braces", b' {\nid = "' * (1 << 16)), ("words and braces", b'aaaa {\nid = "' * (1 << 15))]


class MetadataAreas(Case):
    """All that the command is tried on."""

    def setUp(self):
        self.group = read(os.path.join(self.top, "examples", "vg0.backup"))
        self.command = Command(self, self.program, self.top)
