"""The file system in an image, by what stands at its beginning: XFS, of which xfs_db of xfsprogs says which files have
its blocks, or ext2, ext3 or ext4, of which debugfs of e2fsprogs does, and which it has for itself.

What debugfs can't read for damage is told, and asked again without sums and bitmaps, and then by the copies of the
superblock. It prints a name as it stands on the disk, so one with a line feed may look like the line of another inode.
What is told here is only what was asked for, and leads to its inode where it is looked up.
"""

import bisect
import itertools
import os
import re
from collections import namedtuple
from typing import Callable, Collection, Dict, Iterable, Iterator, List, Optional, Sequence, Set, Tuple

from dmremap_tools.base import SECTOR, Refusal, paths, program, quoting, streams
from dmremap_tools.formats.disk_image import EXT_AT, EXT_MAGIC
from dmremap_tools.model.device import Lenient, blocks_of, image_of

MOST_BLOCKS = MOST_INODES = 1000000
MOST_COMPLAINTS = 3
XFS_DB, DEBUGFS, FEWER = "xfs_db", "debugfs", "ask for the maps of fewer images"
# What the superblock says: sizes in bytes, numbers of blocks, and logarithms of blocks and inodes.
Geometry = namedtuple("Geometry", "blocksize dblocks agblocks agblklog inopblog inodesize")
XFS_FIGURE = re.compile(r"^(%s) = ([0-9]{1,20})$" % "|".join(Geometry._fields), re.M)
USE = re.compile(r"^block [0-9]{1,20} \(([0-9]{1,10})/([0-9]{1,10})\) type ([a-z0-9]+)(?: inode ([0-9]{1,20}))?$", re.M)
# Where it is seen by which bytes what begins there.
MAGICS = {"btrfs": (65536 + 64, b"_BHRfS_M"), "xfs": (0, b"XFSB"), "ext": (EXT_AT + 56, EXT_MAGIC)}
# Numbers of one request, with at most 15 digits each, as the system takes 131,071 bytes; bytes of one where debugfs
# reads many, of which it takes 8,191; and how many these are.
MOST_NUMBERS, LONGEST_OF_MANY, MOST_AT_ONCE = 8000, 8000, 4096
NO_ANSWER = b"pwd"
ECHO, NOT_OPEN = "debugfs: ", ": Filesystem not open"
OWNED = re.compile(r"([0-9]{1,20})\t([1-9][0-9]{0,9}|<block not found>)")
USED = re.compile(r"^(?:Block|Inode) ([0-9]{1,20}) (?:is )?marked in use$", re.M)
NAMED = re.compile(r"([1-9][0-9]{0,9})\t/*(/.*)")
# The inode that a path leads to, as `imap` answers.
LEADS_TO = re.compile(r"Inode ([1-9][0-9]{0,9}) is part of ")
ROOT = 2
# debugfs ends its search once it has as many names as the inodes say that they have, and one that is lost says none.
# The root counts as one and has no name: asked for as well, and as often, it lets the search go on.
NCHECK = "ncheck" + " %d" % ROOT * 1000
# Where copies of the superblock are, by the size of a block.
COPIES = ((4096, 32768), (4096, 98304), (1024, 8193), (1024, 24577), (2048, 16384), (2048, 49152), (65536, 65528))
# The options that debugfs is tried with: without any, and without bitmaps and sums, with the copies of the superblock.
TRIES: List[List[str]] = [[], ["-c", "-n"], *(["-c", "-n", "-s", str(copy), "-b", str(size)] for size, copy in COPIES)]
FIGURE = re.compile(r"^([A-Z][A-Za-z ]+):\s+(.*)$", re.M)
GROUP = re.compile(r"^ Group +([0-9]{1,10}): block bitmap at {0}, inode bitmap at {0}, inode table at {0}$"
                   .replace("{0}", "([0-9]{1,20})"), re.M)
WHOLE = re.compile(r"[0-9]{1,20}")
NOT_ZERO = {"Block size", "Blocks per group", "Inodes per group"}
NEEDED = {"Block count", "First block", *NOT_ZERO}
# With these, blocks may be in use that are neither an inode's nor in places that are known here.
UNSURE = {"bigalloc", "meta_bg"}
# With one of these only some groups have a superblock: with the first these are, and the second says which.
SPARSE_FEATURES = {"sparse_super", "sparse_super2"}
SPARSE = {0, *(base ** power for base in (3, 5, 7) for power in range(41))}
# Sectors of a volume: the first, and how many.
SectorRun = Tuple[int, int]


class NoSystem(Refusal):
    """Nothing is there that these programs read."""


class FileSystem:
    """A file system in an image, in which runs of sectors of a volume are asked for. Each kind finds out how many
    `sectors` a block has, the block after the last, the inodes that have blocks, the paths of inodes, and which are in
    use. It says which inodes lie in sectors of a block of their table, and how a block is used without an inode."""

    inodes_at: Callable[[int, int, int], Optional[Iterable[int]]]
    use_without_inode: Callable[[int], str]

    def __init__(self, image: str, volume: str, runs: Sequence[SectorRun]) -> None:
        self.image, self.volume, self.runs = image, volume, runs
        self.sectors = self.end = 0
        self.inodes: Dict[int, int] = {}
        self.names: Dict[int, List[str]] = {}
        self.used_inodes: Set[int] = set()

    def users(self, block: int, offset: int, count: int) -> List[str]:
        """The files that have so many sectors of a block from one of its own on, or words for what has it else."""
        if block >= self.end:
            return ["past its end"]
        if self.inodes.get(block):
            return self._paths(self.inodes[block])
        inodes = self.inodes_at(block, offset, count)
        if inodes is None:
            return [self.use_without_inode(block)]
        files = [it for it in inodes if it in self.used_inodes or self.names.get(it)]
        return ["inode table: " + path for it in files for path in self._paths(it)] or ["inode table"]

    def _paths(self, inode: int) -> List[str]:
        """The paths of an inode, or its number where it has none that is known."""
        return list(map(quoting.printable, self.names.get(inode, []))) or ["inode %d" % inode]

    def folders(self, paths: Iterable[str]) -> Set[str]:
        """Those of some paths that are known to be folders."""
        return set()

    def blocks(self) -> List[int]:
        """The blocks that are asked for, each once, up to the end of the file system."""
        found = [range(first // self.sectors, (first + count - 1) // self.sectors + 1) for first, count in self.runs]
        if sum(blocks.stop - blocks.start for blocks in found) > MOST_BLOCKS:
            raise Refusal(self.volume, f"more than {MOST_BLOCKS} blocks of it are lost: {FEWER}")
        return sorted({block for blocks in found for block in blocks if block < self.end})

    def tabled(self) -> List[int]:
        """The inodes in the sectors that are asked for."""
        found: Set[int] = set()
        for run in self.runs:
            found.update(inode for part in blocks_of(*run, self.sectors) for inode in self.inodes_at(*part) or ())
            if len(found) > MOST_INODES:
                raise Refusal(self.volume, f"more than {MOST_INODES} inodes are lost: {FEWER}")
        return sorted(found)


def answer_of(words: Sequence[str], lines: Iterable[bytes]) -> Tuple[str, List[str]]:
    """What a program prints that gets these lines, and what it complains of."""
    printed, said = program.ask_quietly(words, b"".join(line + b"\n" for line in lines))
    return printed, said.splitlines()


def tell_complaints(complaints: Sequence[str], name: str = "debugfs") -> None:
    """Says what a program complains of, as far as that is not too much."""
    for complaint in complaints[:MOST_COMPLAINTS]:
        streams.tell(f"{name}: {quoting.shown(complaint)}")


def unreadable(image: str, name: str, complaints: Sequence[str], check: str) -> Refusal:
    """The refusal of an image that a program can't read, with the command that checks it."""
    reason = "; ".join(map(quoting.shown, complaints[:MOST_COMPLAINTS])) or "not enough"
    return Refusal(quoting.shown(image), f"{name} says: {reason}; see `{check}`")


class XfsSystem(FileSystem):
    """Its blocks are asked for in `blockuse` of xfs_db, and the paths of its inodes in `ncheck`."""

    def __init__(self, image: str, volume: str, runs: Sequence[SectorRun]) -> None:
        super().__init__(image, volume, runs)
        printed, complaints = self._ask(["sb 0", "print " + " ".join(Geometry._fields)])
        figures = {name: int(figure) for name, figure in XFS_FIGURE.findall(printed)}
        self._geometry = it = Geometry(*(figures.get(name, 0) for name in Geometry._fields))
        is_block = SECTOR <= it.blocksize <= 1 << 16 and it.blocksize % SECTOR == 0
        is_inode = 0 < it.inodesize <= it.blocksize and max(it.agblklog, it.inopblog) < 64
        if len(figures) < len(it) or not is_block or not is_inode or not it.agblocks:
            raise unreadable(image, XFS_DB, complaints, "xfs_repair -n")
        self.sectors, self.end = it.blocksize // SECTOR, it.dblocks
        self._kinds: Dict[int, str] = {}
        self._read_uses(self.blocks())
        self.names = self._read_names(sorted({*filter(None, self.inodes.values()), *self.tabled()}))

    def inodes_at(self, block: int, offset: int, count: int) -> Optional[range]:
        """The numbers of inodes have their group and its block in the upper bits."""
        if self._kinds.get(block) != "inode":
            return None
        geometry = self._geometry
        group, place = divmod(block, geometry.agblocks)
        begin = ((group << geometry.agblklog) | place) << geometry.inopblog
        stop = -(-(offset + count) * SECTOR // geometry.inodesize)
        return range(begin + offset * SECTOR // geometry.inodesize, begin + stop)

    def use_without_inode(self, block: int) -> str:
        """By the type that xfs_db gives the block."""
        kind = self._kinds[block]
        if kind == "unknown":
            return "no inode"
        return "unused" if kind.startswith("free") and kind != "freelist" else "in use"

    def _read_uses(self, blocks: Sequence[int]) -> None:
        """Finds as what each of these blocks is used, and its inode, or 0."""
        per_group = self._geometry.agblocks
        commands = ["blockget"] * bool(blocks)
        # Runs of blocks of one group: those that follow each other differ as much from their places in the list.
        for _, run in itertools.groupby(enumerate(blocks), lambda it: (it[1] // per_group, it[1] - it[0])):
            _, first = next(run)
            commands.append("daddr %d\nblockuse -c %d" % (first * self.sectors, 1 + sum(1 for _ in run)))
        streams.show_progress("reading all of %s" % self.image)
        printed, complaints = self._ask(commands)
        for group, place, kind, inode in USE.findall(printed):
            block = int(group) * per_group + int(place)
            self._kinds[block], self.inodes[block] = kind, int(inode or 0)
        if not self._kinds.keys() >= set(blocks):
            raise unreadable(self.image, XFS_DB, complaints or printed.splitlines(), "xfs_repair -n")
        tell_complaints(complaints, XFS_DB)

    def _read_names(self, inodes: Sequence[int]) -> Dict[int, List[str]]:
        """The path of each of these inodes that has one. A line that nobody can foretell stands between two answers, as
        a name may hold whatever looks like an answer. Where xfs_db complains, a folder above may be lost: ?/PATH."""
        mark = os.urandom(16).hex()
        commands = ["echo %s\nncheck -i %d" % (mark, it) for it in inodes]
        printed, complaints = self._ask(["blockget -n"] * bool(inodes) + commands)
        found = {}
        said, *answers = printed.split(mark)
        for inode, answer in zip(inodes, answers):
            number, _, path = answer.partition("\n")[2].lstrip(" ").partition(" ")
            if number == str(inode):
                # A folder has a dot at the end, and the root nothing else.
                path = "" if path == ".\n" else path[:-3] if path.endswith("/.\n") else path[:-1]
                found[inode] = [("?/" if said or complaints else "/") + path]
        return found

    def _ask(self, commands: Sequence[str]) -> Tuple[str, List[str]]:
        """What xfs_db prints for these commands, and what it complains of."""
        options = ["-r", *(["-f"] if os.path.isfile(self.image) else []), "-c", "source /dev/stdin"]
        return answer_of([program.found(XFS_DB), *options, "--", self.image], map(str.encode, commands))


def system_in(place: paths.DiskPlace, volume: str, runs: Sequence[SectorRun]) -> FileSystem:
    """The file system in an image of a volume, with the files that have these runs of sectors looked up."""
    disk, at = Lenient(image_of(place.path)), place.start
    image = place.path + f"?offset={at}" * bool(at)
    found = [kind for kind, (start, magic) in MAGICS.items() if disk.read(at + start, len(magic)) == magic]
    shown = quoting.shown(image)
    if "?" in place.path:
        raise Refusal(shown, "debugfs takes what follows a `?` in a path as an option: give the file another name")
    if "btrfs" in found:
        raise Refusal(shown, "it is btrfs, whose files have no places: see `btrfs inspect-internal logical-resolve`")
    if "xfs" not in found:
        try:
            return ExtSystem(image, volume, runs)
        except Refusal as fault:
            is_known = "ext" in found or program.found(DEBUGFS) == DEBUGFS
            raise fault if is_known else NoSystem(fault.where, fault.why)
    if program.found(XFS_DB) == XFS_DB:
        raise Refusal(shown, "it is XFS, which xfs_db reads, and that isn't here: install xfsprogs")
    if at:
        raise Refusal(shown, f"it is XFS, and xfs_db reads no file system within a file: `losetup -r -o {at}`")
    return XfsSystem(place.path, volume, runs)


class ExtSystem(FileSystem):
    """Where a system has what is its own, is as `stats` of debugfs prints it."""

    def __init__(self, image: str, volume: str, runs: Sequence[SectorRun]) -> None:
        super().__init__(image, volume, runs)
        complaints: List[str] = []
        failed: Optional[streams.OutputFailed] = None
        # The first options by which debugfs answers for all blocks are those that it is asked with from then on.
        for self._options in TRIES:
            try:
                printed, said = self._ask("-R", "stats")
                is_answered = self._take_layout(printed) and self._find_inodes(said)
            except streams.OutputFailed as fault:
                failed = fault
                continue
            complaints = complaints or said
            if is_answered:
                break
        else:
            raise failed or unreadable(image, "debugfs", complaints, "e2fsck -n")
        tell_complaints([str(failed)] * bool(failed) + complaints)
        if self._options:
            streams.tell("read by debugfs with " + " ".join(self._options))
        tabled = self.tabled()
        self.names = self._names_of(sorted({*self.inodes.values(), *tabled}))
        self.used_inodes = self._used("testi <%d>", tabled)
        self._used_blocks = self._used("testb %d", [it for it in self.blocks() if it not in self.inodes])

    def inodes_at(self, block: int, offset: int, count: int) -> Optional[Iterable[int]]:
        """But for the root, inodes before the first aren't of files."""
        place = bisect.bisect_right(self._tables, (block, len(self._tables))) - 1
        if place < 0 or block >= self._tables[place][0] + self._table_blocks:
            return None
        start, group = self._tables[place]
        at = (block - start) * self.sectors + offset
        begin, stop = at * SECTOR // self._inode_size, -(-(at + count) * SECTOR // self._inode_size)
        found = range(group * self._per_table + begin + 1, group * self._per_table + min(stop, self._per_table) + 1)
        return [it for it in found if it == ROOT or it >= self._first_inode]

    def use_without_inode(self, block: int) -> str:
        """By where the system keeps what is its own, and by its bitmaps where these can be read."""
        group, place = divmod(block - self._first, self._per_group)
        if place < self._head and group in self._backups or block < self._first or block in self._bitmaps:
            return "in use"
        if self._options:
            return "no file"
        if block not in self._used_blocks:
            return "unused"
        return "no inode" if self._is_sure else "in use"

    def folders(self, paths: Iterable[str]) -> Set[str]:
        """Those that `stat` of debugfs calls folders."""
        files = [it for it in paths if it.startswith("/")]
        answers = self._ask_many("stat " + debugfs_word(it) for it in files)
        return {file for file, answer in zip(files, answers) if "Type: directory" in answer}

    def _take_layout(self, printed: str) -> bool:
        """Takes what `stats` says, if it says all of it, and each group has its table of inodes."""
        said = dict(FIGURE.findall(printed))
        figure = {name: int(value) for name, value in said.items() if WHOLE.fullmatch(value)}
        groups = [tuple(map(int, it)) for it in GROUP.findall(printed)]
        is_said = groups and all(it[3] for it in groups) and NEEDED <= figure.keys() and all(map(figure.get, NOT_ZERO))
        if not is_said or figure["Block size"] % SECTOR:
            return False
        size, features = figure["Block size"], set(said.get("Filesystem features", "").split())
        self.sectors, self.end = size // SECTOR, figure["Block count"]
        self._first, self._per_group, self._per_table = (figure[it] for it in (
            "First block", "Blocks per group", "Inodes per group"))
        self._inode_size, self._first_inode = figure.get("Inode size") or 128, figure.get("First inode", 11)
        # Whether each block in use is an inode's, or the system's own by what is known here.
        self._is_sure = not UNSURE & features
        self._table_blocks = -(-self._per_table * self._inode_size // size)
        self._tables = sorted((table, number) for number, _, _, table in groups)
        self._bitmaps = {it for _, blocks, inodes, _ in groups for it in (blocks, inodes)}
        descriptors = -(-len(groups) * figure.get("Group descriptor size", 32) // size)
        self._head = 1 + descriptors + figure.get("Reserved GDT blocks", 0)
        self._backups: Collection[int] = SPARSE if SPARSE_FEATURES & features else range(self.end)
        if "sparse_super2" in features:
            self._backups = {0, *map(int, re.findall(r"[0-9]{1,10}", said.get("Backup block groups", "")))}
        return True

    def _find_inodes(self, complaints: List[str]) -> bool:
        """Finds the inodes of blocks, and says whether there is an answer about all. Adds what debugfs complains of."""
        self.inodes, done = {}, 0
        blocks = self.blocks()
        for some, printed, said in self._ask_for("icheck", blocks):
            rows = {match[1]: match[2] for match in map(OWNED.fullmatch, printed.split("\n")) if match}
            complaints += said[:MOST_COMPLAINTS]
            if {int(it) for it in rows} != set(some):
                return False
            self.inodes.update((int(block), int(inode)) for block, inode in rows.items() if inode.isdigit())
            done += len(some)
            streams.show_progress("looked for the inodes of %d blocks of %d" % (done, len(blocks)))
        return True

    def _used(self, request: str, numbers: Sequence[int]) -> Set[int]:
        """Those of these blocks or inodes that the bitmaps have as in use."""
        answers = [] if self._options or not numbers else self._ask_many(request % it for it in numbers)
        return {int(it) for each in answers for it in USED.findall(each)}

    def _names_of(self, inodes: Sequence[int]) -> Dict[int, List[str]]:
        """The paths of each of these inodes, which may be none."""
        found: Dict[int, List[str]] = {it: [] for it in inodes}
        for _, printed, complaints in self._ask_for(NCHECK, [it for inode in inodes for it in (ROOT, inode)]):
            tell_complaints(complaints)
            for match in map(NAMED.fullmatch, printed.split("\n")):
                if match and int(match[1]) in found:
                    found[int(match[1])].append(match[2])
        pairs = [(inode, path) for inode, paths in found.items() for path in paths]
        said = self._ask_many("imap " + debugfs_word(path) for _, path in pairs)
        for (inode, _), answer in zip(pairs, itertools.chain(said, itertools.repeat(""))):
            if LEADS_TO.findall(answer)[:1] != [str(inode)]:
                found[inode] = self._names_alone(inode)
        return {**found, ROOT: ["/"]} if ROOT in found else found

    def _names_alone(self, inode: int) -> List[str]:
        """The paths of an inode that is asked for alone. A path that leads elsewhere goes on the name before it."""
        begin = "\n%d\t" % inode
        printed = ("\n" + self._ask("-R", "%s %d" % (NCHECK, inode))[0]).partition(begin)[2]
        paths: List[str] = []
        for path in (re.sub("^/+", "/", it) for it in printed[:-1].split(begin)):
            if paths and LEADS_TO.findall(self._ask("-R", "imap " + debugfs_word(path))[0])[:1] != [str(inode)]:
                paths[-1] += begin + path
            else:
                paths.append(path)
        return [it for it in paths if it.startswith("/")]

    def _ask(self, *request: str, lines: Iterable[bytes] = ()) -> Tuple[str, List[str]]:
        """What debugfs answers to -R and a request, or to -f and lines of requests, and what it complains of."""
        printed, said = answer_of([program.found("debugfs"), *self._options, *request, "--", self.image], lines)
        complaints = [it[len(ECHO):] if it.startswith(ECHO) else it for it in said]
        return printed, [it for it in complaints if not it.startswith("debugfs ") and not it.endswith(NOT_OPEN)]

    def _ask_for(self, command: str, wanted: Sequence[int]) -> Iterator[Tuple[Sequence[int], str, List[str]]]:
        """The same for a command about numbers, of which as many as there is room for are asked for at once."""
        for first in range(0, len(wanted), MOST_NUMBERS):
            some = wanted[first:first + MOST_NUMBERS]
            yield (some, *self._ask("-R", "%s %s" % (command, " ".join(map(str, some)))))

    def _ask_many(self, requests: Iterable[str]) -> Iterator[str]:
        """What it answers to each of many requests, none of which has a line feed. One that is too long has no answer.
        What it complains of is not told. No answer may have a line that looks like a request."""
        rest = iter(requests)
        for some in iter(lambda: list(itertools.islice(rest, MOST_AT_ONCE)), []):
            lines = (request.encode("utf-8", "surrogateescape") for request in some)
            printed, _ = self._ask("-f", "-", lines=(it if len(it) <= LONGEST_OF_MANY else NO_ANSWER for it in lines))
            yield from ("\n" + printed).split("\n" + ECHO)[1:]


def debugfs_word(path: str) -> str:
    """A path as a word of a request."""
    return '"%s"' % path.replace('"', '""')
