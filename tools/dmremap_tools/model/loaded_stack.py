"""A stack as dmremap loads it from FILE and DISKS, and how a command starts dmremap for the devices that it reads: with
these and what they stand on, and from the state that the stores of their snapshots hold, which dmremap reads from the
disks. A store that nothing is read through isn't looked at."""

import argparse
import os
import stat
from typing import Dict, Iterable, List, NamedTuple, Optional, Set, Tuple

from dmremap_tools.base import Refusal, names, paths, program, quoting, streams, tables
from dmremap_tools.base.given import Given, put
from dmremap_tools.formats import store_places
from dmremap_tools.model.device import image_of
from dmremap_tools.model.volume_group import disks_of

NEXT = "--paths says where disks are"
INVALID = ("it is invalid, as it was full once: what the origin overwrote since is lost, and nothing of the snapshot "
           "is read; --fresh takes what the origin has")
FLEETING = "it isn't persistent, so no disk says what is in it; --fresh takes it as new"
IN_USE = ("{} is a block device: if a snapshot on it is in use, suspend it first, or give an image that was read with "
          "O_DIRECT, as `dd iflag=direct` does")


class Stack(NamedTuple):
    """The devices in their order, the sectors of each disk, and the ids of those that metadata says."""

    devices: List[tables.TableDevice]
    sizes: Dict[str, int]
    ids: Dict[str, bytes] = {}

    def by_path(self) -> Dict[str, tables.TableDevice]:
        """The devices by their paths below /dev/mapper."""
        return {names.MAPPER + it.name: it for it in self.devices}

    def length(self, name: str, file: str) -> int:
        """The sectors of a device of FILE."""
        device = self.by_path().get(names.MAPPER + name)
        if device is None:
            raise Refusal(streams.name_of(file), f"no device {name}: `dmremap table` prints their names")
        return device.end()

    def below(self, roots: Iterable[str]) -> Tuple[Set[str], Set[str]]:
        """Of devices and disks by their paths, and what they stand on: the devices, and the disks."""
        lower, found, left = self.by_path(), set(), list(roots)
        while left:
            path = left.pop()
            if path not in found:
                found.add(path)
                left += lower[path].lowers() if path in lower else []
        return found & set(lower), found - set(lower)

    def part(self, devices: Iterable[str]) -> "Stack":
        """These devices, by their names, and what they stand on."""
        found, lowest = self.below(names.MAPPER + it for it in devices)
        kept = [it for it in self.devices if names.MAPPER + it.name in found]
        return Stack(kept, {disk: size for disk, size in self.sizes.items() if disk in lowest})

    def write(self, folder: str) -> List[str]:
        """Writes FILE, in the concise form, and DISKS into a folder; the words with which dmremap reads them."""
        file, listed = os.path.join(folder, "FILE"), os.path.join(folder, "DISKS")
        put(file, [tables.text_of(self.devices, True)])
        put(listed, ("%s %d\n" % it for it in self.sizes.items()))
        return ["concise", file, listed]


# The words with which dmremap maps; the whole stack, and where its disks are.
Started = NamedTuple("Started", [("words", List[str]), ("loaded", Stack), ("places", Dict[str, paths.DiskPlace])])


def load(asked: str, given: Given, folder: str) -> Stack:
    """The stack that is given, as dmremap reads it, whose path is `asked`; copies for it are left in a folder. Refuses
    a stack that dmremap refuses, and tells first what that says."""
    copy, text = given.copied(folder), os.path.join(folder, "given.concise")
    printed, said, status = program.ask([asked, "concise", *copy.words()])
    if status:
        if said:
            streams.tell(said.rstrip("\n"))
        program.fail(asked, status)
    put(text, [printed])
    if copy.disks is not None:
        return Stack(tables.read(text)[0], tables.read_disks(copy.disks))
    disks = list(disks_of(copy.file))
    ids = {name: identity for name, _, identity in disks if identity is not None}
    return Stack(tables.read(text)[0], {name: size for name, size, _ in disks}, ids)


def add_words(parser: argparse.ArgumentParser) -> None:
    program.add_words(parser)
    paths.add_words(parser)
    parser.add_argument("--fresh", action="store_true", help="treat every snapshot as new, with an empty store")


def start(words: argparse.Namespace, source: Given, devices: Optional[Iterable[str]], folder: str) -> Started:
    """Starts for these devices of a source, or for all. Refuses snapshots whose stores can't be read or are invalid."""
    asked, places = program.dmremap(words.program), paths.places(words.paths)
    loaded = load(asked, source, folder)
    for unknown in (name for name in places if name not in loaded.sizes):
        # The disk that was meant would be read at its own name.
        why = f"no disk is called {quoting.shown(unknown)}: give a name that the tables have"
        raise Refusal(streams.name_of(words.paths), why)
    if places:
        # What looks at images is long to load, and mostly of no use.
        from dmremap_tools.model.placed import by_ids
        places = by_ids(loaded.ids, places, loaded.sizes, asked)
    part = loaded if devices is None else loaded.part(devices)
    command = [asked, "map", *part.write(folder)]
    snapshots = [] if words.fresh else [it for it in part.devices if it.lines[0].target == "snapshot"]
    for device in snapshots:
        if device.lines[0].words[2] == "N":
            raise Refusal("the store of " + device.name, FLEETING)
    if snapshots:
        lowest = part.below(it.lines[0].words[1] for it in snapshots)[1]
        stores = {disk: places.get(disk) or paths.DiskPlace(disk) for disk in sorted(lowest)}
        here = {disk: place for disk, place in stores.items() if os.path.exists(place.path)}
        for place in here.values():
            image_of(place.path)
            if stat.S_ISBLK(os.stat(place.path).st_mode):
                streams.tell(IN_USE.format(quoting.shown(place.path)))
        command += ["--paths", os.path.join(folder, "PATHS")]
        put(command[-1], (paths.line(disk, place.path, place.start, place.length) for disk, place in here.items()))
        try:
            found = store_places.chunks_in(command, snapshots)
        except store_places.RefusedStore as refusal:
            absent = quoting.some([quoting.shown(disk) for disk in stores if disk not in here])
            which = f" ({absent})" if refusal.word == "missing" else ""
            raise Refusal(refusal.where, f"{refusal.why}{which}; {NEXT}")
        for name, count in found.items():
            if count is None:
                raise Refusal("the store of " + name, INVALID)
            streams.tell(f"{name}: its store has {count} chunk{'s' * (count != 1)}")
    return Started(command, loaded, places)
