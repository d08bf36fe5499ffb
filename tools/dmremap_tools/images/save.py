"""Copies a volume, given by its name, out of images.

Takes GROUP/VOLUME, the file to write, and images, which are searched as by `scan`. GROUP may be the group's id, and may
be left out if only one group has such a volume. A partition (disk.img:2), an array (md:NAME) or an image can be named
as well. OUT gets the bytes of the volume, with holes where it reads as zeros. Without a map, OUT has its name only once
it is whole. If `dmremap read images` takes the group, and without --resume, it reads a volume that is all there, which
is proved; a terminal is told so. `serve` does the same.

Refuses a volume if something of it is missing, and leaves no OUT. With --resume or --allow-missing, these sectors are
reported and become holes. Sectors that can't be read are reported and become holes in any case. The status is 4 then,
or 0 with --allow-missing. --resume MAP writes these areas as a map of ddrescue; if MAP is there already, a run that was
broken off goes on. MAP names its volume, and can't continue another one. Give the maps of images each time.

With --map IMAGE=MAP, for each image that has one, the areas that a map of ddrescue doesn't list as finished aren't
there. What another member of an array or another leg has is taken from that. Without a map, gaps that ddrescue left
count as zeros.

Also takes VOLUME TARGET FORMAT FILE [DISKS], with FORMAT, FILE and DISKS as for `dmremap map`. The disks that they name
are read at their names, or where --paths says. (If an image has the name of a format, write ./table.) A snapshot is
read by its store, which lies on these disks, too; --fresh treats snapshots as new, with the sectors of their origins
alone.
"""

import hashlib
import os
import tempfile
from argparse import ArgumentParser, Namespace
from typing import Dict, List, Optional, Set

from dmremap_tools.answers.saved import PARTLY, Absent, SavedMap, head_of, put_together
from dmremap_tools.base import given, names, quoting, streams, written
from dmremap_tools.base.numbers import SECTOR
from dmremap_tools.base.paths import DiskPlace
from dmremap_tools.base.refusal import INCOMPLETE, Refusal, WrongWords
from dmremap_tools.formats import rescue_map
from dmremap_tools.model import loaded_stack
from dmremap_tools.model.device import ANY, Device, Image, NamedDevice, Part, Run, lacking
from dmremap_tools.model.mapping import LoadedTables, MappedDevice

EXAMPLE = "dmremap-tools save vg0/home home.img sda.img sdb.img --resume home.map"
# The words of the command, for its manual.
FORMS = ("GROUP/VOLUME OUT IMAGE ..", "VOLUME TARGET FORMAT FILE [DISKS]")
USAGE = "usage: " + ", or ".join(FORMS)


def add_words(parser: ArgumentParser) -> None:
    parser.add_argument("volume", metavar="GROUP/VOLUME", help="the volume, by its name")
    parser.add_argument("target", metavar="OUT")
    rescue_map.add_words(parser, "; or FORMAT FILE [DISKS]")
    parser.add_argument("--resume", metavar="MAP", help="write a map in ddrescue's format; a later run goes on from it")
    parser.add_argument("--allow-missing", action="store_true", help="end with status 0 even if parts are missing")
    loaded_stack.add_words(parser)


def run(words: Namespace) -> Optional[int]:
    form, *others = words.images
    if not all("=" in word for word in words.map):
        raise WrongWords("--map IMAGE=MAP is the map of ddrescue of an image: "
                         "give the one that save writes as --resume", USAGE)
    if form in given.FORMATS and 1 <= len(others) <= 2:
        words.form, words.file, words.disks = form, others[0], others[1] if len(others) == 2 else None
        with tempfile.TemporaryDirectory(prefix="dmremap-tools-") as folder:
            is_partly = copy(words, target_of(words, folder))
    else:
        for option in ("paths", "fresh"):
            if getattr(words, option):
                raise WrongWords(f"--{option} is for FORMAT FILE [DISKS]: leave it out", USAGE)
        # What is long to load, and of no use where tables are given.
        from dmremap_tools.model.pile import Pile
        unread = rescue_map.unread_in(words, words.images)
        is_partly = copy(words, Pile(words.images, words.program, unread).target(words.volume, not words.resume))
        if not words.map and os.isatty(2):
            streams.tell("no map was given (--map IMAGE=MAP): gaps that ddrescue left count as zeros")
        rescue_map.tell_unused(words, ["save", words.volume, words.target, *words.images])
    return INCOMPLETE if is_partly and not words.allow_missing else None


def copy(words: Namespace, target: NamedDevice) -> bool:
    """Copies a volume, and says whether something is missing; which is refused unless words say otherwise."""
    streams.tell(*target.notes)
    why = target.device.lack(0, target.size)
    if why and not (words.resume or words.allow_missing):
        taken = f"{quoting.shown(words.target)} is taken for OUT, and is there already; " * os.path.exists(words.target)
        raise Refusal(quoting.shown(target.name), f"{taken}{why}; or {PARTLY}")
    if why:
        streams.tell(f"{quoting.shown(target.name)}: {why}")
    ids = target.ids or [head_of(target.device)]
    saved = SavedMap(words.resume, target.name, ids, len(words.map), target.size)
    if saved.has_more_maps:
        saved.check_finished(lacking(target.device, target.size))
    return put_together(words.target, saved, target.device)


def target_of(words: Namespace, folder: str) -> NamedDevice:
    """The device that is asked for; dmremap reads its tables in a folder. Refuses what dmremap doesn't load or read."""
    source = given.given_in(words, "VOLUME TARGET FORMAT FILE [DISKS]")
    volume = names.device(words.volume, "VOLUME")
    begun = loaded_stack.start(words, source, [volume], folder)
    size = begun.loaded.length(volume, words.file) * SECTOR
    part = begun.loaded.part([volume])
    paths = {name: begun.places.get(name) or DiskPlace(name) for name in begun.loaded.sizes}
    for place in paths.values():
        written.note_input(place.path)
    unread = rescue_map.unread_in(words, [place.path for place in paths.values()])
    if not words.fresh:
        check_stores(part, {place.path for place in paths.values() if unread.get(place.path)}, paths)
    disks = {name: disk_at(name, paths[name], unread) for name in part.sizes}
    device = MappedDevice(volume, LoadedTables(part.devices, disks, begun.words), volume)
    ids = [f"{name}:{ANY if isinstance(disk, Absent) else head_of(disk)}" for name, disk in disks.items()]
    return NamedDevice(volume, device, size, [sum_of(part), *ids], [])


def check_stores(part: loaded_stack.Stack, gapped: Set[str], paths: Dict[str, DiskPlace]) -> None:
    """Refuses snapshots whose stores lie on images that have gaps by their maps, as dmremap reads these itself."""
    stores = [it.lines[0].words[1] for it in part.devices if it.lines[0].target == "snapshot"]
    lost = next((name for name in sorted(part.below(stores)[1]) if paths[name].path in gapped), None)
    if lost is not None:
        raise Refusal(quoting.shown(paths[lost].path), "a store lies on it, which dmremap reads without its map: give "
                      "GROUP/VOLUME and images, or --fresh for the origin's sectors alone")


def disk_at(name: str, place: DiskPlace, unread: Dict[str, List[Run]]) -> Device:
    """The whole sectors of a disk from its place on, or what says why it isn't there; `unread` has by its path the runs
    of bytes of an image that weren't read."""
    try:
        image = Image(place.path, unread.get(place.path, ()))
        why = image.other_form
    except Refusal as refusal:
        why = refusal.why
    if why:
        return Absent(name, f"{quoting.shown(place.path)}: {why}")
    return Part(image.name, image, place.start, min(place.length, max(0, image.size - place.start)))


def sum_of(part: loaded_stack.Stack) -> str:
    """A sum over what says where the bytes of a device lie. A line that gives no bytes of disks may become another."""
    lines = [f"{it.name} {line}" for it in part.devices for line in it.lines if line.target not in ("zero", "error")]
    return hashlib.sha256("\n".join(lines).encode()).hexdigest()[:16]
