"""Writes the files with which dmremap itself answers for a group or an array: PATHS, or FILE, DISKS and PATHS.

Takes GROUP, a name or an id, or an array, as md:NAME, images, which are searched as by `scan`, and a folder for the
files, none of which may be there yet. PATHS lists the images. It is written alone if dmremap takes the whole group from
these images. Otherwise FILE is a table of the volumes under lvm2's names, snapshots over their origins and stores, and
the md arrays below. Prints the command line.

What a layer computes, such as a thin or cached volume or one with parity, is a line for each run in which it lies, and
reads are exact. That, and a volume of which there are copies, is read-only: a write would go elsewhere, too. With --map
IMAGE=MAP, what a map of ddrescue doesn't list as finished isn't there: of copies one that is whole is taken, and what a
volume lacks is reported. A volume of which something would have to be computed from parity, or that lies in more runs
than dmremap takes, has no table. It is reported; `save` and `serve` read it.
"""

import os
import shlex
from argparse import ArgumentParser, Namespace
from typing import Callable, Dict, List, Optional, Set, Tuple, Union

from dmremap_tools.base import SECTOR, Refusal, names, program, quoting, streams, tables
from dmremap_tools.base.given import MOST_TEXT, put
from dmremap_tools.base.program import NoProgram
from dmremap_tools.formats import rescue_map
from dmremap_tools.model.device import ZEROS, Copies, Device, Image, Part, joined
from dmremap_tools.model.physical_volume import path_of, read_by_heads
from dmremap_tools.model.layout import Layout
from dmremap_tools.model.mapping import FILES, MappedDevice, Tables
from dmremap_tools.model.pile import Pile

EXAMPLE = "dmremap-tools tables vg0 sda.img sdb.img --to vg0.tables"
READ_ONLY = "ro"
Devices = Dict[str, tables.TableDevice]


def add_words(parser: ArgumentParser) -> None:
    parser.add_argument("group", metavar="GROUP", help="the group, by its name or its id, or an array, as md:NAME")
    rescue_map.add_words(parser)
    parser.add_argument("--to", metavar="FOLDER", required=True, help="the folder for the files")
    program.add_words(parser)


def run(words: Namespace) -> None:
    pile = Pile(words.images, words.program, rescue_map.unread_in(words, words.images))
    device = pile.device_named(words.group)
    # Of these a write goes to copies or to parity, too.
    kept_twice = {array.device for array in pile.arrays if array.device and array.level not in ("linear", "raid0")}
    if device:
        of_device = ImageTables(kept_twice)
        called = words.group if names.FORM.fullmatch(words.group) else "device"
        of_device.take(called, lambda: of_device.over(device, called), lambda: device.lack(0, device.size))
        of_device.put(words.to, words.group)
        return
    shown, (group, *others) = quoting.shown(words.group), pile.groups_named(words.group)
    if others:
        raise Refusal(shown, "several groups or sides of one are called so: say the id, or give the images of one side")
    if group.doubt:
        raise Refusal(shown, group.doubt)
    made = GroupTables(group.side, kept_twice)
    here = [volume for volume in group.volumes if volume.side is group.side and not volume.is_removed]
    are_whole = [made.take(volume.name, lambda: made.volume(volume.key), volume.why) for volume in here]
    is_whole = all(are_whole) and not words.map
    heads = read_by_heads(words.program, "check", group.side.physical.values()) if is_whole else None
    if heads and made.devices:
        listed, = made.free_paths(words.to, FILES[-1:])
        put(listed, heads[0])
        streams.tell(f"dmremap reads the text of {quoting.shown(group.side.name)} in its images")
        streams.out.write(f"dmremap map images {shlex.quote(listed)}\n")
    else:
        made.put(words.to, words.group)


class ImageTables(Tables):
    """Tables for dmremap itself, of devices over images; those that are `kept_twice` are read-only there."""

    def __init__(self, kept_twice: Set[Device]) -> None:
        super().__init__()
        self._kept_twice = kept_twice
        self._known: Dict[Device, str] = {}

    def take(self, name: str, make: Callable[[], Devices], ask: Callable[[], Optional[str]]) -> bool:
        """Takes the devices of a volume, and says whether it is whole. Tells why one is left out, and what it lacks."""
        try:
            self.devices.update(make())
            why, left_out = ask(), ""
        except NoProgram:
            raise
        except Refusal as refusal:
            why, left_out = refusal.why, "left out: "
        if why:
            streams.tell(f"{left_out}{quoting.shown(name)}: {why}")
        return not why

    def over(self, device: Device, called: str) -> Devices:
        """A device under a name, with what it lies on."""
        found: Devices = {}
        lower, start, flags = self._disk(device, found)
        found[called] = tables.TableDevice(called, flags)
        found[called].lines.append(tables.Line(0, device.size // SECTOR, "linear", [lower, str(start)]))
        return found

    def _renamed(self, source: Tables, key: str, called: str) -> Devices:
        """A device of some tables and what it lies on, with new names: disks are places in images, or tables."""
        found: Devices = {}
        closure = source.closure([key])
        new = {other: f"{called}-below-{number}" for number, other in enumerate(closure.devices)}
        new[key] = called
        for other, device in closure.devices.items():
            made = tables.TableDevice(new[other])
            for line in device.lines:
                words, has_starts = list(line.words), line.target in ("linear", "striped")
                for place in line.places():
                    lower = words[place]
                    words[place], start, flags = (
                        self._disk(closure.disks[lower], found) if lower in closure.disks
                        else (names.MAPPER + new[names.of_path(lower)], 0, ""))
                    made.flags = flags or made.flags
                    if has_starts:
                        words[place + 1] = str(int(words[place + 1]) + start)
                made.lines.append(tables.Line(line.start, line.length, line.target, words))
            found[made.name] = made
        # What others name comes first.
        return dict(reversed(list(found.items())))

    def _disk(self, device: Device, found: Devices) -> Tuple[str, int, str]:
        """What a line names for a device, the sector at which the device begins there, and whether it is read-only."""
        start, flags = 0, ""
        while isinstance(device, Copies) or isinstance(device, Part) and not device.holes:
            start += device.start if isinstance(device, Part) else 0
            lower = device.lower if isinstance(device, Part) else device.best()
            flags = flags if isinstance(device, Part) else READ_ONLY
            if lower is None:
                raise Refusal(device.name, f"no copy of {device.name} is whole, and no table can say which is read: "
                              "use `save` or `serve`")
            device = lower
        if isinstance(device, Image):
            return self._image(device), start // SECTOR, flags
        called = self._known.setdefault(device, f"below-{len(self._known)}")
        if called not in self.devices and called not in found:
            found.update(self._renamed(device.source, device.key, called) if isinstance(device, MappedDevice)
                         else self._in_runs(device, called))
            found[called].flags = READ_ONLY if device in self._kept_twice else found[called].flags
        return names.MAPPER + called, start // SECTOR, flags

    def _image(self, image: Image) -> str:
        """The name of an image."""
        name = self._names.setdefault(image, f"disk{len(self.disks)}")
        self.disks[name] = image
        return name

    def _in_runs(self, device: Device, called: str) -> Devices:
        """What a layer computes, as a line for each run in which it lies, all of which have to be in images."""
        made, size = tables.TableDevice(called, READ_ONLY), 0
        for at, (source, start, count) in joined(device, 0, device.size):
            if isinstance(source, Image):
                target, words = "linear", [self._image(source), str(start // SECTOR)]
            elif source is ZEROS:
                target, words = "zero", []
            else:
                computed = f"{device.name} is computed, and no table can say how: use `save` or `serve`"
                raise Refusal(device.name, source.lack(start, count) or computed)
            made.lines.append(tables.Line(at // SECTOR, count // SECTOR, target, words))
            size += len(str(made.lines[-1])) + 1
            if size > MOST_TEXT:
                raise Refusal(device.name, "it lies in more runs than dmremap takes lines: use `save` or `serve`")
        return {called: made}

    def free_paths(self, folder: str, files: "tuple[str, ...]") -> List[str]:
        """The paths of files in a folder, which is made if it isn't there; refused if anything is there already."""
        try:
            os.makedirs(folder, exist_ok=True)
        except OSError as fault:
            raise streams.OutputFailed(f"{quoting.shown(folder)}: {streams.why(fault)}")
        for path in (os.path.join(folder, name) for name in FILES):
            if os.path.lexists(path):
                raise Refusal(quoting.shown(path), "it is there already: give another folder, or remove it first")
        return [os.path.join(folder, name) for name in files]

    def put(self, folder: str, name: str) -> None:
        """Writes the three files, and prints how they are used."""
        if not self.devices:
            raise Refusal(quoting.shown(name), "nothing of it has a table: `save` and `serve` give what is computed")
        self.free_paths(folder, FILES)
        places = {name: path_of(image) for name, image in self.disks.items() if isinstance(image, Image)}
        file, *others = self.write(folder, places)
        form = "concise" if any(device.flags for device in self.devices.values()) else "table"
        put(file, [tables.text_of(list(self.devices.values()), form == "concise")])
        file, disks, listed = map(shlex.quote, [file, *others])
        has_snapshots = any(line.target == "snapshot" for line in self.lines())
        streams.out.write(f"dmremap map {form} {file} {disks}" + f" --paths {listed}" * has_snapshots + "\n")


class GroupTables(ImageTables):
    """The tables of a group: its volumes under the names that lvm2 gives them."""

    def __init__(self, layout: Layout, kept_twice: Set[Device]) -> None:
        super().__init__(kept_twice)
        layout.check()
        self._layout = layout

    def volume(self, name: bytes) -> Devices:
        """A volume with what it lies on."""
        layout, record, called = self._layout, self._layout.records.get(name), self._name_of(name)
        others = [other for other in layout.group.records if other.origin == name]
        if record and record.is_merging:
            raise Refusal(called, "it is being merged into its origin: use `save` or `serve`")
        if not record and any(other.is_merging for other in others):
            raise Refusal(called, "a snapshot is being merged into it: use `save` or `serve`")
        if not record and not others:
            return self._plain(name, called)
        origin = record.origin or b"" if record else name
        real, store, device = self._name_of(origin, "real"), self._name_of(name, "cow"), tables.TableDevice(called)
        if record:
            layout.volume(name)
        made = {**self._plain(origin, real), **(self._plain(name, store) if record else {}), called: device}
        words = [names.MAPPER + store, "P", str(record.chunk)] if record else []
        target = "snapshot" if record else "snapshot-origin"
        device.lines.append(tables.Line(0, layout.size_of(origin) // SECTOR, target, [names.MAPPER + real, *words]))
        return made

    def _plain(self, name: bytes, called: str) -> Devices:
        """The tables of what the segments of a volume have, under another name for it."""
        return self._renamed(self._layout.tables, self._layout.key_of(name), called)

    def _name_of(self, *parts: Union[bytes, str]) -> str:
        """The name that lvm2 gives a device: each hyphen of a part is doubled."""
        words = (part if isinstance(part, str) else part.decode("utf-8", "replace") for part in parts)
        return "-".join(word.replace("-", "--") for word in (self._layout.name, *words))
