"""Lists what images hold: partition tables, md arrays, LUKS containers, volume groups and their volumes.

Takes images, files or block devices, in any order. Nothing is written to them. Prints a tree. Each image is read where
labels and superblocks lie, and as a whole if nothing sound is there. Something foreign or damaged gets a line, and
hides nothing else. A partition has its offset and its length in bytes, as PATHS names it. To copy a volume, run
`save GROUP/VOLUME OUT IMAGE..`. dmremap is asked where volumes lie. Without it, `?` stands for the file system, and the
status is 4. Where the data of a LUKS container lies, says cryptsetup, if it is here: open it by cryptsetup, and scan
the opened device, too.

With --json, prints one object instead, in which `why` is null if nothing is wrong:

    images   image, bytes, table (kind, copy, sector, why; or null), holds: a list of
             partition (0: all), offset and length in bytes, what, why
    arrays   name, id, level, members, missing (how many), stale, sectors, why
    luks     name, image, partition, version, id, start, sectors, why
    groups   name, id, seqno, state, images, former_names, notes, volumes: a list of
             name, id, sectors, kind, file_system, state, why, origin, chunks_used

A group's state is complete, missing (a disk isn't there, or its metadata can't be read), truncated (an image ends too
soon), forked (its disks were changed separately; each side is an entry) or removed. A volume's state is whole,
incomplete, invalid (a snapshot), removed or not followed.
"""

import functools
import json
import shlex
from argparse import ArgumentParser, Namespace
from typing import Any, Callable, Dict, Iterator, List, Optional

from dmremap_tools.base import INCOMPLETE, SECTOR, Refusal, paths, program, quoting, streams
from dmremap_tools.base.program import NoProgram
from dmremap_tools.formats import partition_table
from dmremap_tools.formats.luks_header import container_in
from dmremap_tools.model import md_superblock
from dmremap_tools.model.device import Device, Image, Lenient
from dmremap_tools.model.groups import UNKNOWN, WHOLE, Group, Volume
from dmremap_tools.model.md_array import Array
from dmremap_tools.model.pile import Found, Pile, place_of

EXAMPLE = "dmremap-tools scan disk1.img disk2.img /dev/sdc"
JsonObject = Dict[str, Any]
UNITS = ("bytes", "KiB", "MiB", "GiB", "TiB", "PiB", "EiB")
COPIES = {"first": " (first copy)", "backup": " (backup copy, as the first is damaged)"}
# How many columns the name of a volume gets at least, and its length, its kind and what begins there.
COLUMNS = (24, 10, 10, 8)
# What stands for a file system that nobody could be asked for.
UNASKED = "?"

# Why dmremap couldn't be asked.
_unasked: List[str] = []


def add_words(parser: ArgumentParser) -> None:
    parser.add_argument("--json", action="store_true", help="print one JSON object, for other programs")
    parser.add_argument("images", metavar="IMAGE", nargs="+", help="a file or a block device")
    program.add_words(parser)


def run(words: Namespace) -> Optional[int]:
    pile = Pile(words.images, words.program)
    pile.search()
    if words.json:
        streams.out.write(json.dumps(object_of(pile), indent=1) + "\n")
    else:
        streams.out.write("".join(f"{quoting.escaped(line)}\n" for line in lines_of(pile)))
    whys = _unasked + [array.why for array in pile.arrays if array.why and program.NOT_BUILT in array.why]
    streams.tell(*whys[:1])
    return INCOMPLETE if whys else None


def object_of(pile: Pile) -> JsonObject:
    """All that was found, as `--json` prints it."""
    images = [spot.image for spot in pile.spots() if spot.image and spot.device is spot.image]
    return {"images": [image_row(pile, image) for image in images],
            "arrays": [array_row(pile, array) for array in pile.arrays],
            "luks": list(luks_rows(pile)),
            "groups": [{"name": group.name, "id": group.identity, "seqno": group.seqno, "state": group.state,
                        "images": group.places, "former_names": group.former_names, "notes": group.notes,
                        "volumes": [volume_row(volume) for volume in group.volumes]} for group in pile.groups]}


def luks_rows(pile: Pile) -> Iterator[JsonObject]:
    """The containers in images and arrays, and those in volumes."""
    found = [(container, spot.place, spot.path if spot.image else spot.place, spot.partition if spot.image else 0)
             for spot, container in pile.containers]
    for volume in (volume for group in pile.groups for volume in group.volumes):
        is_luks = asked_or(volume.file_system, UNASKED) == "luks"
        inner = container_in(Lenient(volume.device())) if is_luks else None
        found += [(inner, volume.path, volume.path, 0)] if inner else []
    for it, name, image, partition in found:
        yield {"name": name, "image": image, "partition": partition, "version": it.version, "id": it.identity,
               "start": it.start, "sectors": it.length, "why": it.fault}


def image_row(pile: Pile, image: Image) -> JsonObject:
    """An image: its partition table, if it has one, and what lies in it."""
    table = pile.tables.get(image)
    holds = [{"partition": spot.partition, "offset": place_of(spot.device), "length": spot.device.size, "what": what,
              "why": note or None} for spot, what, note in pile.found if spot.image is image]
    row = table and {"kind": table.kind, "copy": table.copy, "sector": table.sector, "why": table.fault}
    return {"image": image.path, "bytes": image.bytes, "table": row, "holds": holds}


def array_row(pile: Pile, array: Array) -> JsonObject:
    """An array: which members it has, lacks, and leaves out."""
    members = [pile.spot_of[member.device].place for member in array.by_role.values()]
    stale = [pile.spot_of[member.device].place for member in array.stale]
    return {"name": array.label, "id": array.identity, "level": array.level, "members": members,
            "missing": array.missing, "stale": stale, "sectors": array.device.size // SECTOR if array.device else None,
            "why": array.note}


def volume_row(volume: Volume) -> JsonObject:
    """A volume of a group, with its file system and what is missing of it."""
    return {"name": volume.name, "id": volume.identity, "sectors": volume.sectors, "kind": volume.kind,
            "file_system": asked_or(volume.file_system, UNASKED), "state": asked_or(volume.state, UNKNOWN),
            "why": asked_or(volume.why, program.NOT_BUILT), "origin": volume.origin,
            "chunks_used": asked_or(volume.chunks_used, None)}


def asked_or(ask: Callable[[], Any], otherwise: Any) -> Any:
    """What is found out of a volume, or something else where that takes dmremap and there is none."""
    try:
        return ask()
    except NoProgram as refusal:
        _unasked.append(str(refusal))
        return otherwise


def lines_of(pile: Pile) -> Iterator[str]:
    """The tree: images with what they hold, arrays, groups, and containers."""
    on = pile.found_on
    for spot in (spot for spot in pile.spots() if spot.device is spot.image):
        table, inner = pile.tables.get(spot.device), held_by(pile, spot.device)
        if table:
            count = f"{len(table.partitions)} partition" + "s" * (len(table.partitions) != 1)
            fault = f": {table.fault}" if table.fault else ""
            own = f"; and {contents_of(pile, on, spot.device)}" if spot.device in on else ""
            yield f"{quoting.shown(spot.place)}: {table.kind}{COPIES.get(table.copy, '')}, {count}{fault}{own}"
            yield from (f"  {line}" for line in inner)
        else:
            yield f"{quoting.shown(spot.place)}: {inner[0]}"
    for array in pile.arrays:
        row = array_row(pile, array)
        missing = f", {array.missing} missing" if array.missing else ""
        stale = f"; stale, so not read: {', '.join(map(quoting.shown, row['stale']))}" if array.stale else ""
        why = f": {array.note}" if array.note else ""
        what = f"{array.level} of {array.count}{missing}: {', '.join(map(quoting.shown, row['members']))}"
        yield f"{quoting.shown(array.label)}: {what}{stale}{why}"
        yield from (f"  {line}" for line in (held_by(pile, array.device) if array.device else ()))
    for group in pile.groups:
        yield from group_lines(group)
    for row in luks_rows(pile):
        why = f": {row['why']}" if row["why"] else ""
        identity = quoting.shown(row["id"]) or "unknown"
        yield f"LUKS{row['version']} container on {quoting.shown(row['name'])}, id {identity}{why}"


def held_by(pile: Pile, device: Device) -> List[str]:
    """What lies on a device, in words: a line for each partition, or one for all of it."""
    table, found = pile.tables.get(device), pile.found_on
    if not table:
        return [contents_of(pile, found, device)]
    image = pile.spot_of[device].image if device in pile.spot_of else None
    return [f"{number}: {contents_of(pile, found, it)}"
            + (f", at {quoting.shown(paths.part(image.path, it.start, it.size))}" if image is device else "")
            for number, it in table.partitions.items()]


def contents_of(pile: Pile, on: Dict[Device, List[Found]], device: Device) -> str:
    """What lies on a device, in words; `on` has what was found by the devices."""
    for array in pile.arrays:
        if any(member.device is device for member in [*array.by_role.values(), *array.stale]):
            return f"member of {array.label}"
    words: List[str] = []
    for found in on.get(device, ()):
        group = next((group.name for group in reversed(pile.groups) if found.spot.device.name in group.places), "")
        without = " without a group" if found.what == "physical volume" else ""
        what = found.what + (f" of {quoting.shown(group)}" if group else without)
        is_noted = found.note and found.what != "unknown"
        words.append(quoting.shown(f"{what}: {found.note}" if is_noted else found.note or what))
    return "; ".join(words) or "looked into no more"


def group_lines(group: Group) -> Iterator[str]:
    """The lines of a group: what it is, where it lies, and its volumes."""
    former = f", formerly {quoting.some(group.former_names)}" if group.former_names else ""
    yield f"group {quoting.shown(group.name)}: {group.state}, seqno {group.seqno}, id {group.identity}{former}"
    yield f"  on {', '.join(map(quoting.shown, group.places)) or 'none of these images'}"
    yield from (f"  {note}" for note in group.notes)
    for volume in group.volumes:
        row, path = volume_row(volume), quoting.shown(f"{group.name}/{volume.name}")
        columns = [path, in_units(volume.sectors * SECTOR), row["kind"], row["file_system"] or "-"]
        chunks = f"{row['chunks_used']} chunks" if row["chunks_used"] is not None else ""
        origin = f"of {quoting.shown(row['origin'])}" if row["origin"] else ""
        notes = [origin, chunks, row["state"] if row["state"] != WHOLE else "", row["why"] or ""]
        line = " ".join(column.ljust(width) for column, width in zip(columns, COLUMNS))
        yield f"  {line} {': '.join(filter(None, notes))}".rstrip()
        inner = asked_or(functools.partial(held_in, volume), None) if row["why"] is None else None
        if inner:
            name = shlex.quote(f"{group.name}/{volume.name}")
            way = quoting.escaped(f"dmremap-tools save {name} inner.img IMAGE.. && dmremap-tools scan inner.img")
            yield f"    {inner} lies in it: {way}"


def held_in(volume: Volume) -> Optional[str]:
    """What lies in a volume that `scan` would look into."""
    if volume.file_system() == "lvm2":
        return "a physical volume"
    try:
        if md_superblock.found_in(volume.device())[0]:
            return "a member of an md array"
        table = partition_table.table_of(Lenient(volume.device()))
    except NoProgram:
        raise
    except Refusal:
        return None
    return table and f"a partition table ({table.kind})"


def in_units(size: int) -> str:
    """A number of bytes in the largest unit that divides it, or with a fraction in that of its size."""
    unit = max(it for it in range(len(UNITS)) if size % 1024 ** it == 0) if size else 0
    if size < 10240 * 1024 ** unit:
        return f"{size // 1024 ** unit} {UNITS[unit]}"
    unit = (size.bit_length() - 1) // 10
    return f"{size / 1024 ** unit:.1f} {UNITS[unit]}"
