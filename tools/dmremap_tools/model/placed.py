"""Where the disks of tables, or of a text of lvm2, lie in images: at places that are given, or where the images have
the text's physical volumes. Places are refused at which the bytes of a disk aren't those that lie there, as in a member
of an array that has only some of these."""

import os
import re
from typing import Dict, Iterator, Optional

from dmremap_tools.base import SECTOR, Refusal, quoting, written
from dmremap_tools.base.paths import DiskPlace
from dmremap_tools.model.config_text import shown
from dmremap_tools.model.device import Device, Image, Part
from dmremap_tools.model.md_superblock import BAD_BLOCKS, HARMLESS, Member, has_all
from dmremap_tools.model.physical_volume import label_at
from dmremap_tools.model.pile import Pile

# What tables call an array, and a partition of one.
ARRAY, PARTITION = re.compile(r"(?:/dev/)?md(?:_?d?\d+(?:p\d+)?|/.+)|9:\d+"), re.compile(r".*p\d+")
GIVE = "give the partition that it is, as IMAGE?offset=BYTES&length=BYTES"
PARTS = ("a member of an md array that isn't raid1, so that no member has all of a physical volume: give the images of "
         "all members to `save GROUP/VOLUME OUT IMAGE..`, which puts it together")
CHANGING = ("a member of an md array that is a spare, or is being filled or reshaped, so that it doesn't have the "
            "array's bytes: take another member")
BAD = "a member of an md array that has bad blocks, which a kernel reads from another one: take that"
NO_VOLUME = ("a member of an md array in which the physical volume isn't found: give its place, as "
             "IMAGE?offset=BYTES&length=BYTES")
OLDER = ("a member of an md array that was away when others changed: it has the count of events {}, and {} has {}: "
         "take that")


def by_ids(ids: Dict[str, bytes], places: Dict[str, DiskPlace], sizes: Dict[str, int],
           asked: str) -> Dict[str, DiskPlace]:
    """The places of disks, of which some may be whole disks that have a physical volume on a partition. Without `ids`
    of physical volumes, they are what was given. `sizes` has the sectors of each disk, and `asked` is dmremap. Refuses
    an image of another disk, and one of which nothing says where the disk is."""
    # Without those that can't be read, of which who reads them says why.
    paths = [path for path in dict.fromkeys(place.path for place in places.values())
             if written.identity_at(path) and os.access(path, os.R_OK)]
    found, pile = dict(places), Pile(paths, asked)
    check_places(places, pile, bool(ids))
    for name, place in places.items():
        image, size = image_at(pile, place.path), sizes.get(name)
        if not image:
            continue
        if name in ids:
            found[name] = place_of_volume(pile, image, name, ids[name], place)
        # The image of a whole disk isn't one of a partition, which doesn't begin where that does. A disk as long as
        # said is taken, and one whose image ends too early, if its partitions lie within so many sectors.
        table = pile.tables.get(image) if not found[name].is_said else None
        ends = [image.bytes, *(part.start + part.size for part in table.partitions.values())] if table else []
        if table and size is not None and image.bytes // SECTOR != size and max(ends) > size * SECTOR:
            raise Refusal(image.name, f"the image of a whole disk ({table.kind}), and {quoting.shown(name)} has {size} "
                          f"sectors: {GIVE}")
    return found


def image_at(pile: Pile, path: str) -> Optional[Image]:
    """The image of a pile that is at a path, perhaps under another name; None where there is none."""
    identity = written.identity_at(path)
    return next((spot.image for spot in pile.spots() if spot.image and spot.image.identity == identity), None)


def begins_in(pile: Pile, device: Device, image: Image) -> Iterator[int]:
    """The bytes of an image at which a device begins that lies there in a row, as an array does on some members."""
    if device is image:
        yield 0
    elif isinstance(device, Part):
        yield from (begin + device.start for begin in begins_in(pile, device.lower, image))
    for member in (member for array in pile.arrays if array.device is device for member in array.by_role.values()):
        if not md_member_fault(member, pile):
            yield from (begin + member.superblock.start * SECTOR for begin in begins_in(pile, member.device, image))


def place_of_volume(pile: Pile, image: Image, name: str, identity: bytes, place: DiskPlace) -> DiskPlace:
    """Where an image has the physical volume with this id: in all of it, or at a place that was given. That place
    itself where nothing says which volume is there. Refuses the image of another volume, and one in question."""
    members = [(begin, member) for member in pile.members for begin in begins_in(pile, member.device, image)]
    datas = [(begin, begin + it.superblock.start * SECTOR) for begin, it in members if has_all(it.superblock)]
    labels = {begin: label_at(image, begin) for begin in (place.start, *(data for _, data in datas))}
    found = {begin: label.identity for begin, label in labels.items() if label}
    whys: Dict[int, Optional[str]] = {}
    for volume in pile.volumes:
        for begin in begins_in(pile, volume.device, image):
            found[begin] = volume.identity.encode()
            whys[begin] = volume.doubt or (None if place.is_said else volume.question)
    if place.is_said:
        here = [place.start, *(data for begin, data in datas if begin == place.start)]
        found = {begin: known for begin, known in found.items() if begin in here}
    mine = next((begin for begin, known in found.items() if known == identity), None)
    table, note = pile.tables.get(image), next((found.note for found in pile.found if found.spot.device is image), "")
    if mine is not None:
        why = whys.get(mine)
        if why:
            raise Refusal(image.name, why)
        return DiskPlace(place.path, mine, True, place.start + place.length - mine)
    if found:
        wrong, ids = f"it isn't {quoting.shown(name)}, whose id is {shown(identity)}", map(shown, found.values())
        raise Refusal(image.name, f"{wrong}, but has the id {' or '.join(ids)}: give the path of that")
    if table and not place.is_said:
        numbers = quoting.some(list(map(str, table.partitions))) or "-"
        raise Refusal(image.name, table.fault or f"the image of a whole disk ({table.kind}), none of whose partitions "
                      f"({numbers}) has a sound label: {GIVE}")
    if any(spot.device is image for spot, _ in pile.damaged):
        raise Refusal(image.name, note)
    for member in (member for begin, member in members if begin == place.start and member.superblock.start):
        raise Refusal(image.name, md_member_fault(member, pile) or NO_VOLUME)
    return place


def check_places(places: Dict[str, DiskPlace], pile: Pile, are_volumes: bool = False) -> None:
    """Refuses places behind the superblocks of members that don't have all data of their arrays, or of which another
    one here is newer; or behind one that is damaged, so that nothing says of which level the array is. The names are
    those of disks. Where they are physical volumes or arrays, a place at which a member begins is the same."""
    for name, place in places.items():
        image, is_array = image_at(pile, place.path), bool(ARRAY.fullmatch(name))
        begins = [(spot, it) for spot in pile.spots() for it in (begins_in(pile, spot.device, image) if image else ())]
        behind = [spot for spot, begin in begins if begin < place.start < begin + spot.device.size]
        damaged = next((spot for spot in behind if spot in dict(pile.damaged)), None)
        if damaged:
            raise Refusal(place.path, next(found.note for found in pile.found if found.spot is damaged))
        for member in pile.members:
            for spot, begin in ((spot, begin) for spot, begin in begins if spot.device is member.device):
                data = begin + member.superblock.start * SECTOR
                is_beginning, is_behind = place.start in (begin, data), spot in behind
                is_volume = are_volumes and (is_beginning or not place.is_said) and image and label_at(image, data)
                why = md_member_fault(member, pile) if is_behind or is_volume or is_array and is_beginning else None
                if why:
                    raise Refusal(quoting.shown(place.path), why)
                is_array_place = is_array and not are_volumes and (is_behind or is_beginning)
                if is_array_place and place.start != data and not PARTITION.fullmatch(name):
                    raise Refusal(quoting.shown(place.path), f"{quoting.shown(name)} is an array, and this place is in "
                                  f"a member of one whose data begins at byte {data}: give that, as "
                                  "IMAGE?offset=BYTES&length=BYTES")


def md_member_fault(member: Member, pile: Pile) -> Optional[str]:
    """Why the bytes of a member aren't those of its array, or None."""
    mine = member.superblock
    if not has_all(mine):
        return PARTS
    if mine.role is None or mine.features & ~HARMLESS:
        return CHANGING
    if mine.features & BAD_BLOCKS:
        return BAD
    alike = (it for it in pile.members if it.superblock.array == mine.array and it.superblock.events > mine.events)
    return next((OLDER.format(mine.events, pile.spot_of[it.device].path, it.superblock.events) for it in alike), None)
