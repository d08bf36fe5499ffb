"""Prints the metadata text of the group that a physical volume of LVM2 belongs to.

Takes HEAD, the physical volume, or an image of its beginning, such as its first MiB, or of the whole disk, which is
searched as by `scan`: each physical volume in it is taken, in a partition, in a member of an md array, or anywhere if
nothing else is found. HEAD?offset=BYTES is what begins there in it. Several physical volumes have to agree.

Prints the valid text. The label says where the metadata areas are, and the header of an area which of its texts is
valid. Each of the three has a checksum. If the first area is damaged, the second is taken, if there is one. If both are
sound, the text with the higher seqno is taken; two groups, or two texts with one number, are refused. If all are
damaged, take another physical volume of the group, or a text in /etc/lvm/backup. --list prints what is left of older
texts: the place of each in HEAD, its group, the group's id, the seqno and the time; `cut` is a text whose end isn't
there. --at prints one of these.

Without a sound label, areas are looked for in the first and the last 4 MiB, and then labels in the whole image.

Refuses whatever no checksum confirms, and a volume that belongs to no group. If texts differ, each is reported with its
volumes. A text that lvm2 was about to make the valid one isn't taken; lvm2 doesn't take it either. Older texts have no
checksum: choose one by the group's id and the time, because a group that was removed may have had the same name, and
higher numbers. No checksum tells whether another physical volume has a later text, or whether the disks still hold what
it says.
"""

import argparse
import os
from typing import List, Optional

from dmremap_tools.base import numbers, paths, quoting, streams
from dmremap_tools.base.numbers import SECTOR
from dmremap_tools.base.refusal import Refusal, WrongWords
from dmremap_tools.model import md_superblock
from dmremap_tools.model.device import Device, Image, Lenient, Part, image_of
from dmremap_tools.model.physical_volume import (EMPTY, MISSING, SEARCHED, MetadataArea, PhysicalVolume, Text,
                                                 leftover_in, read_by_heads, texts_of_ring, volume_in)
from dmremap_tools.model.pile import Pile, place_of

EXAMPLE = "dmremap-tools metadata vg0-head.img > vg0.backup && dmremap table lvm vg0.backup"
OTHER = "try another physical volume of the group, or a file in /etc/lvm/backup"
OLDER = "see what is left of older texts with --list"
# How much of an image is looked through for older texts where it isn't known where the areas are.
HEAD = 1 << 20


def add_words(parser: argparse.ArgumentParser) -> None:
    which = parser.add_mutually_exclusive_group()
    which.add_argument("--list", action="store_true", help="list the texts that are left in the metadata areas")
    which.add_argument("--at", type=numbers.word, metavar="BYTE", help="print the listed text that begins at this byte")
    parser.add_argument("heads", nargs="+", metavar="HEAD", help="the physical volume, or an image of its beginning")


def run(words: argparse.Namespace) -> None:
    is_of_one = words.list or words.at is not None
    if len(words.heads) > 1 and is_of_one:
        raise WrongWords("--list and --at take one HEAD")
    places = [paths.place_of("/dev/stdin" if path == "-" else path) for path in words.heads]
    for path, place in zip(words.heads, places):
        if place.is_said and os.path.lexists(path):
            raise Refusal(quoting.shown(path), f"a file is called so, and here it means a byte of "
                          f"{quoting.shown(place.path)}: give the file another name, or a link to it")
    # What is no image of a disk is refused by its path.
    images = [image_of(place.path) for place in places]
    pile = Pile([place.path for place in dict.fromkeys(places) if not place.is_said], None)
    volumes = [*pile.volumes, *pile.leftovers]
    faults = {quoting.shown(device.name): table.fault for device, table in pile.tables.items() if table.fault}
    if not volumes and not faults:
        pile.search()
        volumes += pile.volumes
    parts = [spot.device for spot in pile.spots() if spot.image] if not volumes else []
    for image, place in ((image, place) for place, image in zip(places, images) if place.is_said):
        if place.start >= image.bytes:
            raise Refusal(image.name, f"it ends before byte {place.start}: give a lower offset, or more of the disk")
        parts.append(Part(image.name, image, place.start, min(place.length, max(0, image.size - place.start))))
    volumes += filter(None, map(volume_of, parts))
    if len(volumes) > 1 and is_of_one:
        raise Refusal(images[0].name, "it has several physical volumes: take one, as HEAD?offset=BYTES")
    if not volumes and not is_of_one:
        why = next((f" ({fault})" for fault in faults.values()), pile.unread_notes())
        raise Refusal(images[0].name, f"no physical volume is found{why}: {OTHER}")
    streams.tell(*(f"{name}: {fault}" for name, fault in faults.items()))
    if words.list:
        for text in texts_in(images[0], volumes):
            time = (text.said_time() or b"cut").decode("utf-8", "surrogateescape")
            row = f"{text.at} {text.group} {text.identity} seqno {text.seqno} - {time}"
            streams.out.write(quoting.escaped(row) + "\n")
        return
    content = older_text(images[0], volumes, words.at) if is_of_one else first_if_equal(volumes)
    streams.out.write(content.decode("utf-8", "surrogateescape"))


def volume_of(device: Device) -> Optional[PhysicalVolume]:
    """The physical volume that a device is, or that is in it as a member of an array; what is left of one, or None."""
    members = md_superblock.found_in(device)[0]
    datas = [Part(device.name, device, it.start * SECTOR, it.length * SECTOR) for it in members]
    found, left = next(filter(None, map(volume_in, [device, *datas])), None), leftover_in(device, True)
    return found or left


def first_if_equal(volumes: List[PhysicalVolume]) -> bytes:
    """The text that dmremap reads in these volumes, if it is there and takes them; else the first of their valid texts.
    Refuses texts that differ in more than their times."""
    is_sound = not any(volume.faults for volume in volumes)
    heads = read_by_heads(None, "metadata", [volume.device for volume in volumes]) if is_sound else None
    if heads and heads[1]:
        return heads[1]
    texts = [valid_text(volume) for volume in volumes]
    if len({it.body() for it in texts}) > 1:
        for volume, text in zip(volumes, texts):
            streams.tell(f"{volume.place}: {text.summary()}")
        raise Refusal(volumes[0].place, "the texts differ: "
                      "look at what each has, and take the volume that is right alone")
    return texts[0].content


def valid_text(volume: PhysicalVolume) -> Text:
    """The sound text with the highest number. Refuses texts of different groups, and different ones of that number."""
    areas, label = volume.areas, volume.label
    if not areas:
        why = next(iter(volume.faults), "this physical volume keeps no metadata")
        raise Refusal(volume.place, f"{why}: {OTHER}")
    if volume.faults and label.sector < 0:
        streams.tell(f"{volume.place}: {volume.faults[0]}: metadata areas were looked for in the first and last "
                     f"{SEARCHED >> 20} MiB")
    if label.is_used is False and all(it.fault in (EMPTY, MISSING) for it in areas):
        raise Refusal(volume.place, f"the physical volume belongs to no group: {OLDER}")
    sound = [(it, it.text) for it in areas if it.text]
    if not sound:
        why = "; ".join(f"{areas_in_words([it])}: {it.fault}" for it in areas)
        is_cut = any(it.fault == MISSING for it in areas)
        raise Refusal(volume.place, f"{why}: " + ("take more of the disk" if is_cut else f"{OTHER}, or {OLDER}"))
    texts = [text for _, text in sound]
    newest = max(text.seqno for text in texts)
    are_of_one = len(texts) == 1 or texts[0].group and len({text.identity for text in texts}) == 1
    if not are_of_one or len({text.body() for text in texts if text.seqno == newest}) > 1:
        for area, text in sound:
            streams.tell(f"{volume.place}: {areas_in_words([area])}: {text.summary()}")
        why = "have different texts with one seqno" if are_of_one else "have texts of different groups"
        raise Refusal(volume.place, f"{areas_in_words([area for area, _ in sound])} {why}: {OTHER}")
    taken, valid = next(each for each in sound if each[1].seqno == newest)
    for area in areas:
        if area.fault:
            streams.tell(f"{volume.place}: passed over: {areas_in_words([area])}: {area.fault}")
        elif area.text and area.text.seqno < newest:
            older = area.text.summary()
            streams.tell(f"{volume.place}: passed over: {areas_in_words([area])}: its text is older: {older}")
            streams.tell(f"{volume.place}: taken: {areas_in_words([taken])}: {valid.summary()}")
    return valid


def areas_in_words(areas: List[MetadataArea]) -> str:
    """What areas are called in messages, by the bytes at which they begin."""
    return f"the metadata area{'s' * (len(areas) > 1)} at byte {' and '.join(str(it.start) for it in areas)}"


def texts_in(image: Image, volumes: List[PhysicalVolume]) -> List[Text]:
    """The older texts of a physical volume, or at the beginning of an image where none is known, each with its byte in
    the image. Refuses an image without any."""
    texts = [it._replace(at=place_of(volume.device) + it.at) for volume in volumes for it in volume.texts]
    texts = texts or texts_of_ring(0, Lenient(image).read(0, HEAD), False)
    if not texts:
        raise Refusal(image.name, "there is no text of a group: "
                      "take another physical volume, or a file in /etc/lvm/archive")
    return texts


def older_text(image: Image, volumes: List[PhysicalVolume], at: int) -> bytes:
    """The older text that begins at a byte. Refuses one that is cut."""
    text = next((it for it in texts_in(image, volumes) if it.at == at), None)
    if text is None or not text.said_time():
        why = "there is no text" if text is None else "the text is cut"
        raise Refusal(image.name, f"{why} at byte {at}: see with --list which are whole")
    return text.content
