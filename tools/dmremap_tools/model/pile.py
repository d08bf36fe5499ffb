"""A pile of images: what is found in them where labels and superblocks lie, or else anywhere, and what names mean."""

import contextlib
import itertools
import os
from typing import Any, Collection, Dict, Iterator, List, NamedTuple, Optional, Sequence, Tuple

from dmremap_tools.base import SECTOR, Refusal, names, quoting
from dmremap_tools.formats import disk_image, signatures
from dmremap_tools.formats.luks_header import SECOND_ALONE, Container, container_in
from dmremap_tools.formats.partition_table import Table, backup_of, table_of
from dmremap_tools.model import mapping, md_superblock, physical_volume
from dmremap_tools.model.device import (ANY, COMPARED_AT_ONCE, Device, Doubt, Image, Lenient, Missing, NamedDevice,
                                        Part, Run, is_alike)
from dmremap_tools.model.groups import REMOVED, Group, Texts, Volume, same_id
from dmremap_tools.model.layout import tried
from dmremap_tools.model.md_array import Array, put_together
from dmremap_tools.model.md_chunks import sum_in_field
from dmremap_tools.model.md_superblock import AT_END, MIRRORED, OLD, Member, Superblock, has_all
from dmremap_tools.model.physical_volume import PhysicalVolume, Within

# What blkid calls otherwise than is done here.
SAME = {"crypto_LUKS": "luks", "LVM2_member": "lvm2", "BitLocker": "bitlocker", "zfs_member": "zfs"}
# A disk of a controller is at most by this part longer than what a volume has of it, and a volume has no more of them.
# Before this byte a physical volume has no data.
SLACK, MOST_STRIPES, FIRST_DATA = 40, 32, 1 << 13
NOTHING, SCAN, BIG_SECTOR = "nothing is found in it", "`scan` lists what is there", 4096
# The most disks, partitions and arrays that are looked at, levels of arrays that are members of others, and partitions
# that blkid is asked for.
MOST_SPOTS, MOST_LEVELS, MOST_ASKED = 1 << 13, 8, 1 << 8
MANY = f"no more than {MOST_SPOTS} disks, partitions and arrays are looked at: give fewer images"
NESTED = (f"its members lie on arrays in {MOST_LEVELS} levels, and no more are followed: assemble it with mdadm "
          "--readonly")
OLD_MEMBER = "a member of an md array with metadata 0.90, which isn't followed: assemble copies with mdadm --readonly"
DAMAGED = ("its md superblock at byte {} is damaged: give the other members alone, or make the array anew on copies "
           "(mdadm --create --assume-clean)")
MAY_BE_NEWER = ("it lacks members, and {} may be one with other data, as its md superblock can't be read: leave that "
                "out to take what is here")
MAY_BE_OLD = "it lacks members that others may have written to since, so that this may be older"
PERHAPS_PART = ("{} was found by looking through the image, and {}, so that it may have a part of its bytes, or old "
                "ones: put that together and give its device, or restore the partition table on a copy")
FOREIGN = ("a signature of {} at byte {} says that something has these bytes that isn't followed: put that together "
           "and give its device, or, if the signature is only left over, take it out of a copy by wipefs")
TWO_OWNERS = ("{} has sound md superblocks of several arrays, which nothing tells apart: take the one that is older "
              "out of a copy (mdadm --zero-superblock --metadata)")
TABLE_TOO = ("there are both an md superblock and a partition table ({}): name {} to take the partition, or {} to take "
             "the array")
TABLE_OVER_LABEL = ("the disk has a partition table ({}) as well, which was made later, so that others may have "
                    "written there: to take it as it was, take the table out of a copy (dd if=/dev/zero of=COPY "
                    "count=1 conv=notrunc)")
TABLE_UNREAD = ("{}, where a later partition table may be: to take the disk as it was without one, list these bytes as "
                "finished in a copy of the map")
OLDER_ARRAY = "a member of {}, whose member {} has a partition table since: leave that out to take the array without it"
OTHER_TABLE = ("a partition table ({}) that isn't followed begins it: attach a copy by losetup -P, and give its "
               "partitions, or cut them out by dd")
AS_ANOTHER = "partition {} begins at the same byte and has it all, so that it is told there"
STRIPES = ("{} in it says that it has {} bytes, where this is a disk of {}, which seems to be one of the stripes of a "
           "controller: give an image of the controller's volume, or of the whole disk if it was cut off")
ONE_MEMBER = ("{} has {} bytes, and {} in it {}: it seems to be one member of an array whose md "
              "superblock is lost, or is cut off: give the whole disk, or all members with their superblocks")


class Spot(NamedTuple):
    """Where something may lie: a device, in an image or an array, and the number of the partition that it is, or 0."""

    device: Device
    image: Optional[Image]
    partition: int = 0

    @property
    def path(self) -> str:
        """The image as it was given, or what the array is called."""
        return self.image.path if self.image else self.device.name

    @property
    def place(self) -> str:
        """The same, with the partition."""
        return self.path + (f":{self.partition}" if self.partition else "")

    @property
    def names(self) -> List[str]:
        """What it may be called."""
        return [self.place, *([self.place.rpartition("/")[2], f"./{self.place}"] if self.image else [])]


# What a spot is: a word for it, and what is to be said of it.
Found = NamedTuple("Found", [("spot", Spot), ("what", str), ("note", str)])


class Pile:
    """What is in some images; of each some runs may not have been read from the disk. `program` is what is asked."""

    def __init__(self, paths: Sequence[str], program: Optional[str],
                 unread: Optional[Dict[str, List[Run]]] = None) -> None:
        mapping.Child.program = self._program = program
        self.found: List[Found] = []
        self.tables: Dict[Device, Table] = {}
        self.arrays: List[Array] = []
        self.containers: List[Tuple[Spot, Container]] = []
        self.volumes: List[PhysicalVolume] = []
        self.leftovers: List[PhysicalVolume] = []
        self.groups: List[Group] = []
        # All members, also those of which no array is put together.
        self.members: List[Member] = []
        self._members: Dict[bytes, List[Member]] = {}
        # What seems to be members by damaged superblocks, with the ids that these give their arrays.
        self.damaged: List[Tuple[Spot, bytes]] = []
        # Disks that were members of arrays before they had a partition table, by the ids of these.
        self._left: Dict[bytes, Spot] = {}
        # Why nobody can be sure of what lies on a device; and who else says that it has it.
        self._questions: Dict[Device, str] = {}
        # Of these a table and a superblock both say that they are theirs, so that partitions can be taken by name.
        self._two_readings: List[Device] = []
        self.spot_of: Dict[Device, Spot] = {}
        self._unknown: List[Spot] = []
        images: Dict[object, Image] = {}
        for image in [Image(path, (unread or {}).get(path, ())) for path in paths]:
            if images.setdefault(image.identity, image) is not image:
                self._say(Spot(image, image), "foreign", f"it is {images[image.identity].name} under another name")
        for image in images.values():
            if image.other_form or not image.size:
                short = f"it is too short: it has {image.bytes} bytes" if image.bytes else "it is empty"
                self._say(Spot(image, image), "foreign", image.other_form or short)
            else:
                self._look_at(Spot(image, image))
        self._assemble()
        if not self.arrays:
            # A half of a mirror alone has all data.
            for spot, _ in self.damaged:
                self._look_into(spot, table_in(spot.device, known_in(spot.device)))
        self._group()

    def search(self) -> None:
        """Looks through the images in which nothing sound was found. What is there may be a part of what has it."""
        waiting, self._unknown, known = self._unknown, [], len(self.volumes)
        within = [(spot, spot.image, physical_volume.found_within(spot.image)) for spot in waiting if spot.image]
        rows = [(spot, image, found, volume) for spot, image, found in within for volume in found.volumes]
        for spot, image, _, volume in rows:
            self.found = [found for found in self.found if found.spot is not spot]
            self._take(Spot(volume.device, image), volume, self._question_of(spot),
                       f"found at byte {volume.start} by looking through the whole image")
        for _, image, found, volume in rows:
            why = self._belonging(volume, image, found, self.volumes[known:])
            volume.doubt = why and PERHAPS_PART.format(volume.place, why)
        if len(self.volumes) > known:
            self._group()
            if self._doubt_held(self.volumes[known:]):
                self._group()

    def _belonging(self, volume: PhysicalVolume, image: Image, within: Within,
                   others: Sequence[PhysicalVolume]) -> Optional[str]:
        """To what a physical volume that looking through an image found belongs, or None."""
        start = volume.start
        outer = [it.start for it in within.volumes if it.start < start < it.start + it.size]
        outer += [head for head in within.heads if head < start]
        if outer:
            return f"lies in or behind another physical volume, at byte {min(outer)}"
        if image.lack(0, start):
            return "something before it, where another label may be, can't be read"
        if sum(it.identity == volume.identity for it in others) > 1 or self._is_shared(image, start):
            return "lies in several images, as in members of an array"
        members = [(begin, it) for begin, it in within.members if begin <= start < begin + it.length * SECTOR]
        if all(begin == start and has_all(it) and it.array not in self._members for begin, it in members):
            texts = (text for it in self.volumes for text in it.current)
            is_upper = not members and any(volume.identity in text.on(physical_volume.UPPER) for text in texts)
            return "was on an array or on another volume, as a text says" if is_upper else None
        return "lies in a member of an md array, as a superblock says"

    def _is_shared(self, image: Image, at: int) -> bool:
        """Whether some bytes of an image are the same in another one of its length, or the sum of those of others."""
        others = {it.image for it in self.spot_of.values() if it.image and it.image.size == image.size} - {image}
        mine, *contents = (Lenient(it).filled(at, COMPARED_AT_ONCE) for it in (image, *list(others)[:MOST_STRIPES]))
        sums = (each for count in {1, 2, len(contents) - 1, len(contents)} - {-1, 0}
                for each in itertools.combinations(contents, count))
        return any(sum_in_field(each) == mine for each in sums)

    def _doubt_held(self, found: Sequence[PhysicalVolume]) -> bool:
        """Doubts those physical volumes that volumes of groups hold, and says whether there are any."""
        wanted, held = [it for it in found if not it.doubt], {}  # type: List[PhysicalVolume], Dict[str, str]
        for volume in (volume for group in self.groups for volume in group.volumes if wanted and not volume.is_removed):
            with contextlib.suppress(Refusal):
                inner = physical_volume.volume_in(volume.device()) if volume.file_system() == "lvm2" else None
                held.update({inner.identity: volume.path} if inner else {})
        for inside in (it for it in wanted if it.identity in held):
            inside.doubt = PERHAPS_PART.format(inside.place, f"lies in {held[inside.identity]}")
        return any(it.doubt for it in wanted)

    def _group(self) -> None:
        """Puts the groups together. A physical volume that is longer than where it lies is doubted if it was looked
        for, or a text says that it was on an array."""
        cut = [each for each in self.volumes if self.spot_of[each.device].image and each.size > each.device.size]
        texts = [text for volume in self.volumes for text in volume.current] if cut else []
        on_arrays = {identity for text in texts for identity in text.on(physical_volume.ARRAYS)}
        damaged = [spot.device for spot, _ in self.damaged]
        for volume in cut:
            if volume.start or volume.identity in on_arrays or volume.device in damaged:
                volume.doubt = ONE_MEMBER.format(volume.place, volume.device.size, "the physical volume", volume.size)
        for volume in self.volumes:
            volume.question = volume.question or self._stripes("the physical volume", volume.device, volume.size)
        dark = [spot.device for spot in self._dark()]
        self.groups = list(Texts(self.volumes, self.leftovers, self._program, dark).groups())

    def _dark(self) -> Iterator[Spot]:
        """The images, partitions and arrays in which nothing is found: something of them may be lost."""
        return (spot for spot, what, _ in self.found
                if what == "unknown" or spot.image and (spot.image.other_form or not spot.image.size))

    def _halves(self, array: Array, made: Device) -> Iterator[Spot]:
        """What may be a member that an array lacks, on another disk: its superblock is damaged, or nothing is found in
        it, and it is long enough, and has bytes if all are here; or it has the array's label, or bytes of a mirror."""
        device, superblock = array.best
        yield from (spot for spot, it in self.damaged if it == superblock.array or it not in self._members)
        images = {None, *(self.spot_of[member.device].image for member in array.members)}
        start, size = superblock.start * SECTOR, array.length(array.best) * SECTOR
        dark, members = [spot.device for spot in self._dark()], {member.device for member in self.members}
        label = physical_volume.label_at(made, 0)
        for spot in (found.spot for found in self.found if found.spot.image not in images):
            other, is_long = physical_volume.label_at(spot.device, start), spot.device.size >= start + size
            if spot.device in dark:
                may_be = array.may_be_old or is_alike(spot.device, spot.device, 0, spot.device.size)
                yield from [spot] * (may_be and (is_long or spot.device is spot.image))
            elif is_long and spot.device not in members and (
                    other == label if other else array.level == "raid1" and is_alike(spot.device, device, start, size)):
                yield spot

    def spots(self) -> List[Spot]:
        """All devices that were looked at: images, partitions, arrays and their partitions."""
        others = [found.spot for found in self.found if found.spot.device not in self.spot_of]
        return [*self.spot_of.values(), *others]

    @property
    def found_on(self) -> Dict[Device, List[Found]]:
        """What was found on each device. What looking through an image found is on that."""
        found_on: Dict[Device, List[Found]] = {}
        for found in self.found:
            device, image, partition = found.spot
            found_on.setdefault(device if partition or not image else image, []).append(found)
        return found_on

    def _say(self, spot: Spot, what: str, note: str = "") -> None:
        self.found.append(Found(spot, what, note))

    def _stripes(self, what: str, device: Device, size: int, lacking: Collection[bytes] = ()) -> Optional[str]:
        """Why something of so many bytes seems to be on several disks, of which a device has one: it is about as long
        as some of these, or longer than this one, where another one of that length has nothing that is known, or an
        array lacks members."""
        image, end = self.spot_of[device].image, place_of(device) + size
        if not image or end <= image.size:
            return None
        times = -(-end // image.size)
        is_multiple = times <= MOST_STRIPES and end > times * (image.size - image.size // SLACK)
        alike = (spot.image for spot in self._unknown if spot.image and spot.image is not image)
        if is_multiple or any(other.size == image.size for other in alike):
            return STRIPES.format(what, size, image.size)
        return ONE_MEMBER.format(device.name, device.size, what, size) if lacking else None

    def _question_of(self, spot: Spot) -> Optional[str]:
        """Why nobody can be sure of what lies on a device, or on what it lies on."""
        device: Optional[Device] = spot.device
        while device and device not in self._questions:
            device = device.lower if isinstance(device, Part) else None
        return self._questions[device] if device else None

    def _look_at(self, spot: Spot) -> None:
        """Says what a device is, from the outside in: a member of an array, a disk with partitions, or what lies on
        it. Where both a superblock and a table say that it is theirs, the one that fits has it."""
        if len(self.spot_of) >= MOST_SPOTS:
            self._say(spot, "foreign", MANY)
            return
        self.spot_of[spot.device] = spot
        device, known = spot.device, known_in(spot.device)
        found, damaged = md_superblock.found_in(device)
        owners = md_superblock.outermost(found, device.size)
        table = table_in(device, known) if known != "luks" and not spot.partition else None
        if owners and table:
            of_table = self._is_of_table(owners[0], device, table)
            if of_table:
                self._left.update((each.array, spot) for each in owners)
                owners = []
            elif of_table is None:
                kind, numbers = table.kind, [f"{spot.place}:{number}" for number in table.partitions]
                array = Array([Member(device, owners[0])]).label
                self._questions[device] = Doubt(TABLE_TOO.format(kind, quoting.some(numbers, " or "), array))
                self._two_readings.append(device)
                self._look_into(spot, table)
            else:
                table = None
        if not owners and table and volumes_of(table)[1]:
            damaged = []
        for each in [each for each in self._foreign(spot) if not covers(device, owners, table, each.at)][:1]:
            self._questions[device] = Doubt(FOREIGN.format(each.kind, each.at))
        if not owners and not damaged:
            self._look_into(spot, table)
        for superblock in owners:
            self.members.append(Member(device, superblock))
            if superblock.version == OLD:
                self._say(spot, "md member", OLD_MEMBER)
            else:
                self._members.setdefault(superblock.array, []).append(Member(device, superblock))
            if len(owners) > 1:
                self._questions[device] = Doubt(TWO_OWNERS.format(device.name))
        if damaged and not owners:
            self.damaged.append((spot, damaged[-1][1]))
            self._say(spot, "md member", DAMAGED.format(damaged[-1][0]))

    def _foreign(self, spot: Spot) -> List[signatures.Signature]:
        """Who else says that a device is theirs."""
        found = signatures.signatures_in(Lenient(spot.device))
        if spot.device is spot.image:
            found += signatures.asked_of(spot.image.path)
        kind = self._told_by_blkid(spot).get("TYPE", "") if spot.partition else ""
        if signatures.is_foreign(kind) and all(kind != each.kind for each in found):
            found.append(signatures.Signature(kind, 0))
        return sorted(set(found), key=lambda each: each.at)

    def _told_by_blkid(self, spot: Spot) -> Dict[str, str]:
        """What blkid says of an image or one of the first partitions, if it is there."""
        if not spot.image or spot.partition > MOST_ASKED:
            return {}
        return signatures.named_by_blkid(spot.path, place_of(spot.device), spot.device.size)

    def _is_of_table(self, superblock: Superblock, device: Device, table: Table) -> Optional[bool]:
        """Whether a device with a superblock and a partition table is the table's, or None if nothing tells."""
        ends = [table.end or 0] + [part.start + part.size for part in table.partitions.values()]
        if superblock.version in AT_END:
            # A table of the array itself ends where that does.
            return superblock.at < max(ends) <= device.size
        volumes, fitting = volumes_of(table)
        begin, size = superblock.start * SECTOR, superblock.length * SECTOR
        if all((part.start, part.size) == (begin, size) for part in fitting) and superblock.level == MIRRORED:
            fitting = []
        if fitting or begin + size > device.size:
            return True
        return None if volumes and superblock.level != MIRRORED else False

    def _look_into(self, spot: Spot, table: Optional[Table]) -> None:
        """Looks at what is no member: a disk with partitions is these."""
        label = physical_volume.label_of(Lenient(spot.device))[0] if table else None
        lack = spot.device.lack(0, SECTOR) if spot.device is spot.image and not table else None
        if not table or table.fault or label:
            why = TABLE_OVER_LABEL.format(table.kind) if table and label else lack and TABLE_UNREAD.format(lack)
            self._recognise(spot, known_in(spot.device), Doubt(why) if why else None)
        if table:
            self.tables[spot.device] = table
            longest: Dict[int, Tuple[int, int]] = {}
            for number, part in table.partitions.items():
                longest[part.start] = max(longest.get(part.start, (0, 0)), (part.size, -number))
            for number, part in table.partitions.items():
                other = -longest[part.start][1]
                if other == number:
                    self._look_at(Spot(part, spot.image, number))
                else:
                    self._say(Spot(part, spot.image, number), "foreign", AS_ANOTHER.format(other))

    def _recognise(self, spot: Spot, known: Optional[str], question: Optional[str] = None) -> None:
        """Says what a device is that has no partitions and is no member."""
        container, volume = container_in(Lenient(spot.device)), physical_volume.volume_in(spot.device)
        question = question or self._question_of(spot)
        if container and (container.fault != SECOND_ALONE or not volume and not known):
            container = container._replace(fault=container.fault or question)
            self.containers.append((spot, container))
            self._say(spot, f"LUKS{container.version}", container.fault or "")
        elif volume:
            self._take(spot, volume, question, "; ".join([*volume.faults, *filter(None, [question])]))
        else:
            self._recognise_leftover(spot, None if known == "lvm2" else known, question)

    def _take(self, spot: Spot, volume: PhysicalVolume, question: Optional[str], note: str) -> None:
        """Takes what was found for a physical volume, perhaps one in question."""
        self.spot_of[volume.device], volume.question = spot, question
        self.volumes.append(volume)
        self._say(spot, "physical volume", note)

    def _recognise_leftover(self, spot: Spot, known: Optional[str], question: Optional[str]) -> None:
        """Says what a device is without a sound label: what is left of a physical volume, or what blkid says."""
        leftover = None if known else physical_volume.leftover_in(spot.device, spot.device is spot.image)
        volume = physical_volume.restored(leftover) if leftover else None
        if leftover and volume:
            self._take(spot, volume, question, question or leftover.faults[0])
            return
        self.leftovers += [leftover] if leftover else []
        told = self._told_by_blkid(spot)
        kind, table = told.get("TYPE"), told.get("PTTYPE", "dos")
        other = disk_image.other_table_of(Lenient(spot.device)) or (None if table in ("dos", "gpt") else table)
        if kind and (known or spot.partition):
            known = SAME.get(kind, kind)
        note = leftover.note() if leftover else OTHER_TABLE.format(other) if other else NOTHING if not known else ""
        self._say(spot, known or "unknown", question or note)
        if not known and spot.image and not spot.partition:
            self._unknown.append(spot)

    def _assemble(self) -> None:
        """Puts the arrays together and looks at them, again if one turns out to be a member of another."""
        made: Dict[bytes, Array] = {}
        for level in range(MOST_LEVELS + 1):
            known = {identity: {member.device for member in array.members} for identity, array in made.items()}
            others = [identity for identity, members in self._members.items()
                      if known.get(identity, set()) != {member.device for member in members}]
            lacking = {key for key, its in self._members.items() if its and len(its) < its[0].superblock.places}
            for identity in others:
                if identity in made:
                    self._forget(made.pop(identity).device)
                if not self._members[identity]:
                    continue
                array = made[identity] = put_together(self._members[identity])
                if level == MOST_LEVELS:
                    array.give_up(NESTED)
                if array.device:
                    halves = self._halves(array, array.device) if array.missing else iter(())
                    array.why = next((Doubt(MAY_BE_NEWER.format(it.device.name)) for it in halves), array.why)
                    whys = (self._question_of(self.spot_of[it.device]) or (self._stripes(
                        "the md superblock", it.device, (it.superblock.start + it.superblock.length) * SECTOR,
                        lacking) if lacking - {identity} else None) for it in array.members)
                    question = array.why or next(filter(None, whys), None)
                    self._questions.update({array.device: question} if question else {})
                    try:
                        self._look_at(Spot(array.device, None))
                    except mapping.NoProgram as refusal:
                        array.give_up(refusal.why)
        self.arrays = list(made.values())
        for array, spot in ((made[identity], spot) for identity, spot in self._left.items() if identity in made):
            # One of which a member was taken for something else, and in which nothing is found, is told no more.
            if not array.device or (array.device, "unknown") in ((it.spot.device, it.what) for it in self.found):
                self.arrays.remove(array)
                self._forget(array.device)
                note = OLDER_ARRAY.format(array.label, spot.device.name)
                self.found += [Found(self.spot_of[member.device], "md member", note) for member in array.members]

    def _forget(self, device: Optional[Device]) -> None:
        """Takes back what was found on the device of an array."""
        def is_elsewhere(other: Device) -> bool:
            return other is not device and (not isinstance(other, Part) or is_elsewhere(other.lower))
        of_spots: List[List[Any]] = [self.found, self.containers, self.damaged]
        of_devices: List[List[Any]] = [self.volumes, self.leftovers, self.members, *self._members.values()]
        for found in of_spots:
            found[:] = [each for each in found if is_elsewhere(each[0].device)]
        for found in of_devices:
            found[:] = [each for each in found if is_elsewhere(each.device)]
        self.spot_of = {other: spot for other, spot in self.spot_of.items() if is_elsewhere(other)}

    def target(self, name: str, is_read: bool = False) -> NamedDevice:
        """What a name means. One that means nothing, or several things, is refused, with what to say instead. One that
        `is_read` whole is read by dmremap, if that takes it."""
        device, shown = self.device_named(name), quoting.shown(name)
        if device:
            is_part = isinstance(device, Part) and device.lower not in self._two_readings
            question = self._question_of(self.spot_of[device]) if is_part else None
            if question:
                raise Refusal(shown, question)
            try:
                path = quoting.shown(self._volume_named(name).path)
            except Refusal:
                notes: List[str] = []
                ids = [it.identity + self._read_of(device, notes) for it in self.arrays if it.device is device]
                return NamedDevice(name, device, device.size, ids, notes)
            raise Refusal(shown, f"both an image and a volume are called so: say ./{shown}, or {path}")
        if tried(lambda: self._volume_named(name).why(), str) is not None:
            self.search()
        volume = self._volume_named(name)
        side, found = volume.side, volume.device()
        raids = list(side.raids(volume.key))
        notes = [legs.may_be_old() for legs in raids if legs.may_be_old()]
        disks = [f"{side.physical_ids[key]}{ANY if isinstance(it, Missing) else self._read_of(it, notes)}"
                 for key, it in side.physical.items()]
        ids = [volume.identity, *sorted(disks), side.text.key().hex()[:16], *(legs.read_of() for legs in raids)]
        proved = volume.proved(self._program) if is_read else None
        notes += ["read by dmremap, proved"] * bool(proved and os.isatty(2))
        return NamedDevice(volume.path, proved or found, volume.sectors * SECTOR, ids, notes)

    def _read_of(self, device: Device, notes: List[str]) -> str:
        """The members that are read of the arrays that a device lies on, with their events. Notes arrays that may be
        older than members which aren't here."""
        while isinstance(device, Part):
            device = device.lower
        read = ""
        for array in (array for array in self.arrays if array.device is device):
            if array.may_be_old and not array.why:
                notes.append(f"{quoting.shown(array.label)}: {MAY_BE_OLD}")
            read += "".join(f"@{role}={it.superblock.events}{self._read_of(it.device, notes)}"
                            for role, it in sorted(array.by_role.items()))
        return read

    def device_named(self, name: str) -> Optional[Device]:
        """The image, the partition or the array of this name."""
        found = [spot.device for spot in self.spots() if name in spot.names]
        for array in (array for array in self.arrays if name in (array.label, f"md:{array.identity}")):
            if array.why:
                raise Refusal(array.label, array.why)
            found += [array.device] if array.device and array.device not in found else []
        if len(found) > 1:
            raise Refusal(quoting.shown(name), "several are called so: give an image by its path as it is given, or an "
                          "array as md:UUID")
        return found[0] if found else None

    def _volume_named(self, name: str) -> Volume:
        """The volume of this name: GROUP/VOLUME, where GROUP may be the group's id, VOLUME alone, or as of a device."""
        of_device, _, volume_name = names.volume_path(name).rpartition("/")
        if any(group.volume(volume_name) for group in self._called(of_device)):
            if any(group.volume(name) for group in self.groups):
                raise Refusal(quoting.shown(name), "a volume is called so, and so is the device of another: say "
                              f"{quoting.shown(of_device)}/{quoting.shown(volume_name)}")
            name = f"{of_device}/{volume_name}"
        shown, (group_name, slash, volume_name) = quoting.shown(name), name.rpartition("/")
        groups, which = self._called(group_name) if slash else self.groups, quoting.shown(group_name)
        if slash and not groups:
            raise Refusal(shown, f"no group is called {which}{self.unread_notes()}: {SCAN}")
        found = [(group, volume) for group in groups for volume in [group.volume(volume_name)] if volume]
        found = [each for each in found if each[0].state != REMOVED and not each[1].is_removed] or found
        if not found:
            why = f"the group {which} has no such" if slash else "no group has such a"
            raise Refusal(shown, f"{why} volume{'' if slash else self.unread_notes()}: {SCAN}")
        if len({group.identity for group, _ in found}) > 1:
            said = [f"{group.identity}/{quoting.shown(volume_name)} (on {', '.join(map(quoting.shown, group.places))})"
                    for group, _ in found]
            raise Refusal(shown, "several groups have such a volume: say " + quoting.some(said, " or "))
        return found[0][1]

    def _called(self, name: str) -> List[Group]:
        return [group for group in self.groups if name == group.name or same_id(name, group.identity)]

    def unread_notes(self) -> str:
        """What of a pile can't be read, in which something may be that isn't found."""
        notes = [(array.label, array.note) for array in self.arrays if array.note]
        notes += [(self.spot_of[device].path, table.fault) for device, table in self.tables.items() if table.fault]
        notes += [(found.spot.path, found.note) for found in self.found if found.note not in ("", NOTHING)]
        whys = quoting.some([f"{quoting.shown(where)}: {why}" for where, why in notes], "; ")
        return f" ({whys})" if whys else ""

    def groups_named(self, name: str) -> List[Group]:
        """The groups of this name or id, which is refused if there are none."""
        self.search()
        found = self._called(name)
        if not found:
            raise Refusal(quoting.shown(name), f"no group is called so{self.unread_notes()}: {SCAN}")
        return found


def known_in(device: Device) -> Optional[str]:
    """What begins a device by its magic, or a sound label of LVM; None where nothing does."""
    image = Lenient(device)
    return "lvm2" if physical_volume.label_of(image)[0] else disk_image.file_system_of(image)


def volumes_of(table: Table) -> Tuple[List[Part], List[Part]]:
    """The partitions in which physical volumes are, and those of them that are just as long as these."""
    labels = {part: physical_volume.label_of(Lenient(part))[0] for part in table.partitions.values()}
    found = {part: label for part, label in labels.items() if label}
    return list(found), [part for part, label in found.items() if label.size == part.size]


def place_of(device: Device) -> int:
    """The byte of an image at which a part of it begins."""
    return device.start + place_of(device.lower) if isinstance(device, Part) else 0


def covers(device: Device, owners: Sequence[Superblock], table: Optional[Table], at: int) -> bool:
    """Whether a byte lies in the midst of what is found to have it: the data of a member, a partition or a physical
    volume, or a disk of which a GPT says how long it is."""
    runs = [(each.start * SECTOR, (each.start + each.length) * SECTOR) for each in owners]
    if table:
        runs += [(part.start, part.start + part.size) for part in table.partitions.values()] + [(0, table.end or 0)]
    label = physical_volume.label_of(Lenient(device))[0]
    if label and not table:
        runs.append((FIRST_DATA, label.size))
    return any(begin <= at < end <= device.size for begin, end in runs)


def table_in(device: Device, known: Optional[str]) -> Optional[Table]:
    """The partition table of a device, with these by their numbers. The backup of a GPT alone, without anything at the
    beginning that speaks of it, is one if nothing is known of the device itself, and an MBR, which has no sum, if then
    or if something is in its partitions, even a table of another kind, with sectors of 512 or of 4096 bytes."""
    image = Lenient(device)
    try:
        found = [table_of(image) or (backup_of(image) if known is None else None)]
    except Refusal as refusal:
        return Table("GPT", "", SECTOR, {}, [], refusal.why)
    if found[0] and found[0].kind == "MBR":
        found.append(table_of(image, BIG_SECTOR))
    tables = [table._replace(partitions={
        number: Part(f"{device.name}:{number}", device, start, size) for number, start, size in table.partitions})
        for table in found if table]
    for table in tables:
        parts = {each.start: each for each in table.partitions.values()}.values()
        if table.kind != "MBR" or any(known_in(each) or disk_image.other_table_of(Lenient(each))
                                      or md_superblock.found_in(each)[0] for each in parts):
            return table
    return tables[0] if tables and known in (None, "lvm2") else None
