"""Volume groups: which texts count, and which volumes each group has, also removed ones, by the texts before that."""

import bisect
import functools
import itertools
import re
from typing import Callable, Dict, Iterable, Iterator, List, NamedTuple, Optional, Sequence, Set, Tuple

from dmremap_tools.base import SECTOR, Refusal, names
from dmremap_tools.formats.disk_image import file_system_of
from dmremap_tools.model.config_text import shown
from dmremap_tools.model.device import Absent, Device, Doubt, Image, Lenient, Missing, Part, is_alike
from dmremap_tools.model.layout import Layout, tried
from dmremap_tools.model.mapping import INVALID_SNAPSHOT, ReadDevice, Tables
from dmremap_tools.model.physical_volume import PhysicalVolume, Text, read_by_heads, text_of

COMPLETE, LACKING, TRUNCATED, FORKED = "complete", "missing", "truncated", "forked"
TWO_SIDES = ("disks of this group were changed apart from each other, and both sides have a volume of this name: give "
             "the images of one side alone ({})")
NEWER = ("{} has {} ({}), and what can be read is the one with the seqno {}: restore one of them by vgcfgrestore on "
         "copies of the disks (`metadata` prints it)")
UNREAD = ("{} is of this group, too, and its current text can't be read ({}): it may have another state of this "
          "volume. Leave that image out, or restore its metadata on a copy (vgcfgrestore; `metadata --list` shows what "
          "is left)")
DARK = ("{}, unless {} is its disk, which can't be read as that: restore its label on a copy (pvcreate --uuid UUID "
        "--restorefile TEXT)")
APART = ("{} may be a disk of this group, which went on without one, and may have another state of it; nothing can be "
         "read there: leave that out")
TWIN = "{} may be a newer copy of {}, as it has some of its sectors, or none, and no label is there: leave that out"
# Fewer bytes don't tell what an image is.
HEAD = 9 * SECTOR
SINCE, LEFT = "nothing tells who wrote there since", "nothing tells which of its sectors are left"
Refused = Callable[..., Optional[str]]
WHOLE, INVALID, INCOMPLETE, UNKNOWN, REMOVED = "whole", "invalid", "incomplete", "not followed", "removed"
# A text, the physical volumes of which it is the current one, and the ids of those whose rings have it.
Holder = NamedTuple("Holder", [("text", Text), ("volumes", List[PhysicalVolume]), ("rings", Set[str])])
# Sectors of a physical volume: the first one and the one after the last, whose they are, and by which text.
Owned = NamedTuple("Owned", [("first", int), ("end", int), ("owner", str), ("text", Text)])


class Volume:
    """A volume of a text: its length, its kind and its origin. `refused` says why it can't be given, if it can't."""

    def __init__(self, side: Layout, key: bytes, refused: Refused, is_removed: bool = False) -> None:
        self.side, self.key, self.name, self.is_removed = side, key, key.decode("utf-8", "surrogateescape"), is_removed
        self.path, self.identity, self._refused = f"{side.name}/{self.name}", side.ids[key], refused
        segments, origin = side.group.volumes[key].segments, side.origins.get(key) or None
        self.sectors = side.size_of(origin or key) // SECTOR
        kinds = [segment.kind or b"" for segment in segments]
        kind = kinds[0].decode("ascii", "replace").partition("+")[0] if kinds else "none"
        is_striped = any(segment.kind == b"striped" and len(segment.stripes) > 1 for segment in segments)
        plain = "linear" if kind == "striped" else re.sub(r"^(raid\d+)_.*", r"\1", kind)
        self.kind = "snapshot" if origin else "striped" if is_striped else plain
        if origin is None and b"thin" in kinds:
            origin = segments[kinds.index(b"thin")].node.value(b"origin", bytes)
        self.origin = None if origin is None else origin.decode("utf-8", "surrogateescape")
        # What begins it, or None where nothing known does.
        self.file_system = functools.lru_cache(None)(lambda: file_system_in(self._made))

    @functools.cached_property
    def _made(self) -> Device:
        """Its bytes, or what says why they can't be given."""
        why = tried(self._refused, str)
        return Missing(why) if why else tried(lambda: self.side.volume(self.key), Missing)

    def device(self) -> Device:
        """Its bytes, or a refusal that says why they can't be given."""
        if isinstance(self._made, Missing):
            raise Refusal(self.path, self._made.name)
        return self._made

    def proved(self, program: Optional[str]) -> Optional[Device]:
        """Its bytes as dmremap reads them, which is proved, if all are there, and it takes the group."""
        here, name = [it for it in self.side.physical.values() if not isinstance(it, Missing)], f"/dev/{self.path}"
        words, heads = [names.of_path(name), "--count", "0"], read_by_heads(program, "metadata", here)
        if self.is_removed or self.why() or not heads or text_of(heads[1]).key() != self.side.text.key() \
                or not read_by_heads(program, "read", here, *words):
            return None
        return ReadDevice(self.path, self.sectors * SECTOR, program, heads[0], words[0])

    def why(self) -> Optional[str]:
        """Why its bytes can't be given, or aren't all there; None if they can."""
        return tried(lambda: self._made.lack(0, self.sectors * SECTOR), str)

    def state(self) -> str:
        why = self.why()
        if self.is_removed:
            return REMOVED
        if why is None or why == INVALID_SNAPSHOT:
            return INVALID if why else WHOLE
        return UNKNOWN if isinstance(self._made, Missing) else INCOMPLETE

    def chunks_used(self) -> Optional[int]:
        return getattr(self._made, "chunks_used", None)


def file_system_in(device: Device) -> Optional[str]:
    """What begins a device, or None where nothing known does or its first bytes can't be given."""
    return tried(lambda: file_system_of(Lenient(device)), lambda why: None)


class Group:
    """A group, or one side of a group whose disks were changed apart from each other, with those of its physical
    volumes that are here, and all its texts. `doubt` says why its text isn't the last."""

    def __init__(self, side: Layout, state: str, here: Iterable[PhysicalVolume], texts: Iterable[Text],
                 volumes: List[Volume], doubt: Optional[str] = None, notes: Sequence[str] = ()) -> None:
        self.side, self.state, self.volumes, self.doubt, self.notes = side, state, volumes, doubt, list(notes)
        self.name, self.identity, self.seqno = side.name, side.text.identity, side.text.seqno
        self.places = [volume.place for volume in here if volume.identity in side.physical_ids.values()]
        self.former_names = sorted({text.group for text in texts} - {self.name})

    def volume(self, name: str) -> Optional[Volume]:
        """A volume by its name or its id, also a hidden one. One that is there goes before one that was removed."""
        key = name.encode("utf-8", "surrogateescape")
        is_hidden = self.state != REMOVED and key in self.side.group.volumes
        hidden = Volume(self.side, key, lambda: self.doubt) if is_hidden else None
        return next((it for it in self.volumes if name == it.name or same_id(name, it.identity)), hidden)


def is_explained(volume: PhysicalVolume, holder: Holder, side: Layout) -> bool:
    """Whether a physical volume has the text of a side, and none after that. What has no id is one of the side's disks
    that isn't here otherwise, or else a copy of one."""
    mine, is_lacking = volume.texts_with(holder.text), any(isinstance(it, Missing) for it in side.physical.values())
    has_text = any(text.key() == holder.text.key() for text in mine if text.said_time())
    return has_text and max(text.seqno for text in mine) == holder.text.seqno and bool(volume.identity or is_lacking)


def is_apart(volume: PhysicalVolume, holder: Holder) -> bool:
    """Whether it has a text that isn't in the rings of a side: a later one, or another one with such a number."""
    rings = [text for other in holder.volumes for text in other.older] + [holder.text]
    keys, first = {text.key() for text in rings}, min(text.seqno for text in rings)
    mine = (text for text in volume.texts_with(holder.text) if text.said_time())
    return any(text.seqno >= first and text.key() not in keys for text in mine)


def may_have(volume: PhysicalVolume, name: bytes, holder: Holder) -> bool:
    """Whether its last text of a group has a logical volume, or can't be read."""
    last = max(volume.texts_with(holder.text), key=lambda text: (text.seqno, text.said_time() or b""), default=None)
    is_whole = last and last.said_time() and not last.fault()
    return not last or not is_whole or name in Layout(last, Missing).group.volumes


def is_copy(dark: Device, device: Device) -> bool:
    """Whether one device, in which nothing is found, seems to be a copy of another one or of the image that has it, or
    is an image that is too short to tell, and no text."""
    start, size, head = 0, device.size, Lenient(dark).read(0, HEAD)
    while isinstance(dark, Image) and isinstance(device, Part):
        start, device = start + device.start, device.lower
    is_cut = isinstance(dark, Image) and (dark.size < HEAD and b"\0" in head or not dark.bytes)
    return is_cut or is_alike(dark, device, start, min(size, dark.size - start))


def same_id(one: str, other: str) -> bool:
    """Whether two ids are the same, whichever dashes they have."""
    return one.replace("-", "") == other.replace("-", "")


def sides_of(current: Iterable[Holder]) -> List[Holder]:
    """The current texts that count: the newest, and those that are no older text of another one that counts."""
    sides: List[Holder] = []
    for holder in sorted(current, key=lambda holder: (-holder.text.seqno, holder.text.key())):
        before = next((side for side in sides if is_behind(holder, side)), None)
        if before:
            before.volumes.extend(holder.volumes)
        else:
            sides.append(holder._replace(volumes=list(holder.volumes)))
    return sides


def is_behind(holder: Holder, side: Holder) -> bool:
    """Whether a text is an older one of a side: its rings have it. Where another text has its number there, the disks
    were changed apart; where none has, the newer text tells whether it knows of the disk."""
    rings = [text for volume in side.volumes for text in volume.older] + [side.text]
    same = [text for text in rings if text.seqno == holder.text.seqno]
    if same:
        return any(text.key() == holder.text.key() for text in same)
    named = Layout(side.text, Missing).physical_ids.values()
    return any(volume.identity in named for volume in holder.volumes)


def state_of(side: Layout) -> Tuple[str, List[str]]:
    """The state of a side by its physical volumes, and what each of these lacks."""
    state, notes = COMPLETE, []
    for key, device in side.physical.items():
        start, count = (side.group.physicals[key].value(field, int) or 0 for field in (b"pe_start", b"pe_count"))
        why = device.lack(0, start * SECTOR + count * side.extent)
        notes += [] if why is None else [f"{shown(key)}: {why}"]
        if why is not None and state != LACKING and not isinstance(why, Doubt):
            state = LACKING if isinstance(device, Missing) else TRUNCATED
    return state, notes


class Texts:
    """All texts of some physical volumes, of any group: those that are current, with the ones that have them, older
    ones, whose volumes may have written where a removed one was, and those of which nothing tells what is current.
    Nothing is found in the `dark` devices."""

    def __init__(self, volumes: Sequence[PhysicalVolume], leftovers: Sequence[PhysicalVolume],
                 program: Optional[str], dark: Sequence[Device]) -> None:
        self._volumes, self._known, self._program, self._dark = volumes, holders_of(volumes), program, dark
        texts = {identity: [holder.text for holder in known.values()] for identity, known in self._known.items()}
        # The groups of which two texts have one number, as after vgcfgrestore; and the current texts of all.
        self._restored = {identity for identity, its in texts.items() if len({it.seqno for it in its}) < len(its)}
        current = (sides_of(it for it in known.values() if it.volumes) for known in self._known.values())
        self._current = {side.text.key() for sides in current for side in sides}
        # Those whose current texts can't be read.
        unread = [volume for volume in volumes if volume.faults and not volume.current]
        self._whys = {volume.identity: f"{volume.place}: {volume.faults[0]}" for volume in unread}
        self._unread = sorted([*leftovers, *unread], key=lambda each: (each.place, each.identity, each.faults[0]))
        # The removed volumes of all texts are loaded together.
        self._tables = Tables()

    def groups(self) -> Iterator[Group]:
        """The groups that are there, and then those that were removed."""
        removed = []
        for holders in (known.values() for known in self._known.values()):
            current, texts = [holder for holder in holders if holder.volumes], [holder.text for holder in holders]
            removed += [] if current else [texts]
            yield from self._sides(sides_of(current), texts)
        for texts in removed:
            volumes = list(self._removed(texts, set()))
            if volumes:
                side = max((volume.side for volume in volumes), key=lambda side: side.text.seqno)
                yield Group(side, REMOVED, self._volumes, texts, volumes)

    def _find(self, identity: str, size: int) -> Device:
        """The device of a physical volume of so many bytes. Of two with one id nothing tells which is meant."""
        here = [volume for volume in self._volumes if volume.identity == identity]
        believed = sorted((volume for volume in here if not volume.doubt), key=lambda volume: volume.place)
        if len(believed) == 1:
            return believed[0].data
        if not here:
            dark = next((each for each in self._dark if isinstance(each, Image) or each.size >= size), None)
            why = f"the physical volume {identity} isn't in these images"
            return Missing(DARK.format(why, dark.name)) if dark else Absent(f"{why}: give the image that has it")
        both = " and ".join(volume.place for volume in believed)
        ages = [max((text.seqno for text in volume.current), default=0) for volume in believed]
        newest = next((volume.place for volume, age in zip(believed, ages) if age == max(ages) > min(ages)), None)
        which = f" ({newest} has the newest text, with the seqno {max(ages)})" if newest else ""
        questions = (volume.question for volume in believed if volume.question)
        said = next(questions, f"{both} both are the physical volume {identity}: give one of them{which}") if both \
            else here[0].doubt
        return Missing(said or "")

    def _sides(self, holders: Sequence[Holder], texts: List[Text]) -> Iterator[Group]:
        """The group that has these texts, or each side of it."""
        is_forked = len(holders) > 1
        sides = [Layout(it.text if is_forked else self._read_by_heads(it), self._find) for it in holders]
        living = {identity for side in sides for identity in side.ids.values()}
        places = sorted(", ".join(sorted(volume.place for volume in holder.volumes)) for holder in holders)
        for side, holder in zip(sides, holders):
            (state, notes), newer = state_of(side), self._newer(holder, side)
            named = {name for other in sides if other is not side for name in other.visible()}
            # A disk that older texts name may have a side of its own.
            once = {*side.physical_ids.values(), *(identity for text in texts for identity in text.physical_ids())}
            related = [each for each in self._unread if each.texts_with(side.text) or each.identity in once]
            unread = [it for it in related if not any(is_explained(it, *each) for each in zip(holders, sides))]
            told = [f"{each.place}: {each.faults[0]}" for each in related]
            newer, listed = newer or self._in_the_dark(side, once), []
            for name in side.visible():
                # An unread text may have it, too.
                other = next((each for each in unread if may_have(each, name, holder)), None)
                whys = (newer, TWO_SIDES.format(" or ".join(places)) if name in named else None,
                        UNREAD.format(other.place, other.faults[0]) if other else None)
                listed.append(Volume(side, name, lambda why=next(filter(None, whys), None): why))
            # Of a side the texts that are in the rings of its disks, and its own.
            rings = (text for volume in holder.volumes for text in [*volume.older, side.text])
            by_key = {text.key(): text for text in rings if text.identity == side.text.identity} if is_forked else {}
            known = list(by_key.values()) or texts
            doubt = newer or next((UNREAD.format(each.place, each.faults[0]) for each in unread), None)
            listed += self._removed(known, living, doubt)
            if unread and state == COMPLETE:
                state = LACKING
            if is_forked or any(is_apart(each, holder) for each in unread):
                state = FORKED
            yield Group(side, state, self._volumes, known, listed, doubt, notes + told)

    def _read_by_heads(self, holder: Holder) -> Text:
        """The text of a group as dmremap reads it in the heads of its physical volumes; as it was read here where one
        of them has a fault, or dmremap takes them not."""
        is_sound = not any(volume.faults for volume in holder.volumes)
        heads = read_by_heads(self._program, "metadata", [it.device for it in holder.volumes]) if is_sound else None
        return holder.text._replace(content=heads[1]) if heads and heads[1] else holder.text

    def _newer(self, holder: Holder, side: Layout) -> Optional[str]:
        """Why a text may not be the last: a disk that it names has a later one, or one of another sum."""
        same = [volume.told.get(side.text.key()) for volume in holder.volumes]
        for volume in (it for it in self._volumes if it.identity in side.physical_ids.values()):
            fault = next(iter(volume.faults), None if volume.current else "it isn't the current one")
            last = max((text.seqno for text in volume.older if text.identity == side.text.identity), default=0)
            which = "another text, which may be later" if any(told not in same for told in volume.unread) else None
            if last > side.text.seqno:
                which = f"a later text, with the seqno {last}, that isn't confirmed"
            if fault and which:
                return NEWER.format(volume.place, which, fault, side.text.seqno)
        return None

    def _in_the_dark(self, side: Layout, once: Set[str]) -> Optional[str]:
        """What a disk in which nothing can be read may have: a copy of a disk, or the state of another side, if the
        group went on without one of the disks that it had once."""
        ids, here = set(side.physical_ids.values()), {volume.identity for volume in self._volumes}
        for dark in (dark for dark in self._dark if all(left.device is not dark for left in self._unread)):
            if (once - ids | side.left_behind) - here:
                return APART.format(dark.name)
            mine = (it for it in self._volumes if it.identity in ids and ids <= here)
            twin = next((it.place for it in mine if is_copy(dark, it.device)), None)
            if twin:
                return TWIN.format(dark.name, twin)
        return None

    def _refused(self, side: Layout, name: bytes, texts: Sequence[Text], doubt: Optional[str]) -> Optional[str]:
        """Why a removed volume of a group that has these texts can't be given, or None."""
        why = doubt or self._lost(side, name, texts)
        restored = f"to see what is left, restore the text with the seqno {side.text.seqno} on copies (vgcfgrestore)"
        return why if doubt or not why else f"{why}: {restored}"

    def _lost(self, side: Layout, name: bytes, texts: Sequence[Text]) -> Optional[str]:
        """Why a volume that a group had, or one side of it, which has these texts, isn't known to be left, or None."""
        if self._known[side.text.identity][side.text.key()].rings.isdisjoint(side.physical_ids.values()):
            return f"it was removed, and no disk of it has its text, as if that was written for a copy: {SINCE}"
        numbers = {text.seqno for text in texts}
        lost = next((it for it in range(side.text.seqno + 1, max(numbers)) if it not in numbers), None)
        if lost:
            return f"it was removed, and the text with the seqno {lost} that came after it is lost: {SINCE}"
        # The current text of a disk of this side that can't be read may be a later one, too.
        faults = map(self._whys.get, side.physical_ids.values())
        later = (fault for fault, text in self._faults if self._is_after(text, side.text))
        unreadable = next(filter(None, itertools.chain(faults, later)), None)
        if unreadable:
            return f"only an older text has it, and a later one can't be read ({unreadable}), so that {SINCE}"
        for owner in (owner for used in sorted(side.uses(name)) for owner in self._owners(*used, side.text)):
            return f"it was removed, and some of its extents belong to {owner} since, so that {LEFT}"
        below = {side.ids[lower] for lower in (name, *side.below(name))}
        if any(self._is_after(text, side.text) and below & text.volume_ids() for text in texts):
            return "it was removed, and what it was a part of went on without it, and may have changed"
        return None

    def _owners(self, identity: str, first: int, end: int, text: Text) -> Iterator[str]:
        """The volumes that used some of these sectors of a physical volume after a text."""
        owned, ends = self._owned.get(identity, ([], []))
        for each in owned[bisect.bisect_right(ends, first):]:
            if each.first >= end:
                return
            if first < each.end and self._is_after(each.text, text):
                yield each.owner

    def _is_after(self, text: Text, other: Text) -> bool:
        """Whether a text may have been written after another one. Where a text was restored, its number went back."""
        if text.identity != other.identity:
            return text.key() in self._current or text.time() >= other.time()
        is_later = text.identity in self._restored and (text.key() in self._current or text.time() > other.time())
        return text.seqno > other.seqno or is_later and text.key() != other.key()

    def _all(self) -> Iterator[Text]:
        """Each text that is known."""
        return (holder.text for holders in self._known.values() for holder in holders.values())

    @functools.cached_property
    def _faults(self) -> List[Tuple[str, Text]]:
        """Why texts can't be read."""
        whys = ((text.fault(), text) for text in self._all())
        return sorted(((why, text) for why, text in whys if why), key=lambda each: each[0])

    @functools.cached_property
    def _owned(self) -> Dict[str, Tuple[List[Owned], List[int]]]:
        """What volumes of all texts use of each physical volume, in its order, and the greatest end up to each."""
        found: Dict[str, List[Owned]] = {}
        for text in (text for text in self._all() if not text.fault()):
            side = Layout(text, Missing)
            for name, (identity, first, end) in ((name, it) for name in side.group.volumes for it in side.uses(name)):
                found.setdefault(identity, []).append(Owned(first, end, side.path(name), text))
        for owned in found.values():
            owned.sort(key=lambda each: each[:3])
        return {key: (owned, list(itertools.accumulate((it.end for it in owned), max))) for key, owned in found.items()}

    def _removed(self, texts: Sequence[Text], living: Set[str], doubt: Optional[str] = None) -> Iterator[Volume]:
        """The volumes of texts, by the newest that has them, that aren't there now; `doubt` refuses them all."""
        seen = set(living)
        for text in sorted(texts, key=lambda it: (it.identity in self._restored and -it.time(), -it.seqno)):
            ids = text.volume_ids() - seen
            seen |= ids
            sides = [Layout(text, self._find, self._tables)] if ids and not text.fault() else []
            for side, name in ((side, name) for side in sides for name in side.visible()):
                if side.ids[name] in ids:
                    self._tables.waiting.append(functools.partial(side.key_of, name))
                    yield Volume(side, name, functools.partial(self._refused, side, name, texts, doubt), True)


def holders_of(volumes: Iterable[PhysicalVolume]) -> Dict[str, Dict[bytes, Holder]]:
    """The texts of physical volumes, each once, by the ids of their groups and by their keys."""
    known: Dict[str, Dict[bytes, Holder]] = {}
    for volume in volumes:
        for text, is_current in [(text, False) for text in volume.older] + [(text, True) for text in volume.current]:
            holders, key = known.setdefault(text.identity, {}), text.key()
            same, others, rings = holders.get(key, Holder(text, [], set()))
            # They differ in when they were written, and in no more.
            newer = max(text, same, key=lambda each: each.content)
            holders[key] = Holder(newer, others + [volume] * is_current, rings | {volume.identity})
    return known
