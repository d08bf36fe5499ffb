"""Random machines, made by what the other tests make them of: what the tools read of each, sector by sector, is what the plain
model reads, and where that has a gap, they refuse.

    python3 tests/outside/tools/plain_comparison.py COUNT [FIRST [PROGRAM [KIND]]]

compares COUNT machines, from the one of the number FIRST on, perhaps of one KIND alone, and prints what differs. PROGRAM is
the one that `rt ci` and ./dmremap leave, if no other is given.
"""

import collections
import os
import random
import re
import struct
import sys
import tempfile

TOP = os.path.abspath(os.path.join(os.path.dirname(__file__), *[os.pardir] * 3))
if __name__ == "__main__":
    sys.path[:0] = [os.path.join(TOP, *names) for names in (("tests", "outside"), ("tests", "outside", "tools"), ("tools",))]

import piles
import plain_model
import store_lists
from dmremap_tools.model.pile import Pile
from piles import CLEAN, DATA, EXTENT, HIDDEN, SECTOR, segment, volume

SECTORS = 200
FAULTY = 0xFFFE


def noise(dice, sectors):
    return dice.getrandbits(8 * SECTOR * sectors).to_bytes(SECTOR * sectors, "little") if sectors else b""


OPPOSITE = bytes(255 - byte for byte in range(256))


def changed(content, runs):
    """Content with the opposite in some runs of sectors."""
    made = bytearray(content)
    for first, end in runs:
        made[first * SECTOR:end * SECTOR] = made[first * SECTOR:end * SECTOR].translate(OPPOSITE)
    return bytes(made)


def changed_to_zeros(content, first, end):
    """Content with zeros in a run of sectors."""
    return content[:first * SECTOR] + bytes(len(content[first * SECTOR:end * SECTOR])) + content[end * SECTOR:]


def some_runs(dice, sectors, most=3):
    """A few short runs of sectors that don't meet, perhaps none."""
    ends = sorted(dice.sample(range(sectors), min(sectors, 2 * dice.randrange(most + 1)) // 2 * 2))
    return [(first, min(end, first + 1 + dice.randrange(12))) for first, end in zip(ends[::2], ends[1::2])]


def placed_legs(data, lengths, places):
    """Legs of these lengths with the sectors of some data, of which `places` gives the members and their sectors."""
    legs = [bytearray(length * SECTOR) for length in lengths]
    for number in range(len(data) // SECTOR):
        for role, at in places(number):
            legs[role][at * SECTOR:(at + 1) * SECTOR] = data[number * SECTOR:(number + 1) * SECTOR]
    return [bytes(leg) for leg in legs]


def seen(role, at):
    """As a reader, to learn which sector the plain model reads."""
    return [(role, at)]


class Machine:
    """Images by their names, with the runs of sectors that weren't read, and the names of what is in them, perhaps with its
    bytes; and notes on how they were made."""

    def __init__(self, dice):
        self.dice, self.images, self.names, self.notes = dice, {}, {}, []

    def add(self, content, unread=()):
        name = "%s%d" % (self.dice.choice(["disk", "sd", "a.img", "Z"]), len(self.images))
        self.images[name] = content, list(unread)


def array(dice, machine, data=None):
    """An array of any level, of which members are missing, behind, dropped, being rebuilt, cut short or have bad sectors."""
    level = dice.choice([0, 1, 4, 5, 5, 6, 6, 6, 10, 10, -1] if data is None else [1, 1, 5, 6, 10])
    chunk, disks = dice.choice([8, 16]), dice.randrange(3 if level in (4, 5) else 4 if level == 6 else 2, 8)
    layout, size, is_alone = 0, dice.randrange(chunk, 12 * chunk), data is None
    if data is not None:
        disks, size = min(disks, 4), -(-len(data) // SECTOR // chunk) * chunk if level == 1 else None
    if level in (0, -1):
        lengths = [dice.randrange(chunk, 10 * chunk) for _ in range(disks)] if dice.random() < 0.7 else [size] * disks
        layout = dice.choice([1, 2]) if level == 0 else 0
        whole = [length // chunk * chunk for length in lengths]
        count, size = sum(whole), 0
        data = noise(dice, count)
        if level == 0:
            legs = placed_legs(data, lengths, lambda number: plain_model.zone_sector(seen, lengths, chunk, layout == 1, number))
        else:
            parts = [data[sum(whole[:role]) * SECTOR:][:whole[role] * SECTOR] for role in range(disks)]
            legs = [part.ljust(length * SECTOR, b"\0") for part, length in zip(parts, lengths)]
    elif level == 1:
        data = noise(dice, size) if data is None else data.ljust(size * SECTOR, b"\0")
        legs = [data] * disks
    elif level == 10:
        near = dice.randrange(1, min(disks, 3) + 1)
        far = dice.randrange(1, min(disks // near, 3) + 1)
        # Copies near each other that go on in the next row would lie where offset copies do.
        is_offset = far > 1 and disks % near == 0 and dice.random() < 0.5
        layout = near | far << 8 | is_offset << 16
        def count_of(size):
            return size // chunk // far * disks // near * chunk
        if data is None:
            size = max(size, far * chunk)
            data = noise(dice, count_of(size))
        else:
            size = next(size for size in range(far * chunk, 1 << 20, chunk) if count_of(size) * SECTOR >= len(data))
            data = data.ljust(count_of(size) * SECTOR, b"\0")
        legs = placed_legs(data, [size] * disks, lambda number: plain_model.raid10_places(layout, disks, chunk, size, number))
    else:
        columns = disks - (2 if level == 6 else 1)
        layout = 0 if level == 4 else dice.choice([*range(6), *([8, 9, 10, 16, 17, 18, 19, 20] if level == 6 else [])])
        if data is None:
            data = noise(dice, size // chunk * chunk * columns)
        else:
            size = -(-len(data) // SECTOR // chunk // columns) * chunk
            data = data.ljust(size * columns * SECTOR, b"\0")
        legs = [leg.ljust(size * SECTOR, b"\0") for leg in plain_model.parity_legs(data, level, layout, disks, chunk)]
    put_members(dice, machine, data, legs, level, layout, chunk, size, is_alone)
    return level


def put_members(dice, machine, data, legs, level, layout, chunk, size, is_alone):
    """Puts the legs of an array into images, most of them. Of one that `is_alone` on its disks superblocks can be lost."""
    disks, version, events = len(legs), dice.randrange(3), dice.randrange(10, 1000)
    can_lack = level not in (0, -1)
    fates = dict.fromkeys(range(disks), "sound")
    lacking = min(dice.choice([0, 0, 1, 1, 2, 3]), disks) if can_lack or dice.random() < 0.2 else 0
    for role in dice.sample(range(disks), lacking):
        ways = ["missing", "missing", "behind", "dropped", "rebuilt", *["lost"] * is_alone] if can_lack else ["missing"]
        fates[role] = dice.choice(ways)
    if "sound" not in fates.values():
        fates[0] = "sound"
    # A member has its number in the table as long as it is in the array, wherever it is.
    numbers = list(range(disks))
    dice.shuffle(numbers)
    table = [0xFFFF] * (disks + 1)
    for role, number in enumerate(numbers):
        table[number] = role
    old_table = list(table)
    for role, fate in fates.items():
        if fate in ("behind", "dropped"):
            table[numbers[role]] = FAULTY
    is_dirty = level in (1, 4, 5, 6) and dice.random() < 0.1 and "rebuilt" not in fates.values()
    resync = dice.randrange(size) if is_dirty else CLEAN
    # The others of a mirror are being made as the first one that is in it.
    source = min((role for role, fate in fates.items() if fate not in ("behind", "dropped")), default=0)
    machine.notes.append("level %d, layout %d, chunk %d, %d sectors, members %s, resynced up to %d" % (
        level, layout, chunk, size, fates, resync))
    name = b"array%d" % dice.randrange(100)
    roles = list(fates)
    dice.shuffle(roles)
    for role in roles:
        fate, leg = fates[role], legs[role]
        start = dice.choice([64, 72, 128]) if version else 0
        fields = {"version": version, "start": start, "tail_sectors": dice.randrange(9)}
        fields.update(resync=resync, name=name, disks=disks)
        unread = []
        if fate == "missing":
            continue
        if fate in ("behind", "dropped"):
            machine.add(piles.member(changed(leg, [(0, size)]), level, numbers[role], old_table,
                                      events - (1 if fate == "dropped" else dice.randrange(2, 9)), layout, chunk, size, **fields))
            continue
        if is_dirty and level == 1 and role != source:
            leg = changed(leg, [(resync, size)])
        if fate == "rebuilt":
            fields["recovered"] = dice.randrange(size + 1)
            leg = changed(leg, [(fields["recovered"], size)])
        if can_lack and dice.random() < 0.3:
            shift = dice.choice([0, 0, 3])
            # The log counts from the beginning of the member, in units of a power of two.
            runs = [(start + first >> shift, max(1, end - first >> shift)) for first, end in some_runs(dice, len(leg) // SECTOR)]
            fields.update(bad=runs, shift=shift)
            leg = changed(leg, [(max(0, (first << shift) - start), (first + count << shift) - start) for first, count in runs])
        # The first one that is sound has the most events.
        is_behind = dice.random() < 0.2 and can_lack and "sound" in list(fates.values())[:role]
        content = piles.member(leg, level, numbers[role], table, events - is_behind, layout, chunk, size, **fields)
        if dice.random() < 0.2:
            unread = [(start + first, start + end) for first, end in some_runs(dice, len(leg) // SECTOR)]
        if version and dice.random() < 0.1:
            content = content[:(start + dice.randrange(len(leg) // SECTOR + 1)) * SECTOR]
        if fate == "lost":
            # The others may have run on, or this one, and nothing of it says so: by zeros, or by a map.
            at = 8 * (version - 1) if version else (len(leg) // SECTOR + 64 + fields["tail_sectors"] - 16) & ~7
            content, runs = (changed_to_zeros(content, at, at + 8), []) if dice.random() < 0.5 else (content, [(at, at + 8)])
            unread = [] if unread and runs else unread
            unread = unread + runs
        machine.add(content, unread)
    machine.names["md:" + name.decode()] = data


LETTERS = "0123456789abcdefghijklmnopqrstuvwxyzABCDEFGHIJKLMNOPQRSTUVWXYZ"
PER_DISK = 96


class Builder:
    """A group over some disks: what its volumes take of these, and their texts."""

    def __init__(self, dice):
        self.dice = dice
        self.disks = [bytearray(noise(dice, PER_DISK * EXTENT)) for _ in range(dice.randrange(1, 5))]
        self.free = [0] * len(self.disks)
        # The disk without which the group went on, if there is one, and the areas of volumes by their names.
        self.gone, self.areas_of = ("pv%d" % dice.randrange(len(self.disks)) if dice.random() < 0.2 else None), {}
        self.texts, self.shown, self.made = [], [], 0

    def area(self, count):
        """So many extents in a row on a disk, as a name, an extent and their number; fewer if there are no more."""
        room = [place for place, first in enumerate(self.free) if first < PER_DISK]
        if not room:
            raise IndexError("the disks are full")
        place = self.dice.choice(room)
        first = min(self.free[place] + self.dice.choice([0, 0, 0, 1, 2]), PER_DISK - 1)
        count = min(count, PER_DISK - first)
        self.free[place] = first + count
        return "pv%d" % place, first, count

    def areas(self, count, pieces):
        """So many extents in a few areas."""
        made = []
        while count:
            wanted = count if len(made) + 1 >= pieces else self.dice.randrange(1, count + 1)
            made.append(self.area(wanted))
            count -= made[-1][2]
        return made

    def write(self, areas, content):
        """Puts content into areas."""
        for name, first, count in areas:
            size = count * EXTENT * SECTOR
            part, content = content[:size], content[size:]
            self.disks[int(name[2:])][first * EXTENT * SECTOR:first * EXTENT * SECTOR + len(part)] = part

    def named(self, text_of, is_shown):
        """A volume with a new name; `text_of` makes its text."""
        name = "%s%d" % (self.dice.choice(["lv", "home-", "x_"]), self.made)
        self.texts.append(text_of(name, LETTERS[self.made % len(LETTERS)]))
        self.made += 1
        if is_shown:
            self.shown.append(name)
        return name

    def volume(self, *segments, is_shown=False):
        status = '"READ", "WRITE", "VISIBLE"' if is_shown else HIDDEN
        return self.named(lambda name, letter: volume(name, letter, *segments, status=status), is_shown)

    def linear(self, count, content=None, is_shown=False, pieces=3):
        """A volume of so many extents, which begins with this content."""
        areas = self.areas(count, pieces)
        if content is not None:
            self.write(areas, content)
        segments, first = [], 0
        for name, extent, size in areas:
            segments.append(piles.linear(first, size, (name, extent)))
            first += size
        name = self.volume(*segments, is_shown=is_shown)
        self.areas_of[name] = areas
        return name

    def is_on_gone(self, name):
        """Whether a linear volume has areas on the disk without which the group went on."""
        return any(area[0] == self.gone for area in self.areas_of[name])

    def store_of(self, snapshot_key, origin, count, content):
        """A snapshot of so many extents of an origin with this store."""
        store = self.linear(-(-len(content) // EXTENT // SECTOR), content, snapshot_key == "cow_store")
        chunk = struct.unpack_from("<L", content, 12)[0]
        fields = "chunk_size = %d" % chunk, 'origin = "%s"' % origin, '%s = "%s"' % (snapshot_key, store)
        number = self.made
        self.named(lambda _, letter: volume("snapshot%d" % number, letter, segment(0, count, "snapshot", *fields)), False)


def striped_kind(dice, group):
    """Segments of each kind that lines of tables have."""
    segments, first = [], 0
    for _ in range(dice.randrange(1, 4)):
        columns, rows = dice.randrange(1, 4), dice.randrange(1, 4)
        kind = dice.choice(["striped"] * 6 + ["zero", "error"])
        if kind != "striped":
            segments.append(segment(first, rows, kind))
            first += rows
            continue
        areas = []
        while len(areas) < columns:
            area = group.area(rows)
            areas += [area] if area[2] == rows else []
        stripes = ", ".join('"%s", %d' % area[:2] for area in areas)
        counts = "stripe_count = %d" % columns, "stripe_size = %d" % dice.choice([1, 2, 4, 8])
        segments.append(segment(first, columns * rows, "striped", *counts, "stripes = [%s]" % stripes))
        first += columns * rows
    lower = group.volume(*segments, is_shown=True)
    if dice.random() < 0.3:
        group.volume(piles.linear(0, first, (lower, 0)), is_shown=True)


RAIDS = [*["raid1", "raid5"] * 4, "raid0", "raid0_meta", "raid10", "raid10_near", *plain_model.PARITY_KINDS]


def raid_kind(dice, group):
    """A raid volume with legs that failed or are being rebuilt, and regions that were being written."""
    kind, rows, chunk = dice.choice(RAIDS), dice.randrange(1, 5), dice.choice([1, 2, 4, 8])
    level = int(kind[4:6]) if kind.startswith("raid10") else int(kind[4])
    layout = 258 if level == 10 else plain_model.PARITY_KINDS.get(kind, (0, 0))[1]
    disks = dice.randrange(5 if level == 6 else 3 if level in (4, 5) else 2, 7)
    length = rows * EXTENT
    if level == 1:
        count, legs = rows, [noise(dice, length)] * disks
    elif level == 0:
        count = rows * disks
        legs = [noise(dice, length) for _ in range(disks)]
    elif level == 10:
        disks = disks // 2 * 2
        count = rows * disks // 2
        places = lambda number: plain_model.raid10_places(layout, disks, chunk, length, number)
        legs = placed_legs(noise(dice, count * EXTENT), [length] * disks, places)
    else:
        count = rows * (disks - (2 if level == 6 else 1))
        legs = plain_model.parity_legs(noise(dice, count * EXTENT), *plain_model.PARITY_KINDS[kind], disks, chunk)
    failed = dice.choice([(), (), (dice.randrange(disks),), tuple(dice.sample(range(disks), 2))]) if level else ()
    rebuilt = dice.choice([None] * 4 + [role for role in range(disks) if role not in failed]) if level else None
    region = dice.choice([8, 16])
    written = dice.choice([0, 0, 1, min(2, length // region)]) if level in (4, 5, 6) else 0
    dirty = dice.sample(range(-(-length // region)), written)
    images, metas = [], []
    for role, leg in enumerate(legs):
        recovered = dice.randrange(length) if role == rebuilt else CLEAN
        if role in failed or role == rebuilt:
            leg = changed(leg, [(0 if role in failed else recovered, length)])
        failed_by = 0 if role in failed else sum(1 << other for other in failed)
        events, size = 3 if role in failed else 9, 0 if level == 1 else chunk
        head = piles.leg_superblock(role, events, disks, 5 if level == 4 else level, layout, size, failed_by, recovered)
        metas.append(group.linear(2, head + piles.leg_bitmap(length, region, dirty), pieces=1))
        images.append(group.linear(rows, leg))
        if level and group.is_on_gone(images[-1]):
            group.write(group.areas_of[images[-1]], changed(leg, [(0, length)]))
    fields = ["device_count = %d" % disks, "region_size = %d" % region] + ["stripe_size = %d" % chunk] * (level != 1)
    pairs = ", ".join('"%s", "%s"' % pair for pair in zip(metas, images))
    names = ", ".join('"%s"' % name for name in images)
    if level == 0:
        fields = ["stripe_count = %d" % disks, "stripe_size = %d" % chunk]
    fields.append("raid0_lvs = [%s]" % names if kind == "raid0" else "raids = [%s]" % pairs)
    group.volume(segment(0, count, kind, *fields), is_shown=True)


def snapshot_kind(dice, group):
    """An origin with snapshots, one of which may be merged into it."""
    count = dice.randrange(2, 7)
    origin = group.linear(count, is_shown=True)
    is_merging = dice.random() < 0.4
    for number in range(dice.randrange(1, 3)):
        chunk = dice.choice([1, 2, 4, 8])
        chunks = count * EXTENT // chunk
        taken = dice.sample(range(chunks), dice.randrange(min(chunks, 40) + 1))
        pairs = [(old, store_lists.place(chunk, number)) for number, old in enumerate(taken)]
        size = -(-(pairs[-1][1] + 2 if pairs else 2) * chunk // EXTENT) + dice.randrange(2)
        content = bytearray(store_lists.store(pairs, chunk, size * EXTENT // chunk, valid=dice.random() > 0.1))
        for _, new in pairs:
            content[new * chunk * SECTOR:(new + 1) * chunk * SECTOR] = noise(dice, chunk)
        group.store_of("merging_store" if is_merging and not number else "cow_store", origin, count, bytes(content))


def tree_of(dice, pairs, first, value=lambda value: value):
    """The blocks of a tree from a block on, of which the first is the root."""
    if len(pairs) < 2 or dice.random() < 0.4:
        return [piles.node(first, pairs)]
    parts, at = [], 0
    while at < len(pairs):
        size = dice.randrange(1, len(pairs))
        parts.append(pairs[at:at + size])
        at += size
    blocks, heads = [], []
    for part in parts:
        heads.append((part[0][0], first + 1 + len(blocks)))
        blocks += tree_of(dice, part, first + 1 + len(blocks))
    return [piles.node(first, heads, is_leaf=False), *blocks]


def thin_kind(dice, group):
    """A pool with a few volumes, whose trees have one level or more."""
    chunk, blocks = dice.choice([8, 16, 24]), dice.randrange(3, 9)
    devices = sorted(dice.sample(range(1, 9), dice.randrange(1, 4)))
    counts = {device: dice.randrange(2, 10) for device in devices}
    parts, roots, first = [], [], 3
    for device in devices:
        most = -(-counts[device] * EXTENT // chunk)
        keys = sorted(dice.sample(range(most), dice.randrange(most + 1)))
        pairs = [(key, dice.randrange(blocks) << 24 | dice.randrange(9)) for key in keys]
        roots.append((device, first))
        tree = tree_of(dice, pairs, first)
        parts += tree
        first += len(tree)
    head = piles.pool_superblock(chunk) + piles.node(1, roots) + piles.node(2, [])
    metadata = group.linear(first, head + b"".join(parts))
    size = -(-blocks * chunk // EXTENT)
    names = 'metadata = "%s"' % metadata, 'pool = "%s"' % group.linear(size)
    pool = group.volume(segment(0, size, "thin-pool", *names, "transaction_id = 1", "chunk_size = %d" % chunk))
    for device in [*devices, *([9] if dice.random() < 0.1 else [])]:
        fields = 'thin_pool = "%s"' % pool, "transaction_id = 0", "device_id = %d" % device
        group.volume(segment(0, counts.get(device, 2), "thin", *fields), is_shown=True)


def cache_kind(dice, group):
    """A cached volume, with a pool or a cachevol, and perhaps more than one block of its array."""
    chunk = dice.choice([1, 8, 16, 24])
    count, blocks = dice.randrange(2, 9), dice.randrange(1, 7)
    if chunk == 1 and dice.random() < 0.3:
        blocks = 560
    olds = dice.sample(range(count * EXTENT // chunk), min(blocks, dice.randrange(count * EXTENT // chunk + 1)))
    entries = [0] * (blocks - len(olds)) + [old << 16 | dice.choice([1, 3]) for old in olds]
    dice.shuffle(entries)
    content, size = piles.cache_metadata(chunk, entries), -(-blocks * chunk // EXTENT)
    origin = group.linear(count)
    begin = -(-len(content) // EXTENT // SECTOR)
    if dice.random() < 0.5:
        pool = group.linear(begin + size, content)
        places = ["%s = %d" % (name, count * EXTENT) for name, count in (
            ("metadata_start", 0), ("metadata_len", begin), ("data_start", begin), ("data_len", size))]
        kind, more = "cache+CACHE_USES_CACHEVOL", ["chunk_size = %d" % chunk, *places]
    else:
        data, metadata = group.linear(size), group.linear(begin, content)
        fields = 'data = "%s"' % data, 'metadata = "%s"' % metadata, 'cache_mode = "writeback"', "chunk_size = %d" % chunk
        pool = group.volume(segment(0, size, "cache-pool", *fields))
        kind, more = "cache", []
    names = 'cache_pool = "%s"' % pool, 'origin = "%s"' % origin, 'cache_mode = "writeback"'
    group.volume(segment(0, count, kind, *names, *more), is_shown=True)


def move_kind(dice, group):
    """Volumes that are being moved: of each part some extents are, or none, or all."""
    segments, first = [], 0
    for _ in range(dice.randrange(1, 4)):
        count = dice.randrange(1, 6)
        legs = [group.area(count), group.area(count)]
        count = min(leg[2] for leg in legs)
        places = ", ".join('"%s", %d' % leg[:2] for leg in legs)
        moved = "extents_moved = %d" % dice.choice([0, count, dice.randrange(count + 1)])
        segments.append(segment(first, count, "mirror", "mirror_count = 2", moved, "mirrors = [%s]" % places))
        first += count
    moved = "pvmove%d" % group.made
    group.named(lambda _, letter: volume(moved, letter, *segments, status='"READ", "WRITE", "PVMOVE", "LOCKED"'), False)
    start = dice.randrange(first)
    group.volume(piles.linear(0, first - start, (moved, start)), is_shown=True)


GROUP_KINDS = {"striped": striped_kind, "raid": raid_kind, "snapshot": snapshot_kind, "thin": thin_kind, "cache": cache_kind,
               "move": move_kind}
KINDS = ["array", "array", "array", "on an array", *GROUP_KINDS, "all", "all"]


def group_machine(dice, machine, kinds, on_array=False):
    """A group with volumes of these kinds, of whose disks some are missing, cut short or not read in parts."""
    group = Builder(dice)
    for kind in kinds:
        try:
            kind(dice, group)
        except IndexError:
            break
    letters = LETTERS[-len(group.disks):]
    known = piles.text("vg0", "g", 4, letters, *group.texts, extents=PER_DISK)
    if group.gone:
        known = known.replace(b"%s {\n" % group.gone.encode(), b'%s {\nflags = ["MISSING"]\n' % group.gone.encode(), 1)
    lacking, dark = (dice.randrange(len(group.disks)) if dice.random() < part else None for part in (0.3, 0.2 * (not on_array)))
    for place, (letter, content) in enumerate(zip(letters, group.disks)):
        whole = piles.disk(letter, bytes(content), known)
        if on_array and not place:
            array(dice, machine, whole)
        elif place != lacking or len(group.disks) == 1:
            runs = some_runs(dice, PER_DISK * EXTENT) if dice.random() < 0.3 else []
            if place == dark and len(group.disks) > 1:
                machine.add(bytes(DATA * SECTOR) + whole[DATA * SECTOR:], [] if dice.random() < 0.5 else [(0, DATA)])
                continue
            size = DATA + dice.randrange(PER_DISK * EXTENT) if dice.random() < 0.1 else len(whole)
            machine.add(whole[:size * SECTOR], [(DATA + first, DATA + end) for first, end in runs])
    machine.names.update(("vg0/" + name, None) for name in group.shown)


def machine_of(number, only=None):
    """The machine of this number."""
    dice = random.Random(number)
    machine, kind = Machine(dice), dice.choice(KINDS)
    kind = only or kind
    if kind == "array":
        array(dice, machine)
    elif kind == "on an array":
        group_machine(dice, machine, [dice.choice(list(GROUP_KINDS.values()))], on_array=True)
    else:
        few = dice.sample(list(GROUP_KINDS.values()), 3) if kind == "all" else [GROUP_KINDS[kind]] * dice.randrange(1, 3)
        group_machine(dice, machine, few)
    return kind, machine


def answer_of(read):
    """What a function reads, or None with the reason."""
    try:
        return read(), ""
    except Exception as fault:
        return None, "%s: %s" % (type(fault).__name__, fault)


# What the tools may refuse besides: what they say that they don't follow, and what a disk whose text can't be read may have otherwise.
NOT_FOLLOWED = re.compile("isn't followed|its current text can't be read")


def differences(program, folder, number, only=None):
    """What differs on a machine: how, where, and why one refuses."""
    kind, machine = machine_of(number, only)
    paths = []
    for name, (content, _) in machine.images.items():
        paths.append(os.path.join(folder, name))
        with open(paths[-1], "wb") as image:
            image.write(content)
    images = list(machine.images.values())
    unread = {path: [(first * SECTOR, end * SECTOR) for first, end in runs] for path, (_, runs) in zip(paths, images) if runs}
    plain, careful, pile = plain_model.Machine(images), None, Pile(paths, program, unread)
    dice, found, counts = random.Random(number), [], collections.Counter()
    targets = {name: answer_of(lambda name=name: pile.target(name)) for name in machine.names}
    for _ in range(SECTORS):
        name = dice.choice(list(machine.names))
        device, (target, why) = plain.device(name), targets[name]
        count = device.count if device else len(machine.names[name] or b"") // SECTOR
        if not count:
            continue
        if target and target.size != count * SECTOR:
            found.append((number, kind, "length", name, target.size // SECTOR, count))
            break
        at = dice.randrange(count)
        wanted, gap = answer_of(lambda: device.sector(at)) if device else (None, "no such device")
        truth = machine.names[name] and machine.names[name][at * SECTOR:(at + 1) * SECTOR]
        if wanted and truth and wanted != truth:
            found.append((number, kind, "plain model is wrong", name, at, ""))
        got = None
        if target:
            lack = target.device.lack(at * SECTOR, SECTOR)
            got, why = answer_of(lambda: target.device.read(at * SECTOR, SECTOR))
            if (lack is None) != (got is not None):
                found.append((number, kind, "lack", name, at, lack or why))
        if why and not why.startswith(("Refusal", "Gap")) or gap and not gap.startswith(("Gap", "no such")):
            found.append((number, kind, "fault", name, at, why or gap))
        counts["gap" if wanted is None else "bytes"] += 1
        if got != wanted:
            how = "refused" if got is None else "answered" if wanted is None else "wrong"
            careful = careful or plain_model.Machine(images, is_careful=True)
            strict, said = careful.device(name), NOT_FOLLOWED.search(why)
            if how == "refused" and (said or not strict or answer_of(lambda: strict.sector(at))[0] is None):
                counts["refused with care"] += 1
                counts["because " + (said.group() if said else "something else is missing")] += 1
                continue
            found.append((number, kind, how, name, at, why or gap))
    for path in paths:
        os.unlink(path)
    return found, counts


# How many machines of each kind the tests have.
FEW = 4


def test_few(tally, program, own_folder):
    """A few machines of each kind."""
    folder = os.path.join(own_folder, "plain")
    os.makedirs(folder)
    total = collections.Counter()
    for kind in dict.fromkeys(KINDS):
        for number in range(FEW):
            found, counts = differences(program.path, folder, number, kind)
            total += counts
            tally.holds("the machine %d with %s" % (number, kind), not found, found[:3])
    tally.holds("that both bytes and gaps were compared", min(total["bytes"], total["gap"]) > 100, total)


def main(count, first=0, program=os.path.join(TOP, "crates", "dmremap", "out", "dmremap"), only=None):
    total, failed = collections.Counter(), 0
    with tempfile.TemporaryDirectory() as folder:
        for number in range(int(first), int(first) + int(count)):
            found, counts = differences(program, folder, number, only)
            total += counts
            failed += bool(found)
            for row in found[:2]:
                print(*row, flush=True)
            if found:
                print(*machine_of(number, only)[1].notes, sep="\n", flush=True)
    print("%s machines, %d sectors, of which %d are gaps, and %d refused with care; %d machines differ" % (
        count, total["bytes"] + total["gap"], total["gap"], total["refused with care"], failed))
    print(*("%d %s" % (number, why) for why, number in total.items() if why.startswith("because")), sep=", ")


if __name__ == "__main__":
    main(*sys.argv[1:])
