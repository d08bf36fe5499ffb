"""A plain model of what images hold, with which that of the tools is compared: arrays of md and volumes of LVM, one sector
at a time, without a run, a cache or an index. It is written from the kernel's documents, and shares no code with the tools.

It takes metadata as sound: no sum is checked here. A sector that nothing here gives for sure is a Gap.
"""

import collections
import re
import struct

SECTOR, NEVER = 512, (1 << 64) - 1


class Gap(Exception):
    """A sector that isn't there, or of which nothing tells what it is."""


# So many sectors, and the function that gives one of them.
Disk = collections.namedtuple("Disk", "count sector")


def image_of(content, unread=()):
    def sector(at):
        if at < 0 or (at + 1) * SECTOR > len(content) or any(first <= at < end for first, end in unread):
            raise Gap("image, sector %d" % at)
        return content[at * SECTOR:(at + 1) * SECTOR]
    return Disk(len(content) // SECTOR, sector)


def bytes_of(disk, at, size):
    """Bytes from a byte on."""
    first, end = at // SECTOR, -(-(at + size) // SECTOR)
    return b"".join(disk.sector(number) for number in range(first, end))[at - first * SECTOR:][:size]


# Levels: each gives a sector of an array by `read(role, sector)`, which gives one of a member's data, or raises a Gap.

def first_readable(read, places):
    """The first of some copies that is there."""
    for role, at in places:
        try:
            return read(role, at)
        except Gap:
            pass
    raise Gap("no copy of it")


def zone_sector(read, lengths, chunk, is_original, number):
    """A sector of raid0: each zone goes over the members that reach as far. By the original layout a chunk's member is chosen by
    its number in the array, by the alternate one by its number in the zone."""
    lengths = {role: length // chunk * chunk for role, length in enumerate(lengths)}
    zone_start = low = 0
    for high in sorted(set(lengths.values())):
        roles = [role for role, length in lengths.items() if length > low]
        size = (high - low) * len(roles)
        if number < zone_start + size:
            in_zone = number - zone_start
            row = in_zone // (chunk * len(roles))
            column = (number if is_original else in_zone) // chunk % len(roles)
            return read(roles[column], low + row * chunk + in_zone % chunk)
        zone_start, low = zone_start + size, high
    raise Gap("past the end")


def raid10_places(layout, disks, chunk, member_length, number):
    """The places of the copies of a sector, in the order in which the kernel has them."""
    near, far, is_offset = layout & 255, layout >> 8 & 255, layout >> 16 & 1
    chunks = member_length // chunk // far * disks // near * near * far
    stride = 1 if is_offset else -(-chunks // disks) // far
    row, device = divmod(number // chunk * near, disks)
    if is_offset:
        row *= far
    for copy in range(near):
        for set_number in range(far):
            yield (device + set_number * near) % disks, (row + set_number * stride) * chunk + number % chunk
        device += 1
        if device == disks:
            device, row = 0, row + 1


LEFT_ASYMMETRIC, RIGHT_ASYMMETRIC, LEFT_SYMMETRIC, RIGHT_SYMMETRIC, PARITY_FIRST, PARITY_LAST = range(6)
ZERO_RESTART, N_RESTART, N_CONTINUE, Q_LAST = 8, 9, 10, 16


def stripe_of(level, layout, disks, stripe):
    """The members of a stripe: those of its data in their order, P, and Q or None; and the power of two by which each counts
    in Q. With DDF's layouts that is the member's number, otherwise its place among the data from behind Q on."""
    if level == 4:
        level, layout = 5, PARITY_LAST
    if level == 6 and layout >= Q_LAST:
        data, p, _, _ = stripe_of(5, layout - Q_LAST, disks - 1, stripe)
        return data, p, disks - 1, dict(zip(sorted(data), range(disks)))
    is_right = layout in (RIGHT_ASYMMETRIC, RIGHT_SYMMETRIC, ZERO_RESTART)
    turn = (stripe + (layout == N_RESTART)) % disks
    p = turn if is_right else disks - 1 - turn
    if layout in (PARITY_FIRST, PARITY_LAST):
        p = 0 if layout == PARITY_FIRST else disks - (level - 4)
    q = None
    if level == 6:
        q = (p - 1 if layout == N_CONTINUE else p + 1) % disks
    if layout in (LEFT_SYMMETRIC, RIGHT_SYMMETRIC, N_CONTINUE):
        begin = p + 1 if q is None or layout == N_CONTINUE else q + 1
    else:
        begin = 0
    around = [(begin + step) % disks for step in range(disks)]
    data = [role for role in around if role not in (p, q)]
    if q is None:
        return data, p, q, {}
    if layout in (ZERO_RESTART, N_RESTART, N_CONTINUE):
        return data, p, q, {role: role for role in data}
    behind = [(q + 1 + step) % disks for step in range(disks)]
    return data, p, q, {role: power for power, role in enumerate(role for role in behind if role not in (p, q))}


def times(one, other):
    """The product in the field of 256 elements of raid6."""
    product = 0
    while other:
        product ^= one if other & 1 else 0
        one = one << 1 ^ (0x11D if one & 0x80 else 0)
        other >>= 1
    return product


PRODUCTS = [bytes(times(one, other) for other in range(256)) for one in range(256)]


def power_of_two(exponent):
    return 1 if not exponent else times(2, power_of_two(exponent - 1))


def inverse(value):
    return PRODUCTS[value].index(1)


def scaled(factor, content):
    return content.translate(PRODUCTS[factor])


def added(*parts):
    """The sum of some sectors, which is that of their bits."""
    total = 0
    for part in parts:
        total ^= int.from_bytes(part, "little")
    return total.to_bytes(SECTOR, "little")


def q_sum(parts, powers):
    """The sum of the sectors of members, each by its power."""
    return added(bytes(SECTOR), *(scaled(power_of_two(powers[role]), part) for role, part in parts.items()))


def parity_legs(data, level, layout, disks, chunk):
    """The legs of raid4, 5 or 6 over some data."""
    columns, size = disks - (2 if level == 6 else 1), chunk * SECTOR
    legs = [bytearray() for _ in range(disks)]
    for stripe in range(len(data) // size // columns):
        members, p, q, powers = stripe_of(level, layout, disks, stripe)
        row = {role: data[(stripe * columns + column) * size:][:size] for column, role in enumerate(members)}
        sectors = [{role: part[at:at + SECTOR] for role, part in row.items()} for at in range(0, size, SECTOR)]
        row[p] = b"".join(added(*each.values()) for each in sectors)
        if q is not None:
            row[q] = b"".join(q_sum(each, powers) for each in sectors)
        for role, leg in enumerate(legs):
            leg += row[role]
    return [bytes(leg) for leg in legs]


def parity_sector(read, level, layout, disks, chunk, number, computes):
    """A sector of raid4, 5 or 6: as it is, or else computed from the other members, where that is said to be right."""
    stripe, column = divmod(number // chunk, disks - (2 if level == 6 else 1))
    data, p, q, powers = stripe_of(level, layout, disks, stripe)
    wanted, at, here = data[column], stripe * chunk + number % chunk, {}
    for role in [*data, p] + [q] * (q is not None):
        try:
            here[role] = read(role, at)
        except Gap:
            pass
    if wanted in here:
        return here[wanted]
    if not computes(at):
        raise Gap("its parity may be old")
    others = {role: here[role] for role in data if role in here}
    lost = [role for role in data if role not in here]
    if len(lost) == 1 and p in here:
        return added(here[p], *others.values())
    if q is None or q not in here or len(lost) > 2 or (len(lost) == 2 and p not in here):
        raise Gap("too many members lack it")
    factor = power_of_two(powers[wanted])
    rest = added(here[q], q_sum(others, powers))
    if len(lost) == 1:
        return scaled(inverse(factor), rest)
    other = power_of_two(powers[next(role for role in lost if role != wanted)])
    return scaled(inverse(factor ^ other), added(rest, scaled(other, added(here[p], *others.values()))))


# md.

# What a superblock of version 1 says. So many sectors of data are rebuilt; `bad` are runs of sectors of the whole device.
Superblock = collections.namedtuple("Superblock", "array name level layout size chunk disks data_offset data_size recovered "
                                    "device events resynced roles bad")
FAULTY, BAD_BLOCKS, RECOVERING = 0xFFFE, 8, 2


def superblock_of(disk):
    """The superblock of a member, or None."""
    for sector in (0, 8, disk.count - 16 & ~7):
        if not 0 <= sector <= disk.count - 2:
            continue
        try:
            head = bytes_of(disk, sector * SECTOR, 1024)
        except Gap:
            continue
        magic, major, features, array, name = struct.unpack_from("<LLL4x16s32s", head)
        level, layout, size, chunk, disks = struct.unpack_from("<lLQLL", head, 72)
        offset, length, here, recovery, device = struct.unpack_from("<QQQQL", head, 128)
        shift, log_size, log_at = struct.unpack_from("<BHl", head, 185)
        _, events, resynced, _, most = struct.unpack_from("<QQQLL", head, 192)
        if (magic, major, here) != (0xA92B4EFC, 1, sector):
            continue
        bad = []
        log = bytes_of(disk, (sector + log_at) * SECTOR, log_size * SECTOR if features & BAD_BLOCKS else 0)
        for entry, in struct.iter_unpack("<Q", log):
            if entry == NEVER:
                break
            bad.append((entry >> 10 << shift, (entry >> 10 << shift) + ((entry & 1023) << shift)))
        recovered = recovery if features & RECOVERING else NEVER
        name = name.rstrip(b"\0").decode().rpartition(":")[2]
        roles = struct.unpack_from("<%dH" % most, head, 256)
        return Superblock(array, name, level, layout, size, chunk, disks, offset, length, recovered, device, events, resynced,
                          roles, bad)
    return None


def array_of(members, is_careful, dark):
    """The array of some members, which are pairs of a disk and its superblock. Those count whose events are the highest, or one
    less; which role each has is said by the newest. Of one that is being rebuilt that counts which is rebuilt. Where nothing can be
    read of other, `dark` disks, these may be some of those that are missing, with newer data, or at least with other bytes."""
    newest = max((superblock for _, superblock in members), key=lambda superblock: superblock.events)
    level, layout, chunk, disks, size = newest.level, newest.layout, newest.chunk, newest.disks, newest.size
    here = {}
    for disk, superblock in members:
        role = newest.roles[superblock.device]
        is_read = superblock.recovered == NEVER or not is_careful
        if superblock.events + 1 >= newest.events and role < FAULTY and is_read:
            here[role] = disk, superblock
    whole = [role for role, (_, superblock) in here.items() if superblock.recovered == NEVER]
    if len(whole) < disks and any(is_careful or has_bytes(disk) for disk in dark):
        raise Gap("a disk that can't be read may be newer")

    def read(role, at):
        if role not in here:
            raise Gap("member %d" % role)
        (disk, superblock), place = here[role], here[role][1].data_offset + at
        is_bad = any(first <= place < end for first, end in superblock.bad)
        if at >= superblock.data_size or at >= superblock.recovered or is_bad:
            raise Gap("member %d, sector %d" % (role, at))
        return disk.sector(place)

    # Of these the tools read the first copy alone where all members are there, or have no rule for parity.
    is_known = layout in (LEFT_SYMMETRIC, LEFT_SYMMETRIC + Q_LAST)
    reads_one = is_careful and (level in (4, 10) and len(here) == disks or level == 6 and not is_known)
    if level in (0, -1):
        if len(here) < disks:
            raise Gap("a member is missing")
        lengths = [here[role][1].data_size for role in range(disks)]
        lengths = [length - length % (chunk or 1) for length in lengths]
        if level == -1:
            starts = [sum(lengths[:role]) for role in range(disks)]
            role_at = lambda at: max(role for role in range(disks) if at >= starts[role])
            return Disk(sum(lengths), lambda at: read(role_at(at), at - starts[role_at(at)]))
        return Disk(sum(lengths), lambda at: zone_sector(read, lengths, chunk, layout == 1, at))
    if level in (1, 10):
        def copies(at):
            places = raid10_places(layout, disks, chunk, size, at) if level == 10 else [(role, at) for role in range(disks)]
            places = [place for place in places if place[0] in newest.roles]
            # What wasn't copied yet is read from the first one that is in the array.
            return places[:1] if reads_one or at >= newest.resynced else places
        count = size if level == 1 else size // chunk // (layout >> 8 & 255) * disks // (layout & 255) * chunk
        return Disk(count, lambda at: first_readable(read, copies(at)))
    # Where the parity wasn't made yet, or wasn't shut down cleanly, it may be older than the data.
    count = size // chunk * chunk * (disks - (2 if level == 6 else 1))
    computes = lambda row: row < newest.resynced and not reads_one
    return Disk(count, lambda at: parity_sector(read, level, layout, disks, chunk, at, computes))


# LVM.

TOKEN = re.compile(r'#.*|"((?:[^"\\]|\\.)*)"|[{}\[\]=,]|[^\s{}\[\]=,#"]+')


def parsed(content):
    """The sections and fields of a text, as dictionaries, lists, strings and numbers."""
    tokens = iter([found for found in TOKEN.finditer(content) if not found.group().startswith("#")])

    def value(token):
        if token.group() != "[":
            return int(token.group()) if token.group(1) is None else token.group(1)
        items = []
        for each in tokens:
            if each.group() == "]":
                return items
            items += [value(each)] if each.group() != "," else []

    def section():
        made = {}
        for token in tokens:
            if token.group() == "}":
                break
            made[token.group()] = section() if next(tokens).group() == "{" else value(next(tokens))
        return made
    return section()


def physical_volume_of(disk):
    """The id of a physical volume and its text, if that can be read; or None."""
    for sector in range(min(4, disk.count)):
        head = disk.sector(sector)
        if head[:8] != b"LABELONE":
            continue
        at = struct.unpack_from("<L", head, 20)[0]
        identity, at = head[at:at + 32].decode(), at + 40
        lists = []
        for _ in range(2):
            lists.append([])
            while struct.unpack_from("<QQ", head, at) != (0, 0):
                lists[-1].append(struct.unpack_from("<QQ", head, at))
                at += 16
            at += 16
        start, size = lists[1][0]
        try:
            offset, length = struct.unpack("<QQ", bytes_of(disk, start + 40, 16))
            text = bytes_of(disk, start + offset, min(length, size - offset))
            text += bytes_of(disk, start + SECTOR, length - len(text)) if len(text) < length else b""
        except Gap:
            return identity, ""
        return identity, text.rstrip(b"\0").decode()
    return None


# The levels and layouts of types of segments.
PARITY_KINDS = {
    "raid4": (5, 4), "raid5": (5, 2), "raid5_la": (5, 0), "raid5_ra": (5, 1), "raid5_ls": (5, 2), "raid5_rs": (5, 3),
    "raid5_n": (5, 5), "raid6": (6, 8), "raid6_zr": (6, 8), "raid6_nr": (6, 9), "raid6_nc": (6, 10), "raid6_n_6": (6, 5),
    "raid6_la_6": (6, 16), "raid6_ra_6": (6, 17), "raid6_ls_6": (6, 18), "raid6_rs_6": (6, 19)}


class Group:
    """A volume group: its newest text, and the physical volumes that are here by their ids."""

    # The most sectors of an array in which nothing can be read, so that it may be a disk that isn't found.
    most_dark = 0

    def __init__(self, text, physical, is_careful, has_dark):
        self.is_careful, self.has_dark = is_careful, has_dark
        self.name, self.text = next((name, body) for name, body in text.items() if isinstance(body, dict))
        self.extent, self.volumes = self.text["extent_size"], self.text["logical_volumes"]
        self.physical = physical
        self.segments = {name: [volume["segment%d" % number] for number in range(1, volume["segment_count"] + 1)]
                         for name, volume in self.volumes.items()}
        self.snapshots = [segment for each in self.segments.values() for segment in each if segment["type"] == "snapshot"]

    def records(self, key, name):
        """The segments that say what snapshot a volume belongs to, by a field that names it."""
        return [segment for segment in self.snapshots if segment.get(key) == name]

    def size_of(self, name):
        return sum(segment["extent_count"] for segment in self.segments[name]) * self.extent

    def volume(self, name):
        """What a volume reads as: a snapshot through its store, an origin that is merged into as that snapshot."""
        # A disk without which the group went on, and in which nothing can be read, may have another state of it.
        gone = [record for record in self.text["physical_volumes"].values() if "MISSING" in record.get("flags", ())]
        if (self.has_dark or self.most_dark) and any(record["id"].replace("-", "") not in self.physical for record in gone):
            raise Gap("a disk may have another state of the group")
        for record in self.records("cow_store", name):
            return self.snapshot(self.origin(record["origin"]), name, record["extent_count"] * self.extent, record["origin"])
        return self.origin(name)

    def origin(self, name):
        for record in self.records("origin", name):
            if "merging_store" in record:
                return self.snapshot(self.plain(name), record["merging_store"], self.size_of(name), name, True)
        return self.plain(name)

    def disks_of(self, name):
        """The records of the physical volumes that a linear volume lies on."""
        return [self.text["physical_volumes"][area] for segment in self.segments[name] for area in segment["stripes"][::2]]

    def is_left_behind(self, name):
        """Whether the group went on without a disk of a volume."""
        return any("MISSING" in record.get("flags", ()) for record in self.disks_of(name))

    def snapshot(self, origin, store, count, name, is_merging=False):
        def sector(at):
            if self.is_left_behind(store) or self.is_left_behind(name):
                raise Gap("a store or an origin that is older than the other")
            return snapshot_sector(origin, self.plain(store), at, self.is_careful, is_merging)
        return Disk(count, sector)

    def plain(self, name):
        """A volume's own sectors, by its segments."""
        return Disk(self.size_of(name), lambda at: self.sector(name, at))

    def sector(self, name, at):
        for segment in self.segments[name]:
            inside = at - segment["start_extent"] * self.extent
            if 0 <= inside < segment["extent_count"] * self.extent:
                return self.in_segment(segment, inside)
        raise Gap("past the end of " + name)

    def below(self, name, extent, at):
        """A sector of what an area lies on, from an extent of it on."""
        if name in self.volumes:
            return self.volume(name).sector(extent * self.extent + at)
        record = self.text["physical_volumes"][name]
        disk = self.physical.get(record["id"].replace("-", ""))
        if disk is None:
            raise Gap("a physical volume is missing")
        return disk.sector(record["pe_start"] + extent * self.extent + at)

    def in_segment(self, segment, at):
        kind = segment["type"].partition("+")[0]
        if kind == "striped":
            return self.striped(segment, at)
        if kind == "mirror":
            # pvmove: the second leg is right once all extents have moved, and until then the first one, which is always written.
            leg = 1 if segment["extents_moved"] == segment["extent_count"] else 0
            return self.below(*segment["mirrors"][2 * leg:2 * leg + 2], at)
        if kind == "zero":
            return bytes(SECTOR)
        if kind.startswith("raid"):
            return self.raid(kind, segment, at)
        if kind == "thin":
            pool = self.segments[segment["thin_pool"]][0]
            metadata, data = self.volume(pool["metadata"]), self.volume(pool["pool"])
            return thin_sector(metadata, data, segment["device_id"], at, self.is_careful)
        if kind == "cache":
            return self.cached(segment, at)
        raise Gap("a volume of type " + kind)

    def striped(self, segment, at):
        stripes, count = segment["stripes"], segment["stripe_count"]
        if count == 1:
            return self.below(*stripes, at)
        chunk, offset = divmod(at, segment["stripe_size"])
        row, column = divmod(chunk, count)
        return self.below(*stripes[2 * column:2 * column + 2], row * segment["stripe_size"] + offset)

    def raid(self, kind, segment, at):
        """A sector of a raid volume: data lies at the start of the volumes of its legs, and superblocks on those beside them."""
        images = segment.get("raid0_lvs") or segment["raids"][1::2]
        # Without copies or parity the text alone says where all lies.
        metas = [] if kind.startswith("raid0") else segment["raids"][0::2]
        is_old = [self.is_left_behind(name) or self.is_split_off(name) for name in (images if metas else ())]
        legs = [None if old else leg_of(self.volume(name)) for name, old in zip(metas, is_old)]
        # A leg whose superblock isn't here may be newer. That its disk is here is said by the disk, or may be.
        lost = [role for role, leg in enumerate(legs) if leg is None and not is_old[role]]
        may_be = lambda record: self.has_dark or record["dev_size"] <= self.most_dark
        is_here = lambda record: may_be(record) or record["id"].replace("-", "") in self.physical
        is_dark = any(all(map(is_here, self.disks_of(metas[role]))) for role in lost)
        newest = max(filter(None, legs), key=lambda leg: leg.events, default=None)
        if legs and (not newest or self.is_careful and newest.is_dirty(0) is None):
            raise Gap("no leg has a superblock")
        disks, length = len(images), self.size_of(images[0])
        sets = len({role // 2 if kind.startswith("raid10") else 0 if kind == "raid1" else role for role in lost})
        least = {"raid1": 1 if kind == "raid1" else disks // 2, "raid6": disks - 2}.get(kind[:5], disks - 1)
        if is_dark and sets >= least:
            raise Gap("a leg that can't be read may be newer")

        def read(role, sector):
            leg = legs[role] if legs else None
            is_behind = leg and (sector >= leg.recovered or self.is_careful and leg.recovered != NEVER)
            if legs and (leg is None or newest.failed >> role & 1 or is_behind):
                raise Gap("leg %d" % role)
            return self.volume(images[role]).sector(sector)
        if kind in ("raid0", "raid0_meta"):
            return zone_sector(read, [length] * disks, segment["stripe_size"], True, at)
        if kind.startswith("raid1"):
            near = raid10_places(258, disks, segment.get("stripe_size"), length, at)
            places = near if kind.startswith("raid10") else [(role, at) for role in range(disks)]
            places = [place for place in places if not newest.failed >> place[0] & 1]
            return first_readable(read, places[:1] if at >= newest.resynced else places)
        # What is written while a leg is out stays marked as being written, and its parity is right.
        was_out = newest.failed or any(leg and leg.recovered != NEVER for leg in legs)
        computes = lambda row: row < newest.resynced and (was_out and not self.is_careful or not newest.is_dirty(row))
        return parity_sector(read, *PARITY_KINDS[kind], disks, segment["stripe_size"], at, computes)

    def is_split_off(self, name):
        """Whether a leg was split off, so that its user sees it, and doesn't write to it."""
        return "VISIBLE" in self.volumes[name]["status"] and "WRITE" not in self.volumes[name]["status"]

    def cached(self, segment, at):
        name, origin, chunk = segment["cache_pool"], self.volume(segment["origin"]), segment.get("chunk_size")
        if "metadata_start" in segment:
            pool = self.volume(name)
            starts = segment["metadata_start"], segment["data_start"]
            metadata, data = (Disk(pool.count, lambda at, start=start: pool.sector(start + at)) for start in starts)
        else:
            fields = self.segments[name][0]
            metadata, data, chunk = self.volume(fields["metadata"]), self.volume(fields["data"]), fields["chunk_size"]
        entries = array_values(metadata, struct.unpack_from("<Q", bytes_of(metadata, 0, 4096), 192)[0])
        for block, entry in enumerate(list(entries) if self.is_careful else entries):
            if entry & 1 and entry >> 16 == at // chunk:
                return data.sector(block * chunk + at % chunk)
        return origin.sector(at)


class Leg:
    """What a leg's metadata says: a superblock of dm-raid, and behind it which regions were being written."""

    def __init__(self, disk):
        self.disk = disk
        self.events, self.failed, self.recovered, self.resynced = struct.unpack("<4Q", bytes_of(disk, 16, 32))

    def is_dirty(self, at):
        """Whether the parity of a sector of the members may be older than its data."""
        if bytes_of(self.disk, 4096, 4) != b"bitm":
            return True
        region = at // (struct.unpack("<L", bytes_of(self.disk, 4096 + 52, 4))[0] // SECTOR)
        return bool(bytes_of(self.disk, 4096 + 256 + region // 8, 1)[0] >> region % 8 & 1)


def leg_of(disk):
    """What a leg says, or None if its metadata isn't here."""
    try:
        return Leg(disk) if bytes_of(disk, 0, 4) == b"DmRd" else None
    except Gap:
        return None


def exceptions_of(store, chunk):
    """The pairs of a store's list, of an old and a new chunk, up to the first free place, behind which its area has none."""
    area = 1
    while True:
        pairs = list(struct.iter_unpack("<QQ", bytes_of(store, area * chunk * SECTOR, chunk * SECTOR)))
        used = [pair for pair in pairs if pair[1]]
        if pairs[:len(used)] != used:
            raise Gap("a pair behind a free place")
        yield from used
        if len(used) < len(pairs):
            return
        area += len(pairs) + 1


def snapshot_sector(origin, store, at, is_careful, is_merging):
    """A sector of a snapshot: from the store if its list has the chunk, else from the origin. A list of zeros may be one whose pairs
    were merged, or one that was lost."""
    magic, valid, _, chunk = struct.unpack("<4L", bytes_of(store, 0, 16))
    if (magic, valid) != (0x70416E53, 1):
        raise Gap("a store without a header, or invalid")
    if is_merging and not list(exceptions_of(store, chunk)):
        raise Gap("a merge that ended, or whose list is lost")
    pairs = exceptions_of(store, chunk)
    for old, new in list(pairs) if is_careful else pairs:
        if old == at // chunk:
            return store.sector(new * chunk + at % chunk)
    return origin.sector(at)


INTERNAL = 1


def node_of(disk, block):
    """Whether a node of a tree of persistent-data has nodes below it, and its keys with their values."""
    content = bytes_of(disk, block * 4096, 4096)
    flags, entries, most = struct.unpack_from("<L8xLL", content, 4)
    keys, values = (struct.unpack_from("<%dQ" % entries, content, 32 + skipped) for skipped in (0, 8 * most))
    return flags & INTERNAL, list(zip(keys, values))


def found_in_tree(disk, block, key):
    """The value of a key in a tree, or None."""
    while True:
        is_internal, pairs = node_of(disk, block)
        below = [pair for pair in pairs if pair[0] <= key]
        if not below:
            return None
        if not is_internal:
            return below[-1][1] if below[-1][0] == key else None
        block = below[-1][1]


def array_values(disk, root):
    """The values of an array of persistent-data: those of its blocks in turn, to which a tree leads."""
    number = 0
    while True:
        found = found_in_tree(disk, root, number)
        if found is None:
            return
        content = bytes_of(disk, found * 4096, 4096)
        yield from struct.unpack_from("<%dQ" % struct.unpack_from("<L", content, 8), content, 24)
        number += 1


def read_tree(disk, block):
    """Reads all nodes of a tree, of which none may be missing."""
    is_internal, pairs = node_of(disk, block)
    for _, lower in pairs if is_internal else ():
        read_tree(disk, lower)


def thin_sector(metadata, data, device, at, is_careful):
    """A sector of a thin volume: where the tree of its device leads, or zeros."""
    tree, chunk = struct.unpack_from("<Q8xL", bytes_of(metadata, 0, 4096), 320)
    root = found_in_tree(metadata, tree, device)
    if root is None:
        raise Gap("the pool has no such device")
    if is_careful:
        read_tree(metadata, root)
    value = found_in_tree(metadata, root, at // chunk)
    if value is None:
        return bytes(SECTOR)
    return data.sector((value >> 24) * chunk + at % chunk)


# All of some images.

def is_dark(disk):
    """Whether nothing can be read of what a disk is."""
    try:
        return not superblock_of(disk) and not physical_volume_of(disk)
    except Gap:
        return True


def has_bytes(disk):
    """Whether something is on a disk but zeros and what can't be read."""
    read = lambda is_lacking, at: b"" if is_lacking else disk.sector(at)
    return any(any(first_readable(read, [(False, at), (True, at)])) for at in range(disk.count))


class Machine:
    """The arrays and groups in some images, which are pairs of their bytes and the runs of sectors that weren't read. A
    careful one reads no member that is being rebuilt, and nothing where metadata is missing that other sectors need."""

    def __init__(self, images, is_careful=False):
        waiting, self.arrays, groups, physical = [image_of(*image) for image in images], {}, {}, {}
        dark = [disk for disk in waiting if is_dark(disk)]
        while waiting:
            members, waiting_next = {}, []
            for disk in waiting:
                superblock = superblock_of(disk)
                if superblock:
                    members.setdefault(superblock.array, []).append((disk, superblock))
                    continue
                try:
                    found = physical_volume_of(disk)
                except Gap:
                    continue
                if found:
                    physical[found[0]] = disk
                    if found[1]:
                        text = parsed(found[1])
                        group = next(body for body in text.values() if isinstance(body, dict))
                        groups.setdefault(group["id"], []).append((group["seqno"], text))
            for each in members.values():
                try:
                    array = array_of(each, is_careful, dark)
                except Gap:
                    continue
                self.arrays[each[0][1].name] = array
                waiting_next.append(array)
            waiting = waiting_next
        self.groups = {}
        for each in groups.values():
            group = Group(max(each, key=lambda row: row[0])[1], physical, is_careful, bool(dark))
            self.groups[group.name] = group
            group.most_dark = max((array.count for array in self.arrays.values() if is_dark(array)), default=0)

    def device(self, name):
        """An array as md:NAME, or a volume as GROUP/VOLUME; None if it isn't here."""
        if name.startswith("md:"):
            return self.arrays.get(name[3:])
        group, _, volume = name.partition("/")
        try:
            return self.groups[group].volume(volume) if group in self.groups else None
        except Gap:
            return None
