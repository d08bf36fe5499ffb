"""What `save` gives of arrays and of raid volumes of LVM, of which members are missing, were dropped or have bad sectors."""

import itertools

import piles
from piles import EXTENT, HIDDEN, SECTOR, content_of, disk, leg_bitmap, leg_superblock, linear, member, pile, segment, text, volume
from physical_volumes import patched
from plain_comparison import changed
from plain_model import parity_legs

DROPPED, CHUNK = 0xFFFE, 8


def test_pairs(tally, pile):
    """raid6 without each pair of its members, and without three of them; the same with the second parity on the last one."""
    data = content_of("raid6", 3 * 5 * CHUNK)
    for layout in (2, 18):
        legs = parity_legs(data, 6, layout, 5, CHUNK)
        pile.hold({"m%d" % role: member(leg, 6, role, range(5), 7, layout=layout, size=5 * CHUNK) for role, leg in enumerate(legs)})
        for pair in itertools.combinations(range(5), 2):
            others = ["m%d" % role for role in range(5) if role not in pair]
            pile.holds(tally, "raid6 of layout %d without the members %d and %d" % (layout, *pair), "md:array", data, *others)
        pile.refuses(tally, "raid6 of layout %d without three members" % layout, "md:array", "is missing", "m0", "m1")


def test_dropped(tally, pile):
    """A member of raid5 that was dropped, or is behind: one event or two."""
    data = content_of("raid5", 2 * 3 * CHUNK)
    legs = parity_legs(data, 5, 2, 3, CHUNK)
    other = content_of("older", 3 * CHUNK)
    for name, content, events, roles in (("one event behind", legs[1], 6, (0, 1, 2)), ("two events behind", other, 5, (0, 1, 2)),
                                         ("dropped, one event behind", other, 6, (0, DROPPED, 2))):
        images = {"m%d" % role: member(legs[role], 5, role, roles, 7, layout=2, size=3 * CHUNK) for role in (0, 2)}
        # Its own superblock doesn't know that it was dropped.
        pile.hold({**images, "m1": member(content, 5, 1, (0, 1, 2), events, layout=2, size=3 * CHUNK)})
        pile.holds(tally, "raid5 with a member " + name, "md:array", data)
        if content is other:
            pile.refuses(tally, "raid5 with a member %s, and without another" % name, "md:array", "is missing", "m0", "m1")
        else:
            pile.holds(tally, "raid5 with a member %s, and without another" % name, "md:array", data, "m0", "m1")


def test_bad(tally, pile):
    """Bad sectors, which a log counts from the beginning of a member on, in units of a power of two."""
    data = content_of("mirror", 64)
    for shift, logged, runs in ((0, [(70, 3)], [(6, 9)]), (3, [(9, 2)], [(8, 24)])):
        legs = [member(changed(data, runs), 1, 0, (0, 1), 7, bad=logged, shift=shift), member(data, 1, 1, (0, 1), 7)]
        pile.hold({"m%d" % role: leg for role, leg in enumerate(legs)})
        name = "bad sectors in units of %d" % (1 << shift)
        pile.holds(tally, "a mirror with " + name, "md:array", data)
        pile.refuses(tally, "the half with " + name, "md:array", "as its log of bad blocks says", "m0")
    for level, layout, legs in ((4, 0, parity_legs(data, 4, 0, 3, CHUNK)), (10, 258, [data, data])):
        size = len(legs[0]) // SECTOR
        for role, leg in enumerate(legs):
            bad = {} if role else {"bad": [(70, 3)]}
            leg = leg if role else changed(leg, [(6, 9)])
            pile.put("m%d" % role, member(leg, level, role, range(len(legs)), 7, layout=layout, size=size, **bad))
        pile.holds(tally, "raid%d, of which a member has bad sectors" % level, "md:array", data)
    for version, tail_sectors in ((0, 3), (0, 7), (1, 0)):
        pile.hold({"m1": member(data, 1, 1, (0, 1), 7, version=version, tail_sectors=tail_sectors)})
        pile.holds(tally, "metadata 1.%d with %d sectors more" % (version, tail_sectors), "md:array", data)


def test_volumes(tally, pile):
    """raid5 of LVM, whole, without each leg, with regions that were being written, and written to while a leg was out."""
    length, region = 4 * EXTENT, 16
    data = content_of("raid5 of LVM", 2 * length)
    legs = parity_legs(data, 5, 2, 3, CHUNK)
    pairs = ", ".join('"meta%d", "image%d"' % (role, role) for role in range(3))
    parts = [part for role in range(3) for part in (
        volume("meta%d" % role, "mno"[role], linear(0, 2, ("pv%d" % role, 0)), status=HIDDEN),
        volume("image%d" % role, "ijk"[role], linear(0, 4, ("pv%d" % role, 2)), status=HIDDEN))]
    fields = "device_count = 3", "stripe_size = %d" % CHUNK, "region_size = %d" % region, "raids = [%s]" % pairs
    known = text("vg0", "g", 4, "abc", volume("home", "h", segment(0, 8, "raid5", *fields)), *parts)

    def put(dirty=(), out=None):
        images = {}
        for role, leg in enumerate(legs):
            is_out, failed = role == out, 0 if out is None or role == out else 1 << out
            head = leg_superblock(role, 3 if is_out else 9, 3, 5, 2, CHUNK, failed)
            meta = head + leg_bitmap(length, region, () if is_out else dirty)
            content = meta.ljust(2 * EXTENT * SECTOR, b"\0") + (content_of("older", length) if is_out else leg)
            images["leg%d" % role] = disk("abc"[role], content.ljust(64 * EXTENT * SECTOR, b"\0"), known)
        pile.hold(images)
    put()
    pile.holds(tally, "raid5 of LVM", "vg0/home", data)
    for role in range(3):
        others = ["leg%d" % other for other in range(3) if other != role]
        pile.holds(tally, "raid5 of LVM without leg %d" % role, "vg0/home", data, *others)
    pile.refuses(tally, "raid5 of LVM without two legs", "vg0/home", "isn't in these images", "leg1")
    for dirty in (0,), (1,), (0, 1):
        put(dirty)
        name = "raid5 of LVM, regions %s being written" % (dirty,)
        pile.holds(tally, name, "vg0/home", data)
        # Parity of what was being written may be older than its data.
        got, saved = pile.save("vg0/home", "leg0", "leg2", more=["--allow-missing"])
        clean = [number * SECTOR for number in range(2 * length) if number // 2 // region not in dirty]
        is_so = got.status == 0 and all(saved[at:at + SECTOR] == data[at:at + SECTOR] for at in clean)
        tally.holds("the rest of " + name + ", without a leg", is_so, got.err)
        pile.refuses(tally, name + ", without a leg", "vg0/home", "wasn't shut down cleanly", "leg0", "leg2")
    put((1,), out=1)
    # What is written then stays marked as being written, and its parity is right.
    pile.holds(tally, "raid5 of LVM that was written to while a leg was out", "vg0/home", data)


def test_trees(tally, pile):
    """A thin volume whose tree has nodes below its root, and whose blocks don't divide the bytes that are asked for at once."""
    chunk, extents = 384, 160
    content = content_of("pool", extents * EXTENT)
    blocks = [content[(10 * EXTENT + number * chunk) * SECTOR:][:chunk * SECTOR] for number in range(3)]
    leaves = piles.node(4, [(0, 1 << 24), (2, 0)]) + piles.node(5, [(85, 2 << 24)])
    tree = piles.node(3, [(0, 4), (85, 5)], is_leaf=False) + leaves
    meta = piles.pool_superblock(chunk) + piles.node(1, [(1, 3)]) + piles.node(2, []) + tree
    pool = segment(0, 144, "thin-pool", 'metadata = "meta"', 'pool = "data"', "transaction_id = 1", "chunk_size = %d" % chunk)
    thin = segment(0, 5000, "thin", 'thin_pool = "pool"', "transaction_id = 0", "device_id = 1")
    known = text("vg0", "g", 9, "a", volume("pool", "p", pool), volume("meta", "m", linear(0, 6, ("pv0", 0)), status=HIDDEN),
                 volume("data", "d", linear(0, 144, ("pv0", 10)), status=HIDDEN), volume("home", "h", thin), extents=extents)
    held = [(key, blocks[number]) for key, number in ((0, 1), (2, 0), (85, 2))]
    pile.hold({"disk": disk("a", patched(content, (0, meta)), known)})
    wanted = patched(5000 * EXTENT * SECTOR, *held, unit=chunk * SECTOR)
    pile.holds(tally, "a thin volume by a tree of two levels", "vg0/home", wanted)
