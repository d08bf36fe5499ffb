"""Volume groups that lvm2 makes in the guest, by commands.

Beside commands of a shell, a line may be `loops COUNT SECTORS`, after which LOOP0, LOOP1 and so on are loop devices
of that length, `overwrite DISK`, which puts zeros over the head of a disk, or `edit GROUP`, which tries edits of its text.
"""

import textwrap

from edits import edits


def group(name, commands, **options):
    """A group with its commands; `options` go into lvm2's configuration, or name modules that the kernel needs."""
    return dict({"name": "lvm-" + name, "commands": textwrap.dedent(commands).strip().split("\n")}, **options)


PLAIN = [
    # As an installer makes it.
    group("debian", """
        pvcreate -ff -y /dev/nvme0n1p2
        vgcreate debian-vg /dev/nvme0n1p2
        lvcreate -y -Wn -Zn -n root -L 300m debian-vg
        lvcreate -y -Wn -Zn -n swap_1 -L 60m debian-vg
        lvcreate -y -Wn -Zn -n home -l 100%FREE debian-vg
        """),
    group("names", """
        pvcreate -ff -y /dev/sda1 /dev/sdb
        vgcreate my-vg.01+x /dev/sda1 /dev/sdb
        lvcreate -y -Wn -Zn -n data-2.0+b -l 5 my-vg.01+x
        lvcreate -y -Wn -Zn -n a-- -l 1 my-vg.01+x
        lvcreate -y -Wn -Zn -n a--b-c -l 2 my-vg.01+x
        lvcreate -y -Wn -Zn -n _x -l 2 my-vg.01+x
        lvcreate -y -Wn -Zn -n .hidden -l 1 my-vg.01+x
        lvcreate -y -Wn -Zn -n 0 -l 1 my-vg.01+x
        lvcreate -y -Wn -Zn -n +plus -l 3 my-vg.01+x /dev/sdb
        lvcreate -y -Wn -Zn -n srv.web-01_log -l 7 my-vg.01+x /dev/sdb
        lvcreate -y -Wn -Zn --name=-lead -l 1 my-vg.01+x
        lvcreate -y -Wn -Zn -n a@b -l 1 my-vg.01+x
        lvcreate -y -Wn -Zn -n %s -l 1 my-vg.01+x
        """ % ("n" * 100)),
    # Volumes of many segments, after removals and extensions.
    group("fragmented", """
        pvcreate -ff -y /dev/sda1 /dev/sda2 /dev/sdb
        vgcreate -s 1m vg-frag /dev/sda1 /dev/sda2 /dev/sdb
        lvcreate -y -Wn -Zn -n a -l 10 vg-frag /dev/sda1
        lvcreate -y -Wn -Zn -n b -l 13 vg-frag /dev/sda1
        lvcreate -y -Wn -Zn -n c -l 7 vg-frag /dev/sda1
        lvcreate -y -Wn -Zn -n d -l 9 vg-frag /dev/sda2
        lvremove -y vg-frag/b
        lvextend -y -l +20 vg-frag/a /dev/sda1
        lvextend -y -l +11 vg-frag/c /dev/sda2
        lvextend -y -l +5 vg-frag/d /dev/sdb:100-110
        lvextend -y -l +5 vg-frag/d /dev/sdb:50-60
        lvextend -y -l +6 vg-frag/a /dev/sda2:0-200
        lvreduce -f -y -l -2 vg-frag/c
        lvextend -y -l +4 vg-frag/c /dev/sdb:0-10
        lvcreate -y -Wn -Zn -n e -l 30 vg-frag /dev/sdb:200-209 /dev/sda2:60-69 /dev/sdb:5-14
        lvcreate -y -Wn -Zn -n inact -l 2 -an vg-frag
        """),
    # Two to four stripes of 4 to 64 KiB, extended to several segments.
    group("striped", """
        pvcreate -ff -y /dev/sdb /dev/sdc /dev/vdb /dev/vdc
        vgcreate vgs /dev/sdb /dev/sdc /dev/vdb /dev/vdc
        lvcreate -y -Wn -Zn -n s2x4 -i 2 -I 4k -l 6 vgs
        lvcreate -y -Wn -Zn -n s2x64 -i 2 -I 64k -l 4 vgs /dev/vdb /dev/vdc
        lvcreate -y -Wn -Zn -n s3x16 -i 3 -I 16k -l 9 vgs
        lvcreate -y -Wn -Zn -n s4x8 -i 4 -I 8k -l 8 vgs
        lvcreate -y -Wn -Zn -n s4x32 -i 4 -I 32k -l 4 vgs
        lvcreate -y -Wn -Zn -n lin -l 3 vgs
        lvextend -y -l +6 vgs/s2x4
        lvextend -y -i 1 -l +2 vgs/s2x64 /dev/sdb
        lvextend -y -i 3 -I 8k -l +3 vgs/s2x64 /dev/sdb /dev/sdc /dev/vdb
        lvextend -y -i 2 -I 16k -l +4 vgs/lin
        lvcreate -y -Wn -Zn -n odd -i 3 -l 10 vgs
        """),
    group("zero-error", """
        pvcreate -ff -y /dev/vdb
        vgcreate vgze /dev/vdb
        lvcreate -y -Wn -Zn -n z --type zero -l 10 vgze
        lvcreate -y -Wn -Zn -n e --type error -l 5 vgze
        lvcreate -y -Wn -Zn -n mix -l 4 vgze
        lvextend -y --type zero -l +3 vgze/mix
        lvextend -y --type error -l +2 vgze/mix
        lvextend -y --type linear -l +2 vgze/mix
        """),
    # Read-only volumes, tags, a fixed number, and a volume that isn't activated.
    group("readonly", """
        pvcreate -ff -y --addtag never_this /dev/vdb
        pvcreate -ff -y /dev/vdb /dev/vdc
        vgcreate --addtag prod --addtag rack-12.b vgro /dev/vdb /dev/vdc
        pvchange --addtag ssd --addtag slow/2=x /dev/vdc
        lvcreate -y -Wn -Zn -n rw -l 3 --addtag backup:daily --addtag a_b vgro
        lvcreate -y -Wn -Zn -n ro -l 3 -pr --addtag 'x&y#z!w' vgro
        lvcreate -y -Wn -Zn -n was-rw -l 2 vgro
        lvchange -pr vgro/was-rw
        lvcreate -y -Wn -Zn -n fixed -l 1 -My --major 253 --minor 77 vgro
        lvcreate -y -Wn -Zn -n noauto -l 1 -ky vgro
        lvcreate -y -Wn -Zn -n cont -l 1 -C y -r 256 vgro
        vgchange --alloc cling vgro
        """),
]

SNAPSHOTS = [
    group("snapshots", """
        pvcreate -ff -y /dev/sdb /dev/vdb
        vgcreate vg-sn /dev/sdb /dev/vdb
        lvcreate -y -Wn -Zn -n org -l 10 vg-sn
        lvcreate -y -Wn -Zn -n str -i 2 -I 16k -l 4 vg-sn
        lvcreate -y -s -c 4k -n snap-1 -l 3 vg-sn/org
        lvcreate -y -s -c 8k -n snap2 -l 2 vg-sn/org
        lvcreate -y -s -c 512k -n s.str -l 4 vg-sn/str
        lvcreate -y -s -pr -n ro-snap -l 2 vg-sn/str
        lvcreate -y -Wn -Zn -n other -l 2 vg-sn
        lvextend -y -l +2 vg-sn/snap-1
        """),
    group("snap-default", """
        pvcreate -ff -y /dev/vdb
        vgcreate vg0 /dev/vdb
        lvcreate -y -Wn -Zn -n lv0 -l 2 vg0
        lvcreate -y -s -n snap -l 100%ORIGIN vg0/lv0
        """),
    group("snap-resized", """
        pvcreate -ff -y /dev/vdb
        vgcreate vg0 /dev/vdb
        lvcreate -y -Wn -Zn -n lv0 -l 4 vg0
        lvcreate -y -s -n snap -l 3 vg0/lv0
        lvchange -an vg0/lv0
        lvextend -y -l +2 vg0/lv0
        lvchange -ay vg0/lv0
        """),
    # A store of stripes, one of two segments, and one of a read-only origin.
    group("snap-store-striped", """
        pvcreate -ff -y /dev/vdb /dev/vdc
        vgcreate vg0 /dev/vdb /dev/vdc
        lvcreate -y -Wn -Zn -n lv0 -l 4 vg0
        lvcreate -y -s -i 2 -I 8k -n snap -l 4 vg0/lv0
        lvcreate -y -s -n two -l 2 vg0/lv0 /dev/vdb
        lvextend -y -l +1 vg0/two /dev/vdc
        lvcreate -y -Wn -Zn -n ro -pr -l 2 vg0
        lvcreate -y -s -n of-ro -l 2 vg0/ro
        """),
    # A sparse volume, whose origin is zeros.
    group("virtual-snap", """
        pvcreate -ff -y /dev/vdb
        vgcreate vg0 /dev/vdb
        lvcreate -y --type snapshot -V 40m -l 5 -n sparse vg0
        """),
]

# Extents of odd sizes and starts, two metadata areas, a disk of some TiB, and one that is gone.
LAYOUTS = [
    group("extents", """
        pvcreate -ff -y --dataalignment 96k --metadatacopies 2 /dev/vdb
        pvcreate -ff -y --dataalignmentoffset 7s /dev/vdc
        vgcreate -s 4k -l 50 -p 5 vgx /dev/vdb /dev/vdc
        lvcreate -y -Wn -Zn -n tiny -l 1 vgx
        lvcreate -y -Wn -Zn -n many -l 1001 vgx
        lvcreate -y -Wn -Zn -n st -i 2 -I 4k -l 10 vgx
        lvcreate -y -Wn -Zn -n on-c -l 3 vgx /dev/vdc
        """),
    group("extent-96k", """
        pvcreate -ff -y /dev/vdb /dev/vdc
        vgcreate -s 384k vgn /dev/vdb
        lvcreate -y -Wn -Zn -n a -l 3 vgn
        lvcreate -y -Wn -Zn -n b -l 5 vgn
        vgcreate -s 1k vg1k /dev/vdc
        lvcreate -y -Wn -Zn -n c -l 8 vg1k
        """),
    group("big", """
        pvcreate -ff -y /dev/sdd
        vgcreate big /dev/sdd
        lvcreate -y -Wn -Zn -n huge -L 5t big
        lvcreate -y -Wn -Zn -n after -L 1g big
        """),
    group("missing-pv", """
        pvcreate -ff -y /dev/sdb /dev/vdc
        vgcreate vgm /dev/sdb /dev/vdc
        lvcreate -y -Wn -Zn -n here -l 3 vgm /dev/sdb
        lvcreate -y -Wn -Zn -n gone -l 3 vgm /dev/vdc
        lvcreate -y -Wn -Zn -n half -l 3 vgm /dev/sdb
        lvextend -y -l +2 vgm/half /dev/vdc
        vgchange -an vgm
        overwrite /dev/vdc
        vgreduce --removemissing vgm
        vgchange -ay --activationmode partial vgm
        """),
    # The physical volumes carry the ids of their devices.
    group("devicesfile", """
        pvcreate -ff -y /dev/sdb /dev/sda1
        vgcreate vgdf /dev/sdb /dev/sda1
        lvcreate -y -Wn -Zn -n data -l 3 vgdf
        lvcreate -y -Wn -Zn -n two -i 2 -l 4 vgdf
        """, devicesfile=1),
]

LOOPS = " ".join("LOOP%d" % it for it in range(12))

# What the text says beside the volumes, and where the physical volumes lie.
STATES = [
    # A description with quotes and backslashes.
    group("quotes", r"""
        pvcreate -ff -y /dev/vdb
        vgcreate vgq /dev/vdb
        lvcreate -y -Wn -Zn -n a -l 1 vgq
        lvcreate --config 'devices { filter=[ "a|/dev/vd.*|", "r|/dev/sd\\d|" ] }' -y -Wn -Zn -n b -l 1 vgq
        lvrename vgq a a-renamed
        lvchange --config 'report { prefixes=0 } log { prefix="a\\b \"quoted\" é" }' --addtag x vgq/b
        """),
    group("history", """
        pvcreate -ff -y /dev/vdb
        vgcreate vgh /dev/vdb
        lvcreate -y -Wn -Zn -n org -l 4 vgh
        lvcreate -y -s -n sn -l 2 vgh/org
        lvremove -y vgh/sn
        lvcreate -y -Wn -Zn -n keep -l 1 vgh
        """, history=1),
    group("empty", """
        pvcreate -ff -y /dev/vdb
        vgcreate vge /dev/vdb
        """),
    group("systemid", """
        pvcreate -ff -y /dev/vdb
        vgcreate vgsys /dev/vdb
        lvcreate -y -Wn -Zn -n rw -l 2 vgsys
        lvcreate -y -Wn -Zn -n ro -pr -l 2 vgsys
        lvcreate -y -s -n sn -l 2 vgsys/rw
        """, system_id="host-a.example"),
    group("exported", """
        pvcreate -ff -y /dev/vdb /dev/vdc
        vgcreate vgexp /dev/vdb /dev/vdc
        lvcreate -y -Wn -Zn -n a -l 4 vgexp
        pvchange -xn /dev/vdc
        vgchange -xn vgexp
        vgchange -an vgexp
        vgexport vgexp
        """),
    # Loop devices, and devices as those of LUKS and multipath.
    group("loop", """
        loops 3 262144
        dmsetup create luks-abc --table '0 262144 linear /dev/vdb 0'
        dmsetup create mpatha --table '0 262144 linear /dev/vdc 0'
        pvcreate -ff -y LOOP0 LOOP1 LOOP2 /dev/mapper/luks-abc /dev/mapper/mpatha
        vgcreate vgl LOOP0 LOOP1 LOOP2 /dev/mapper/luks-abc /dev/mapper/mpatha
        lvcreate -y -Wn -Zn -n on-crypt -l 3 vgl /dev/mapper/luks-abc
        lvcreate -y -Wn -Zn -n on-mpath -l 3 vgl /dev/mapper/mpatha
        lvcreate -y -Wn -Zn -n st -i 3 -l 6 vgl LOOP0 LOOP1 LOOP2
        """, filter="r|/dev/vd.*|"),
    group("manypv", """
        loops 12 65536
        pvcreate -ff -y %s
        vgcreate -s 512k vgmany %s
        lvcreate -y -Wn -Zn -n five -i 5 -I 64k -l 20 vgmany LOOP3 LOOP5 LOOP7 LOOP10 LOOP11
        lvcreate -y -Wn -Zn -n span -l 200 vgmany
        lvcreate -y -Wn -Zn -n twelve -i 12 -I 32k -l 24 vgmany
        """ % (LOOPS, LOOPS)),
]

# Segments of types that the program doesn't have, each beside a plain volume; the last is a move that stands halfway.
OTHERS = [
    group("raid1", """
        pvcreate -ff -y /dev/vdb /dev/vdc
        vgcreate vgr /dev/vdb /dev/vdc
        lvcreate -y -Wn -Zn --nosync -n r1 --type raid1 -m 1 -l 4 vgr
        lvcreate -y -Wn -Zn -n lin -l 2 vgr
        """, modules=["dm_raid", "raid1"]),
    group("mirror", """
        pvcreate -ff -y /dev/vdb /dev/vdc
        vgcreate vgmi /dev/vdb /dev/vdc
        lvcreate -y -Wn -Zn --nosync -n m1 --type mirror --mirrorlog core -m 1 -l 4 vgmi
        lvcreate -y -Wn -Zn -n lin -l 2 vgmi
        """, modules=["dm_mirror", "dm_log"]),
    group("thin", """
        pvcreate -ff -y /dev/vdb /dev/vdc
        vgcreate vgt /dev/vdb /dev/vdc
        lvcreate -y -Wn -l 20 -T vgt/pool
        lvcreate -y -Wn -V 1g -T vgt/pool -n t1
        lvcreate -y -s -n t1snap vgt/t1
        lvcreate -y -Wn -Zn -n lin -l 2 vgt
        """, modules=["dm_thin_pool"]),
    group("cache", """
        pvcreate -ff -y /dev/vdb /dev/vdc
        vgcreate vgca /dev/vdb /dev/vdc
        lvcreate -y -Wn -Zn -n main -l 10 vgca /dev/vdb
        lvcreate -y -l 4 -n fast --type cache-pool vgca /dev/vdc
        lvconvert -y --type cache --cachepool vgca/fast vgca/main
        lvcreate -y -Wn -Zn -n lin -l 2 vgca
        """, modules=["dm_cache", "dm_cache_smq"]),
    group("pvmove", """
        pvcreate -ff -y /dev/vdb /dev/vdc
        vgcreate vgpm /dev/vdb /dev/vdc
        lvcreate -y -Wn -Zn -n a -l 40 vgpm /dev/vdb
        pvmove -b -i 600 -n a /dev/vdb /dev/vdc
        """, modules=["dm_mirror", "dm_log"]),
]

# A group whose text is edited.
EDITED = group("edits", """
    pvcreate -ff -y /dev/vdb /dev/vdc
    vgcreate vged /dev/vdb /dev/vdc
    lvcreate -y -Wn -Zn -n lin -l 3 vged /dev/vdb
    lvcreate -y -Wn -Zn -n st -i 2 -l 4 vged
    lvextend -y -l +2 vged/lin /dev/vdc
    edit vged
    """, edits=edits())


def experiments():
    return PLAIN + SNAPSHOTS + LAYOUTS + STATES + [EDITED] + OTHERS
