"""What is tried of heads: scripts of commands of lvm2, and of methods of the machine in lvm2_heads.py.

All devices that are there at the end are asked about. What is written by hand has its place in bytes: the label's
sector begins at 512, the first metadata area at 4096, and its text at first at 4608, later at 5632.
"""

# Other programs that scripts run.
OTHERS = {"mkfs.ext4", "mkswap"}
ASKED = ["pvs --noheadings --units s --nosuffix --separator , -o pv_name,vg_name,pv_size,dev_size,pe_start",
         "lvs --noheadings --units s --nosuffix --separator , -o vg_name,lv_name,vg_extent_size,seg_pe_ranges", "vgck"]


def one(how="", then=""):
    """A disk, its volume, the group, a volume of it, and what comes then."""
    return "disk sda 64; pvcreate %s /dev/sda; vgcreate vg /dev/sda; lv lv 3; %s" % (how, then)


def two(first="", second="", then="", group=""):
    """Two disks."""
    return ("disk sda 64; disk sdb 64; pvcreate %s /dev/sda; pvcreate %s /dev/sdb; vgcreate %s vg /dev/sda /dev/sdb; "
            "lv lv 20; %s" % (first, second, group, then))


def plain(then=""):
    return one("", then)


def both(then=""):
    return two("", "", then)


PVCREATE = {
    "plain": "", "labelsector-0": "--labelsector 0", "labelsector-2": "--labelsector 2",
    "labelsector-3": "--labelsector 3", "copies-2": "--metadatacopies 2", "size-64k": "--metadatasize 64k",
    "size-16m": "--metadatasize 16m", "sizes-2": "--metadatacopies 2 --metadatasize 3m",
    "alignment": "--dataalignment 4m --dataalignmentoffset 7s", "bootloader": "--bootloaderareasize 1m",
    "bootloader-2": "--bootloaderareasize 5m --metadatacopies 2", "length": "--setphysicalvolumesize 32m",
    "length-2": "--setphysicalvolumesize 32m --metadatacopies 2", "zero-n": "--zero n",
    "uuid": "--uuid aaaaaa-bbbb-cccc-dddd-eeee-ffff-gggggg --norestorefile", "ignore-n": "--metadataignore n",
}
VGCREATE = {
    "extents-8k": "-s 8k", "extents-16m": "-s 16m", "copies-1": "--vgmetadatacopies 1",
    "copies-all": "--vgmetadatacopies all", "tags": "--addtag a#b --addtag c.d+e", "limits": "-l 5 -p 7",
    "alloc": "--alloc cling", "labelsector": "--labelsector 3 --metadatasize 2m --pvmetadatacopies 2",
    "zero-n": "--zero n", "autoactivation-n": "--setautoactivation n",
}

SHORT = "lvremove -y vg/lv; lv lv 3"
GROUP = {
    "copies-0": two("", "--metadatacopies 0"), "copies-0-first": two("--metadatacopies 0", "--metadatacopies 2"),
    "copies-0-alone": two("", "--metadatacopies 0", "away sda"), "ignored": two("", "--metadataignore y"),
    "vgcopies-1": two(group="--vgmetadatacopies 1"),
    "vgcopies-1-of-4": two("--metadatacopies 2", "--metadatacopies 2", group="--vgmetadatacopies 1"),
    "ignored-later": both("pvchange --metadataignore y /dev/sda; lv other 1"),
    "ignored-and-back":
        both("pvchange --metadataignore y /dev/sda; lv other 1; pvchange --metadataignore n /dev/sda"),
    "volumes": both("pvchange --addtag x#y /dev/sda; pvchange -x n /dev/sdb"),
    "reduced-by-force": both("away sdb; vgreduce --removemissing --force vg"),
    "reduced": both(SHORT + "; vgreduce vg /dev/sdb; away sdb"), "reduced-both": both(SHORT + "; vgreduce vg /dev/sdb"),
    "extended": plain("disk sdb 64; vgextend --pvmetadatacopies 2 vg /dev/sdb"),
    "split": both(SHORT + "; vgsplit vg new /dev/sdb; away sdb"),
    "split-other": both(SHORT + "; vgsplit vg new /dev/sdb; away sda"),
    "split-both": both(SHORT + "; vgsplit vg new /dev/sdb"),
    "merged": plain("disk sdb 64; vgcreate --pvmetadatacopies 2 other /dev/sdb; lv more 2 other; vgmerge vg other"),
    "restored": both("vgcfgbackup -f old vg; lv other 2; vgcfgrestore -f old vg"),
    "restored-volume": both("vgcfgbackup -f old vg; pvchange -u /dev/sda; vgcfgbackup -f new vg; put sda 0 {zeros}; "
                            "restore sda new; vgcfgrestore -f new vg"),
    "uuid": both("pvchange -u /dev/sda"), "uuids": both("pvchange -u --all"), "group-uuid": both("vgchange -u vg"),
    "renamed": both("vgrename vg a-b.c"), "exported": both("vgexport vg"), "imported": both("vgexport vg; vgimport vg"),
    "systemid": plain("vgchange -y --systemid other vg"), "updated": both("vgck --updatemetadata vg"),
    "clone": plain("disk sdb 64; copy sda sdb; vgimportclone -n clone /dev/sdb"),
    "clone-alone": plain("disk sdb 64; copy sda sdb; away sda; vgimportclone -n clone /dev/sdb"),
    "removed": plain("lvremove -y vg/lv; vgremove vg"), "no-group": "disk sda 64; pvcreate /dev/sda",
    "pvremoved": plain("lvremove -y vg/lv; vgremove vg; pvremove /dev/sda"),
    "repaired": plain("vgcfgbackup -f text vg; put sda 512 {zeros}; pvck -y --repair -f text /dev/sda"),
    "repaired-area": plain("vgcfgbackup -f text vg; put sda 4096 {zeros}; pvck -y --repair -f text /dev/sda"),
    "striped": both("lvremove -y vg/lv; lv lv 4 vg -i 2 -I 64k"),
    "moved-names": both("away sda; away sdb; back sda sdb; back sdb sda"),
}

RESIZED = {
    "up": one("--setphysicalvolumesize 32m", "pvresize /dev/sda"),
    "up-2": one("--setphysicalvolumesize 32m --metadatacopies 2", "pvresize /dev/sda"),
    "up-grown": plain("size sda 128; pvresize /dev/sda; lv more 20"),
    "up-grown-cut": plain("size sda 128; pvresize /dev/sda; lv more 20; size sda 64"),
    "up-grown-2": one("--metadatacopies 2", "size sda 128; pvresize /dev/sda; lv more 20"),
    "down": plain("pvresize -y --setphysicalvolumesize 32m /dev/sda"),
    "down-cut": plain("pvresize -y --setphysicalvolumesize 32m /dev/sda; size sda 32"),
    "down-2": one("--metadatacopies 2", "pvresize -y --setphysicalvolumesize 32m /dev/sda"),
    "down-2-cut": one("--metadatacopies 2", "pvresize -y --setphysicalvolumesize 32m /dev/sda; size sda 32"),
    "past-the-end": plain("pvresize -y --setphysicalvolumesize 96m /dev/sda"), "grown": plain("size sda 96"),
    "cut": plain("size sda 32"), "cut-2": one("--metadatacopies 2", "size sda 32"),
    "cut-by-a-sector": plain("size sda 67108352b"),
    "cut-half-a-sector": plain("size sda 67108608b"), "cut-to-extents": plain("size sda 62914560b"),
    "cut-in-extents": plain("size sda 62914048b"), "cut-in-ring": plain("size sda 524288b"),
    "cut-after-label": plain("size sda 1024b"), "odd-length": plain().replace("sda 64", "sda 67109376b"),
    "blocks-4096": "disk sda 64; again sda -b 4096; pvcreate /dev/sda; vgcreate vg /dev/sda; lv lv 3",
}

RING = {
    "round": one("--metadatasize 40k --dataalignment 64k", "until_round sda vgchange -l 1% vg"),
    "round-2": one("--metadatasize 40k --dataalignment 64k --metadatacopies 2", "until_round sda vgchange -l 1% vg"),
    "rounds": one("--metadatasize 40k --dataalignment 64k --metadatacopies 2", "times 200 vgchange -l 1% vg"),
    "many": plain("until_round sda vgchange -l 1% vg"),
    "many-volumes": plain("lvremove -y vg/lv; vgchange -s 64k vg; times 150 lv lv% 1"),
    "long": one("--metadatasize 20m", "grow vg 1100"), "nearly-long": one("--metadatasize 20m", "grow vg 900"),
}

FLAG = "away sdb; unless vgreduce --removemissing vg; back sdb"
MISSING = {
    "missing": both("away sdb"), "missing-unused": both(SHORT + "; away sdb"),
    "old": both("away sdb; vgreduce --removemissing --force vg; back sdb"), "flagged": both(FLAG),
    "flagged-ignored": two("", "--metadataignore y", FLAG), "flagged-copies-0": two("", "--metadatacopies 0", FLAG),
    "flagged-away": two("", "--metadatacopies 0", "away sdb; unless vgreduce --removemissing vg"),
    "flagged-unused":
        two("", "--metadatacopies 0", SHORT + "; lv other 3 vg /dev/sdb; " + FLAG + "; lvremove -y vg/other"),
    "restored": both(FLAG + "; vgextend --restoremissing vg /dev/sdb"),
    "in-status": plain("""edit sda '["ALLOCATABLE"]' '["MISSING"]'"""),
    "twice": plain("disk sdb 64; copy sda sdb"),
    "twice-old": plain("disk sdb 64; copy sda sdb; away sdb; lv other 1; back sdb"),
    "two-groups": plain("disk sdb 64; pvcreate /dev/sdb; vgcreate other /dev/sdb"),
    "one-name-twice": plain("away sda; disk sdb 64; pvcreate /dev/sdb; vgcreate vg /dev/sdb; back sda"),
    "no-group-beside": plain("disk sdb 64; pvcreate /dev/sdb"),
}

EXT4 = "mkfs.ext4 -q -F -O ^has_journal -N 16 /dev/sda"
ON_ARRAY = plain().replace("sda", "md0")
LATER = {
    "mbr": plain("table sda 00,83,2048,120000"), "mbr-active": plain("table sda 80,8e,2048,50000 00,83,60000,2000"),
    "mbr-empty": plain("table sda"), "mbr-odd-boot": plain("table sda 01,83,2048,120000"),
    "mbr-odd-boot-later": plain("table sda 00,83,2048,10000 01,83,20480,1000"),
    "mbr-fourth": plain("table sda 00,00,0,0 00,00,0,0 00,00,0,0 00,00,0,1"),
    "mbr-one-of-two": both("table sda 00,83,2048,120000"), "ext4-one-of-two": both(EXT4),
    "mbr-type-0": plain("table sda 00,00,2048,120000"),
    "mbr-no-signature": plain("table sda 00,83,2048,120000; put sda 510 0000"),
    "mbr-labelsector-0": one("--labelsector 0", "table sda 00,83,2048,120000"),
    "mbr-labelsector-0-sums": one("--labelsector 0", "table sda 00,83,2048,120000; sums sda 0"),
    "mbr-labelsector-3": one("--labelsector 3", "table sda 00,83,2048,120000"),
    "gpt-protective": plain("table sda 00,ee,1,131071"),
    "gpt": plain("table sda 00,ee,1,131071; put sda 512 4546492050415254000001005c000000{zeros}"),
    "luks": plain("put sda 0 4c554b53babe0001{zeros}{zeros}"),
    "luks2": plain("put sda 0 4c554b53babe0002" + "{zeros}" * 8),
    "ext4": plain(EXT4), "ext4-labelsector-3": one("--labelsector 3", EXT4), "swap": plain("mkswap -q /dev/sda"),
    "lvm1": plain("put sda 0 484d0100"), "pool": plain("put sda 0 0000000000011670; put sda 272 00040103"),
    "md-1.1": plain("put sda 0 fc4e2ba9"), "md-1.1-labelsector-0": one("--labelsector 0", "put sda 0 fc4e2ba9"),
    "md-1.2": plain("put sda 4096 fc4e2ba9"), "md-1.2-copies-0": two("", "--metadatacopies 0", "put sdb 4096 fc4e2ba9"),
    "md-1.0": plain("put sda 67100672 fc4e2ba9"), "md-1.0-grown": plain("size sda 96; put sda 100655104 fc4e2ba9"),
    "md-0.90-grown": plain("size sda 96; put sda 100597760 fc4e2ba9"), "md-array": ON_ARRAY,
    "md-array-named": plain().replace("sda", "md127p1") + "away md127p1; name sda md127p1",
    "md-member": ON_ARRAY + "away md0; name sda md0",
    "md-member-1.0": ON_ARRAY + "away md0; size md0 65; put md0 68149248 fc4e2ba9; name sda md0",
    "md-member-in-text": both().replace("sdb", "md0"),
}

PARTED = ("disk sda 128; part sda1 sda 2048 131072; pvcreate /dev/sda1; vgcreate vg /dev/sda1; lv lv 3; "
          "table sda 00,8e,2048,131072; away sda; ")
AGAIN = PARTED + "away sda1; back sda1 sda "
LEG = ("disk sda 65; put sda 4096 fc4e2ba9; part md1 sda 2048 131072; pvcreate /dev/md1; vgcreate vg /dev/md1; "
       "lv lv 3; away sda; ")
PART = {
    "whole": PARTED, "in-cut": PARTED + "away sda1; size sda 64; back sda1 sda 2048 131072",
    "shorter": AGAIN + "2048 131064", "longer": AGAIN + "2048 140000", "elsewhere": AGAIN + "2056 131072",
    "sector-on": AGAIN + "2047 131073", "nested-disk": PARTED + "back sda; away sda1",
    "with-table": PARTED + "away sda1; back sda; put sda 1049022 00008e000000000000080000000200; put sda 1049086 55aa; "
                           "away sda; back sda1 sda 2048 131072",
    "stripe": PARTED.replace("131072", "65536") + "away sda1; back sda1 sda 2048 0", "leg": LEG,
    "leg-as-disk": LEG + "away md1; part sda1 sda 2048 131072", "leg-whole": LEG + "away md1; back sda",
}

OTHER = "4c564d3220303032"
LABEL = {
    "two": one("--labelsector 0", "move sda 0 2; put sda 1032 02; sums sda 2"),
    "two-different": plain("move sda 1 3; put sda 1544 03; put sda 1568 58; sums sda 3"),
    "of-another-sector": plain("move sda 1 0"), "of-another-sector-alone": plain("move sda 1 0; put sda 512 {zeros}"),
    "wrong-sum": plain("put sda 540 01"), "wrong-sum-first": plain("move sda 1 0; put sda 8 00; put sda 40 58"),
    "wrong-sum-later": plain("move sda 1 2; put sda 1032 02; put sda 1064 58"),
    "other-type": plain("put sda 536 %s; sums sda 1" % OTHER),
    "other-type-first": plain("move sda 1 0; put sda 8 00; put sda 24 %s; sums sda 0" % OTHER),
    "no-labelone": plain("put sda 512 5858585858585858"),
    "no-labelone-first": plain("move sda 1 0; put sda 0 5858585858585858"),
    "no-labelone-later": plain("move sda 1 2; put sda 1024 5858585858585858"),
    "old-header": plain("put sda 648 0100000000000000; sums sda 1"),
    "no-extension": plain("put sda 648 0000000000000000; sums sda 1"),
    "unused-flag": plain("put sda 652 00000000; sums sda 1"),
    "device-size-0": plain("put sda 576 0000000000000000; sums sda 1"),
    "device-size-huge": plain("put sda 576 ffffffffffffffff; sums sda 1"),
    "device-size-small": plain("put sda 576 0000100000000000; sums sda 1"),
}

DEV_SIZE = "edit sda 'dev_size = 131072' '%s'"
AREA = {
    "wrong-sum": plain("put sda 4200 01"), "wrong-magic": plain("put sda 4100 58; sums sda 8"),
    "wrong-version": plain("put sda 4116 02; sums sda 8"), "wrong-start": plain("put sda 4120 0020; sums sda 8"),
    "other-length": plain("put sda 4128 00e00f0000000000; sums sda 8"),
    "longer-than-pair": plain("put sda 4128 0000100000000000; sums sda 8"), "wrong-text": plain("put sda 5640 58"),
    "no-offset": plain("put sda 4136 0000000000000000; sums sda 8"),
    "no-size": plain("put sda 4144 0000000000000000; sums sda 8"),
    "no-offset-beside": both("put sda 4136 0000000000000000; sums sda 8"),
    "no-size-beside": both("put sda 4144 0000000000000000; sums sda 8"),
    "next-text": plain("put sda 4160 00020000000000008e02000000000000; sums sda 8"),
    "flags": plain("put sda 4156 02000000; sums sda 8"), "ignored-alone": plain("put sda 4156 01000000; sums sda 8"),
    "one-of-two-wrong": one("--metadatacopies 2", "put sda 5640 58"),
    "one-of-two-wrong-sum": one("--metadatacopies 2", "put sda 4200 01"),
    "one-of-two-disks-wrong": both("put sda 5640 58"),
    "second-older": one("--metadatacopies 2", "keep sda 8; lv other 1; put_back sda"),
    "one-of-two-disks-old": both("keep sda 8; lv other 1; put_back sda"), "without-nul": plain("shorten sda 1"),
    "without-newline": plain("shorten sda 3"), "three": one("--metadatacopies 2", "third sda"),
    "dev-size-0": plain(DEV_SIZE % "dev_size = 0"), "dev-size-less": plain(DEV_SIZE % "dev_size = 2048"),
    "no-dev-size": plain(DEV_SIZE % ""),
}


def cases():
    """The scripts, by their names; `{zeros}` is a sector of zeros in hexadecimal."""
    scripts = {"pvcreate-" + name: one(it) for name, it in PVCREATE.items()}
    scripts.update(("vgcreate-" + name, "disk sda 64; vgcreate %s vg /dev/sda; lv lv 3" % it)
                   for name, it in VGCREATE.items())
    kinds = {"group": GROUP, "resized": RESIZED, "missing": MISSING, "later": LATER, "part": PART, "label": LABEL,
             "area": AREA, "ring": RING}
    scripts.update((kind + "-" + name, it) for kind, named in kinds.items() for name, it in named.items())
    return {name: [it.strip() for it in script.split(";") if it.strip()] for name, script in scripts.items()}
