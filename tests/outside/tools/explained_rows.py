"""Rows for dmremap-tools explain: refusals with the part of a line that is marked, paths of requests, and errors."""

TABLE = "a: 0 8 linear /dev/sda1 0\n"
DEEP = "".join("d%d: 0 8 linear %s 0\n" % (it, "/dev/mapper/d%d" % (it + 1) if it < 33 else "/dev/sda1") for it in range(34))
# The files of the rows.
FILES = {
    "tables": TABLE, "disks": "/dev/sda1 100\n", "folder/file": "", "before.bad": "R a 0 8\nR b 0 8\n", "before.form": "R a 0\n",
    "stack": "a: 0 8 linear /dev/mapper/b 0\nb: 0 8 linear /dev/sda1 0\n", "lost.paths": "/dev/sda1 disk2.img\n", "label.paths": "b disks\na tables\n",
    "half.paths": "a tables?offset=40\n", "disk1.img": bytes(4096), "esc.table": "\x1b[2J: 0 8 zero\n", "other.table": TABLE.replace("sda1", "sdb1"),
    "chunks.table": "s: 0 40000 snapshot base cow P 1\n", "chunks.disks": "base 40000\ncow 90000\n",
    "errors": "e: 0 8 error\np: 0 32 snapshot base cow1 P 8\nk: 0 32 snapshot base cow2 K 8\nu: 0 32 snapshot /dev/mapper/x cow3 P 8\n"
              "x: 0 28 linear base 0\nx: 28 4 error\no: 0 32 snapshot-origin /dev/mapper/x\n",
    "errors.disks": "base 32\ncow1 32\ncow2 32\ncow3 64\n", "full": "W p 0 16\n", "lost.before": "W p 0 24\n", "full.k": "W k 0 16\n",
    "read-only": "a,,,rw,0 8 linear /dev/mapper/b 0;b,,,ro,0 8 linear /dev/sda1 0\n",
}
# Changes of vg0.backup.
CHANGED = {"no.volume": (b'"pv0", 0', b'"pv9", 0'), "past": (b'"pv0", 0', b'"pv0", 90000'), "raid": (b'"striped"', b'"raid1"')}
# What is said of FILE, its content, perhaps with that of DISKS, and what is marked.
OF_FILE = [
    ("text at 1", "a:\t0 8 zero\n", "\\t"), ("text at 1", "\u00e4: 0 8 zero\n", "\u00e4"), ("text at 1", TABLE.replace("\n", "\r\n"), "\\r"),
    ("syntax at 1", "# mine\n" + TABLE, "# mine"), ("syntax at 2", TABLE + "\nb: 0 8 zero\n", ""), ("syntax at 1", "a: 0 8  zero\n", "a: 0 8  zero"),
    ("field at 1", "a: 0 8G zero\n", "8G"), ("field at 1", "a: -1 8 zero\n", "-1"), ("field at 1", "a: 0 8 striped\n", ""),
    ("field at 1", "a: 0 8 striped 2 8 sda 0\n", "2 8 sda 0"), ("field at 1", "a: 0 8 lineer /dev/sda1 0\n", "lineer"),
    ("field at 1", ("a: 0 8 snapshot /dev/sda1 cow PO 8\n", "/dev/sda1 8\ncow 64\n"), "/dev/sda1 cow PO 8"),
    ("name at 1", "vg0/lv0: 0 8 zero\n", "vg0/lv0:"), ("name at 1", "a: 0 8 linear sd,a 0\n", "sd,a"),
    ("twice at 3", "a: 0 8 zero\nb: 0 8 zero\na: 8 8 zero\n", "a:"), ("empty at 1", "a: 0 0 zero\n", "0"), ("gap at 2", "a: 0 8 zero\na: 9 8 zero\n", "9"),
    ("overlap at 2", "a: 0 8 zero\na: 4 8 zero\n", "4"), ("unknown at 1", "a: 0 8 linear /dev/sda2 0\n", "/dev/sda2"),
    ("unknown at 1", "a: 0 8 striped 2 4 /dev/sda1 0 b 0\n", "/dev/sda1 0 b"), ("cycle at 1", "a: 0 8 linear /dev/mapper/a 0\n", "a: 0 8 linear /dev/mapper/a 0"),
    ("deep at 1", DEEP, "d0: 0 8 linear /dev/mapper/d1 0"), ("stripe at 1", "a: 0 9 striped 2 8 /dev/sda1 0 /dev/sda1 50\n", "9 striped 2 8 /dev/sda1 0 /dev/sda1 50"),
    ("range at 1", ("a: 0 8 linear /dev/sda1 92\n", "/dev/sda1 92\n"), "/dev/sda1 92"),
    ("snapshot at 1", ("s: 0 8 snapshot /dev/sda1 cow P 3\n", "/dev/sda1 100\ncow 64\n"), "s: 0 8 snapshot /dev/sda1 cow P 3"),
    ("store at 1", "s: 0 100 snapshot /dev/sda1 /dev/mapper/z P 8\nz: 0 64 zero\n", "s: 0 100 snapshot /dev/sda1 /dev/mapper/z P 8"),
    ("limit at 1", "a: 0 1125899906842625 zero\n", "a: 0 1125899906842625 zero"), ("long", "#" * (1 << 20) + "\n\n", None),
]
# The same of DISKS, and of vg0.backup and what is changed in it.
OF_DISKS = [("text at 1", "/dev/sda1 100\r\n", "\\r"), ("syntax at 1", "/dev/sda1 100 8:1\n", "/dev/sda1 100 8:1"), ("field at 1", "/dev/sda1 100G\n", "100G"),
            ("name at 1", "sd,a 8\n", "sd,a"), ("empty at 1", "/dev/sda1 0\n", "/dev/sda1"), ("twice at 2", "/dev/sda1 100\n/dev/sda1 100\n", "/dev/sda1")]
OF_GROUP = [("field at 20", "raid", 'type = "raid1"'), ("extents at 17", "past", "segment1 {"), ("unknown at 17", "no.volume", "segment1 {")]
# The same of requests for vg0.backup, which come from a file or from the standard input.
OF_REQUESTS = [
    ("request 1: form", "r vg0-lv0 0 8\n", "r vg0-lv0 0 8"), ("request 2: form", "R vg0-lv0 0 8\n\n", ""), ("request 1: number", "R vg0-lv0 0 8k\n", "8k"),
    ("request 1: number", "R vg0-lv0 0x10 8\n", "0x10"), ("request 1: length", "R vg0-lv0 0 0\n", "0"), ("request 1: unknown", "R lv0 0 8\n", "lv0"),
    ("request 1: long", "R " + "a" * 5000 + " 0 8\n", "R " + "a" * 88), ("request 2: unended", "R vg0-lv0 0 8\nR vg0", "R vg0"),
]
# A first line, words, and what is marked.
OF_WORDS = [
    ("source: read", "map table nowhere disks", None), ("source: read", "map table folder disks", None), ("before: read", "map table tables disks --before nowhere", None),
    ("before: unknown at 2", "map table tables disks --before before.bad", "b"), ("before: form at 1", "map table tables disks --before before.form", "R a 0"),
    ("paths: unknown at 1", "map table tables disks --paths label.paths", "b"), ("paths: field at 1", "map table tables disks --paths half.paths", "tables?offset=40"),
    ("disk b: read", "map images label.paths", "disks"), ("words: disks", "map table tables", None), ("words: disks", "map lvm vg0.backup disks", None),
    ("source: syntax at 1", "map table disks tables", "/dev/sda1 100"), ("source: text at 1", "map lvm image", None), ("name: letter", "name /dev/vg0/lv0 x", None),
    ("request 1: not top", "replay table stack disks R_b_0_8", "b"), ("error: invalid value 'vg0.backup' for '<FORMAT>'", "map vg0.backup lvm", None),
    ("error: unrecognized subcommand 'version'", "version", None), ("error: unexpected argument '-' found", "map table - disks", None),
    ("disks: field at 1", "map table tables short.disks", "100s"), ("source: range at 1", "map table tables one.disks", "/dev/sda1 0"),
]
FILES.update({"short.disks": "/dev/sda1 100s\n", "one.disks": "/dev/sda1 1\n"})


def rows():
    """The message, the words, the standard input, the files that are made, and what is marked."""
    for message, content, marked in OF_FILE:
        table, disks = (content, FILES["disks"]) if isinstance(content, str) else content
        yield "source: " + message, ["map", "table", "file", "list"], "", {"file": table, "list": disks}, marked
    for message, content, marked in OF_DISKS:
        yield "disks: " + message, ["map", "table", "tables", "list"], "", {"list": content}, marked
    for message, name, marked in OF_GROUP:
        yield "source: " + message, ["map", "lvm", name], "", {}, marked
    for message, content, marked in OF_REQUESTS:
        yield message, ["map", "lvm", "vg0.backup"], content, {}, marked
    for message, words, marked in OF_WORDS:
        yield message, [it.replace("_", " ") for it in words.split(" ")], "", {}, marked


REAL = "vg0-snap: 0 204800 snapshot /dev/mapper/vg0-lv0-real /dev/mapper/vg0-snap-cow P 8\n"
# Words, and what is shown.
WAYS = [
    (["map", "lvm", "vg0.backup", "R vg0-lv0 8000 16"], "R vg0-lv0 8000 16\nvg0-lv0: 0 204800 linear /dev/sda1 2048\n+- R /dev/sda1 10048 16\nanswer:\n  R /dev/sda1 10048 16\n"),
    (["map", "lvm", "vg0-snapshot.backup", "W vg0-lv0 8000 8", "R vg0-snap 8000 16"],
     "W vg0-lv0 8000 8\nvg0-lv0: 0 204800 snapshot-origin /dev/mapper/vg0-lv0-real\n"
     "+- copy /dev/mapper/vg0-lv0-real 8000 8 /dev/mapper/vg0-snap-cow 16: vg0-snap hadn't taken this chunk\n"
     "|  R vg0-lv0-real 8000 8\n|  vg0-lv0-real: 0 204800 linear /dev/sda1 2048\n|  +- R /dev/sda1 10048 8\n"
     "|  W vg0-snap-cow 16 8\n|  vg0-snap-cow: 0 16384 linear /dev/sda1 206848\n|  +- W /dev/sda1 206864 8\n"
     "+- W /dev/mapper/vg0-lv0-real 8000 8\n   vg0-lv0-real: 0 204800 linear /dev/sda1 2048\n   +- W /dev/sda1 10048 8\n"
     "answer:\n  copy /dev/sda1 10048 8 /dev/sda1 206864\n  W /dev/sda1 10048 8\n\n"
     "R vg0-snap 8000 16\n" + REAL + "+- R /dev/mapper/vg0-snap-cow 16 8: chunk 1000, taken\n"
     "|  vg0-snap-cow: 0 16384 linear /dev/sda1 206848\n|  +- R /dev/sda1 206864 8\n"
     "+- R /dev/mapper/vg0-lv0-real 8008 8: chunk 1001, not taken yet\n"
     "   vg0-lv0-real: 0 204800 linear /dev/sda1 2048\n   +- R /dev/sda1 10056 8\n"
     "answer:\n  R /dev/sda1 206864 8\n  R /dev/sda1 10056 8\n"),
]
E = "map", "table", "errors", "errors.disks"
# Why a sector is an error: words, and what is said.
ERRORS = [
    ("an error line", [*E, "R e 0 8"], "it is an error line"),
    ("the end", [*E, "R e 4 8"], "it goes on to sector 12, and e ends at 8"),
    ("a read-only device", ["map", "lvm", "vg0.backup", "W vg0-lv--1 0 8"], "vg0-lv--1 is read-only"),
    ("a read-only device below", ["map", "concise", "read-only", "disks", "W a 0 8"], "b is read-only"),
    ("a store that is full now", [*E, "--before", "full", "W p 16 8"], "no place is left in the store of p, which is lost by this"),
    ("a store that was full", [*E, "--before", "lost.before", "R p 0 8"], "p was lost before this"),
    ("a full store of kind K", [*E, "--before", "full.k", "W k 16 8"], "no place is left in the store of k, which keeps what it has"),
    ("an origin that can't be copied", [*E, "W u 24 2"], "x can't be read in the whole of chunk 3"),
    ("an origin that fails", [*E, "R u 24 8"], "x fails there"),
]
