"""Stacks that are tried, written as text: disks as `base 20, cow 64 new`, devices as lines of table text.

A disk that is `new` is a store that has no header yet: its first sector begins with zeros. Every other sector of
every disk holds a label, its disk and number.
"""


def disks_of(text):
    """The disks of a text, as the guest makes them."""
    found = []
    for it in text.split(", ") if text else []:
        name, length, *new = it.split(" ")
        found.append(dict({"name": name, "len": int(length)}, **({"fresh": [0]} if new else {})))
    return found


def devices_of(lines, read_only=()):
    """The devices of some lines; one begins where the name changes, and at a line that starts at 0."""
    found = []
    for line in lines:
        name, _, rest = line.partition(": ")
        if not found or found[-1]["name"] != name or rest.startswith("0 "):
            found.append(dict({"name": name, "lines": []}, **({"ro": True} if name in read_only else {})))
        found[-1]["lines"].append(rest)
    return found


def length_of(device):
    start, length = device["lines"][-1].split(" ")[:2]
    return int(start) + int(length)


def stack(name, disks, *lines, read_only=()):
    return {"name": name, "disks": disks_of(disks), "devices": devices_of(lines, read_only)}


def text_of(devices):
    """The devices as table text."""
    return "".join("%s: %s\n" % (it["name"], line) for it in devices for line in it["lines"])


def concise_of(devices):
    """The devices as concise text, which says which of them are read-only."""
    return ";".join("%s,,,%s,%s" % (it["name"], "ro" if it.get("ro") else "rw", ",".join(it["lines"])) for it in devices) + "\n"


def disks_text(disks):
    return "".join("%s %d\n" % (it["name"], it["len"]) for it in disks)
