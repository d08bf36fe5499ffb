"""Names of devices, as tables and requests have them, and as `dmsetup ls` and `lsblk` print them."""

import functools
import re
from typing import Dict, List, Optional, Pattern, Tuple, Union

from dmremap_tools.base import SECTOR, Refusal, quoting, streams

FORM = re.compile(r"[-A-Za-z0-9#+.:=@_]{1,127}")
DISK = re.compile(r"(?!/dev/mapper/)(?!.*[,;\\])[!-~]{1,255}")
MAPPER = "/dev/mapper/"
LS = re.compile(r"(.*\S)[ \t]+\((\d{1,10})[:,] ?(\d{1,10})\)")
# A number and a size, then perhaps the kernel's name and that of what it lies on.
LSBLK = re.compile(r"(\d{1,10}:\d{1,10}) (\d{1,20})(?: (\S+)(?: \S*)?)?")
LSBLK_COMMAND = "lsblk -brno MAJ:MIN,SIZE,KNAME,PKNAME"
MOST_KEPT = 4096
# Where a name stands: in lines, or in the word of the command line that is called so in the usage.
NamePlace = Union[streams.Lines, str]


def of_path(path: str) -> str:
    """The name of a device that is given by /dev/mapper/NAME or /dev/VG/LV. Anything else stays."""
    parts = path.split("/")
    if len(parts) != 4 or not path.startswith("/dev/"):
        return path
    return parts[3] if parts[2] == "mapper" else "-".join(it.replace("-", "--") for it in parts[2:])


def volume_path(path: str) -> str:
    """GROUP/VOLUME of a volume whose device is given by /dev/GROUP/VOLUME, /dev/mapper/NAME or NAME; "" for others."""
    if path.startswith("/dev/") and not path.startswith(MAPPER):
        return path[len("/dev/"):] if path.count("/") == 3 else ""
    # Hyphens within a part are doubled.
    parts = path[len(MAPPER) * path.startswith(MAPPER):].replace("--", "\0").split("-")
    return "/".join(parts).replace("\0", "-") if len(parts) == 2 and all(parts) else ""


@functools.lru_cache(MOST_KEPT)
def device(path: str, place: NamePlace) -> str:
    """The name that a path stands for. Refuses one that is none of a device, as /dev/dm-N, at its place."""
    name = of_path(path)
    if not FORM.fullmatch(name):
        why = f"no name of a device, give it as dmsetup ls prints it: '{quoting.shown(path)}'"
        if isinstance(place, str):
            raise Refusal(place, why)
        place.refuse(why)
    return name


def read_ls(path: str) -> List[Tuple[str, str]]:
    """The name and the number, as 253:0, of each device that `dmsetup ls` has."""
    return [(name, f"{major}:{minor}") for name, major, minor in rows_of(path, streams.rows(path), LS, "dmsetup ls")]


def read_lsblk(path: str) -> Tuple[Dict[str, Optional[int]], Dict[str, str]]:
    """By number, the length of each device in sectors, or None where it isn't sure, and its path."""
    sizes: Dict[str, Optional[int]] = {}
    paths = {}
    for number, size, name in rows_of(path, streams.rows(path), LSBLK, LSBLK_COMMAND):
        sectors, rest = divmod(int(size), SECTOR)
        if rest or sizes.setdefault(number, sectors) != sectors:
            streams.tell(f"left out: the length of {number}, which has two, or no whole number of sectors")
            sizes[number] = None
        if name and DISK.fullmatch("/dev/" + name):
            paths[number] = "/dev/" + name
    return sizes, paths


def rows_of(path: str, rows: List[str], form: Pattern[str], command: str) -> List[Tuple[str, ...]]:
    """Those lines of a file that have a form, in its groups. Others are told; without any, the file is refused."""
    matches = list(map(form.fullmatch, rows))
    if not any(matches):
        raise Refusal(streams.name_of(path), f"not what `{command}` prints of devices")
    for number, (row, match) in enumerate(zip(rows, matches), 1):
        if not match:
            streams.tell(f"left out: line {number} of {streams.name_of(path)}: {quoting.shown(row)}")
    return [match.groups() for match in matches if match]
