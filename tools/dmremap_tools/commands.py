"""The commands, in the groups that `--help` shows."""

from typing import List, NamedTuple, Optional

# The release that the tools belong to, as `dmremap --version` prints it.
VERSION = "0.1.0"
# The folders of the commands, and how `--help` calls what is in them.
GROUPS = {"images": "images of disks", "requests": "requests", "tables": "FILE and DISKS", "metadata": "metadata",
          "answers": "answers", "layouts": "layouts", "explaining": "refusals and answers, explained"}


class Command(NamedTuple):
    """A command; `is_fed` says whether dmremap reads what it prints, so that a refusal has to spoil it."""

    name: str
    group: str
    summary: str
    is_fed: bool = False

    @property
    def module(self) -> str:
        """The module below the package that has it."""
        return f"{self.group}.{self.name.replace('-', '_')}"


COMMANDS: List[Command] = [
    Command("scan", "images", "what images hold"),
    Command("save", "images", "a volume out of images or disks"),
    Command("serve", "images", "a volume as a disk, by nbdkit"),
    Command("lost", "images", "the files that have missing or unreadable sectors"),
    Command("owner", "images", "the owners of sectors of images"),
    Command("tables", "images", "FILE, DISKS and PATHS of a group or an array, for dmremap itself"),
    Command("filefrag", "requests", "from the extents of files, as filefrag prints them", True),
    Command("trace", "requests", "from traces of blkparse, ftrace or perf, or long requests", True),
    Command("machine", "tables", "of a machine with device-mapper devices", True),
    Command("metadata", "metadata", "the text of a group, from the head of a physical volume"),
    Command("lvm2-text", "metadata", "a copy of lvm2's metadata that dmremap reads"),
    Command("report", "answers", "what is done on each disk, and how requests were split"),
    Command("layout", "layouts", "which line uses which sectors, what is free, what clashes"),
    Command("store", "layouts", "whether the stores of snapshots can fill up, and what fills them"),
    Command("explain", "explaining", "why dmremap refuses something, or how an answer arises"),
]


def find(name: str) -> Optional[Command]:
    """The command of this name, or None."""
    return next((it for it in COMMANDS if it.name == name), None)


def overview() -> str:
    """What `dmremap-tools --help` prints."""
    lines = ["usage: dmremap-tools COMMAND ..", "",
             "Connects dmremap with other tools, and evaluates its answers.",
             "`dmremap-tools COMMAND --help` tells more about a command, with an example."]
    for group, title in GROUPS.items():
        lines += ["", title + ":"] + [f"  {it.name:12} {it.summary}" for it in COMMANDS if it.group == group]
    return "\n".join(lines) + "\n"
