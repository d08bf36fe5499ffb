"""Serves a volume in images as a disk, by nbdkit, until you interrupt it.

Takes GROUP/VOLUME and images, as `save` does, with their maps of ddrescue. Prints the URI of the disk, and commands
that copy it, mount its file system if `scan` knows one, and end all of it. Nothing is ever written, neither to an image
nor to the disk. A read of sectors that are missing or can't be read fails; every other one is answered.

Needs nbdkit with its plugin for Python. The commands need libnbd-bin (nbdcopy, nbdfuse) and qemu-utils (qemu-img).
Mounting the file that nbdfuse shows takes root.
"""

import contextlib
import os
import shlex
import shutil
import subprocess
import tempfile
import time
from argparse import ArgumentParser, Namespace
from typing import List, Optional

from dmremap_tools.base import Refusal, program, quoting, streams
from dmremap_tools.formats import rescue_map
from dmremap_tools.model.groups import file_system_in
from dmremap_tools.model.pile import Pile

EXAMPLE = "dmremap-tools serve vg0/home sda.img sdb.img"
# How long the server may take to begin, in steps of so many seconds.
STEPS, STEP = 200, 0.05
FILE = "disk/volume.img"
COPY = f"""copy it:    nbdcopy {{uri}} volume.img    (or: qemu-img convert -f raw -O raw {{uri}} volume.img)
as a file:  mkdir disk; nbdfuse {FILE} {{uri}} &
"""
MOUNT = f"""mount it:   mount -o ro,loop{{}} {FILE} /mnt    (as root)
unmount it: umount /mnt    (as root)
"""
# What isn't mounted itself, and the options of file systems without which a mount replays their journals.
UNMOUNTED = (None, "luks", "bitlocker", "swap", "lvm2", "zfs", "bcache")
WITHOUT_JOURNAL = {"ext3": ",noload", "ext4": ",noload", "xfs": ",norecovery"}
END = """end it:     fusermount3 -u disk    (as root: umount disk); kill {}    (or interrupt this command)
"""


def add_words(parser: ArgumentParser) -> None:
    parser.add_argument("volume", metavar="GROUP/VOLUME", help="the volume, by its name")
    rescue_map.add_words(parser)
    parser.add_argument("--socket", metavar="SOCKET", help="the server's socket; by default in a temporary folder")
    program.add_words(parser)


def run(words: Namespace) -> None:
    nbdkit = shutil.which("nbdkit")
    if not nbdkit:
        raise Refusal("nbdkit", "it isn't here: install nbdkit and its plugin for Python (nbdkit-plugin-python), or "
                      "use `save`")
    # What is refused is refused before the server begins.
    target = Pile(words.images, words.program, rescue_map.unread_in(words, words.images)).target(words.volume, True)
    rescue_map.tell_unused(words, ["serve", words.volume, *words.images])
    streams.tell(*target.notes)
    why = target.device.lack(0, target.size)
    if why:
        streams.tell(f"{target.name}: {why}: reads of that fail")
    asked = os.path.abspath(shutil.which(program.dmremap(words.program)) or "dmremap")
    plugin = os.path.join(os.path.dirname(os.path.abspath(__file__)), "plugin.py")
    given = [f"program={asked}", f"volume={words.volume}", *(f"image={os.path.abspath(path)}" for path in words.images)]
    pairs = rescue_map.images_with_maps(words.map, words.images)
    maps = [f"map={os.path.abspath(image)}={os.path.abspath(path)}" for image, path in pairs]
    given += [*maps, "map_of_other_length=1"] if words.map_of_other_length else maps
    with tempfile.TemporaryDirectory(prefix="dmremap-tools-") as folder:
        path = os.path.abspath(words.socket or os.path.join(folder, "socket"))
        if os.path.lexists(path):
            why = "it is there already: give another --socket, or end its server and remove it"
            raise Refusal(quoting.shown(path), why)
        command = [nbdkit, "-f", "-r", "--exit-with-parent", "-U", path, "python", plugin, *given]
        serve(command, path, lines_of(path, file_system_in(target.device)))


def lines_of(path: str, system: Optional[str]) -> str:
    """What may be typed while the server listens at a path, by the file system of the volume."""
    uri = shlex.quote(f"nbd+unix:///?socket={path}")
    mount = "" if system in UNMOUNTED else MOUNT.format(WITHOUT_JOURNAL.get(system or "", ""))
    return f"{uri}\n{COPY.format(uri=uri)}{mount}{END.format(os.getpid())}"


def serve(command: List[str], path: str, lines: str) -> None:
    """Runs the server, whose Python finds these modules, until it ends, and writes lines once it listens at a path."""
    package = os.path.dirname(os.path.dirname(os.path.dirname(os.path.abspath(__file__))))
    env, is_listening = {**os.environ, "PYTHONPATH": package}, False
    child = subprocess.Popen(command, stdin=subprocess.DEVNULL, env=env)
    try:
        for _ in range(STEPS):
            if os.path.exists(path) or child.poll() is not None:
                break
            time.sleep(STEP)
        if child.poll() is None:
            is_listening = os.path.exists(path)
            streams.out.write(lines)
            streams.flush()
        if child.wait():
            raise Refusal("nbdkit", f"it ended with status {child.returncode}: see what it said above")
    finally:
        if child.poll() is None:
            child.terminate()
            child.wait()
        if is_listening:
            with contextlib.suppress(FileNotFoundError):
                os.unlink(path)
