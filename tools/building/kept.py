"""What rt keeps of a crate for later builds and checks. It takes gigabytes, and a tenth of that where zstd packs it, since many
bytes stand in it two times.

Whatever stops or kills a script, each folder that rt keeps is there as a whole, or packed as a whole."""

import contextlib
import os
import shutil
import subprocess
import time

from calls import whole

KEPT, PACKED = ("incremental", "rlib"), "kept.tar.zst"
# Bytes that stand in both folders lie up to half a gigabyte apart.
ZSTD = "zstd -q -9 --long=29"
# Folders that are being removed, and packs and folders that are being made.
GOING, COMING = "going-", "coming-"
# How often it looks what has ended, in seconds.
MOMENT = 0.02


def pack(outs, at_once):
    """Packs what is kept in the `out` of each crate, so many crates at a time."""
    finish(packing(outs, at_once))


def finish(begun):
    """Waits until what was begun to be packed is."""
    with contextlib.closing(begun):
        for _ in begun:
            time.sleep(MOMENT)


def packing(outs, at_once):
    """Packs what is kept in the `out` of each crate, so many crates at a time, and after all else that runs. It gives way to its
    caller while it waits, and ends what runs where it is closed. What can't be packed stays as it is."""
    if not (shutil.which("tar") and shutil.which("zstd")):
        return
    parts = {it: [name for name in KEPT if os.path.isdir(os.path.join(it, name))] for it in outs}
    parts = {it: names for it, names in parts.items() if names}
    commands = {it: ["nice", "-n", "19", "tar", "-I", ZSTD, "-C", it, "-cf", os.path.join(it, COMING + PACKED), *names]
                for it, names in parts.items()}
    with contextlib.closing(run_all(commands, at_once)) as ran:
        for ended in ran:
            for it, status in ended.items():
                if status == 0:
                    os.replace(os.path.join(it, COMING + PACKED), os.path.join(it, PACKED))
                    for name in parts[it]:
                        os.replace(os.path.join(it, name), os.path.join(it, GOING + name))
                clear(it)
            yield


def packed(outs):
    """Returns which of these folders have a pack."""
    return [it for it in outs if os.path.exists(os.path.join(it, PACKED))]


def unpack(outs, at_once):
    """Unpacks what was packed in the `out` of each crate, so many crates at a time. What rt made since then is newer, and
    stays; what can't be unpacked stays too, and rt makes it anew."""
    outs = packed(outs)
    for it in outs:
        clear(it)
        os.mkdir(os.path.join(it, COMING + "kept"))
    commands = {it: ["tar", "-I", ZSTD, "-C", os.path.join(it, COMING + "kept"), "-xf", os.path.join(it, PACKED)] for it in outs}
    with contextlib.closing(run_all(commands, at_once)) as ran:
        for ended in ran:
            for it, status in ended.items():
                if status == 0:
                    for name in KEPT:
                        # What rt has made since then isn't empty, so that this can't take its place.
                        with contextlib.suppress(OSError):
                            os.replace(os.path.join(it, COMING + "kept", name), os.path.join(it, name))
                    os.remove(os.path.join(it, PACKED))
                clear(it)
            time.sleep(MOMENT)


def clear(out):
    """Removes what a script that was stopped left half made or half removed."""
    for it in os.listdir(out):
        if it.startswith((GOING, COMING)):
            path = os.path.join(out, it)
            (shutil.rmtree if os.path.isdir(path) else os.remove)(path)


def run_all(commands, at_once):
    """Runs a command for each folder, so many at a time, and gives the statuses of those that have ended since it was last asked.
    Where it is closed or stopped, those that run are told to end."""
    waiting, running = [*commands], {}
    try:
        while waiting or running:
            while waiting and len(running) < at_once:
                it = waiting.pop(0)
                with whole():
                    running[it] = subprocess.Popen(commands[it], stdin=subprocess.DEVNULL, stdout=subprocess.DEVNULL,
                                                   stderr=subprocess.DEVNULL)
            ended = {it: ran.returncode for it, ran in running.items() if ran.poll() is not None}
            for it in ended:
                del running[it]
            yield ended
    finally:
        for ran in running.values():
            if ran.poll() is None:
                ran.terminate()
                ran.wait()
