"""Requests over disks that record each write in its order, and what the kernel reads of a stack if the power is cut there.

Each disk is a network block device that this process serves. It gathers the commands that come at once, and carries
them out in any order, as a disk may.
"""

import concurrent.futures
import fcntl
import os
import random
import select
import socket
import struct
import threading
import time

from disks import SECTOR, Disk, label_of, length_of, new, read_each, read_whole
from kernel import status_of
from stacks import Stack, path_of, write

# The ioctls of such a device, what it can do (of which one flag is that it can be flushed), its commands, and the forms of
# a command and of its answer.
SET_SOCKET, SET_BLOCK, DO_IT, SET_BLOCKS, DISCONNECT, SET_FLAGS = 0xAB00, 0xAB01, 0xAB03, 0xAB07, 0xAB08, 0xAB0A
FLAGS = 1 | 4
READ, WRITE, CLOSE, FLUSH = range(4)
COMMAND, ANSWER, MAGIC = struct.Struct(">II8sQI"), struct.Struct(">II8s"), 0x67446698
# How many milliseconds a command waits for others.
WAIT = 1


class Recorded:
    """A disk with this content, at the device of this number."""

    def __init__(self, number, name, content):
        self.name, self.content, self.device = name, content, "/dev/nbd%d" % number
        self.socket, self.kernels = socket.socketpair()

    def open(self):
        """Gives the device to the kernel, and waits until it has its length."""
        self.file, sectors = os.open(self.device, os.O_RDWR), len(self.content) // SECTOR
        for it in ((SET_BLOCK, SECTOR), (SET_BLOCKS, sectors), (SET_FLAGS, FLAGS), (SET_SOCKET, self.kernels.fileno())):
            fcntl.ioctl(self.file, *it)
        self.driver = threading.Thread(target=fcntl.ioctl, args=(self.file, DO_IT, 0))
        self.driver.start()
        while length_of(self.device) != sectors:
            time.sleep(0.01)

    def command(self):
        """The next command: its kind, its handle, the first byte, the number of bytes, and what is to be written."""
        _, kind, handle, start, size = COMMAND.unpack(self.socket.recv(COMMAND.size, socket.MSG_WAITALL))
        return kind, handle, start, size, self.socket.recv(size, socket.MSG_WAITALL) if kind == WRITE else b""

    def close(self):
        fcntl.ioctl(self.file, DISCONNECT)
        self.driver.join()
        self.kernels.close()
        os.close(self.file)


class Recorder:
    """The disks of an experiment, and all that happens: their writes and flushes, and requests that begin and end."""

    def __init__(self, seed, contents):
        self.events, self.dice, self.poll = [], random.Random(seed), select.poll()
        self.disks = {name: Recorded(number, name, bytearray(it)) for number, (name, it) in enumerate(contents.items())}
        self.served = {it.socket.fileno(): it for it in self.disks.values()}
        for it in self.served:
            self.poll.register(it, select.POLLIN)
        self.server = threading.Thread(target=self.serve)

    def __enter__(self):
        self.server.start()
        for it in self.disks.values():
            it.open()
        return self

    def __exit__(self, *_):
        for it in self.disks.values():
            it.close()
        self.server.join()

    def serve(self):
        """Carries out commands, any of those that are there, until all disks are closed."""
        waiting = []
        while self.served:
            ready = self.poll.poll(WAIT if waiting else None)
            for file, _ in ready:
                command = self.served[file].command()
                if command[0] == CLOSE:
                    self.poll.unregister(file)
                    self.served.pop(file).socket.close()
                else:
                    waiting.append((self.served[file], *command))
            if waiting and not ready:
                self.carry_out(*waiting.pop(self.dice.randrange(len(waiting))))

    def carry_out(self, disk, kind, handle, start, size, data):
        answer = b""
        if kind == WRITE:
            disk.content[start:start + size] = data
            self.events.append(["write", disk.name, start // SECTOR, data])
        elif kind == FLUSH:
            self.events.append(["flush", disk.name])
        else:
            answer = bytes(disk.content[start:start + size])
        disk.socket.sendall(ANSWER.pack(MAGIC, 0, handle) + answer)

    def request(self, number, request):
        """Carries out a write, between the events that it begins and that it ends in some way."""
        _, device, start, count = request
        self.events.append(["begin", number])
        self.events.append(["end", number, write(device, start, [new(number, it) for it in range(start, start + count)])])


def run_cuts(experiment):
    """Carries out the requests, and looks at the stack as it is after each write to a disk while the stack is made, and then
    after every so many. An experiment of no requests has what is written to its disks instead."""
    disks = {it["name"]: Disk(it["name"], it["len"], it.get("fresh", ())) for it in experiment["disks"]}
    contents = {name: bytearray(os.pread(it.file, it.length * SECTOR, 0)) for name, it in disks.items()}
    events = recorded(experiment, contents) if experiment["requests"] else stores_of(experiment)
    seen, begun, writes = look(experiment, disks, contents), False, 0
    found = [["look", changes({}, seen)]]
    for event in events:
        begun = begun or event[0] == "begin"
        found.append(event)
        if event[0] == "write":
            writes += 1
            event[3:] = put(contents[event[1]], *event[2:])
            if not begun or writes % experiment["every"] == 0:
                before, seen = seen, look(experiment, disks, contents)
                found.append(["look", changes(before, seen)])
    for it in disks.values():
        it.close()
    return {"events": found}


def recorded(experiment, contents):
    """What happens while the stack is made and its requests are carried out, so many of them at once."""
    at_once, numbered = experiment["at_once"], list(enumerate(experiment["requests"], 1))
    with Recorder(experiment["name"], contents) as recorder:
        with Stack(experiment, recorder.disks) as stack, concurrent.futures.ThreadPoolExecutor(at_once) as pool:
            if stack.refused:
                raise ValueError("%s: %s" % tuple(stack.refused))
            for at in range(0, len(numbered), at_once):
                list(pool.map(lambda it: recorder.request(*it), numbered[at:at + at_once]))
        return recorder.events


def stores_of(experiment):
    """The writes of sectors that are given as numbers of 4 bytes."""
    return [["write", disk, sector, struct.pack("<%dI" % len(words), *words).ljust(SECTOR, b"\0")]
            for disk, sector, words in experiment["stores"]]


def put(content, start, data):
    """Writes to a disk, and returns how many sectors, and the label of each that changed; of metadata, which of its numbers
    of 4 bytes changed: the place of the first of them, and all up to the last."""
    found = []
    for at in range(0, len(data), SECTOR):
        before, after = content[start * SECTOR + at:start * SECTOR + at + SECTOR], data[at:at + SECTOR]
        if before != after:
            label = label_of(after)
            if label == "meta":
                pairs = [struct.unpack("<128I", it) for it in (before, after)]
                changed = [it for it in range(128) if pairs[0][it] != pairs[1][it]]
                label += " %d " % changed[0] + " ".join(map(str, pairs[1][changed[0]:changed[-1] + 1]))
            found.append([start + at // SECTOR, label])
    content[start * SECTOR:start * SECTOR + len(data)] = data
    return len(data) // SECTOR, found


def look(experiment, disks, contents):
    """What a kernel that loads the stack reads of each sector of each top device, and the status of each snapshot; or what it
    refuses. Nothing is written, so no origin has to be resumed."""
    for name, disk in disks.items():
        os.pwrite(disk.file, contents[name], 0)
    with Stack(dict(experiment, no_resume=True), disks) as stack:
        if stack.refused:
            return {"refused": [" ".join(stack.refused)]}
        found = {it: labels_of(path_of(it)) for it in experiment["tops"]}
        return {**found, **{it + ":": [status_of(it)] for it in experiment["snapshots"]}}


def labels_of(path):
    """The label of each sector of a device."""
    length = length_of(path)
    try:
        content = read_whole(path, length)
    except OSError:
        return read_each(path, 0, length)
    return [label_of(content[at:at + SECTOR]) for at in range(0, len(content), SECTOR)]


def changes(before, now):
    """The values that aren't those of the look before."""
    return [[name, at, value] for name, values in now.items() for at, value in enumerate(values)
            if name not in before or before[name][at] != value]
