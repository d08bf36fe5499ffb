"""Stores of snapshots, as all tests make them: a header, and areas of the list, each before the chunks that it has."""

import struct

SECTOR, MAGIC = 512, 0x70416E53


def place(chunk, number):
    """Where the chunk of a number is kept: a header and areas of one chunk, of so many sectors, come before."""
    return 2 + number + number // (32 * chunk)


def end_of(chunk, count):
    """The sectors up to the end of the area that has the pair of this number."""
    return place(chunk, count - count % (32 * chunk)) * chunk


def taken(chunk, count):
    """The pairs of a snapshot that took its first chunks, the last of them first."""
    return [(count - 1 - number, place(chunk, number)) for number in range(count)]


def parts(chunk, pairs, header=None):
    """The header and the areas of a store with these pairs of an old and a new chunk, each with its byte."""
    yield 0, struct.pack("<4I", *(header or (MAGIC, 1, 1, chunk)))
    for first in range(0, len(pairs), 32 * chunk):
        area = b"".join(struct.pack("<2Q", *pair) for pair in pairs[first:first + 32 * chunk])
        yield (place(chunk, first) - 1) * chunk * SECTOR, area


def store(pairs, chunk=8, chunks=20, magic=MAGIC, valid=1, version=1, said=None):
    """The content of a store of so many chunks."""
    content = bytearray(chunks * chunk * SECTOR)
    for at, part in parts(chunk, pairs, (magic, valid, version, said or chunk)):
        content[at:at + len(part)] = part
    return bytes(content)
