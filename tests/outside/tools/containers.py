"""Headers of LUKS, made from their formats for the tests."""

import hashlib
import os
import shutil
import struct

UUID = "9f0ddaf8-7f12-4f09-98b6-4e4d01cf8b28"
# The bytes of a header of version 2, of which there are two, one after the other.
SIZE = 1 << 14
SEGMENT = '"%d":{"type":"crypt","offset":"%d","size":"%s","iv_tweak":"0","encryption":"aes-xts-plain64","sector_size":512}'
# Where its data begins.
DATA = 131072


def is_read():
    """Whether cryptsetup is here, which reads them."""
    return shutil.which("cryptsetup", path=os.environ["PATH"] + ":/sbin:/usr/sbin") is not None


def version_1(payload=2048, uuid=UUID):
    """A header of version 1 without keys, whose data begins in this sector."""
    head = b"LUKS\xba\xbe\0\1" + b"".join(it.ljust(32, b"\0") for it in (b"aes", b"xts-plain64", b"sha256")) + struct.pack(">LL", payload, 32)
    head = head.ljust(164, b"\0") + struct.pack(">L", 1000) + uuid.encode().ljust(40, b"\0")
    slots = b"".join(struct.pack(">LL32xLL", 0xDEAD, 1000, 8 + 252 * number, 4000) for number in range(8))
    return (head + slots).ljust(payload * 512, b"\0")


def version_2(size="dynamic", segments=1, json=None, second=None, sequences=(3, 3)):
    """Both headers of version 2, whose data begins in sector 256, or where the `second` of them says. Each was written so often."""
    first = json or text_of(size, segments)
    return header(b"LUKS", 0, first, sequences[0]) + header(b"SKUL", SIZE, text_of(size, segments, second) if second is not None else first, sequences[1])


def text_of(size="dynamic", segments=1, data=DATA):
    """The text of a header of version 2."""
    digest = '"0":{"type":"pbkdf2","keyslots":[],"segments":[%s]}' % ",".join('"%d"' % number for number in range(segments))
    parts = ",".join(SEGMENT % (number, data, size) for number in range(segments))
    return ('{"keyslots":{},"tokens":{},"segments":{%s},"digests":{%s},"config":{"json_size":"%d","keyslots_size":"32768"}}' % (
        parts, digest, SIZE - 4096)).encode()


def header(magic, place, text, sequence=3):
    """A header of version 2 that says that it is at this byte."""
    fields = magic + b"\xba\xbe\0\2" + struct.pack(">QQ", SIZE, sequence)
    fields = fields.ljust(72, b"\0") + b"sha256".ljust(96, b"\0") + UUID.encode().ljust(40, b"\0")
    head = (fields.ljust(256, b"\0") + struct.pack(">Q", place)).ljust(4096, b"\0")
    area = text.ljust(SIZE - 4096, b"\0")
    return head[:448] + hashlib.sha256(head + area).digest().ljust(64, b"\0") + head[512:] + area
