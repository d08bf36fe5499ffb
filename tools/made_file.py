"""Files that the scripts beside this make."""

import contextlib
import os
import sys

OUTPUT_FAILED = 5


def write(path: str, content: bytes, is_program: bool = False) -> None:
    """Writes a file, which may be one to run: beside its place, where it gets once it is whole, also in place of a link. Where that
    fails, it ends the script with a line that says why, and status 5."""
    beside = "%s.%s.new" % (path, os.urandom(6).hex())
    try:
        if os.path.exists(path) and not os.path.isfile(path):
            _write(os.open(path, os.O_WRONLY), content)
            return
        try:
            _write(os.open(beside, os.O_WRONLY | os.O_CREAT | os.O_EXCL, 0o777 if is_program else 0o666), content)
            os.replace(beside, path)
        except BaseException:
            with contextlib.suppress(OSError):
                os.unlink(beside)
            raise
    except OSError as fault:
        print("%s: %s: %s" % (os.path.basename(sys.argv[0]), ascii(path)[1:-1], fault.strerror), file=sys.stderr)
        sys.exit(OUTPUT_FAILED)


def _write(descriptor: int, content: bytes) -> None:
    with open(descriptor, "wb", buffering=0) as file:
        left = memoryview(content)
        while left:
            left = left[file.write(left):]
