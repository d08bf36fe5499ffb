"""Every file that commands write. It is made beside its place, and put there once it is whole. It is never a file that
is read, by whatever name, and a link is followed only where it is the very word that was given. Where a command is
refused or told to end, what it began is removed."""

import contextlib
import errno
import os
import stat
from typing import Iterator, List, NoReturn, Optional, Set, Tuple, Union

from dmremap_tools.base import quoting
from dmremap_tools.base.refusal import OutputFailed, Refusal, WrongWords

# Which file or disk it is, whatever it is called; of a file that is to be made its name, and which folder it gets into.
Identity = Tuple[str, int, int]
# How much of a name goes into that of what is made beside it, so that this isn't too long.
LONGEST_NAME = 40

_inputs: Set[Identity] = set()
_places: "List[Place]" = []


def identity(status: os.stat_result) -> Optional[Identity]:
    """Which file or disk this is; none for what has no bytes of its own, as a pipe."""
    if stat.S_ISBLK(status.st_mode):
        return "disk", status.st_rdev, 0
    return ("file", status.st_dev, status.st_ino) if stat.S_ISREG(status.st_mode) else None


def identity_at(file: Union[int, str]) -> Optional[Identity]:
    """Which file or disk a descriptor or path is; none where there is nothing."""
    with contextlib.suppress(OSError, ValueError):
        return identity(os.stat(file))
    return None


def note_input(file: Union[int, str]) -> None:
    """Notes a file that is read, by its descriptor or path, and refuses one that is written, too."""
    known = identity_at(file)
    _inputs.update({known} if known else ())
    for place in (place for place in _places if known and place.known == known):
        place.refuse()


def discard() -> None:
    """Removes what was begun and isn't in its place."""
    for place in _places:
        if place._beside is not None:
            with contextlib.suppress(OSError):
                os.unlink(place._beside)


class Place:
    """Where a file is written. `is_word` says that the path is the very word that was given, which may be a link."""

    def __init__(self, path: str, is_word: bool = True) -> None:
        if path == "-":
            raise WrongWords("'-' is no file to write: give it a name")
        self.path, self.shown = path, quoting.shown(path)
        self._beside: Optional[str] = None
        self._descriptor: Optional[int] = None
        with self.failing():
            self._there = self._look(is_word)
            self.known: Optional[Identity] = identity(self._there) if self._there else None
            self.is_special = self._there is not None and not self.known
            if not self.is_special:
                self.path = os.path.realpath(self.path) if is_word else self.path
                folder, name = os.path.split(self.path)
                status = os.stat(folder or ".")
                self.known = self.known or (name, status.st_dev, status.st_ino)
        if self.known in _inputs:
            self.refuse()
        if self.known and any(it.known == self.known for it in _places):
            raise WrongWords(f"{self.shown}: two outputs can't be one file: give another name")
        for descriptor, name in (1, "output"), (2, "error"):
            if self.known and identity_at(descriptor) == self.known:
                raise WrongWords(f"{self.shown}: standard {name} goes there, too: give another file")
        _places.append(self)

    def begin(self) -> int:
        """Makes the file beside its place, and returns its descriptor. What is no file is opened as it is."""
        with self.failing():
            if self.is_special:
                self._descriptor = os.open(self.path, os.O_WRONLY)
                return self._descriptor
            if self._there and not os.access(self.path, os.W_OK):
                raise PermissionError(errno.EACCES, os.strerror(errno.EACCES))
            folder, name = os.path.split(self.path)
            self._beside = os.path.join(folder, f"{name[:LONGEST_NAME]}.{os.urandom(6).hex()}.new")
            flags = os.O_RDWR | os.O_CREAT | os.O_EXCL | os.O_NOFOLLOW
            self._descriptor = descriptor = os.open(self._beside, flags, 0o666)
            if self._there:
                # It gets the mode and the owner of the one whose place it takes, where there is leave to.
                with contextlib.suppress(PermissionError):
                    os.fchown(descriptor, self._there.st_uid, self._there.st_gid)
                os.fchmod(descriptor, stat.S_IMODE(self._there.st_mode))
        return descriptor

    def go_on(self) -> int:
        """Opens the file that is there already, and returns its descriptor."""
        with self.failing():
            self._descriptor = os.open(self.path, os.O_RDWR | os.O_NOFOLLOW)
        return self._descriptor

    def close(self) -> None:
        """Closes the file once its disk has it, as some file systems say only then that they are full."""
        descriptor, self._descriptor = self._descriptor, None
        if descriptor is None:
            return
        with self.failing():
            if not self.is_special:
                os.fsync(descriptor)
            os.close(descriptor)

    def put(self, is_new: bool = False) -> None:
        """Puts what was made beside in its place; one that `is_new` over nothing that is there."""
        if self._beside is None:
            return
        with self.failing():
            try:
                if is_new:
                    os.link(self._beside, self.path, follow_symlinks=False)
            except OSError:
                # Something is there, or the file system has no links.
                self.check_new()
                is_new = False
            os.unlink(self._beside) if is_new else os.replace(self._beside, self.path)
        self._beside = None
        self._there = os.lstat(self.path)
        self.known = identity(self._there)

    def check_new(self) -> None:
        """Refuses it where something is there."""
        if self.is_special:
            raise Refusal(self.shown, "it is a device or a pipe: give the name of a new file")
        if os.path.lexists(self.path):
            raise Refusal(self.shown, "it is there already: give another name, or remove it first")

    def refuse(self) -> NoReturn:
        raise WrongWords(f"{self.shown}: it is read, too: give another file to write")

    @contextlib.contextmanager
    def failing(self) -> Iterator[None]:
        """What is done within ends the command where the system has a fault."""
        try:
            yield
        except (OSError, OverflowError, ValueError) as fault:
            raise OutputFailed(f"{self.shown}: {getattr(fault, 'strerror', None) or fault}")

    def _look(self, is_word: bool) -> Optional[os.stat_result]:
        """What is there. A link that isn't the word itself is never followed: what is put there takes its place."""
        if not os.path.basename(self.path):
            raise OSError(0, os.strerror(errno.EISDIR if self.path else errno.ENOENT))
        try:
            there = os.stat(self.path) if is_word else os.lstat(self.path)
        except FileNotFoundError:
            return None
        if stat.S_ISDIR(there.st_mode):
            raise OSError(0, os.strerror(errno.EISDIR))
        if stat.S_ISBLK(there.st_mode):
            raise Refusal(self.shown, "it is a disk: give a file to write")
        return None if stat.S_ISLNK(there.st_mode) else there
