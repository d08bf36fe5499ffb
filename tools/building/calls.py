"""What the scripts say, how they end, and how one waits for another."""

import contextlib
import fcntl
import os
import signal
import subprocess
import sys

# The status where there is no program.
FAILED = 70
SIGNALS = (signal.SIGINT, signal.SIGTERM, signal.SIGHUP)
# The signal that told this script to stop, and what puts that off.
told, holds = [], []


class Failed(Exception):
    """Why there is no program."""


class Stopped(BaseException):
    """The number of the signal that told a script to stop."""


def write(text):
    """Writes a text on standard error, if that takes it. On a terminal it takes the place of the line that is there."""
    with contextlib.suppress(AttributeError, OSError):
        os.write(sys.stderr.fileno(), os.fsencode(("\r\x1b[K" if is_watched() else "") + text))


def say(text):
    write("dmremap: %s\n" % text)


def say_for_now(text):
    """Tells what the next line takes the place of, on a terminal."""
    write("dmremap: %.70s" % text if is_watched() else "dmremap: %s\n" % text)


def is_watched():
    return sys.stderr is not None and sys.stderr.isatty()


def answer(call, *given):
    """Returns the status that a call gives, 70 where it fails, or 128 and the number of the signal that stops it."""
    def stop(number, _):
        for it in SIGNALS:
            signal.signal(it, signal.SIG_IGN)
        told.append(number)
        if not holds:
            raise Stopped(number)

    try:
        if sys.version_info < (3, 8):
            raise Failed("the scripts take Python 3.8 or later, and this is " + sys.version.split()[0])
        for it in SIGNALS:
            if signal.getsignal(it) != signal.SIG_IGN:
                signal.signal(it, stop)
        # Where a standard stream is closed, no file gets its number: the lock wouldn't go on to rt.
        while os.open(os.devnull, os.O_RDWR) < 3:
            pass
        return call(*given)
    except Stopped as it:
        return 128 + it.args[0]
    except Failed as it:
        say(it)
    except Exception as it:
        say("the program can't be built: %s" % (it if isinstance(it, OSError) else repr(it)))
    return FAILED


@contextlib.contextmanager
def whole():
    """Puts off being stopped until what is done here is done as a whole."""
    holds.append(True)
    try:
        yield
    finally:
        holds.pop()
        if told:
            raise Stopped(told[0])


@contextlib.contextmanager
def started(command, **how):
    """Starts a command, and tells it to end where this script fails or is stopped before it has ended."""
    ran = None
    try:
        with whole():
            ran = subprocess.Popen(command, **how)
        yield ran
    finally:
        if ran and ran.poll() is None:
            ran.terminate()
            ran.wait()


def become(program, words):
    """Gives place to the program. Python passes over two signals, which the program is not to find passed over. It refuses words
    that are no UTF-8, and so is told a name that has the rest of its path."""
    for it in (signal.SIGPIPE, signal.SIGXFSZ):
        signal.signal(it, signal.SIG_DFL)
    os.execv(program, [os.fsencode(program).decode("utf-8", "replace").encode(), *words])


def take(file, why):
    """Waits until nobody else holds a file or folder, which it says first. Some file systems have no locks."""
    try:
        fcntl.flock(file, fcntl.LOCK_EX | fcntl.LOCK_NB)
    except BlockingIOError:
        say(why)
        fcntl.flock(file, fcntl.LOCK_EX)
    except OSError:
        pass
    return file


def turn(path):
    """Waits until no other call builds. The turn ends with this process and with all that get the number that it returns."""
    os.makedirs(os.path.dirname(path), exist_ok=True)
    while True:
        lock = take(os.open(path, os.O_RDWR | os.O_CREAT, 0o666), "another call builds the program; waiting for it")
        with contextlib.suppress(FileNotFoundError):
            if os.path.samestat(os.fstat(lock), os.stat(path)):
                return lock
        # Somebody removed the file meanwhile.
        os.close(lock)
