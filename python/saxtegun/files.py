"""Files: what is read, and what is written beside and renamed, so that nothing is written over what is being read or what another has written meanwhile."""
from __future__ import annotations

import errno
import os
import stat
import sys
import tempfile
from contextlib import contextmanager
from functools import partial
from time import monotonic, sleep
from typing import BinaryIO, Iterator, Optional, Sequence, Tuple

from saxtegun.commands import Refused
from saxtegun.processes import held

MARK = "\ufeff"
NEW_LINE = b"\n"
MIB = 2**20
# So many bytes a text has at most that is read at once, unless a format allows more or less.
MOST_BYTES = 64 * MIB
# So many bytes a line has at most of a file that is read line by line.
MOST_OF_LINE = 2**30
# So long a folder is waited for that another writes into, and so long between two looks.
MOST_SECONDS_LOCKED, PAUSE = 10.0, 0.02


class NoFile(Refused):
    """What has the name of a file is none."""


def without_waiting(path: str, flags: int) -> int:
    """Opens a file. A pipe that nobody writes into, or reads, would be waited for here."""
    return os.open(path, flags | getattr(os, "O_NONBLOCK", 0))


def opened(path: str) -> BinaryIO:
    """A file, or standard input where the path is `-`. Refused where it is a pipe or a device, which may have no end."""
    if path == "-" and (sys.stdin is None or sys.stdin.closed):
        raise Refused("standard input is closed" if sys.stdin is None else "standard input can be read only once: name it once")
    try:
        file: BinaryIO = sys.stdin.buffer if path == "-" else open(path, "rb", opener=without_waiting)
    except (OSError, ValueError) as why:
        raise Refused(f"{path} can't be read: {getattr(why, 'strerror', None) or why}") from None
    if path != "-" and not stat.S_ISREG(os.fstat(file.fileno()).st_mode):
        file.close()
        raise NoFile(f"{path} can't be read: it is a pipe or a device; name a file, or - for standard input where a verb reads that")
    return file


def read_lines(path: str) -> Iterator[Tuple[int, str]]:
    """The lines of a file, numbered from 1, each with the line feed that ends it."""
    with opened(path) as file:
        number = 0
        try:
            for number, line in enumerate(iter(partial(file.readline, MOST_OF_LINE + 1), b""), 1):
                if len(line) > MOST_OF_LINE:
                    raise Refused(f"{path}, line {number}: it has more than {MOST_OF_LINE // MIB} MiB, and is not read")
                yield number, line.decode("utf-8")
        except OSError as why:
            raise Refused(f"{path} can't be read: {why.strerror}") from None
        except UnicodeDecodeError as why:
            raise Refused(f"{path}, line {number}: byte {why.start} of it is not UTF-8") from None


def read_bytes(path: str, most: int) -> bytes:
    """The bytes of a file, which has at most so many: one that is longer is refused before it is read."""
    with opened(path) as file:
        try:
            size = os.fstat(file.fileno()).st_size
            data = file.read(most + 1) if size <= most else b""
            if data is None:
                # one of the system's, as /proc/kmsg
                raise NoFile(f"{path} can't be read: it has no content yet")
        except OSError as why:
            raise Refused(f"{path} can't be read: {why.strerror}") from None
    if max(size, len(data)) > most:
        raise TooLong(f"{path} has more than {most // MIB} MiB, and is not read")
    return data


def read_text(path: str, most: int = MOST_BYTES) -> str:
    """The text of a file of at most so many bytes."""
    data = read_bytes(path, most)
    try:
        return data.decode("utf-8")
    except UnicodeDecodeError as why:
        begin = data.rfind(b"\n", 0, why.start) + 1
        raise Refused(f"{path}, line {data.count(NEW_LINE, 0, why.start) + 1}: byte {why.start - begin} of it is not UTF-8") from None


def read_any_text(path: str) -> str:
    """The text of a file as another program has saved it: in UTF-8, or in UTF-16, which begins with a mark or has every other byte 0."""
    data = read_bytes(path, MOST_BYTES)
    is_wide = data[:2] in (b"\xff\xfe", b"\xfe\xff")
    coding = "utf-16" if is_wide else "utf-16-le" if data[1:2] == b"\0" else "utf-16-be" if data[:1] == b"\0" else "utf-8"
    try:
        return data.decode(coding).lstrip(MARK)
    except UnicodeDecodeError as why:
        raise Refused(f"{path}, line {data.count(NEW_LINE, 0, why.start) + 1}: it is not {coding.upper()}: save it as UTF-8") from None


def guard_output(*paths: str) -> None:
    """Refuses to write over a file that is read. (A shell's `>` has emptied it before this is called.)"""
    try:
        output = os.fstat(sys.stdout.fileno())
    except (OSError, ValueError):
        return
    for path in paths:
        if path != "-" and os.path.exists(path) and stat.S_ISREG(output.st_mode) and os.path.samestat(output, os.stat(path)):
            raise Refused(f"standard output is {path}, which is read: write to another file, or say --in-place where a verb has it")


def is_output_kept() -> bool:
    """Whether what goes to standard output is kept: not by a terminal, nor by another device."""
    try:
        return not stat.S_ISCHR(os.fstat(sys.stdout.fileno()).st_mode)
    except (OSError, ValueError):
        return False


def is_stream(path: str) -> bool:
    """Whether a path is where standard output or standard error goes, as /dev/stdout is: a file there would take the place of what they have written."""
    for stream in (sys.stdout, sys.stderr):
        try:
            if stream is not None and os.path.samestat(os.stat(path), os.fstat(stream.fileno())):
                return True
        except (OSError, ValueError):
            pass
    return False


def guard_files(written: Sequence[Optional[str]], read: Sequence[Optional[str]]) -> None:
    """Refuses to write a file that is read, or into which what is told goes, or two things into one file. A device takes what comes."""
    known = {os.path.realpath(it): "is read" for it in read if it and it != "-"}
    for path in (it for it in written if it):
        place = os.path.realpath(path)
        if place in known:
            raise Refused(f"{path} {known[place]}: write to another file")
        if os.path.isfile(path) and is_stream(path):
            raise Refused(f"{path} is where this tells what it does: write to another file")
        if not is_device(path):
            known[place] = "is written already"


def is_device(path: str) -> bool:
    """Whether a path is one of a device or a pipe, which has no place that something could be renamed to."""
    return os.path.exists(path) and not os.path.isfile(path) and not os.path.isdir(path)


class TooLong(Refused):
    """A file is longer than what is read of one."""


class Changed(Refused):
    """A file is another than the one that was read."""


def lock(number: int, path: str) -> None:
    """Locks a folder. Refused where another holds it for long."""
    import fcntl

    end = monotonic() + MOST_SECONDS_LOCKED
    while True:
        try:
            fcntl.flock(number, fcntl.LOCK_EX | fcntl.LOCK_NB)
            return
        except BlockingIOError:
            if monotonic() > end:
                raise Refused(f"{path} can't be written: another has held its folder for {MOST_SECONDS_LOCKED:g} s") from None
            sleep(PAUSE)


@contextmanager
def locked(path: str) -> Iterator[None]:
    """Lets nobody else of us write into the folder of a file, where its file system knows of that."""
    try:
        number = os.open(os.path.dirname(os.path.realpath(path)), os.O_RDONLY)
    except OSError as why:
        raise Refused(f"{path} can't be written: {why.strerror}") from None
    try:
        try:
            lock(number, path)
        except (ImportError, OSError):
            pass
        yield
    finally:
        os.close(number)


def write_again(path: str, was: Optional[str], text: str) -> None:
    """Writes a file again that was read, or that was not there (None). Refused where it has been changed since."""
    try:
        with locked(path):
            now = read_text(path) if os.path.exists(path) else None
            if now != was:
                raise Changed(f"{path} was changed since it was read: call this again")
            write_whole(path, text)
    except OSError as why:
        raise Refused(f"{path} can't be written: {why.strerror}") from None


def guard_places(*paths: Optional[str]) -> None:
    """Refuses a place that can't be written, before anything is played that would be lost."""
    for path in (it for it in paths if it):
        target = os.path.realpath(path)
        if os.path.isdir(target):
            raise Refused(f"{path} can't be written: it is a folder")
        if is_device(path):
            continue
        try:
            with tempfile.NamedTemporaryFile(dir=os.path.dirname(target), prefix=".saxtegun-"):
                pass
        except OSError as why:
            raise Refused(f"{path} can't be written: {why.strerror}") from None


def rights_of_new() -> int:
    """The rights of a file that is new, as whoever calls this wants them."""
    taken = os.umask(0o077)
    os.umask(taken)
    return 0o666 & ~taken


def write_whole(path: str, text: str) -> None:
    """Writes a file beside its place and renames it there, so that nobody meets half of it and nothing is lost where writing fails."""
    target = os.path.realpath(path)
    new = ""
    try:
        if is_device(path):
            with open(path, "w", encoding="utf-8", newline="", opener=without_waiting) as device:
                os.set_blocking(device.fileno(), True)
                device.write(text)
            return
        mode = stat.S_IMODE(os.stat(target).st_mode) if os.path.exists(target) else rights_of_new()
        with held():
            file = tempfile.NamedTemporaryFile("w", encoding="utf-8", newline="", dir=os.path.dirname(target), prefix=".saxtegun-", delete=False)
            new = file.name
        with file:
            file.write(text)
            file.flush()
            os.fsync(file.fileno())
        os.chmod(new, mode)
        os.replace(new, target)
    except OSError as why:
        told = "nobody reads this pipe" if why.errno == errno.ENXIO and is_device(path) else why.strerror
        raise Refused(f"{path} can't be written: {told}") from None
    finally:
        if new and os.path.exists(new):
            os.unlink(new)
