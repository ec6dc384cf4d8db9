"""Files that are whole or as they were: a kill, a full disk or a second process leaves no half of one."""
from __future__ import annotations

import contextlib
import errno
import fcntl
import os
import stat
import tempfile
from typing import BinaryIO, Iterator, Optional, Sequence, Union

from .certificate import MOST_BYTES
from .errors import SurveyError
from .packed import why_packed

Name = Union[str, "os.PathLike[str]"]


def read(name: Name) -> bytes:
    """The bytes of a file, read once. SurveyError where it has more than 64 MiB or is packed, OSError where it can't be read."""
    with open(name, "rb") as file:
        return read_from(file, os.fspath(name))


def read_from(file: BinaryIO, name: str) -> bytes:
    """The same of what is open already."""
    data = file.read(MOST_BYTES + 1)
    if len(data) > MOST_BYTES:
        raise SurveyError(f"{name}: file too large")
    if packed := why_packed(data):
        raise SurveyError(f"{name}: {packed}")
    return data


def replace(name: Name, data: bytes, part: Optional[Name] = None) -> None:
    """Puts these bytes in the place of a file: written beside it, flushed to the disk, and renamed. The old file stays until
    the new one is whole. OSError where that fails; then nothing is left behind. A kill may leave the half-written file: it
    has a name of its own, or `part`, which the next call writes anew (for a caller that holds a lock). A device or a pipe is
    written to."""
    name = os.fspath(name)
    try:
        if _is_special(name):
            with open(name, "wb") as file:
                file.write(data)
        else:
            _replace(name, data, part)
    except OSError as why:  # of a name that the caller knows, not of the half-written file's own
        raise OSError(why.errno, why.strerror, name if part is None else why.filename or name) from None


def replace_all(outputs: Sequence[tuple[Name, bytes]]) -> None:
    """The same of several files, all or none: no name changes before all of them are written whole beside their places. OSError names
    the one that can't be written."""
    with replaced_after(outputs):
        pass


@contextlib.contextmanager
def replaced_after(outputs: Sequence[tuple[Name, bytes]]) -> Iterator[None]:
    """The same around other work: the files are written whole beside their places before it, and no name changes before it is done.
    Where it ends with an exception none does. Devices and pipes are written to before it, after all files."""
    parts: list[tuple[str, str]] = []
    names = [(os.fspath(name), data) for name, data in outputs]
    try:
        special = []
        for name, data in names:
            with _called(name):
                if _is_special(name):
                    special.append((name, data))
                else:
                    parts.append((_written(name, data, None), name))
        for name, data in special:
            replace(name, data)
        yield
        while parts:
            part, name = parts[0]
            with _called(name):
                _renamed(part, name)
            del parts[0]
    except BaseException:
        for part, _ in parts:
            _removed(part)
        raise


@contextlib.contextmanager
def _called(name: str) -> Iterator[None]:
    """An OSError of a half-written file, which has a name of its own, as one of the name that the caller knows."""
    try:
        yield
    except OSError as why:
        raise OSError(why.errno, why.strerror, name) from None


def _is_special(name: str) -> bool:
    """Whether a device or a pipe has this name, as /dev/null or /dev/stdout: it is written to, and no file takes its place."""
    try:
        mode = os.stat(name).st_mode
    except OSError:
        return False
    if stat.S_ISDIR(mode):
        raise IsADirectoryError(errno.EISDIR, os.strerror(errno.EISDIR), name)
    return not stat.S_ISREG(mode)


def _replace(name: str, data: bytes, part: Optional[Name]) -> None:
    written = _written(name, data, part)
    try:
        _renamed(written, name)
    except BaseException:
        _removed(written)
        raise


def _written(name: str, data: bytes, part: Optional[Name]) -> str:
    """Writes these bytes beside a file and flushes them to the disk; the name of what was written."""
    folder = os.path.dirname(os.path.abspath(name))
    if part is None:
        handle, written = tempfile.mkstemp(dir=folder, prefix=".baseline-survey-", suffix=".part")
    else:
        written = os.fspath(part)
        handle = os.open(written, os.O_WRONLY | os.O_CREAT | os.O_TRUNC | os.O_NOFOLLOW, 0o666)
    try:
        with os.fdopen(handle, "wb") as file:
            file.write(data)
            file.flush()
            os.fchmod(file.fileno(), _mode(name))
            os.fsync(file.fileno())
    except BaseException:
        _removed(written)
        raise
    return written


def _renamed(written: str, name: str) -> None:
    os.replace(written, name)
    _sync_folder(os.path.dirname(os.path.abspath(name)))


def _removed(written: str) -> None:
    with contextlib.suppress(OSError):
        os.unlink(written)


def _mode(name: str) -> int:
    """The rights of the file that is replaced, else those that a new file gets."""
    with contextlib.suppress(OSError):
        return os.stat(name).st_mode & 0o777
    mask = os.umask(0)
    os.umask(mask)
    return 0o666 & ~mask


def _sync_folder(folder: str) -> None:
    """Flushes the rename, where the file system can."""
    with contextlib.suppress(OSError):
        handle = os.open(folder, os.O_RDONLY)
        try:
            os.fsync(handle)
        finally:
            os.close(handle)


@contextlib.contextmanager
def locked(name: Name) -> Iterator[None]:
    """Holds the lock of a file: a second process waits. The kernel frees it where this one is killed."""
    with open(os.fspath(name) + ".lock", "w", encoding="ascii") as lock:
        fcntl.flock(lock, fcntl.LOCK_EX)
        yield
