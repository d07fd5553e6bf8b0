"""Files that are replaced whole or not at all: written beside, flushed, renamed, and the folder flushed behind that.

Only a regular file takes the place of another one: no link, no folder, no pipe. It gets the permissions of a new file,
by the umask. A file that has another name too is left as it is, and a copy of it is put.
"""
from __future__ import annotations

import contextlib
import errno
import hashlib
import os
import secrets
import shutil
import stat
from typing import BinaryIO, Callable, Iterator, Optional, Union

# How the name of a file begins that is being written beside another one.
BESIDE = ".part-"
# The permissions of a new file, before the umask takes its part away.
NEW = 0o666
# The most bytes that are read of a file that a caller names, and how many at a time.
LARGEST, AT_ONCE = 1 << 30, 1 << 20


def write_whole(path: str, data: Union[str, bytes]) -> None:
    """Puts a file in the place of what stands there, once all of it is on the disk."""
    data = data if isinstance(data, bytes) else data.encode("utf-8", "surrogateescape")
    os.makedirs(os.path.dirname(path), exist_ok=True)
    with replacing(path) as file:
        file.write(data)


def write_named(path: str, data: bytes) -> None:
    """Writes to a place that a caller names: a file takes the place once it is whole, or that to which a link there
    leads. What is no regular file, as a device or a pipe, is written to.
    """
    place = os.path.realpath(path)
    if os.path.exists(path) and not os.path.isfile(path):
        with open(path, "wb") as out:
            out.write(data)
    elif os.path.exists(place) and not os.access(place, os.W_OK):
        raise PermissionError(errno.EACCES, os.strerror(errno.EACCES))
    elif not os.path.isdir(os.path.dirname(place)):
        raise FileNotFoundError(errno.ENOENT, os.strerror(errno.ENOENT))
    else:
        write_whole(place, data)


def put_whole(beside: str, path: str) -> None:
    """Has a file that was written beside take the place of what stands there, once all of it is on the disk. If it is
    on another disk, or has another name too, a copy takes the place. Raises OSError where it is no regular file.
    """
    with open_regular(beside) as file:
        if os.fstat(file.fileno()).st_nlink > 1:
            put_copy(file, beside, path)
            return
        os.fchmod(file.fileno(), NEW & ~umask())
        os.fsync(file.fileno())
        try:
            os.replace(beside, path)
        except OSError as error:
            if error.errno != errno.EXDEV:
                raise
            put_copy(file, beside, path)
    flush_folder(os.path.dirname(path))


def put_copy(file: BinaryIO, beside: str, path: str) -> None:
    """Has a copy of an open file take a place, and removes the name under which that was written."""
    with replacing(path) as copy:
        shutil.copyfileobj(file, copy)
    os.remove(beside)


@contextlib.contextmanager
def replacing(path: str) -> Iterator[BinaryIO]:
    """A new file that takes a place once all that is written into it is on the disk."""
    folder = os.path.dirname(path)
    beside = os.path.join(folder, BESIDE + secrets.token_hex(8))
    number = os.open(beside, os.O_WRONLY | os.O_CREAT | os.O_EXCL | os.O_CLOEXEC, NEW)
    try:
        with os.fdopen(number, "wb") as file:
            yield file
            file.flush()
            os.fsync(file.fileno())
        os.replace(beside, path)
    except BaseException:
        with contextlib.suppress(OSError):
            os.unlink(beside)
        raise
    flush_folder(folder)


def permissions(place: str) -> int:
    """What a file that takes this place has to be allowed: what stood there was, or what new files are."""
    try:
        return os.stat(place).st_mode & 0o777
    except OSError:
        return NEW & ~umask()


def umask() -> int:
    """Which permissions new files don't get. It is only read here: setting it would change the files of other threads.
    """
    mask = _read_umask()
    return FIRST_UMASK if mask is None else mask


def _read_umask() -> Optional[int]:
    """The umask as the system tells it, where it does."""
    try:
        with open("/proc/self/status", encoding="ascii", errors="replace") as file:
            return next((int(line.split()[1], 8) for line in file if line.startswith("Umask:")), None)
    except OSError:
        return None


def _first_umask() -> int:
    """The umask when this package is imported, which no other thread sees changed to one that lets others in."""
    mask = _read_umask()
    if mask is None:
        mask = os.umask(0o077)
        os.umask(mask)
    return mask


FIRST_UMASK = _first_umask()


def is_regular(path: str) -> bool:
    """Whether a regular file stands there, and no link to one."""
    return has_form(path, stat.S_ISREG)


def is_own(path: str) -> bool:
    """Whether a regular file stands there, and has no other name: to write into it changes no other file."""
    return has_form(path, stat.S_ISREG) and os.lstat(path).st_nlink == 1


def is_folder(path: str) -> bool:
    """Whether a folder stands there, and no link to one."""
    return has_form(path, stat.S_ISDIR)


def has_form(path: str, form: Callable[[int], bool]) -> bool:
    """Whether what stands there, be it a link, has a form."""
    try:
        return form(os.lstat(path).st_mode)
    except OSError:
        return False


def open_regular(path: str, more: int = os.O_NOFOLLOW) -> BinaryIO:
    """Opens a regular file for reading, and waits for nobody. Raises OSError for a link, a folder, a pipe and a device;
    with `more` as 0 a link to a regular file is followed.
    """
    number = os.open(path, os.O_RDONLY | os.O_NONBLOCK | os.O_CLOEXEC | more)
    form = os.fstat(number).st_mode
    if not stat.S_ISREG(form):
        os.close(number)
        if stat.S_ISDIR(form):
            raise IsADirectoryError(errno.EISDIR, os.strerror(errno.EISDIR), path)
        raise OSError(errno.EINVAL, "is no regular file", path)
    return os.fdopen(number, "rb")


def open_named(path: Union[str, "os.PathLike[str]"]) -> BinaryIO:
    """Opens a file that a caller names for reading; a pipe or a terminal will do. Raises OSError for a folder, and for
    any other device, which may have no end.
    """
    file = open(path, "rb")
    form = os.fstat(file.fileno()).st_mode
    if stat.S_ISBLK(form) or stat.S_ISCHR(form) and not file.isatty():
        file.close()
        raise OSError(errno.EINVAL, "is no file and no pipe", path)
    return file


def read_named(path: Union[str, "os.PathLike[str]"]) -> bytes:
    """What a file holds that a caller names, or a pipe. Raises OSError as `open_named`, and where it is too long."""
    with open_named(path) as file:
        return read_bounded(file, path)


def read_bounded(file: BinaryIO, path: Union[str, "os.PathLike[str]"]) -> bytes:
    """What is left of an open file. Raises OSError where that is more than can be of use, or has no end."""
    parts, left = [], LARGEST
    for part in iter(lambda: file.read(AT_ONCE), b""):
        left -= len(part)
        if left < 0:
            raise OSError(errno.EFBIG, f"has more than {LARGEST} bytes", path)
        parts.append(part)
    return b"".join(parts)


def remove_any(path: str) -> None:
    """Removes what stands there, a folder with all that is in it; a link is removed, and what it leads to is left."""
    if is_folder(path):
        shutil.rmtree(path)
    elif os.path.lexists(path):
        os.remove(path)


def place_copy(source: str, path: str) -> None:
    """Puts a copy of a file, with its permissions, in the place of what stands there. Neither changes the other."""
    remove_any(path)
    shutil.copy2(source, path)


def write_all(number: int, data: bytes) -> None:
    """Writes all of it to an open file."""
    while data:
        data = data[os.write(number, data):]


def flush_folder(folder: str) -> None:
    """Has the names in a folder be on the disk, where its file system can do that."""
    number = os.open(folder or ".", os.O_RDONLY)
    try:
        with contextlib.suppress(OSError):
            os.fsync(number)
    finally:
        os.close(number)


def sum_of(path: str) -> str:
    """The SHA-256 of a file, in hexadecimal."""
    total = hashlib.sha256()
    with open(path, "rb") as file:
        for part in iter(lambda: file.read(1 << 20), b""):
            total.update(part)
    return total.hexdigest()
