"""Files that are read in one piece, and written whole or not at all."""
import csv
import errno
import io
import os
import secrets
import stat
from collections.abc import Iterator
from contextlib import contextmanager
from pathlib import Path

from .errors import LabError

GZIP_MAGIC = b"\x1f\x8b"
PART = ".part"
FRONT = ".feast-"  # how the name of a file begins that is still being written; a number and PART follow
TOKEN = 8  # bytes of that number
OTHERS = stat.S_IWGRP | stat.S_IWOTH
PROCESSES = Path("/proc")
MOST_LINKS = 40  # as many as Linux follows


def cause(error: OSError) -> str:
    """What the system says of a file, without the file's name."""
    return (error.strerror or str(error)).lower()


def shown_name(path: Path) -> str:
    """The name of a file as a text, with a mark in the place of each byte that is no part of one."""
    return os.fsencode(path.resolve().name).decode(errors="replace")


def place_of(path: Path) -> Path:
    """The place that a path leads to, past its links. One below /proc leads no further: a link there stands for what a
    process has open, and not for a name. Refuses a link that another user has planted."""
    place = path
    for _ in range(MOST_LINKS + 1):
        place = Path(os.path.realpath(place.parent), place.name)
        if place.is_relative_to(PROCESSES) or not place.is_symlink():
            return place
        refuse_planted(place)
        place = place.parent / place.readlink()
    raise OSError(errno.ELOOP, os.strerror(errno.ELOOP), str(path))


def is_written_to(place: Path) -> bool:
    """Whether a place is an open file, a device or a pipe, such as /dev/null, which takes what is written and is never
    replaced."""
    return place.is_relative_to(PROCESSES) or (place.exists() and not place.is_file() and not place.is_dir())


def refuse_planted(link: Path) -> None:
    """Refuses to write through a link that another user has put into a folder in which others may do so."""
    of, folder, own = link.lstat().st_uid, link.parent.stat(), os.geteuid()
    if folder.st_mode & OTHERS and of not in (own, folder.st_uid):
        raise LabError(f"{link}: can't be written: it is a link, which another user has put into a folder that others can write")


@contextmanager
def telling(path: Path) -> Iterator[None]:
    """Tells in one line why a file can't be written."""
    try:
        yield
    except OSError as error:
        raise LabError(f"{path}: can't be written: {cause(error)}") from error
    except UnicodeEncodeError as error:
        raise LabError(f"{path}: can't be written: the text for it has a name that is no text in UTF-8") from error


def write_whole(path: Path, data: str | bytes) -> None:
    """Writes a file that the user names, beside its place, and then puts it there, so that it is never seen half written.
    An open file, a device or a pipe is written to as it stands; a link stays, and what it leads to is written."""
    with telling(path):
        whole = data.encode() if isinstance(data, str) else data
        place = place_of(path)
        if is_written_to(place):
            place.write_bytes(whole)
        else:
            put(place, whole, is_lasting=False)


def write_inside(path: Path, data: str | bytes, is_lasting: bool = False) -> None:
    """Writes a file of a folder that is the lab's own, whole or not at all. A link or whatever else lies in its place is
    replaced and never followed. What a lasting one has comes down to the disk before it is put in its place; for its name see
    `sync`."""
    with telling(path):
        put(path, data.encode() if isinstance(data, str) else data, is_lasting)


def append_to(path: Path, data: bytes, is_lasting: bool = False) -> None:
    """Adds bytes behind those of a file of a folder that is the lab's own. If the file is lasting, they have then come down to
    the disk. A link in its place is refused."""
    with telling(path):
        handle = os.open(path, os.O_WRONLY | os.O_APPEND | os.O_NOFOLLOW | os.O_CLOEXEC)
        try:
            left = memoryview(data)
            while left:
                left = left[os.write(handle, left):]
            if is_lasting:
                os.fsync(handle)
        finally:
            os.close(handle)


def cut_off(path: Path, size: int) -> None:
    """Cuts off what a file of a folder that is the lab's own has behind so many bytes."""
    with telling(path):
        handle = os.open(path, os.O_WRONLY | os.O_NOFOLLOW | os.O_CLOEXEC)
        try:
            if os.fstat(handle).st_size > size:
                os.ftruncate(handle, size)
        finally:
            os.close(handle)


def ends_with(path: Path, data: bytes) -> bool:
    """Whether these are the last bytes of a file, of which no more is read."""
    try:
        with path.open("rb") as file:
            file.seek(max(0, file.seek(0, os.SEEK_END) - len(data)))
            return file.read() == data
    except OSError as error:
        raise LabError(f"{path}: can't be read: {cause(error)}") from error


def write_new(path: Path, data: str | bytes) -> None:
    """Writes a file of a folder that is temporary, so that nobody else sees it."""
    with telling(path):
        path.write_bytes(data.encode() if isinstance(data, str) else data)


def put(place: Path, data: bytes, is_lasting: bool) -> None:
    """Writes a new file in the folder of a place, and puts it there. A file of the caller's own that was there leaves its
    mode to the new one."""
    beside, handle = new_beside(place)
    try:
        with open(handle, "wb") as file:
            mode = mode_of(place)
            if mode is not None:
                os.fchmod(handle, mode)
            file.write(data)
            if is_lasting:
                file.flush()
                os.fsync(handle)
        os.replace(beside, place)
    except BaseException:
        beside.unlink(missing_ok=True)
        raise


def new_beside(place: Path) -> tuple[Path, int]:
    """A new file in the folder of a place, open to be written. Nobody can foresee its name, and if something has it already,
    be it a link, that isn't opened."""
    beside = place.with_name(f"{FRONT}{secrets.token_hex(TOKEN)}{PART}")
    return beside, os.open(beside, os.O_WRONLY | os.O_CREAT | os.O_EXCL | os.O_NOFOLLOW | os.O_CLOEXEC, 0o666)


def mode_of(place: Path) -> int | None:
    """The rights on a file of the caller's own; None if there is no file, or none of one's own."""
    try:
        there = place.lstat()
    except FileNotFoundError:
        return None
    is_own = stat.S_ISREG(there.st_mode) and there.st_uid == os.geteuid()
    return there.st_mode & 0o777 if is_own else None


def drop_left(folder: Path) -> None:
    """Takes away what calls that were killed have left beside files of a folder, at which no other call is at work."""
    for left in folder.glob(f"{FRONT}*{PART}"):
        left.unlink(missing_ok=True)


def sync(path: Path) -> None:
    """Has what was written to a file come down to the disk, or the names of the files of a folder; some file systems don't do
    that for folders."""
    handle = os.open(path, os.O_RDONLY)
    try:
        os.fsync(handle)
    except OSError as error:
        if error.errno != errno.EINVAL:
            raise
    finally:
        os.close(handle)


def read_bytes(path: Path) -> bytes:
    """What a file has."""
    try:
        return path.read_bytes()
    except OSError as error:
        raise LabError(f"{path}: can't be read: {cause(error)}") from error


def read_text(path: Path) -> str:
    """The text of a file, with its line ends as they are."""
    try:
        return read_bytes(path).decode()
    except UnicodeDecodeError as error:
        raise LabError(f"{path}: byte {error.start + 1} is no part of a text in UTF-8") from error


def read_comments(path: Path) -> str:
    """The text of a file whose comments may have any bytes: in UTF-8, with a mark that can't be printed for each other byte."""
    return read_bytes(path).decode(errors="surrogateescape")


def read_rows(path: Path) -> list[list[str]]:
    """The rows of a table in CSV, of which there is at least one."""
    try:
        return list(csv.reader(io.StringIO(read_text(path)))) or [[]]
    except csv.Error as error:
        raise LabError(f"{path}: no table in CSV: {error}") from error


def read_byte_text(path: Path) -> str:
    """The text of a file whose comments may have any bytes: one letter for each byte, as in Latin-1."""
    return read_bytes(path).decode("latin-1")
