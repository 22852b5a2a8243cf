"""Folders that are held, so that no second call of the lab is at work in them."""
import fcntl
import os
import sys
from collections.abc import Iterator
from contextlib import contextmanager
from pathlib import Path

from .errors import LabError
from .files import cause, drop_left


@contextmanager
def held(folder: Path, work: str) -> Iterator[None]:
    """Holds a folder, and refuses if another call of the lab holds it, which then is `work`. What calls that were killed
    have left half written in it is taken away.

    A file system without locks holds nothing: that is told on standard error, and the call goes on.
    """
    try:
        handle = os.open(folder, os.O_RDONLY | os.O_DIRECTORY)
    except OSError as error:
        raise LabError(f"{folder}: can't be held: {cause(error)}") from error
    try:
        if lock(handle, folder, work):
            drop_left(folder)
        yield
    finally:
        os.close(handle)


def lock(handle: int, folder: Path, work: str) -> bool:
    """Locks an open folder; gives back whether its file system could."""
    try:
        fcntl.flock(handle, fcntl.LOCK_EX | fcntl.LOCK_NB)
    except BlockingIOError as error:
        raise LabError(f"{folder}: another call of the lab is {work}") from error
    except OSError as error:
        print(f"lab: warning: {folder}: can't be locked ({cause(error)}); see to it that no other call is {work}", file=sys.stderr)
        return False
    return True
