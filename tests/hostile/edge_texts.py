"""What files that can't be loaded are refused with, and a report that is written in two pieces."""
from __future__ import annotations

from jobs import ZEROS, File

# A report of two pieces, of 4,096 and of 1,926 bytes.
LONG_WORLD = b"feast 1\ntiles 1 1\nsize 8 8\n" + (b"try 0 0 0 " + ZEROS + b"\n") * 200
LONG_REPORT = (
    b"feast 1\natoms 0\njournal 200\n"
    + b"".join(b"%d 0 %d 0 0 %s\n" % (i + 1, i, ZEROS) for i in range(200))
    + b"abandoned 0\n"
)


def unreadable(name: str) -> bytes:
    """The refusal of a file that can't be read."""
    return name.encode() + b": E01 unreadable\n"


def too_long(file: File) -> bytes:
    """The refusal of an input that has no end."""
    return file.name.encode() + b": E02 longer than %d bytes\n" % file.most
