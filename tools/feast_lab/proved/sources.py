"""The sources of the program, and their digest.

They are all files below `crates`, but for the folder `out` of each crate, and `crates.txt` and `HANDLES`. A file that git
doesn't know counts like any other, since the program is made of what lies there.
"""
import hashlib
import os
import re
from pathlib import Path

# What prints the same digest at the top of a clone.
LINE = (r"LC_ALL=C find crates crates.txt HANDLES -regex 'crates/[^/]*/out' -prune -o ! -type d -print0 | "
        r"LC_ALL=C sort -z | xargs -0 sha256sum -z | sha256sum")
OUT = re.compile(rb"crates/[^/]*/out", re.DOTALL)


class SourcesError(Exception):
    """Why there is no digest, as a reader is told."""


def names(top: Path) -> list[bytes]:
    """The names of the sources below a folder, in the order of their bytes. SourcesError at what is no plain file."""
    found, ahead = [], [b"HANDLES", b"crates.txt", b"crates"]
    while ahead:
        name = ahead.pop()
        path = os.path.join(os.fsencode(top), name)
        if os.path.isdir(path) and not os.path.islink(path):
            ahead += [inside for it in os.listdir(path) if not OUT.fullmatch(inside := name + b"/" + it)]
        elif os.path.isfile(path) and not os.path.islink(path):
            found.append(name)
        else:
            raise SourcesError(f"{os.fsdecode(name)}: there is no plain file of this name")
    return sorted(found)


def digest(top: Path) -> str:
    """The digest of the sources below a folder. SourcesError if one can't be read, or is no plain file."""
    whole = hashlib.sha256()
    try:
        for name in names(top):
            with open(os.path.join(os.fsencode(top), name), "rb") as file:
                whole.update(b"%s  %s\0" % (hashlib.sha256(file.read()).hexdigest().encode(), name))
    except OSError as fault:
        raise SourcesError(f"{os.fsdecode(fault.filename)}: {fault.strerror}") from None
    return whole.hexdigest()
