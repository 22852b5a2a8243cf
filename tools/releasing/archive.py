"""A released folder as one file: the same bytes whenever and by whomever it is made."""
from __future__ import annotations

import gzip
import tarfile
from pathlib import Path
from typing import BinaryIO, cast

# What the archive's name has behind the folder's.
NAME = ".tar.gz"


def pack(folder: Path, archive: Path, name: str, time: int) -> None:
    """Packs a folder under a name, each file with this time (in seconds since 1970) and of nobody in particular."""
    def plain(item: tarfile.TarInfo) -> tarfile.TarInfo:
        item.uid = item.gid = 0
        item.uname = item.gname = ""
        item.mtime = time
        return item

    with archive.open("wb") as file, gzip.GzipFile("", "wb", 9, file, 0) as pressed:
        with tarfile.open(fileobj=cast(BinaryIO, pressed), mode="w", format=tarfile.USTAR_FORMAT) as packed:
            packed.add(folder, name, recursive=False, filter=plain)
            for path in sorted(folder.rglob("*")):
                packed.add(path, f"{name}/{path.relative_to(folder)}", recursive=False, filter=plain)
