"""The note that everything passed on a commit: `./test all` leaves it, and a release asks for it.

It stands in git's own folder, so that it is no part of the tree, and goes with no clone.
"""
from __future__ import annotations

import hashlib
import json
import os
from dataclasses import asdict, dataclass
from pathlib import Path

from releasing.tree import ReleaseError, common_folder

NAME = "feast-passed.json"


@dataclass(frozen=True)
class Record:
    """The commit on which everything passed, the SHA-256 of the program that was built of it, the kit's line, and what was
    left out: how many checks, or parts of them, for each reason."""

    commit: str
    program: str
    kit: str
    left_out: dict[str, int]

    def write(self, top: Path) -> Path:
        """Puts the note in its place, whole; gives the place."""
        path = common_folder(top) / NAME
        beside = path.with_name(f"{NAME}.{os.getpid()}")
        beside.write_text(json.dumps(asdict(self), indent=2) + "\n")
        os.replace(beside, path)
        return path

    @classmethod
    def read(cls, top: Path) -> Record:
        """The note of a clone. ReleaseError if there is none."""
        path = common_folder(top) / NAME
        try:
            return cls(**json.loads(path.read_text()))
        except FileNotFoundError:
            raise ReleaseError("no run of ./test all has passed in this clone: there is no note of one") from None
        except (OSError, ValueError, TypeError) as fault:
            raise ReleaseError(f"{path}: it can't be read as the note of a run of ./test all ({fault})") from None


def digest(path: Path) -> str:
    """The SHA-256 of a file. ReleaseError if it can't be read."""
    try:
        return hashlib.sha256(path.read_bytes()).hexdigest()
    except OSError as fault:
        raise ReleaseError(f"{path}: {fault.strerror}") from None
