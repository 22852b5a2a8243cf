"""What was proved: a short text beside a program, a field a line, `NAME: VALUE`."""
from __future__ import annotations

import hashlib
import os
import re
import subprocess
from dataclasses import asdict, dataclass
from pathlib import Path

from .sources import LINE

NAME = "PROVED"
# How a program was proved: by the toolchain's gate, or by this repository's launcher.
GATE, LAUNCHER = "rt ci", "./feast --prove"
FIELD = re.compile(r"^(\w+): (.*)$", re.MULTILINE)
HOW = f"""
The program's value is what `sha256sum feast` prints in this folder. That of the sources is what this line prints at the top
of the repository, where `sources.py` in tools/feast_lab/proved says what counts as a source:
{LINE}
"""


@dataclass(frozen=True)
class Record:
    """The line of the kit with which a program was proved, the command that proved it, the SHA-256 of the program, and the
    digest of the sources that it was made of."""

    kit: str
    by: str
    program: str
    sources: str

    def text(self) -> str:
        """The text of the record."""
        return "".join(f"{name}: {value}\n" for name, value in asdict(self).items()) + HOW

    def write(self, path: Path) -> None:
        """Puts the record in its place, whole."""
        beside = path.with_name(f".{path.name}.{os.getpid()}")
        beside.write_text(self.text())
        os.replace(beside, path)

    @classmethod
    def read(cls, path: Path) -> Record | None:
        """The record in a file; None if there is none, or it is none."""
        try:
            fields = FIELD.findall(path.read_text().partition("\n\n")[0])
            return cls(**dict(fields)) if len(fields) == 4 else None
        except (OSError, ValueError, TypeError):
            return None


def kit() -> str:
    """The line by which the kit names itself. CalledProcessError if it doesn't."""
    done = subprocess.run(["rt", "version"], stdout=subprocess.PIPE, text=True, check=True)
    return " ".join(done.stdout.split())


def digest_of(path: Path) -> str | None:
    """The SHA-256 of a file; None if it can't be read."""
    try:
        return hashlib.sha256(path.read_bytes()).hexdigest()
    except OSError:
        return None
