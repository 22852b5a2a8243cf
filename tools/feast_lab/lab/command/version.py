"""What `./lab --version` says: the version, the SHA-256 of the program, and the kit with which that was proved."""
import argparse
import re
from pathlib import Path
from typing import Any

from ...proved.record import NAME, Record, digest_of

from ..base.errors import LabError
from ..base.program import TOP, Program

# What the text of a released folder says of its program.
RELEASED = re.compile(r"^proved with (.*)\nSHA-256 of bin/feast (\w+)$", re.MULTILINE)


class Version(argparse.Action):
    """The option: says it, and ends."""

    def __call__(self, parser: argparse.ArgumentParser, *_: Any) -> None:
        print("\n".join(lines()))
        parser.exit()


def lines() -> list[str]:
    """The lines; the last two stand for the program, if there is one."""
    version = [f"lab {(TOP / 'VERSION').read_text().strip()}"]
    try:
        program = Program.find().path
    except LabError as why:
        return [*version, f"program none: {why}"]
    digest = digest_of(program) or ""
    return [*version, f"program {digest}", f"kit {kit_of(program, digest) or 'not known'}"]


def kit_of(program: Path, digest: str) -> str | None:
    """The kit that a text names which tells of this program; None if there is none."""
    record = Record.read(program.with_name(NAME))
    if record and record.program == digest:
        return record.kit
    released = TOP / "KIT"
    found = RELEASED.search(released.read_text()) if released.is_file() else None
    return found[1] if found and found[2] == digest else None
