"""The program that is called, and the files that it is given."""
import os
import platform
import re
from collections.abc import Iterator, Sequence
from contextlib import contextmanager
from pathlib import Path

from .lab.base.errors import LabError
from .lab.base.program import INSTEAD, Program

MACHINE = ("Linux", "x86_64")
GLIBC = re.compile(r"glibc (\d+)\.(\d+)")
LEAST = (2, 34)
Paths = str | Path | Sequence[str | Path]


def found(program: str | Path | None) -> Program:
    """The program that is named, or the one that the lab finds. Refuses a name that is none of a program, and a machine on
    which the one that the lab finds can't run."""
    if program is None:
        refuse_machine()
    called = Program.find() if program is None else Program(Path(program).resolve())
    if not (called.path.is_file() and os.access(called.path, os.X_OK)):
        raise LabError(f"{called.path}: there is no program to call; name the built one by program= or in the variable {INSTEAD}")
    return called


def refuse_machine() -> None:
    """Raises LabError on a machine for which no program is built, unless one is named by the environment."""
    if os.environ.get(INSTEAD):
        return
    system, processor = platform.system(), platform.machine()
    if (system, processor) != MACHINE:
        raise LabError(f"feast can't run here: its program is built for Linux on x86-64, and this is {system} on {processor}")
    found = GLIBC.match(library())
    if found is None or (int(found[1]), int(found[2])) < LEAST:
        raise LabError(f"feast can't run here: its program needs glibc {LEAST[0]}.{LEAST[1]} or later, and this machine has "
                       f"{library() or 'none'}")


def library() -> str:
    """The name and the version of the C library, if it is glibc."""
    try:
        return os.confstr("CS_GNU_LIBC_VERSION") or ""
    except (ValueError, OSError):
        return ""


def files_of(elements: Paths) -> list[Path]:
    """The element files that are named, one or several."""
    named = [elements] if isinstance(elements, (str, os.PathLike)) else list(elements)
    if not named:
        raise LabError("elements: at least one file has to be named")
    return [Path(file).resolve() for file in named]


@contextmanager
def plain_names() -> Iterator[None]:
    """Has what the lab refuses name the parameters of a call in place of the options of a command."""
    try:
        yield
    except LabError as error:
        text = str(error)
        raise (LabError(text.removeprefix("--")) if text.startswith("--") else error) from None
