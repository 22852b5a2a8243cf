"""A folder that keeps copies of a world and of element files, from which its runs are made."""
import hashlib
from collections.abc import Sequence
from dataclasses import dataclass
from pathlib import Path

from .errors import LabError
from .files import cause, read_bytes, sync, telling, write_inside, write_new

START = "start.world"
ELEMENTS = "elements"


@dataclass(frozen=True)
class Inputs:
    """The folder. If it is lasting, what it has comes down to the disk: each file before it is put in its place, and the
    names of all before one that says that they are there (`settle`)."""

    path: Path
    is_lasting: bool = False

    def write(self, path: Path, data: str | bytes) -> None:
        """Writes one of its files, whole or not at all."""
        write_inside(path, data, self.is_lasting)

    def settle(self, *folders: Path) -> None:
        """Has the names of its files come down to the disk, if it is lasting, and those of the files of folders in it first."""
        if self.is_lasting:
            for folder in (*folders, self.path):
                with telling(folder):
                    sync(folder)

    @property
    def start(self) -> Path:
        """The copy of the world."""
        return self.path / START

    @property
    def copies(self) -> Path:
        """The folder of the copies of the element files."""
        return self.path / ELEMENTS

    @property
    def files(self) -> list[Path]:
        """The copies of the element files, in the order in which they were named."""
        try:
            return sorted(self.copies.iterdir())
        except OSError as error:
            raise LabError(f"{self.copies}: can't be read: {cause(error)}") from error

    def copy_in(self, world: Path, files: Sequence[Path]) -> None:
        """Makes the copies, in the place of those that a beginning left that was stopped."""
        self.copies.mkdir(exist_ok=True)
        if self.copies.is_symlink():
            raise LabError(f"{self.copies}: it has to be a folder, and is a link to one")
        for left in self.copies.iterdir():
            left.unlink()
        self.write(self.start, read_bytes(world))
        for number, file in enumerate(files):
            self.write(self.copies / f"{number:02}-{file.name}", read_bytes(file))

    def other(self, world: str, elements: Sequence[str]) -> Path | None:
        """The first copy that hasn't this digest any more, or the folder of the copies if there are more or fewer of them."""
        there, were = [self.start, *self.files], [world, *elements]
        if len(there) != len(were):
            return self.copies
        return next((copy for copy, was in zip(there, were, strict=True) if digest(read_bytes(copy)) != was), None)

    def with_plain_names(self, room: Path) -> list[Path]:
        """Copies of the copies of the element files, under the names that they had before they were numbered."""
        found = []
        for number, file in enumerate(self.files):
            found.append(room / str(number) / file.name.partition("-")[2])
            found[-1].parent.mkdir()
            write_new(found[-1], read_bytes(file))
        return found


def digest(data: bytes) -> str:
    """The SHA-256 of bytes."""
    return hashlib.sha256(data).hexdigest()
