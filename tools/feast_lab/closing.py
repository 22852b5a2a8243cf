"""What runs, chains and sweeps have in common: a temporary folder, which goes away when they are closed."""
from tempfile import TemporaryDirectory
from typing import Self

from .lab.base.errors import LabError


class Closing:
    """Something with a temporary folder, unless it is to stay. `with` closes it at the end: the folder goes away."""

    def __init__(self, room: TemporaryDirectory[str] | None) -> None:
        self._room = room
        self.is_closed = False

    def __enter__(self) -> Self:
        return self

    def __exit__(self, *_error: object) -> None:
        self.close()

    @property
    def is_passing(self) -> bool:
        """Whether there is a folder that goes away."""
        return self._room is not None

    @property
    def is_gone(self) -> bool:
        """Whether there was such a folder."""
        return self.is_closed and self.is_passing

    def refuse_gone(self, what: str) -> None:
        """Raises LabError if the folder is gone; `what` is what lay in it."""
        if self.is_gone:
            raise LabError(f"{what} is closed, and its folder has gone with it")

    def close(self) -> None:
        """Takes the temporary folder away, if there is one."""
        self.is_closed = True
        if self._room is not None:
            self._room.cleanup()
