"""Worlds as data: atoms from numbers and arrays, from drawings, and at random; no text is written by hand."""
from collections.abc import Mapping, Sequence
from fractions import Fraction
from pathlib import Path
from typing import Any

import numpy

from .lab.base.errors import LabError
from .lab.base.files import read_comments, write_whole
from .lab.formats.layout import Layout
from .lab.formats.world import Placed, World as Frame
from .lab.worlds.fill import Fill, scattered
from .lab.worlds.frame import WantedFrame
from .lab.worlds.paint import key
from .lab.worlds.stamps import marks_of

from .arrays import Array
from .moments import Moment
from .programs import Paths, files_of, found, plain_names

Numbers = Any  # a whole number, or an array or a list of them


class World:
    """A world that draws its attempts: its tiles and their sizes, its seeds, and its atoms, of the elements of some files.

    Each call that changes it gives the world back, so that calls can follow one another.
    """

    def __init__(self, elements: Paths, *, tiles: tuple[int, int] = (1, 1), size: tuple[int, int] = (32, 32), seed: int = 1,
                 attempts: int = 1000, order: int | None = None, off: Sequence[int] = (), program: str | Path | None = None) -> None:
        """A world without atoms. `tiles` and `size` are across and down, `size` that of a tile in sites; each tile makes
        `attempts` attempts. `order` is the seed of the order of a stepped run, and `off` are tiles that make none."""
        self.files = files_of(elements)
        self.layout = Layout.of(found(program), self.files)
        with plain_names():
            self._frame = WantedFrame(size, tiles, seed, attempts, order).world()
        self._frame.off = sorted(set(map(int, off)))
        self._frame.version = 2 if off else 1
        for tile in self._frame.off:
            if not 0 <= tile < self._frame.tiles:
                raise LabError(f"off: there is no tile {tile}; the tiles are 0 to {self._frame.tiles - 1}")
        self._atoms: dict[tuple[int, int], Placed] = {}

    @staticmethod
    def read(path: str | Path, elements: Paths, *, program: str | Path | None = None) -> "World":
        """The world of a file, which draws its attempts."""
        frame = Frame.read(Path(path))
        if frame.seed is None or frame.attempts is None:
            raise LabError(f"{path}: its attempts have to be drawn, by lines `seed N` and `attempts K`")
        found = World(elements, program=program)
        found._frame, found._atoms = frame, {(atom.x, atom.y): atom for atom in frame.atoms}
        for atom in frame.atoms:
            found.layout.numbers(atom.name)
        return found

    def __repr__(self) -> str:
        it = self._frame
        return f"<World of {it.tiles_x}x{it.tiles_y} tiles of {it.width}x{it.height} sites: {len(self):,} atoms>"

    def __len__(self) -> int:
        return len(self._atoms)

    @property
    def shape(self) -> tuple[int, int]:
        """The rows and the columns of the plane, as the shape of its arrays."""
        return self._frame.rows, self._frame.columns

    @property
    def sites(self) -> int:
        """How many sites the tiles have that are on."""
        return self._frame.sites

    @property
    def text(self) -> str:
        """The world as a file has it, with its atoms row by row."""
        return self._frame.front() + "".join(f"atom {line}\n" for line in self._lines()) + self._frame.back()

    def save(self, path: str | Path) -> None:
        """Writes the world to a file, whole or not at all."""
        write_whole(Path(path), self.text)

    def put(self, element: str, x: Numbers, y: Numbers, **members: Numbers) -> "World":
        """Puts atoms of an element at columns x and rows y, in place of what is there; members that aren't named are 0.

        Columns, rows and members are whole numbers or arrays, which go together as NumPy's do. A member with a dot or
        brackets in its name is given as `**{"list[1]": 3}`. Refuses a site that no tile has that is on, and a value
        out of a member's range; then no atom is put.
        """
        arrays = [whole(name, it) for name, it in (("x", x), ("y", y), *members.items())]
        try:
            columns = [it.ravel().tolist() for it in numpy.broadcast_arrays(*arrays)]
        except ValueError:
            raise LabError(f"put: x, y and members have the shapes {', '.join(str(it.shape) for it in arrays)}") from None
        known: dict[tuple[int, ...], int] = {}
        atoms = []
        for column, row, *values in zip(*columns, strict=True):
            state = known.get(tuple(values))
            if state is None:
                state = known[tuple(values)] = self.layout.encode(element, dict(zip(members, values, strict=True)))
            atoms.append(Placed(*self._site(column, row), element, state))
        return self._place(atoms)

    def fill(self, element: str, density: float, seed: int, **members: int) -> "World":
        """Puts an atom of an element on each empty site with a probability, drawn from a seed; members that aren't named are 0.

        Each site takes a random number, whether it is empty or not. So, of one seed, the greater density has the atoms
        of the smaller one and more, and a world without atoms gets what a sweep's `fill.Element` gives it.
        """
        if not 0 <= density <= 1:
            raise LabError(f"fill: a density is from 0 to 1, not {density}")
        state = self.layout.encode(element, members)
        drawn = scattered(self._frame, [Fill(element, state, Fraction(str(density)))], seed)
        off = set(self._frame.off)
        return self._place([it for it in drawn if (it.x, it.y) not in self._atoms and self._frame.tile_at(it.x, it.y) not in off])

    def draw(self, drawing: str, keys: Mapping[str, str], x: int = 0, y: int = 0) -> "World":
        """Puts the atoms of a drawing in letters, or of a pattern in RLE, whose first symbol has the site x, y.

        `keys` has for each symbol what it stands for, as `Element` or `Element:member=value,..`. In a drawing `.` and the
        blank are empty, and in RLE `.` and `b`.
        """
        meant = {symbol: key(f"{symbol}={words}", self.layout)[1] for symbol, words in keys.items()}
        atoms = []
        for column, row, symbol in marks_of(drawing):
            if symbol not in meant:
                raise LabError(f"draw: {symbol} at column {column} of row {row} has no key")
            atoms.append(Placed(*self._site(column + x, row + y), meant[symbol].element, meant[symbol].state))
        return self._place(atoms)

    def clear(self, x: Numbers, y: Numbers) -> "World":
        """Leaves no atoms at columns x and rows y."""
        columns, rows = numpy.broadcast_arrays(whole("x", x), whole("y", y))
        for site in zip(columns.ravel().tolist(), rows.ravel().tolist()):
            self._atoms.pop(self._site(*site), None)
        return self

    @property
    def plane(self) -> Moment:
        """The atoms as the plane of a run has them: `plane.atoms`, `plane.grid("Element.member")`."""
        texts = [(file, read_comments(file)) for file in self.files]
        return Moment.of("a world", self._frame, self.layout, texts, 0, self._lines())

    def grid(self, name: str) -> Array:
        """The values of a member `Element.member`, by row and column, masked where there is no such atom."""
        return self.plane.grid(name)

    def _repr_svg_(self) -> str | None:
        return self.plane._repr_svg_()

    def _repr_png_(self) -> bytes | None:
        return self.plane._repr_png_()

    def _lines(self) -> list[str]:
        """The atoms as a report has them, row by row."""
        return [self._atoms[site].text() for site in sorted(self._atoms, key=lambda it: (it[1], it[0]))]

    def _site(self, x: int, y: int) -> tuple[int, int]:
        """A site of the plane. Refuses one that it hasn't, or whose tile is off."""
        if not (0 <= x < self._frame.columns and 0 <= y < self._frame.rows):
            raise LabError(f"the site {x} {y} lies outside the plane of {self._frame.columns} by {self._frame.rows} sites")
        if self._frame.tile_at(x, y) in self._frame.off:
            raise LabError(f"the site {x} {y} lies on the tile {self._frame.tile_at(x, y)}, which is off")
        return x, y

    def _place(self, atoms: Sequence[Placed]) -> "World":
        """Puts atoms on their sites."""
        self._atoms |= {(atom.x, atom.y): atom for atom in atoms}
        return self


def whole(name: str, value: Numbers) -> Array:
    """Whole numbers or truth values as an array; refuses others."""
    try:
        array = numpy.asarray(value)
    except ValueError:
        raise LabError(f"{name}: lists within a list have to be of one length") from None
    if array.dtype.kind not in "iub" and array.size:
        raise LabError(f"{name}: these have to be whole numbers of at most 64 bits, and not {array.dtype}")
    return array.astype("i8") if array.dtype.kind not in "iu" else array
