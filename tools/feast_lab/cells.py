"""The atoms of a plane as arrays, site by site, and the values of their members."""
from collections.abc import Mapping, Sequence
from dataclasses import dataclass

import numpy

from .lab.formats.layout import Leaf

from .arrays import Array, kind_of

LOW_BITS = 64  # the bits of a state that `low` has; `high` has those before them
BYTES = 9  # of a state, whose first bit is 0
DIGITS = 18  # of a state as a report has it


@dataclass(frozen=True, eq=False)
class Cells:
    """What each site has, by row and column: in `codes` the number of its element, from 1 on in the order of the files and 0
    where no atom is, and in `high` and `low` the state, whose last 64 bits are in `low`."""

    codes: Array
    high: Array
    low: Array

    @staticmethod
    def of(lines: Sequence[str], elements: Sequence[str], rows: int, columns: int) -> "Cells":
        """The atoms of the lines of a report."""
        found = Cells.empty(rows, columns)
        words = " ".join(lines).split(" ") if lines else []
        sites = numpy.array(list(map(int, words[1::4])), "i8") * columns + numpy.array(list(map(int, words[0::4])), "i8")
        numbers = {name: at for at, name in enumerate(elements, 1)}
        found.codes.flat[sites] = [numbers[name] for name in words[2::4]]
        states = numpy.frombuffer(bytes.fromhex("".join(words[3::4])), "u1").reshape(-1, BYTES)
        found.high.flat[sites] = states[:, 0]
        found.low.flat[sites] = states[:, 1:].copy().view(">u8")[:, 0]
        return found

    @staticmethod
    def empty(rows: int, columns: int) -> "Cells":
        """A plane without atoms."""
        return Cells(numpy.zeros((rows, columns), "u2"), numpy.zeros((rows, columns), "u1"), numpy.zeros((rows, columns), "u8"))

    def __eq__(self, other: object) -> bool:
        """Whether each site has the same."""
        return isinstance(other, Cells) and all(numpy.array_equal(one, two) for one, two in (
            (self.codes, other.codes), (self.high, other.high), (self.low, other.low)))

    __hash__ = None  # type: ignore[assignment]

    def __len__(self) -> int:
        return int(numpy.count_nonzero(self.codes))

    def copy(self) -> "Cells":
        """The same atoms, apart from these."""
        return Cells(self.codes.copy(), self.high.copy(), self.low.copy())

    def put(self, changes: Mapping[int, str], numbers: Mapping[str, int]) -> None:
        """Makes atoms `NAME STATE` those of sites that are numbered row by row, or leaves them empty; elements have numbers."""
        codes, high, low = self.codes.ravel(), self.high.ravel(), self.low.ravel()
        for site, atom in changes.items():
            name, _, digits = atom.partition(" ")
            codes[site] = numbers[name] if atom else 0
            state = int(digits or "0", 16)
            high[site] = state >> LOW_BITS
            low[site] = state & (1 << LOW_BITS) - 1

    @property
    def sites(self) -> Array:
        """The sites that have an atom, numbered row by row."""
        return numpy.flatnonzero(self.codes)

    def states(self, sites: Array) -> list[str]:
        """The states of sites, as a report has them."""
        data = numpy.empty((len(sites), BYTES), "u1")
        data[:, 0] = self.high.flat[sites]
        data[:, 1:] = self.low.flat[sites].astype(">u8").view("u1").reshape(-1, BYTES - 1)
        text = data.tobytes().hex()
        return [text[at:at + DIGITS] for at in range(0, len(text), DIGITS)]

    def values(self, leaf: Leaf, sites: Array) -> Array:
        """The values that a member has in the states of sites, as exact whole numbers."""
        high, low = self.high.flat[sites].astype("u8"), self.low.flat[sites]
        shift = leaf.shift
        bits: Array = low
        if shift >= LOW_BITS:
            bits = high >> numpy.uint64(shift - LOW_BITS)
        elif shift:
            bits = low >> numpy.uint64(shift) | high << numpy.uint64(LOW_BITS - shift)
        bits = bits & numpy.uint64((1 << leaf.width) - 1)
        if leaf.kind == "Unary":
            bits = numpy.unpackbits(bits[:, None].view("u1"), axis=1).sum(axis=1)
        elif leaf.kind == "Int":
            above = numpy.uint64(LOW_BITS - leaf.width)
            bits = (bits << above).view("i8") >> numpy.int64(above)
        found: Array = bits.astype(kind_of(leaf.least, leaf.greatest))
        return found
