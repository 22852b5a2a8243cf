"""The numbers of the stack machine: what its operators give, and how numbers lie in the state of an atom.

An atom is one number here: its type times 2^71, and its state. So the empty atom is 0.
"""
from collections.abc import Callable

from ..base.limits import STATE_BITS

WORD = (1 << 64) - 1
Binary = Callable[[int, int], int]


class DividedByZero(Exception):
    """A quotient or a remainder by 0."""


def limits(kind: str, width: int) -> tuple[int, int]:
    """The least and the greatest number of a type."""
    if kind == "Int":
        return -(1 << width - 1), (1 << width - 1) - 1
    return 0, width if kind == "Unary" else (1 << width) - 1


def fitting(kind: str, width: int) -> Callable[[int], int]:
    """What makes any number one of a type: for Bits its low bits, for Bool its truth, else the nearest one."""
    if kind == "Bool":
        return lambda number: int(number != 0)
    least, greatest = limits(kind, width)
    if kind == "Bits":
        return lambda number: number & greatest
    return lambda number: least if number < least else greatest if number > greatest else number


def quotient(one: int, other: int) -> int:
    """The quotient, truncated toward 0."""
    if other == 0:
        raise DividedByZero
    found = abs(one) // abs(other)
    return found if (one < 0) == (other < 0) else -found


def remainder(one: int, other: int) -> int:
    """The remainder of that quotient, which has the sign of the dividend."""
    return one - other * quotient(one, other)


def within(kind: str, width: int, exact: Binary) -> Binary:
    """An operator whose exact results become the nearest numbers of a type."""
    least, greatest = limits(kind, width)

    def operate(one: int, other: int) -> int:
        found = exact(one, other)
        return least if found < least else greatest if found > greatest else found

    return operate


def shifted_up(width: int) -> Binary:
    """The operator that moves up the bits of a number, and keeps so many."""
    mask = (1 << width) - 1
    return lambda number, count: (number & WORD) << count & mask if 0 <= count < 64 else 0


def shifted_down(number: int, count: int) -> int:
    """The bits of a number, moved down."""
    return (number & WORD) >> count if 0 <= count < 64 else 0


EXACT: dict[str, Binary] = {
    "Add": lambda one, other: one + other,
    "Sub": lambda one, other: one - other,
    "Mul": lambda one, other: one * other,
    "Div": quotient,
    "Rem": remainder,
}
TYPES = {"I": ("Int", 32), "U": ("Unsigned", 32), "L": ("Int", 64), "V": ("Unsigned", 64)}
BINARY: dict[str, Binary] = {
    **{name + letter: within(*TYPES[letter], exact) for name, exact in EXACT.items() for letter in TYPES},
    "And": lambda one, other: one & other & WORD,
    "Or": lambda one, other: (one | other) & WORD,
    "Xor": lambda one, other: (one ^ other) & WORD,
    "Shr": shifted_down,
    "Eq": lambda one, other: int(one == other),
    "Ne": lambda one, other: int(one != other),
    "Lt": lambda one, other: int(one < other),
    "Le": lambda one, other: int(one <= other),
    "Gt": lambda one, other: int(one > other),
    "Ge": lambda one, other: int(one >= other),
}


class Field:
    """A field of a state: so many bits from a first one on, read and written as a number of some kind."""

    def __init__(self, first: int, width: int, kind: str) -> None:
        self.shift = STATE_BITS - first - width
        self.mask = (1 << width) - 1
        self.sign = 1 << width - 1 if kind == "Int" else 0
        self.is_unary = kind == "Unary"
        self.fit = fitting(kind, width)
        self.clear = ~(self.mask << self.shift)

    def value(self, atom: int) -> int:
        """The number that an atom has there; for Unary how many bits are 1."""
        bits = atom >> self.shift & self.mask
        if self.is_unary:
            return bits.bit_count()
        return (bits ^ self.sign) - self.sign

    def put(self, atom: int, number: int) -> int:
        """The atom with a number there, made one of the kind; for Unary as many low ones."""
        value = self.fit(number)
        bits = (1 << value) - 1 if self.is_unary else value & self.mask
        return atom & self.clear | bits << self.shift
