"""The pieces of which long inputs are made."""
from __future__ import annotations

from typing import Iterator, NamedTuple

from feast_lab.lab.base.limits import MOST_ACROSS, MOST_CLASSES, MOST_COLUMNS, MOST_SIDE
from jobs import STATE, ZEROS


def fill(head: bytes, piece: bytes, total: int, last: bytes = b"") -> Iterator[bytes]:
    """A beginning, as many pieces as fit, and an end, with spaces in a comment up to a length."""
    yield head
    count, left = divmod(total - len(head) - len(last), len(piece))
    block = piece * 1000
    for _ in range(count // 1000):
        yield block
    yield piece * (count % 1000)
    yield filler(left)
    yield last


def filler(length: int) -> bytes:
    """A comment line, or empty lines, of a length."""
    return b"#" + b" " * (length - 2) + b"\n" if length >= 2 else b"\n" * length


class Lines(NamedTuple):
    """Lines in pieces, and how many they are."""

    number: int
    pieces: list[bytes]


def lined(line: bytes, total: int) -> Lines:
    """As many of a line as fit into a length."""
    count = (total - 100) // len(line)
    return Lines(count, [line * 1000] * (count // 1000) + [line * (count % 1000)])


def records(count: int) -> Iterator[bytes]:
    """The report of so many attempts at the one corner of an empty plane."""
    yield b"feast 1\natoms 0\njournal %d\n" % count
    for first in range(0, count, 10_000):
        yield b"".join(b"%d 0 %d 0 0 %s\n" % (i + 1, i, ZEROS) for i in range(first, min(first + 10_000, count)))
    yield b"abandoned 0\n"


def packed(elements: int, functions: int, instructions: int, name: bytes = b"E") -> Iterator[bytes]:
    """A code file of so many elements, each of so many functions that are one code, and of so many
    instructions in the first: numbers that are pushed and dropped."""
    yield bytes.fromhex("4645415354430100") + elements.to_bytes(2, "big")
    first = b"\0" + bytes(9) + b"\4"
    length = 2 * instructions + functions
    for number in range(elements):
        own = name + b"%d" % number
        yield len(own).to_bytes(4, "big") + own + functions.to_bytes(4, "big")
        for place in range(functions):
            begin = 0 if place == 0 else 2 * instructions + place
            yield b"\0\0\0\1f\0" + begin.to_bytes(4, "big") + b"\0\0\0"
        yield length.to_bytes(4, "big") + first * instructions + b"\x30" * functions


def stacking(rounds: int, last: bytes) -> bytes:
    """The code file of an element A that pushes a number, and as often as said doubles it and adds both, and of the
    last instructions. A round makes three lists of operands, two of them for the double."""
    instructions = b"\0" + bytes(8) + b"\1" + b"\x3c\x12" * rounds + last
    own = b"\0\0\0\1A\0\0\0\1\0\0\0\6behave" + bytes(8)
    return b"FEASTC\1\0\0\1" + own + (1 + 2 * rounds + len(last)).to_bytes(4, "big") + instructions


# long names of as many elements as there can be
FULL_NAMES = [b"N" * 240 + b"%d" % k for k in range(MOST_CLASSES)]


def full_name(x: int, y: int) -> bytes:
    """The element that stands on a site of a full plane."""
    return FULL_NAMES[(x * 7 + y) % len(FULL_NAMES)]


def full_world() -> Iterator[bytes]:
    """A world with an atom at each of its 262,144 sites."""
    yield b"feast 1\ntiles %d %d\nsize %d %d\n" % (MOST_ACROSS, MOST_ACROSS, MOST_SIDE, MOST_SIDE)
    for y in range(MOST_COLUMNS):
        for x in range(MOST_COLUMNS):
            yield b"atom %d %d %s\n" % (x, y, full_name(x, y))


def full_report() -> Iterator[bytes]:
    """The report of that world."""
    yield b"feast 1\natoms %d\n" % MOST_COLUMNS**2
    for y in range(MOST_COLUMNS):
        yield b"".join(b"%d %d %s %s\n" % (x, y, full_name(x, y), STATE) for x in range(MOST_COLUMNS))
    yield b"journal 0\nabandoned 0\n"
