"""Refusals: their codes and texts, and the places at which they come."""
from __future__ import annotations

# A place in an element file: the number of the file and the bytes before the place.
Spot = tuple[int, int]

TEXTS = {
    10: "bad byte", 11: "comment is not closed", 12: "number too large", 13: "too many tokens",
    20: "syntax", 21: "nested too deep",
    30: "name declared twice", 31: "unknown name", 32: "quark contains itself", 33: "no behave", 34: "bad constant",
    35: "too many", 36: "bad width", 37: "base is not a quark", 38: "class is its own base",
    39: "override does not match", 40: "quark takes {} bits, at most 32", 41: "element takes {} bits, at most 71",
    50: "wrong type", 51: "signed with unsigned", 52: "not assignable", 53: "wrong number of arguments",
    54: "not an element", 55: "not in a loop", 56: "missing return",
    60: "code is longer than 65536 instructions",
    70: "bad header", 71: "bad line", 72: "number out of range", 73: "unknown element", 74: "site is taken",
    75: "too many attempts", 76: "missing line",
    80: "bad line", 81: "out of order after line {}", 82: "not a site of the tile", 83: "not an attempt of the tile",
    84: "journal has {} records",
}


class Refused(Exception):
    """An element file is refused at a spot. The number is the one of the text, if that has one."""

    def __init__(self, code: int, spot: Spot, number: int = 0) -> None:
        super().__init__(code, spot, number)
        self.code = code
        self.spot = spot
        self.number = number


class RefusedLine(Exception):
    """A world or a report is refused at a line, counted from 1."""

    def __init__(self, code: int, line: int, number: int = 0) -> None:
        super().__init__(code, line, number)
        self.code = code
        self.line = line
        self.number = number


def refusal_line(name: bytes, line: int, column: int, code: int, number: int) -> bytes:
    """The line that tells of a refusal."""
    return b"%s:%d:%d: E%02d %s\n" % (name, line, column, code, TEXTS[code].format(number).encode())


def line_and_column(data: bytes, offset: int) -> tuple[int, int]:
    """Where a byte of a text stands, both counted from 1."""
    return data.count(b"\n", 0, offset) + 1, offset - data.rfind(b"\n", 0, offset)
