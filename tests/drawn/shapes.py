"""What a drawn class has, as far as the bodies of functions can name it."""
from __future__ import annotations

from dataclasses import dataclass, field
from typing import Optional

QUARK_BITS = 32


@dataclass(frozen=True)
class Number:
    """A type of numbers: its name, its width, and the class in which operators have it."""

    name: str
    width: int

    def family(self) -> str:
        """The class."""
        return "Unsigned" if self.name == "Unary" else self.name

    def text(self) -> str:
        """The type as it is written."""
        return self.name if self.name == "Bool" else f"{self.name}({self.width})"

    def ends(self) -> tuple[int, int]:
        """The least and the greatest number of the type."""
        if self.name == "Int":
            return -(1 << (self.width - 1)), (1 << (self.width - 1)) - 1
        return 0, self.width if self.name == "Unary" else (1 << self.width) - 1


@dataclass(frozen=True)
class Member:
    """A data member that is a number, or an array of them if it has a length."""

    name: str
    of: Number
    length: int = 0


@dataclass(frozen=True)
class Constant:
    """A constant with its value."""

    name: str
    of: Number
    value: int


@dataclass(frozen=True)
class Function:
    """A function: what it gives (`Void`, `Atom`, or a type of numbers) and takes, and which member it is sure to change."""

    name: str
    result: str
    gives: Optional[Number]
    takes: tuple[Number, ...]
    virtual: bool = False
    changes: Optional[Member] = None


@dataclass
class Shape:
    """A class with all that it has of its bases too. `parts` are the data members that are quarks."""

    name: str
    is_quark: bool
    members: list[Member] = field(default_factory=list)
    parts: list[tuple[str, Shape]] = field(default_factory=list)
    constants: list[Constant] = field(default_factory=list)
    functions: list[Function] = field(default_factory=list)
    window: str = ""
    draws: str = ""
    bits: int = 0

    def numbers(self) -> list[Member]:
        """The members that are numbers or arrays, those of parts with their paths."""
        inner = [Member(f"{part}.{it.name}", it.of, it.length) for part, shape in self.parts for it in shape.numbers()]
        return self.members + inner

    def calls(self) -> list[Function]:
        """The functions that a body of the class can call, those of parts with their paths."""
        inner = [
            Function(f"{part}.{it.name}", it.result, it.gives, it.takes)
            for part, shape in self.parts for it in shape.calls()
        ]
        return self.functions + inner
