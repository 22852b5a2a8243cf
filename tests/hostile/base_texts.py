"""Classes with bases, as texts of a mebibyte: what they declare, and where each name stands."""
from __future__ import annotations

from dataclasses import dataclass
from typing import Iterator, Optional

from feast_lab.lab.base.limits import ELEMENT_LIMIT

# A line and a column, both from 1.
Place = tuple[int, int]

# How data members, functions and constants are written, without `virtual`.
FORMS = {"data": b"%b %b;", "function": b"%b %b(){}", "constant": b"constant %b %b=1;"}
# What stands before the type of each.
BEFORE = {"data": b"", "function": b"", "constant": b"constant "}


@dataclass(frozen=True)
class Member:
    """A member of a class: one of FORMS, its type and name, and whether `virtual` comes before it."""

    sort: str
    type: bytes
    name: bytes
    virtual: bool = False

    @property
    def is_function(self) -> bool:
        return self.sort == "function"

    def text(self) -> bytes:
        """The member as it is written."""
        return (b"virtual " if self.virtual else b"") + FORMS[self.sort] % (self.type, self.name)

    def column(self) -> int:
        """How many bytes of its text come before its name."""
        return len(b"virtual " if self.virtual else b"") + len(BEFORE[self.sort]) + len(self.type) + 1


@dataclass(frozen=True)
class Class:
    """A class: whether it is a quark, its name, its base if it has one, and its members."""

    quark: bool
    name: bytes
    base: Optional[bytes] = None
    members: tuple[Member, ...] = ()

    def head(self) -> bytes:
        """The class before its name."""
        return b"quark " if self.quark else b"element "

    def text(self) -> bytes:
        """The class in one line."""
        base = b":" + self.base if self.base else b""
        return self.head() + self.name + base + b"{" + b"".join(member.text() for member in self.members) + b"}\n"

    def places(self, line: int) -> Iterator[Place]:
        """Where the names of its members stand, if it stands in a line."""
        column = len(self.head() + self.name) + (len(self.base) + 1 if self.base else 0) + 2
        for member in self.members:
            yield line, column + member.column()
            column += len(member.text())


def data(count: int, name: bytes = b"d", width: int = 0) -> tuple[Member, ...]:
    """So many data members without bits, whose numbers have so many digits at least."""
    return tuple(Member("data", b"Random", b"%b%0*d" % (name, width, k)) for k in range(count))


def functions(count: int, name: bytes = b"f", virtual: bool = False, width: int = 0) -> tuple[Member, ...]:
    """So many functions."""
    return tuple(Member("function", b"Void", b"%b%0*d" % (name, width, k), virtual) for k in range(count))


def constants(count: int, width: int = 0) -> tuple[Member, ...]:
    """So many constants."""
    return tuple(Member("constant", b"Int", b"c%0*d" % (width, k)) for k in range(count))


BEHAVE = Member("function", b"Void", b"behave")
# a name, which functions have, and a function of it with another result
AGAIN = b"f" * 20
STOPPED = Member("function", b"Int", AGAIN)


def one_name(count: int, virtual: bool) -> tuple[Member, ...]:
    """A function of one name, so many times."""
    return (Member("function", b"Void", AGAIN, virtual),) * count


def named(number: int, width: int = 0) -> bytes:
    """The name of the class of a number."""
    return b"A%0*d" % (width, number)


def chain(count: int, width: int = 0) -> list[Class]:
    """Quarks of which each has the one before it as its base."""
    return [Class(True, named(k, width), named(k - 1, width) if k else None) for k in range(count)]


def star(root: Class, count: int, own: tuple[Member, ...] = (), width: int = 0) -> list[Class]:
    """A quark, and heirs of it that all have the same members of their own."""
    return [root, *(Class(True, b"B%0*d" % (width, k), root.name, own) for k in range(count))]


def text_of(classes: list[Class]) -> bytes:
    """All classes, each in a line, and spaces up to a mebibyte."""
    text = b"".join(of.text() for of in classes)
    if len(text) > ELEMENT_LIMIT:
        raise ValueError(f"{len(text)} bytes are more than an element file may have")
    return text.ljust(ELEMENT_LIMIT)
