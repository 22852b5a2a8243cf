"""Trees of element files: what the grammar makes of tokens, and where names and types are noted on it.

`at` is the place of an operator for `Pair`, `Prefix` and `Is`, and the place of the first token for all else. Where that isn't
needed here, as for loops, it is for who shows a place: `./lab check`.
"""
from __future__ import annotations

from dataclasses import dataclass, field
from typing import Optional, Union

from .faults import Spot


@dataclass(frozen=True)
class NumberType:
    """A type of numbers: `Int`, `Unsigned`, `Bits`, `Bool` or `Unary`, with its width in bits."""

    kind: str
    width: int

    def family(self) -> str:
        """The class of types that operators ask for."""
        return "Unsigned" if self.kind == "Unary" else self.kind

    def least(self) -> int:
        """The least number of the type."""
        return -(1 << self.width - 1) if self.kind == "Int" else 0

    def greatest(self) -> int:
        """The greatest number of the type."""
        if self.kind == "Unary":
            return self.width
        return (1 << self.width - 1) - 1 if self.kind == "Int" else (1 << self.width) - 1


@dataclass(frozen=True)
class PlainType:
    """One of `Atom`, `Void`, `Empty`, `EventWindow` and `Random`."""

    name: str


ATOM, VOID, EMPTY, WINDOW, RANDOM = map(PlainType, ("Atom", "Void", "Empty", "EventWindow", "Random"))
BOOL = NumberType("Bool", 1)


@dataclass(eq=False)
class Word:
    """A name, and where it stands."""

    text: str
    at: Spot


Width = Union[int, Word, None]


@dataclass(eq=False)
class TypeRef:
    """A type as it is written, and the type that it is."""

    word: Word
    width: Width
    type: "Type" = VOID


@dataclass(eq=False)
class Typedef:
    of: TypeRef
    word: Word


@dataclass(eq=False)
class Constant:
    """A constant. `written` is a number, a truth value, or the name of another constant."""

    of: TypeRef
    word: Word
    written: Union[int, bool, Word]
    value: int = 0

    def type(self) -> NumberType:
        """The type, once names are looked up."""
        assert isinstance(self.of.type, NumberType)
        return self.of.type


@dataclass(eq=False)
class Field:
    """A data member. `length` is that of an array, 0 for any other; `first` and `bits` are where the layout puts it."""

    of: TypeRef
    word: Word
    written: Width
    length: int = 0
    first: int = 0
    bits: int = 0


@dataclass(eq=False)
class Local:
    """A local or parameter: its name, its type, and its number in the function."""

    word: Word
    of: TypeRef
    number: int


@dataclass(eq=False)
class Function:
    of: TypeRef
    word: Word
    params: list[tuple[TypeRef, Word]]
    body: "Block"
    locals: list[Local] = field(default_factory=list)


Member = Union[Typedef, Constant, Field, Function]


@dataclass(eq=False)
class Class:
    """A class with the members that it is given. `number` is an element's, from 1; 0 for a quark."""

    is_quark: bool
    word: Word
    members: list[Member]
    number: int = 0
    bits: int = 0
    known: dict[str, Member] = field(default_factory=dict)

    def fields(self) -> list[Field]:
        """The data members."""
        return [member for member in self.members if isinstance(member, Field)]

    def functions(self) -> list[Function]:
        """The functions."""
        return [member for member in self.members if isinstance(member, Function)]


Type = Union[NumberType, PlainType, Class]


@dataclass(eq=False)
class File:
    uses: list[tuple[int, Word]]  # with how many classes are before
    classes: list[Class]


@dataclass(eq=False)
class Self:
    """The class itself, as the first step of a path."""


@dataclass(eq=False)
class Seen:
    """A local that `as` shows to be an element, or another name that it can't show."""

    what: Union[Local, Field, Function, Constant]
    as_type: Class


# What the names of a path stand for, one after another. A string is a call of a window or of random numbers.
Step = Union[Self, Local, Seen, Field, Function, Constant, str]


class Expr:
    """An expression; its type is noted once types are checked."""

    at: Spot
    type: Type = VOID


@dataclass(eq=False)
class Number(Expr):
    """A number; `plain` if no `u` is behind it."""

    at: Spot
    value: int
    plain: bool


@dataclass(eq=False)
class Truth(Expr):
    at: Spot
    value: bool


@dataclass(eq=False)
class Path(Expr):
    at: Spot
    is_own: bool
    words: list[Word]
    steps: list[Step] = field(default_factory=list)


@dataclass(eq=False)
class Call(Expr):
    at: Spot
    path: Path
    args: list[Expr]


@dataclass(eq=False)
class Index(Expr):
    at: Spot
    path: Path
    index: Expr


@dataclass(eq=False)
class Instance(Expr):
    at: Spot
    of: TypeRef


@dataclass(eq=False)
class Group(Expr):
    at: Spot
    inner: Expr


@dataclass(eq=False)
class Cast(Expr):
    at: Spot
    of: TypeRef
    value: Expr


@dataclass(eq=False)
class Prefix(Expr):
    at: Spot
    sign: str
    value: Expr


@dataclass(eq=False)
class Pair(Expr):
    at: Spot
    sign: str
    left: Expr
    right: Expr


@dataclass(eq=False)
class Is(Expr):
    at: Spot
    value: Expr
    of: TypeRef


@dataclass(eq=False)
class As(Expr):
    """The condition of an `if` that asks for the type of a local."""

    at: Spot
    path: Path
    of: TypeRef


@dataclass(eq=False)
class Block:
    body: list["Statement"]


@dataclass(eq=False)
class If:
    condition: Expr
    yes: "Statement"
    no: Optional["Statement"]


@dataclass(eq=False)
class Loop:
    """A `while` or a `for`."""

    at: Spot
    first: Optional["Statement"]
    condition: Optional[Expr]
    step: Optional["Statement"]
    body: "Statement"
    is_for: bool


@dataclass(eq=False)
class Return:
    at: Spot
    value: Optional[Expr]


@dataclass(eq=False)
class Jump:
    """A `break`, or a `continue`."""

    at: Spot
    is_break: bool


@dataclass(eq=False)
class Declare:
    of: TypeRef
    word: Word
    value: Optional[Expr]
    local: Optional[Local] = None


@dataclass(eq=False)
class Assign:
    """An assignment; `sign` is the operator before its `=`, or nothing. `p++` stands here as `p += 1`."""

    left: Union[Path, Index]
    sign: str
    value: Expr


@dataclass(eq=False)
class Do:
    """A call as a statement."""

    call: Call


Statement = Union[Block, If, Loop, Return, Jump, Declare, Assign, Do]
