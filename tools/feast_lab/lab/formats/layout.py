"""Where the data members of elements lie, and states by the values of their members."""
import re
from collections.abc import Iterator, Mapping, Sequence
from dataclasses import dataclass, field
from pathlib import Path

from ..base.errors import LabError
from ..base.limits import STATE_BITS
from ..base.program import Program

TYPE = re.compile(r"(?P<kind>\w+?)(?:\((?P<width>\d+)\))?(?:\[(?P<length>\d+)\])?")


@dataclass(frozen=True)
class Member:
    """A data member of a class; `width` is that of one item, `length` 0 unless it is an array.

    `kind` is Int, Unsigned, Unary, Bits, Bool or the name of a quark.
    """

    name: str
    kind: str
    width: int
    length: int
    first: int


@dataclass
class Shape:
    """A class: an element with its number, or a quark, whose number is 0."""

    name: str
    number: int
    bits: int
    members: list[Member] = field(default_factory=list)


@dataclass(frozen=True)
class Leaf:
    """A number in the state of an element, by its dotted name."""

    name: str
    kind: str
    width: int
    first: int

    @property
    def least(self) -> int:
        """The least value."""
        return -(1 << self.width - 1) if self.kind == "Int" else 0

    @property
    def greatest(self) -> int:
        """The greatest value."""
        if self.kind == "Unary":
            return self.width
        return (1 << self.width - (self.kind == "Int")) - 1

    @property
    def shift(self) -> int:
        """How many bits of the state lie behind it; bit 0 is the most significant."""
        return STATE_BITS - self.first - self.width

    def value(self, state: int) -> int:
        """The value that it has in a state: for Unary the number of ones."""
        bits = state >> self.shift & (1 << self.width) - 1
        if self.kind == "Unary":
            return bits.bit_count()
        if self.kind == "Int" and bits >> self.width - 1:
            return bits - (1 << self.width)
        return bits

    def put(self, state: int, value: int) -> int:
        """The state in which it has a value of its range: for Unary as many low ones."""
        mask = (1 << self.width) - 1
        bits = (1 << value) - 1 if self.kind == "Unary" else value & mask
        return state & ~(mask << self.shift) | bits << self.shift


@dataclass
class Layout:
    """The classes of some element files, by their names and in their order."""

    classes: dict[str, Shape]
    leaves: dict[str, list[Leaf]]

    @staticmethod
    def of(program: Program, files: Sequence[str | Path]) -> "Layout":
        """The layout that the program writes of element files."""
        classes: dict[str, Shape] = {}
        for line in program.call(["check", *files]).text.splitlines():
            word, name, *rest = line.split(" ")
            if word == "element":
                shape = classes[name] = Shape(name, int(rest[0]), int(rest[1]))
            elif word == "quark":
                shape = classes[name] = Shape(name, 0, int(rest[0]))
            else:
                shape.members.append(member(name, *rest))
        leaves = {shape.name: list(numbers(classes, shape, "", 0)) for shape in classes.values() if shape.number}
        return Layout(classes, leaves)

    @property
    def elements(self) -> list[str]:
        """The names of the elements, in the order of their numbers."""
        return list(self.leaves)

    def numbers(self, element: str) -> list[Leaf]:
        """The numbers that the state of an element has, in the order of their bits."""
        if element not in self.leaves:
            raise LabError(f"no file has an element {element}; there are {', '.join(self.leaves) or 'none'}")
        return self.leaves[element]

    def leaf(self, element: str, name: str) -> Leaf:
        """The number of that dotted name in the state of an element."""
        leaves = {leaf.name: leaf for leaf in self.numbers(element)}
        if name not in leaves:
            raise LabError(f"{element} has no member {name}; it has {', '.join(leaves) or 'none'}")
        return leaves[name]

    def decode(self, element: str, state: int) -> list[tuple[str, int]]:
        """The values of the members of an atom by their dotted names; `true` is 1."""
        return [(leaf.name, leaf.value(state)) for leaf in self.numbers(element)]

    def encode(self, element: str, values: Mapping[str, int]) -> int:
        """The state in which members have these values, and all others 0."""
        self.numbers(element)
        state = 0
        for name, value in values.items():
            leaf = self.leaf(element, name)
            if not leaf.least <= value <= leaf.greatest:
                raise LabError(f"{element}.{name} can't be {value}: it goes from {leaf.least} to {leaf.greatest}")
            state = leaf.put(state, value)
        return state


def member(name: str, kind: str, first: str, width: str) -> Member:
    """The data member that a line has."""
    match = TYPE.fullmatch(kind)
    if match is None:
        raise LabError(f"the program wrote a type that the lab doesn't know: {kind}")
    length = int(match["length"] or 0)
    return Member(name, match["kind"], int(width) // max(length, 1), length, int(first))


def numbers(classes: Mapping[str, Shape], shape: Shape, before: str, base: int) -> Iterator[Leaf]:
    """The numbers of a class that begins at a bit, those of its quark members among them."""
    for it in shape.members:
        if it.kind in classes:
            yield from numbers(classes, classes[it.kind], f"{before}{it.name}.", base + it.first)
        elif it.length == 0:
            yield Leaf(before + it.name, it.kind, it.width, base + it.first)
        else:
            for at in range(it.length):
                yield Leaf(f"{before}{it.name}[{at}]", it.kind, it.width, base + it.first + at * it.width)
