"""What is measured of the atoms of a plane: how many have certain members, and what their members come to.

A measure is written as the column that it has in a table: `count(Gossip.knows=1)`, `mean(Field.dist)`,
`sum(..)`, `min(..)`, `max(..)`. A condition compares a member with a number or a truth value by one of
=, !=, <, <=, > and >=; of several, with commas between them, all have to hold.
"""
import operator
import re
from collections import Counter
from collections.abc import Callable, Sequence
from dataclasses import dataclass
from typing import Any

from ..base.errors import LabError
from ..formats.layout import Layout, Leaf
from ..formats.outcome import atom_lines
from ..formats.values import number

WHOLE = re.compile(r"(?P<kind>\w+)\((?P<of>.*)\)")
MEMBER = re.compile(r"(?P<element>\w+)\.(?P<member>\w[\w.\[\]]*)")
CONDITION = re.compile(r"(?P<member>\w[\w.\[\]]*)(?P<sign>!=|<=|>=|=|<|>)(?P<value>-?\w+)")
SIGNS: dict[str, Callable[[Any, Any], bool]] = {
    "=": operator.eq, "!=": operator.ne, "<": operator.lt, "<=": operator.le, ">": operator.gt, ">=": operator.ge}
FORMS = {
    "count": ("Element.member=VALUE[,..]", "how many atoms of an element have members like that"),
    "mean": ("Element.member", "the mean of a member over the atoms of its element"),
    "sum": ("Element.member", "the sum of a member over the atoms of its element"),
    "min": ("Element.member", "the least value of a member"),
    "max": ("Element.member", "the greatest value of a member"),
}


@dataclass(frozen=True)
class Condition:
    """What a member has to be compared with."""

    leaf: Leaf
    sign: str
    value: int

    def holds(self, state: int) -> bool:
        """Whether it holds of a state."""
        return SIGNS[self.sign](self.leaf.value(state), self.value)


@dataclass(frozen=True)
class Measure:
    """A measure; `name` is its column. A count has no leaf: each atom that it counts is 1."""

    name: str
    kind: str
    element: str
    leaf: Leaf | None
    conditions: tuple[Condition, ...] = ()

    @staticmethod
    def of(name: str, layout: Layout) -> "Measure":
        """The measure of that name. Raises LabError if it has no such form, or its members aren't there."""
        match = WHOLE.fullmatch(name)
        if match is None or match["kind"] not in FORMS:
            raise LabError(f"{name}: it has to be one of {', '.join(f'{kind}({form})' for kind, (form, _) in FORMS.items())}")
        kind, said = match["kind"], match["of"]
        form = f"--{kind} {said}: it has to be {FORMS[kind][0]}"
        try:
            if kind == "count":
                element, conditions = conditions_of(said, form, layout)
                return Measure(name, kind, element, None, conditions)
            member = MEMBER.fullmatch(said)
            if member is None:
                raise LabError(form)
            return Measure(name, kind, member["element"], layout.leaf(member["element"], member["member"]))
        except LabError as error:
            raise LabError(str(error) if str(error) == form else f"--{kind} {said}: {error}") from error

    def value(self, atom: str) -> int | None:
        """The value of an atom `NAME STATE`, or None if the measure isn't of it."""
        name, _, digits = atom.partition(" ")
        if name != self.element:
            return None
        state = int(digits, 16)
        if not all(condition.holds(state) for condition in self.conditions):
            return None
        return 1 if self.leaf is None else self.leaf.value(state)

    def number(self, values: Counter[int]) -> str:
        """The number that values come to; empty for a mean, a least or a greatest of none."""
        if self.kind in ("count", "sum"):
            return str(sum(value * times for value, times in values.items()))
        if not values:
            return ""
        if self.kind == "mean":
            return f"{sum(value * times for value, times in values.items()) / values.total():.4f}"
        return str(min(values) if self.kind == "min" else max(values))


def conditions_of(said: str, form: str, layout: Layout) -> tuple[str, tuple[Condition, ...]]:
    """The element that a count is of, and its conditions."""
    element, dot, rest = said.partition(".")
    matches = [CONDITION.fullmatch(part) for part in rest.split(",")]
    conditions = []
    for match in matches:
        if not dot or match is None:
            raise LabError(form)
        leaf = layout.leaf(element, match["member"])
        value = number(match["value"])
        if not leaf.least <= value <= leaf.greatest:
            raise LabError(f"{element}.{leaf.name} is never {value}: it goes from {leaf.least} to {leaf.greatest}")
        conditions.append(Condition(leaf, match["sign"], value))
    return element, tuple(conditions)


class Tallies:
    """What measures come to over atoms that come and go."""

    def __init__(self, measures: Sequence[Measure]) -> None:
        self.measures = measures
        self.values: list[Counter[int]] = [Counter() for _ in measures]
        self.known: dict[str, list[int | None]] = {}

    def add(self, atom: str, times: int) -> None:
        """Adds so many atoms `NAME STATE`, or takes them away if the number is below 0."""
        values = self.known.get(atom)
        if values is None:
            values = self.known[atom] = [measure.value(atom) for measure in self.measures]
        for tally, value in zip(self.values, values, strict=True):
            if value is not None:
                tally[value] += times
                if not tally[value]:
                    del tally[value]

    def numbers(self) -> list[str]:
        """The number of each measure."""
        return [measure.number(tally) for measure, tally in zip(self.measures, self.values, strict=True)]


def measures_of(names: Sequence[str], layout: Layout) -> list[Measure]:
    """The measures of these names, each once."""
    return [Measure.of(name, layout) for name in dict.fromkeys(names)]


def measured(measures: Sequence[Measure], atoms: str) -> list[str]:
    """What measures come to over atoms, as `replay` writes them."""
    tallies = Tallies(measures)
    if measures:
        for atom, times in Counter(line.split(" ", 2)[2] for line in atom_lines(atoms)).items():
            tallies.add(atom, times)
    return tallies.numbers()
