"""When a run is over before its last leg."""
import re
from collections.abc import Callable
from dataclasses import dataclass
from fractions import Fraction
from pathlib import Path

from ..base.errors import LabError
from ..formats.layout import Layout
from ..formats.outcome import counts
from .measures import SIGNS, Measure, measured

RULE = re.compile(r"(?P<term>Atoms\.\w+|events|aeps|\w+\(.*\))(?P<sign>!=|<=|>=|=|<|>)(?P<number>-?\d+(?:\.\d+)?)")
FUNCTION = "function "  # before the name of a function of Python, which a plan has in place of a rule
FORM = "Atoms.Element=N, or in place of Atoms.Element a measure, events or aeps, as in mean(Field.dist)>3.5 or aeps>=100"


@dataclass(frozen=True)
class LegEnd:
    """What a chain has come to at the end of a leg: its atoms, as `replay` writes them, the events of all legs so far, the
    live sites of the plane, and the number of the leg."""

    atoms: str
    events: int
    sites: int
    leg: int


Ends = Callable[[LegEnd], bool]
OfChain = Callable[[Path], Ends]  # what says of the chain of a folder when it is over


@dataclass(frozen=True)
class Until:
    """A rule such as `Atoms.Ant=0`: a number that a chain comes to, and what it is compared with."""

    text: str
    number: Callable[[LegEnd], Fraction | None]
    sign: str
    limit: Fraction

    @staticmethod
    def of(text: str, layout: Layout) -> "Until":
        """The rule that a text says. Raises LabError if it has no such form, or no file has its element or member."""
        match = RULE.fullmatch("".join(text.split()))
        if match is None:
            raise LabError(f"--until {text}: it has to be {FORM}")
        try:
            number = number_of(match["term"], layout)
        except LabError as error:
            raise LabError(f"--until {text}: {error}") from error
        return Until(text, number, match["sign"], Fraction(match["number"]))

    def holds(self, end: LegEnd) -> bool:
        """Whether it holds at the end of a leg. A mean, a least or a greatest of no atom never does."""
        number = self.number(end)
        return number is not None and SIGNS[self.sign](number, self.limit)


def ends(until: str | OfChain, folder: Path, layout: Layout) -> Ends:
    """When the chain of a folder is over, by a rule or in another way."""
    if not isinstance(until, str):
        return until(folder)
    if until.startswith(FUNCTION):
        raise LabError(f"--until: a {until} of Python says when a run is over, so Python has to make the runs, by feast_lab.sweep")
    return Until.of(until, layout).holds


def number_of(term: str, layout: Layout) -> Callable[[LegEnd], Fraction | None]:
    """What the term of a rule comes to."""
    if term == "events":
        return lambda end: Fraction(end.events)
    if term == "aeps":
        return lambda end: Fraction(end.events, max(end.sites, 1))
    return of_measure(term, layout) if "(" in term else of_element(term.removeprefix("Atoms."), layout)


def of_element(name: str, layout: Layout) -> Callable[[LegEnd], Fraction | None]:
    """The number of atoms of an element."""
    layout.numbers(name)
    return lambda end: Fraction(counts(end.atoms, [name])[0])


def of_measure(name: str, layout: Layout) -> Callable[[LegEnd], Fraction | None]:
    """What a measure comes to, which of no atom may be nothing."""
    measure = Measure.of(name, layout)

    def number(end: LegEnd) -> Fraction | None:
        """What it comes to at the end of a leg."""
        text = measured([measure], end.atoms)[0]
        return Fraction(text) if text else None

    return number
