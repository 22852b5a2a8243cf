"""Parts of the plane: single sites and rectangles of sites, as text `X,Y` and `X,Y,W,H` joined by `+`."""
import re
from collections.abc import Iterator
from dataclasses import dataclass

from ..base.errors import LabError
from .world import World

Site = tuple[int, int]
PLACE = re.compile(r"(\d{1,9}),(\d{1,9})(?:,(\d{1,9}),(\d{1,9}))?")


@dataclass(frozen=True)
class Rectangle:
    """So many columns and rows of sites, from a column and a row on."""

    x: int
    y: int
    width: int = 1
    height: int = 1

    def text(self) -> str:
        """As an area has it."""
        site = f"{self.x},{self.y}"
        return site if (self.width, self.height) == (1, 1) else f"{site},{self.width},{self.height}"

    def is_in(self, world: World) -> bool:
        """Whether it has sites, and the plane has all of them."""
        return 0 < self.width <= world.columns - self.x and 0 < self.height <= world.rows - self.y


@dataclass(frozen=True)
class Area:
    """Sites of a plane."""

    rectangles: tuple[Rectangle, ...]

    @staticmethod
    def of(text: str, world: World) -> "Area":
        """The area of a text. Refuses one that is no part of the plane."""
        found = []
        for place in text.split("+"):
            match = PLACE.fullmatch(place)
            if match is None:
                raise LabError(f"{place[:40] or 'nothing'} is neither a site X,Y nor a rectangle X,Y,WIDTH,HEIGHT")
            rectangle = Rectangle(*(int(number) for number in match.groups() if number is not None))
            if not rectangle.is_in(world):
                what = "rectangle" if match[3] else "site"
                raise LabError(f"{place} is no {what} of the plane, which has {world.columns} by {world.rows} sites")
            found.append(rectangle)
        return Area(tuple(found))

    @staticmethod
    def of_sites(sites: set[Site]) -> "Area":
        """The area of some sites: a rectangle for each run of sites next to each other in a row."""
        runs: list[list[int]] = []
        for y, x in sorted((y, x) for x, y in sites):
            if runs and runs[-1][1] == y and runs[-1][0] + runs[-1][2] == x:
                runs[-1][2] += 1
            else:
                runs.append([x, y, 1])
        return Area(tuple(Rectangle(x, y, width) for x, y, width in runs))

    def text(self) -> str:
        """As an act has it."""
        return "+".join(rectangle.text() for rectangle in self.rectangles)

    def sites(self) -> set[Site]:
        """Its sites."""
        return {(x, y) for it in self.rectangles
                for y in range(it.y, it.y + it.height) for x in range(it.x, it.x + it.width)}

    def in_rows(self) -> Iterator[Site]:
        """Its sites, each once, row by row of the plane."""
        return ((x, y) for y, x in sorted((y, x) for x, y in self.sites()))
