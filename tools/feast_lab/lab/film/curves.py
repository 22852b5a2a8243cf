"""What is measured of the frames of a film: curves on its page, and columns of its table."""
from collections.abc import Iterator, Sequence

from ..formats.layout import Layout
from ..measure.measures import Tallies, measures_of
from .frames import Frame


class Curves:
    """The measures of a film; `rows` has their numbers for each frame that was seen."""

    def __init__(self, names: Sequence[str], layout: Layout) -> None:
        self.measures = measures_of(names, layout)
        self.names = [measure.name for measure in self.measures]
        self.rows: list[list[str]] = []

    def watched(self, frames: Iterator[Frame]) -> Iterator[Frame]:
        """The same frames; each is measured before it is given on."""
        tallies = Tallies(self.measures)
        cells: dict[int, str] = {}
        for frame in frames:
            if self.measures:
                for site, atom in frame.changes.items():
                    if cells.get(site):
                        tallies.add(cells[site], -1)
                    if atom:
                        tallies.add(atom, 1)
                cells |= frame.changes
            self.rows.append(tallies.numbers())
            yield frame

    def head(self) -> list[dict[str, object]]:
        """What the page needs of them: the numbers are texts, empty where there is none."""
        return [{"name": name, "values": [row[at] for row in self.rows]} for at, name in enumerate(self.names)]
