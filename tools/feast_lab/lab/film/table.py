"""The table of a film: the counts of the elements in each frame, as CSV."""
import csv
import io
from collections import Counter
from collections.abc import Iterator

from .curves import Curves
from .frames import Frame
from .recording import Recording


class Table:
    """The counts of each frame, with the events, the abandoned attempts and the failed events so far, and the measures."""

    def __init__(self, recording: Recording, curves: Curves, has_failures: bool) -> None:
        self.sites = recording.world.sites
        self.elements = recording.layout.elements
        self.curves = curves
        self.has_failures = has_failures
        self.rows: list[list[object]] = []

    def noting(self, films: Iterator[Frame]) -> Iterator[Frame]:
        """The frames, each measured before it comes by, and noted then."""
        cells: dict[int, str] = {}
        counts: Counter[str] = Counter()
        abandoned = failed = 0
        for number, frame in enumerate(films):
            abandoned += frame.abandoned
            failed += frame.failed.total()
            counts.subtract(cells.get(site, "").partition(" ")[0] for site in frame.changes)
            counts.update(atom.partition(" ")[0] for atom in frame.changes.values())
            cells |= frame.changes
            own = [counts[name] for name in self.elements]
            failures = [failed] if self.has_failures else []
            self.rows.append([number, frame.events, abandoned, *failures, f"{frame.events / self.sites:.4f}", *own,
                              *self.curves.rows[number]])
            yield frame

    def text(self) -> str:
        """The table."""
        text = io.StringIO()
        out = csv.writer(text, lineterminator="\n")
        failures = ["failed"] if self.has_failures else []
        out.writerow(["frame", "events", "abandoned", *failures, "aeps", *self.elements, *self.curves.names])
        out.writerows(self.rows)
        return text.getvalue()
