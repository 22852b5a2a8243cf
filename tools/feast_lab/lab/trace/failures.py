"""The events that failed, as rows."""
import csv
from collections.abc import Iterator, Sequence
from pathlib import Path

from ..base.files import read_text
from ..chain.course import FAILED
from ..machine.declarations import Declarations
from ..machine.event import CAUSES
from .retraced import Retraced

LIST_COLUMNS = ("event", "x", "y", "element", "cause", "reason", "function", "line", "instruction")
COLUMNS = ("element", "cause", "reason", "events", "first", "x", "y", "function", "line", "instruction")
Row = Sequence[object]


def rows(retraced: Retraced, declarations: Declarations) -> Iterator[Row]:
    """A row for each failed event, in the order of the journal."""
    for made in retraced.events():
        if made.ending.cause:
            code, place = retraced.codes[made.acting - 1], made.ending.place
            function = code.function_at(place)
            yield (made.number, made.record.x, made.record.y, code.name, made.ending.cause, CAUSES[made.ending.cause],
                   function.name, declarations.line(code.name, function), f"{place} {code.instructions[place].text()}")


def counted(failed: Sequence[Row]) -> Iterator[Row]:
    """A row for each element and cause, in the order in which they first came up."""
    groups: dict[tuple[object, object], list[Row]] = {}
    for row in failed:
        groups.setdefault((row[3], row[4]), []).append(row)
    for (element, cause), group in groups.items():
        first, x, y, _, _, reason, *where = group[0]
        yield element, cause, reason, len(group), first, x, y, *where


def course_rows(path: Path, ends: Sequence[int], failed: Sequence[int]) -> Iterator[Row]:
    """The rows of a course, with the failed events of each leg behind its abandoned attempts."""
    header, *legs = csv.reader(read_text(path).splitlines())
    at = header.index("abandoned") + 1
    behind = at + (header[at] == FAILED)
    yield [*header[:at], FAILED, *header[behind:]]
    for number, row in enumerate(legs):
        begin, end = ends[max(number - 1, 0)], ends[number]
        yield [*row[:at], sum(begin < event <= end for event in failed), *row[behind:]]
