"""Values of data members as a user writes them: `member=value,..`."""
import re

from ..base.errors import LabError
from .layout import Layout

VALUE = re.compile(r"(?P<member>[\w.\[\]]+)=(?P<value>-?\w+)")
WORDS = {"true": 1, "false": 0}


def state_of(layout: Layout, element: str, text: str) -> int:
    """The state of an element whose members have the values of a text, and all others 0."""
    return layout.encode(element, values(text))


def values(text: str) -> dict[str, int]:
    """The values of members, by their dotted names; an empty text has none."""
    found: dict[str, int] = {}
    for part in text.split(",") if text else ():
        pair = VALUE.fullmatch(part)
        if pair is None:
            raise LabError(f"{part} has to be member=value")
        if pair["member"] in found:
            raise LabError(f"{pair['member']} is given twice")
        found[pair["member"]] = number(pair["value"])
    return found


def number(value: str) -> int:
    """A value: decimal, 0x.., 0b.., true or false."""
    try:
        return WORDS[value] if value in WORDS else int(value, 0)
    except ValueError as error:
        raise LabError(f"{value} is no number") from error
