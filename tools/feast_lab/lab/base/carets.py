"""A line of an element file with a caret below the place that a refusal names."""
import re
from pathlib import Path

from .files import read_bytes

PLACE = re.compile(r"(?P<file>.+?):(?P<line>\d+):(?P<column>\d+): E\d\d .*")


def with_caret(refusal: str) -> str:
    """The refusal, and below it the line that it names and a caret; the refusal alone if it names none."""
    match = PLACE.fullmatch(refusal)
    if match is None or not Path(match["file"]).is_file():
        return refusal
    lines = read_bytes(Path(match["file"])).split(b"\n")
    number, column = int(match["line"]), int(match["column"])
    if number > len(lines):
        return refusal
    line = lines[number - 1].removesuffix(b"\r")
    before = line[:column - 1].decode(errors="replace")
    blank = "".join("\t" if letter == "\t" else " " for letter in before)
    return f"{refusal}\n{line.decode(errors='replace')}\n{blank}^"
