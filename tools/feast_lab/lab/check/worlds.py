"""What is said of worlds and reports that the program refuses (E70 to E83); of code files nothing is."""
from collections.abc import Sequence
from difflib import get_close_matches

from ..ulam.nearby import has_class
from ..ulam.reader import Elements
from ..ulam.tokens import Source, Token
from .fault import RefusalLine, Hint


def hint_of_world(refused: RefusalLine, world: Source, files: Sequence[Source]) -> Hint:
    """What is said of a refusal with a code above E60; the caret marks the whole line."""
    lines = world.text.split("\n")
    line = lines[refused.line - 1].removesuffix("\r") if refused.line <= len(lines) else ""
    size = max(len(line), 1)
    if refused.code == "E73":
        return Hint(unknown(line, files), "", size)
    if refused.code == "E74":
        first = taken(lines[:refused.line - 1], line)
        token = Token("name", lines[first], world.starts[first], world)
        return Hint("", "", size, ((token, "the atom that is there"),))
    if refused.code == "E81" and (before := int(refused.text.rpartition(" ")[2])):
        token = Token("name", lines[before - 1], world.starts[before - 1], world)
        return Hint("", "", size, ((token, "the line before which it belongs"),))
    return Hint("" if line else "the file ends here", "", size)


def unknown(line: str, files: Sequence[Source]) -> str:
    """Which elements there are in place of one that no file has."""
    name = line.split(" ")[3 if line.startswith("atom ") else 7]
    elements = [it.word.text for it in Elements(files).classes if not it.is_quark]
    beside = has_class(name, files)
    if beside:
        return f"no file that is given has it{beside}"
    near = get_close_matches(name, elements, 1, 0.6)
    return f"did you mean `{near[0]}`?" if near else f"the elements are {', '.join(elements) or 'none'}"


def taken(lines: Sequence[str], line: str) -> int:
    """Which earlier line has an atom at the site of a line."""
    site = line.split(" ")[1:3]
    return next(at for at, it in enumerate(lines) if it.startswith("atom ") and it.split(" ")[1:3] == site)
