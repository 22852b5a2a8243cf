"""Constants in the texts of element files, and texts in which they have other values."""
import re
from collections.abc import Iterator
from dataclasses import dataclass

TOKEN = re.compile(r"(?P<blank>\s+|//[^\n]*|/\*.*?(?:\*/|\Z))|(?P<word>\w+)|(?P<sign>.)", re.DOTALL | re.ASCII)


@dataclass(frozen=True)
class ConstantPlace:
    """A constant `Class.name`, and the part of the text that has its value."""

    name: str
    first: int
    end: int


def tokens(text: str) -> Iterator[re.Match[str]]:
    """The words and signs of an element file, without what lies between them."""
    return (match for match in TOKEN.finditer(text) if match["blank"] is None)


def constants(text: str) -> list[ConstantPlace]:
    """The constants of all classes of an element file, in their order.

    A text that is no element file has whatever is found; the program refuses it.
    """
    found = []
    all_tokens = list(tokens(text))
    owner, depth = "", 0
    for at, token in enumerate(all_tokens):
        depth += (token[0] == "{") - (token[0] == "}")
        if depth == 0 and token[0] in ("element", "quark") and at + 1 < len(all_tokens):
            owner = all_tokens[at + 1][0]
        if depth == 1 and token[0] == "constant":
            found += of_item(text, owner, all_tokens[at + 1:at + 64])
    return found


def of_item(text: str, owner: str, behind: list[re.Match[str]]) -> list[ConstantPlace]:
    """The constant whose keyword these tokens follow, if they are those of one."""
    signs = [token[0] for token in behind]
    if "=" not in signs or ";" not in signs or not 0 < signs.index("=") < signs.index(";") - 1:
        return []
    name, value, last = (behind[at] for at in (signs.index("=") - 1, signs.index("=") + 1, signs.index(";") - 1))
    return [ConstantPlace(f"{owner}.{name[0]}", value.start(), last.end())]


def with_values(text: str, values: dict[str, str]) -> str:
    """The text in which constants have other values; constants that it lacks are passed over."""
    for constant in reversed(constants(text)):
        if constant.name in values:
            text = text[:constant.first] + values[constant.name] + text[constant.end:]
    return text
