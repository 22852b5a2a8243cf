"""The rules of refusals as the pages of docs/ have them: their one home."""
import re
from collections.abc import Iterator
from dataclasses import dataclass
from functools import cache

from ..base.files import read_text
from ..base.program import TOP

ERRORS, ELEMENTS, ULAM, CHECK = "docs/errors.md", "docs/errors-of-elements.md", "docs/ulam.md", "docs/check.md"
CELL = re.compile(r"(?<!\\)\|")


@dataclass(frozen=True)
class ErrorCode:
    """A code with its text and its usual cause; an example that isn't a whole file changes the block."""

    code: str
    text: str
    cause: str
    example: str
    place: str
    block: tuple[str, ...]


@dataclass(frozen=True)
class Rule:
    """A form that is refused, or a warning: what to write instead, and an example of both.

    `code` is the code, or the name of the warning. A rule of which an example would be too long has none.
    """

    code: str
    form: str
    instead: str
    wrong: str = ""
    place: str = ""
    right: str = ""


def rows(page: str) -> Iterator[tuple[list[str], list[str], tuple[str, ...]]]:
    """The rows of the tables of a page: the heads of their columns, their cells, and the block before the table."""
    heads: list[str] = []
    block: list[str] = []
    before = ""
    for line in page.splitlines():
        if line.startswith("    "):
            block = [*block, line[4:]] if before.startswith("    ") else [line[4:]]
        elif line.startswith("| "):
            cells = [cell.strip().replace("\\|", "|") for cell in CELL.split(line)[1:-1]]
            if heads:
                yield heads, cells, tuple(block)
            heads = heads or cells
        elif not line.startswith("|"):
            heads = []
        before = line


@cache
def page(name: str) -> str:
    """The text of a page."""
    return read_text(TOP / name)


@cache
def error_codes() -> dict[str, ErrorCode]:
    """All codes, in their order; of one that has several tables, the first is told."""
    found: dict[str, ErrorCode] = {}
    for heads, cells, block in rows(page(ERRORS)):
        if heads[:2] == ["Code", "Text"]:
            code, text, cause, example, *place = cells
            found.setdefault(code, ErrorCode(code, text.strip("`"), cause, example, "".join(place), block))
    return found


@cache
def element_rules() -> tuple[Rule, ...]:
    """The rules of element files, form by form."""
    found = [cells for heads, cells, _ in rows(page(ELEMENTS)) if heads[0] == "Code"]
    return tuple(Rule(code, form, instead, plain(wrong), place, plain(right))
                 for code, form, instead, wrong, place, right in found)


@cache
def ulam_rules() -> tuple[Rule, ...]:
    """What is missing of Ulam; a form that is refused with several codes has a rule for each of them."""
    found = [cells for heads, cells, _ in rows(page(ULAM)) if heads[-1] == "Refused with"]
    return tuple(Rule(code, form, instead) for form, instead, refused in found for code in refused.split(", "))


@cache
def warning_rules() -> tuple[Rule, ...]:
    """The warnings, with their names as codes."""
    found = [cells for heads, cells, _ in rows(page(CHECK)) if heads[0] == "Warning"]
    return tuple(Rule(plain(name), form, instead, plain(wrong), place, plain(right))
                 for name, form, instead, wrong, place, right in found)


def plain(cell: str) -> str:
    """A text without the marks that a page has around it."""
    return cell.removeprefix("`").removesuffix("`")


def instead_of(code: str, form: str) -> Rule | None:
    """The rule of a form that is refused with a code."""
    return next((it for it in (*ulam_rules(), *element_rules()) if (it.code, it.form) == (code, form)), None)
