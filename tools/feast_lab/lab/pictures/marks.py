"""The colour and the letters of each element: those that its source gives, else ones of the lab's own.

A source gives them in the doc comment above the element, as Ulam's own sources do:

    /** A post of a fence.
        \\color #0072b2
        \\symbol Po */
    element Fence { .. }

\\color-by names a member, by whose value the atoms are coloured in place of that: \\color-by dist.
A colour or a symbol of another form is told on standard error, and the element gets one of the lab's own.
"""
from __future__ import annotations

import math
import re
import sys
from collections.abc import Iterable, Iterator, Sequence
from dataclasses import dataclass
from functools import cache
from pathlib import Path

from ..base.errors import LabError
from ..base.files import read_comments

# Colours that are told apart also by those who don't see all colours (after Okabe and Ito).
PALETTE = ("#0072b2", "#e69f00", "#009e73", "#d55e00", "#cc79a7", "#56b4e9", "#000000", "#f0e442")

_TOKEN = re.compile(r"(?P<comment>/\*.*?\*/|//[^\n]*)|(?P<word>[A-Za-z_]\w*)|\S", re.S)
_COMMAND = re.compile(r"\\(color-by|color|symbol)(?![\w-])[ \t]*(\S*)")
_COLOR = re.compile(r"#(?:[0-9a-fA-F]{3}){1,2}")
_FORMS = {"color": (_COLOR, "#rgb or #rrggbb"), "symbol": (re.compile(r"\S{1,3}"), "one to three letters"),
          "color-by": (re.compile(r"\w[\w.\[\]]*"), "the name of a member")}


@dataclass(frozen=True)
class Mark:
    """How an element is shown."""

    name: str
    color: str  # as #rrggbb
    symbol: str  # one to three letters
    color_by: str = ""  # the member by whose value it is coloured instead


def marks(names: Sequence[str], sources: Iterable[Path]) -> list[Mark]:
    """The marks of the elements of these names, in their order. Raises LabError for a faulty command."""
    return marks_in(names, [(path, read_comments(path)) for path in sources])


def marks_in(names: Sequence[str], texts: Iterable[tuple[Path, str]]) -> list[Mark]:
    """The same of sources whose texts are at hand."""
    given = {name: told for path, text in texts for name, told in _given(path, text)}
    colors = _colors(names, {name: told["color"] for name, told in given.items() if "color" in told})
    symbols = _symbols(names, {name: told["symbol"] for name, told in given.items() if "symbol" in told})
    return [Mark(name, colors[name], symbols[name], given.get(name, {}).get("color-by", "")) for name in names]


def _given(path: Path, text: str) -> Iterator[tuple[str, dict[str, str]]]:
    """Each element of a source, with what the doc comment above it gives."""
    doc: re.Match[str] | None = None
    above: re.Match[str] | None = None
    is_named = False
    for token in _TOKEN.finditer(text):
        if token["comment"]:
            doc = token if token["comment"].startswith("/**") else doc
        elif is_named:
            is_named = False
            yield token[0], _commands(path, text, above)
        else:
            is_named = token["word"] == "element"
            above, doc = doc, None


def _commands(path: Path, text: str, doc: re.Match[str] | None) -> dict[str, str]:
    """The commands of a doc comment: `color`, as #rrggbb, `symbol` and `color-by`."""
    told: dict[str, str] = {}
    if doc is None:
        return told
    for command in _COMMAND.finditer(doc[0].removesuffix("*/")):
        name, value = command.groups()
        form, wanted = _FORMS[name]
        if not form.fullmatch(value) or not value.isprintable():
            line = text.count("\n", 0, doc.start() + command.start()) + 1
            fault = f"{path}:{line}: \\{name} takes {wanted}, not '{value}'"
            if name == "color-by":
                raise LabError(fault)
            _warn(f"{fault}; the element gets a {name} of the lab's own")
            continue
        told[name] = _long(value) if name == "color" else value
    return told


@cache
def _warn(text: str) -> None:
    """Says once that something is not as it should be."""
    print(f"lab: warning: {text if text.isprintable() else ascii(text)}", file=sys.stderr)


def _long(color: str) -> str:
    """A colour in its long form, #rrggbb."""
    return "#" + "".join(digit * (2 if len(color) == 4 else 1) for digit in color[1:].lower())


def _colors(names: Sequence[str], given: dict[str, str]) -> dict[str, str]:
    """The given colours, and for the other names those of the palette that are left, over and over."""
    left = [color for color in PALETTE if color not in given.values()] or PALETTE
    others = [name for name in names if name not in given]
    return given | {name: left[i % len(left)] for i, name in enumerate(others)}


def _symbols(names: Sequence[str], given: dict[str, str]) -> dict[str, str]:
    """The given symbols, and for the other names the first letters of each that no other has."""
    symbols = dict(given)
    for name in names:
        if name not in symbols:
            taken = set(symbols.values())
            symbols[name] = next(symbol for symbol in _candidates(name) if symbol not in taken)
    return symbols


def _candidates(name: str) -> Iterator[str]:
    """Symbols for a name: its first letter alone, and before each of the others, and before numbers."""
    yield name[0]
    yield from (name[0] + letter for letter in name[1:])
    yield from (f"{name[0]}{number}" for number in range(1, 100))
    yield from (str(number) for number in range(1000))


def brightness(color: str) -> float:
    """How bright a colour is to the eye, from 0 to 1."""
    parts = [int(color[at:at + 2], 16) / 255 for at in (1, 3, 5)]
    red, green, blue = (part / 12.92 if part <= 0.04 else math.pow((part + 0.055) / 1.055, 2.4) for part in parts)
    return 0.2126 * red + 0.7152 * green + 0.0722 * blue


def ink(color: str) -> str:
    """Black or white, whichever can be read better on a colour."""
    return "#000" if brightness(color) > 0.18 else "#fff"
