"""Where the functions that are in the code of an element are declared in the element files.

Code names a function, and the first state bit of the class that it works on. So the function is that of the name in the
element, in one of its bases, or in a quark that is a member at that bit: of a class and its bases the last that
declares it. If a quark lies at bit 0 and has a function of a name that the element has too, both are possible.
"""
from collections.abc import Iterator, Mapping, Sequence
from dataclasses import dataclass, field
from pathlib import Path

from ..base.files import read_byte_text
from ..formats.constants import tokens
from ..formats.layout import Layout
from .code import CodeFunction


@dataclass
class Declared:
    """A class of the files: its base, and in which line each of its functions is declared, as FILE:LINE."""

    base: str = ""
    functions: dict[str, str] = field(default_factory=dict)


def declarations(files: Sequence[Path]) -> dict[str, Declared]:
    """The classes of some element files, which the program accepts."""
    found: dict[str, Declared] = {}
    for path in files:
        text = read_byte_text(path)
        words = list(tokens(text))
        owner = Declared()
        braces = brackets = 0
        for at, token in enumerate(words):
            braces += (token[0] == "{") - (token[0] == "}")
            brackets += (token[0] == "(") - (token[0] == ")")
            if braces == 0 and token[0] in ("element", "quark"):
                owner = found[words[at + 1][0]] = Declared(words[at + 3][0] if words[at + 2][0] == ":" else "")
            elif braces == 1 and brackets == 0 and token["word"] and token[0][0].islower() and words[at + 1][0] == "(":
                owner.functions[token[0]] = f"{path}:{text.count(chr(10), 0, token.start()) + 1}"
    return found


@dataclass(frozen=True)
class Declarations:
    """The declarations of some files, and where members lie."""

    classes: Mapping[str, Declared]
    layout: Layout

    @staticmethod
    def of(files: Sequence[Path], layout: Layout) -> "Declarations":
        """The declarations of element files with that layout."""
        return Declarations(declarations(files), layout)

    def line(self, element: str, function: CodeFunction) -> str:
        """Where a function of an element's code is declared, as FILE:LINE; several are joined by `or`."""
        owners = [element, *(kind for kind, first in self.quarks(element, 0) if first == function.base)]
        if function.base:
            owners.remove(element)
        found = [self.nearest(owner, function.name) for owner in owners]
        return " or ".join(dict.fromkeys(line for line in found if line))

    def nearest(self, owner: str, name: str) -> str:
        """Where a class or the nearest of its bases declares a function; nothing if none does."""
        while owner in self.classes:
            if name in self.classes[owner].functions:
                return self.classes[owner].functions[name]
            owner = self.classes[owner].base
        return ""

    def quarks(self, owner: str, first: int) -> Iterator[tuple[str, int]]:
        """The quarks that a class has as members, at any depth, and their first bits."""
        for member in self.layout.classes[owner].members:
            if member.kind in self.layout.classes:
                yield member.kind, first + member.first
                yield from self.quarks(member.kind, first + member.first)
