"""Element files, read through all stages (docs/formats.md, "Refusals")."""
from __future__ import annotations

import sys

from . import trees
from .heirs import Heads, flatten, without_heads
from .layout import lay_out
from .length import check_lengths
from .names import declare_all
from .parser import parse
from .scopes import resolve
from .tokens import tokens_of
from .types import check_types

# Trees are as deep as texts nest, with a few calls for each level.
sys.setrecursionlimit(20_000)


def read_elements(texts: list[bytes]) -> list[trees.Class]:
    """The classes of element files, with names, layout and types noted on them. Refused with 10 to 60."""
    heads = Heads()
    files = []
    for number, data in enumerate(texts):
        tokens = tokens_of(data.decode("latin-1"), number)
        files.append(parse(without_heads(tokens, number, heads), number))
    classes = [it for file in files for it in file.classes]
    flatten(classes, heads)
    names = declare_all(files)
    resolve(files, names)
    lay_out(classes)
    check_types(classes)
    check_lengths(elements_of(classes))
    return classes


def elements_of(classes: list[trees.Class]) -> list[trees.Class]:
    """The elements among classes, in the order of their numbers."""
    return [it for it in classes if not it.is_quark]
