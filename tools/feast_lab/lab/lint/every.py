"""Warnings of element files that the program accepts."""
from collections.abc import Callable, Iterator, Sequence

from ..base.errors import LabError
from ..ulam.ranges import Known
from ..ulam.reader import Elements
from ..ulam.tokens import Source
from . import hidden, loops, moves, numbers, unused
from .warned import Warned

FINDERS: tuple[Callable[[Known], Iterator[Warned]], ...] = (
    moves.warnings, numbers.warnings, loops.warnings, unused.warnings, hidden.warnings)


def warnings(sources: Sequence[Source]) -> list[Warned]:
    """The warnings of all files, each place and name once, in the order of the text."""
    elements = Elements(sources)
    if elements.refused is not None:
        raise LabError(f"{elements.where(elements.refused.spot)}: the program accepts this, and the second reader refuses it "
                       f"with E{elements.refused.code}")
    known = Known(elements)
    order = {id(source): number for number, source in enumerate(sources)}
    found = {(order[id(it.token.source)], it.token.at, it.name): it for find in FINDERS for it in find(known)}
    return [found[key] for key in sorted(found)]
