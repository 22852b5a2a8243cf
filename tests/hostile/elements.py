"""Hostile elements: each limit of the language met and passed by one, what never ends, the widest and the
longest of everything, and that time goes with size and no deep stack is needed."""
from __future__ import annotations

import sys

from bench import Bench, main_of
from element_ends import without_end
from element_limits import limits, nesting
from element_sizes import growing, widest


def elements(bench: Bench) -> None:
    """The table."""
    nesting(bench)
    limits(bench)
    without_end(bench)
    widest(bench)
    growing(bench)


if __name__ == "__main__":
    sys.exit(main_of(elements))
