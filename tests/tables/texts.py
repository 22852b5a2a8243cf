"""Texts of worlds and reports, made from their lines."""
from __future__ import annotations

from typing import Sequence


def lines(*texts: str) -> str:
    """A text of these lines."""
    return "".join(f"{text}\n" for text in texts)


def world(*more: str, version: int = 1, tiles: str = "1 1", size: str = "8 8") -> str:
    """A world with more lines after its size; the seed of an attempt may be left out if it is 0."""
    rest = [whole(it, 5, 16) if it.startswith("try ") else it for it in more]
    return lines(f"feast {version}", f"tiles {tiles}", f"size {size}", *rest)


def atoms(*shown: str) -> str:
    """The text of these atoms; the state of each may be left out if it is 0."""
    return lines("feast 1", f"atoms {len(shown)}", *(whole(it, 4, 18) for it in shown))


def report(shown: Sequence[str], events: Sequence[str]) -> str:
    """A report of these atoms and events; states and seeds may be left out if they are 0. No attempt was abandoned."""
    return atoms(*shown) + lines(f"journal {len(events)}", *(whole(it, 6, 16) for it in events), "abandoned 0")


def whole(line: str, words: int, digits: int) -> str:
    """A line of so many words, the last of which is a 0 of so many digits if the line is a word short."""
    return line if line.count(" ") == words - 1 else f"{line} {0:0{digits}x}"
