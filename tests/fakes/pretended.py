"""What the commands of the pretended toolchain share: the repository that PRETENDED names, and notes of calls there."""
from __future__ import annotations

import os
import pathlib

TOP = pathlib.Path(os.environ["PRETENDED"])


def note(text: str) -> None:
    """Notes a call in the file `calls`."""
    with open(TOP / "calls", "a") as file:
        file.write(f"{text}\n")


def value(words: list[str], option: str) -> str:
    """The word after an option."""
    return words[words.index(option) + 1]


def text_of(name: str) -> str:
    """A file by which a test tells the toolchain what to do; empty if there is none."""
    path = TOP / name
    return path.read_text() if path.exists() else ""
