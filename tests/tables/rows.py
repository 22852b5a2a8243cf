"""Rows of tables: a call of the program over files with its status and what it writes, or two calls that are compared."""
from __future__ import annotations

import dataclasses
from typing import Mapping, Optional

from program import File, bytes_of, called
from refusals import line, status_of


@dataclasses.dataclass(frozen=True)
class Row:
    """A call by its words, the files that are there, and how it ends."""

    words: str
    files: Mapping[str, File]
    status: int
    output: File

    def fault(self, program: str) -> Optional[str]:
        """What is wrong with the row, or None."""
        wanted = self.status, bytes_of(self.output)
        found = called(program, self.words.split(" "), self.files)
        if found == wanted:
            return None
        last = bytes_of(self.files.get(self.words.split(" ")[-1], b""))
        return f"{self.words}: {last[-100:]!r}: {shown(found)}, not {shown(wanted)}"


@dataclasses.dataclass(frozen=True)
class Pair:
    """A call over two texts in turn, which ends well both times, and whether it then writes the same."""

    verb: str
    texts: tuple[str, str]
    alike: bool

    def fault(self, program: str) -> Optional[str]:
        """What is wrong with the pair, or None."""
        one, other = [called(program, [self.verb, "a"], {"a": text}) for text in self.texts]
        if one[0] == other[0] == 0 and (one == other) == self.alike:
            return None
        wanted = "the same" if self.alike else "not the same"
        return f"{self.verb}: {self.texts[0]!r}: {shown(one)}; {self.texts[1]!r}: {shown(other)}; {wanted} is wanted"


def written(words: str, files: Mapping[str, File], output: File) -> Row:
    """A call that ends well."""
    return Row(words, files, 0, output)


def refused(words: str, files: Mapping[str, File], place: str, code: str, number: int = 0) -> Row:
    """A call that ends with a refusal line; the place is `NAME:LINE:COLUMN`, or a name alone."""
    return Row(words, files, status_of(code), line(place, code, number))


def shown(ending: tuple[int, bytes]) -> str:
    """A status with the front of an output, to be read."""
    status, output = ending
    return f"status {status}, {output[:100]!r}"
