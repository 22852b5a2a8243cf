"""Reads the code of .rt files: what is left without comments, texts and clauses; its brackets; its functions."""
from __future__ import annotations

import bisect
import pathlib
import re
from dataclasses import dataclass
from typing import Iterator, Optional

TOP = pathlib.Path(__file__).resolve().parent.parent
# Comments and texts, and with them the imports.
WORDS = re.compile(r"""//[^\n]*|b?"(?:[^"\\]|\\[\s\S])*"|b?'(?:[^'\\\n]|\\[^\n]+?)'""")
PLAIN = re.compile(rf"{WORDS.pattern}|ghost\s+use\b[^;]*;|\buse\b[^;{{]*(?:\{{[^;]*\}})?[^;]*;")
CLAUSE = re.compile(
    r"\b(?:(?:requires|ensures)(?:\s*\*)?(?:\s*\b\w+)?|ghost(?:\s+\w+\s*[:=](?:\s*(?:owns|lends))?)?|law\s+\w+\s*:)\s*(?=\{)"
)
FURTHER = re.compile(r"\s*(?:=|by)\s*(?=\{)")


def end_of_braces(text: str, at: int) -> int:
    """Where the braces that open at a place are closed, past the closing one."""
    depth = 0
    for brace in re.compile(r"[{}]").finditer(text, at):
        depth += 1 if brace[0] == "{" else -1
        if depth == 0:
            return brace.end()
    return len(text)


def end_of_clause(text: str, at: int) -> int:
    """Where a clause ends whose braces open at a place."""
    end = end_of_braces(text, at)
    while more := FURTHER.match(text, end):
        end = end_of_braces(text, more.end())
    return end


def spaces(text: str) -> str:
    """As many spaces on as many lines."""
    return re.sub(r"[^\n]", " ", text)


def without(words: re.Pattern[str], text: str) -> str:
    """The text with spaces in place of such words; no place and no line moves."""
    return words.sub(lambda hit: spaces(hit[0]), text)


def blank(text: str) -> str:
    """The text with spaces in place of its comments, texts, clauses and imports; no place and no line moves."""
    found, at = [], 0
    word = re.compile(rf"{PLAIN.pattern}|{CLAUSE.pattern}")
    while hit := word.search(text, at):
        end = end_of_clause(text, hit.end()) if CLAUSE.match(text, hit.start()) else hit.end()
        found += [text[at : hit.start()], spaces(text[hit.start() : end])]
        at = end
    return "".join([*found, text[at:]])


def line_of(text: str, at: int) -> int:
    """The number of the line of a place."""
    return text.count("\n", 0, at) + 1


class Code:
    """A text without comments, texts and clauses, with its brackets: where each that opens is closed, and the
    other way round."""

    def __init__(self, text: str) -> None:
        self.text = blank(text)
        self.closes: dict[int, int] = {}
        self.opens: dict[int, int] = {}
        self.places: list[int] = []
        self.inside: list[Optional[int]] = []
        waiting: list[int] = []
        for bracket in re.finditer(r"[()\[\]{}]", self.text):
            if bracket[0] in "([{":
                waiting.append(bracket.start())
            elif waiting:
                opened = waiting.pop()
                self.closes[opened], self.opens[bracket.start()] = bracket.start(), opened
            self.places.append(bracket.start())
            self.inside.append(waiting[-1] if waiting else None)

    def around(self, at: int) -> Optional[int]:
        """Where the innermost bracket opens that a place stands in; a bracket itself stands outside."""
        before = bisect.bisect_left(self.places, at) - 1
        return self.inside[before] if before >= 0 else None

    def before(self, at: int) -> str:
        """The text up to a place, without space at its end."""
        return self.text[:at].rstrip()

    def functions(self) -> Iterator["Function"]:
        """The functions that have a body."""
        for head in re.finditer(r"\bfn\s+(\w+)", self.text):
            at = head.end()
            while at < len(self.text) and self.text[at] not in "{;":
                at = self.closes.get(at, at) + 1
            if at < len(self.text) and self.text[at] == "{":
                yield Function(head[1], head.start(), at, self.closes[at])


@dataclass(frozen=True)
class Function:
    """A function: its name, where its `fn` stands, and where the braces of its body open and close."""

    name: str
    start: int
    body: int
    end: int


def shown(path: pathlib.Path) -> str:
    """A path of a crate's file as one reads it."""
    return str(path.relative_to(TOP / "crates"))


def sources(part: str, suffix: str) -> list[pathlib.Path]:
    """The files of a kind in a part of each crate."""
    return sorted(path for path in TOP.glob(f"crates/*/{part}/**/*{suffix}") if path.is_file())
