"""Reads the declarations of .antt files: names, types and bodies, each as one line of text."""
from __future__ import annotations

import pathlib
import re
from dataclasses import dataclass
from typing import Iterator

# Comments and texts.
WORDS = re.compile(r"""(?<!\S)--(?!\S)[^\n]*|"(?:[^"\\\n]|\\.)*\"""")
MARKS = r"(?:(?:abbrev|unfoldable|opaque|private|pub)\s+)*"
RECORD = re.compile(rf"{MARKS}(?:record|data)\s+(?P<name>[^\s:(){{}}]+)(?P<type>.*?)\s+where\b(?P<body>.*)")
TYPED = re.compile(rf"{MARKS}(?P<name>[^\s:(){{}},.]+) : (?P<type>.+)")
ITEM = re.compile(r"(?:pub\s+)?(?:use|mod|module|syntax|pattern)\b")
MODULE = re.compile(r"module _ (?P<type>.*)\bwhere\b")


@dataclass(frozen=True)
class Declaration:
    """A declaration: its name, its type behind what the module that it stands in takes, what defines it, and
    whether it is a record or a data type."""

    name: str
    type: str
    body: str
    is_record: bool
    path: pathlib.Path
    line: int


def pieces(text: str, depth: int) -> Iterator[tuple[int, str]]:
    """The pieces that begin at an indentation, each with the lines that are indented further, as one line of
    text and its number."""
    begin, found = 0, ""
    for number, line in enumerate(text.splitlines(), 1):
        code = line.partition("-- ")[0].rstrip() if not line.lstrip().startswith("--") else ""
        indent = len(code) - len(code.lstrip())
        if code and indent <= depth:
            if found:
                yield begin, found
            begin, found = number, code.strip() if indent == depth else ""
        elif code and found:
            found += " " + code.strip()
    if found:
        yield begin, found


def blocks(text: str) -> Iterator[tuple[int, str, str]]:
    """The text at the left margin, and that of each block of a module without a name: the line before it, what
    the module takes, and its text."""
    outer: list[str] = []
    lines = text.splitlines()
    at = 0
    while at < len(lines):
        if not lines[at].startswith("module _ "):
            outer.append(lines[at])
            at += 1
            continue
        end = at + 1
        while end < len(lines) and (not lines[end] or lines[end].startswith(" ")):
            end += 1
        head = MODULE.match(re.sub(r"\s+", " ", " ".join(lines[at:end])))
        first = next((it for it in range(at, end) if "where" in lines[it].split()), at)
        yield first + 1, head["type"].split(" where ")[0] if head else "", "\n".join(lines[first + 1 : end])
        outer += [""] * (end - at)
        at = end
    yield 0, "", "\n".join(outer)


def declarations(path: pathlib.Path) -> Iterator[Declaration]:
    """The declarations of a file."""
    for above, takes, text in blocks(path.read_text()):
        depth = 2 if takes else 0
        found = [(line, it) for line, it in pieces(text, depth) if not ITEM.match(it)]
        for at, (line, piece) in enumerate(found):
            if record := RECORD.fullmatch(piece):
                yield Declaration(record["name"], f"{takes} {record['type']}".strip(), record["body"].strip(), True, path, above + line)
            elif typed := TYPED.fullmatch(piece):
                clauses = []
                for _, clause in found[at + 1 :]:
                    if clause.split(" ")[0] != typed["name"] or TYPED.fullmatch(clause):
                        break
                    clauses.append(clause)
                yield Declaration(typed["name"], f"{takes} {typed['type']}".strip(), " ; ".join(clauses), False, path, above + line)
