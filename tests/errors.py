#!/usr/bin/env python3
"""Tries the examples of docs/errors.md against a program: errors.py PROGRAM.

Of each row of a table with an example, the refusal line that the program writes has to have the
row's code, text and place, and the status of the row's stage. Examples of element files are the
parts in backquotes, one behind another, each as often as `N times` before it says. Other examples
change lines of the text, or bytes of the code, of the last block before the table.
"""
from __future__ import annotations

import pathlib
import re
import sys
from functools import partial
from typing import Iterator, Optional

sys.dont_write_bytecode = True
from checks import Check  # noqa: E402
from program import File, called  # noqa: E402
from refusals import status_of  # noqa: E402

TOP = pathlib.Path(__file__).resolve().parent.parent
WALKER = (TOP / "examples/walker.ulam").read_text()


def element(example: str) -> str:
    """The text of an element file."""
    parts = re.findall(r"(?:([\d,]+) times )?`([^`]*)`", example)
    return "".join(text * int((times or "1").replace(",", "")) for times, text in parts)


def changed(block: list[str], example: str) -> str:
    """The lines of a block as an example has them."""
    lines = list(block)
    for number, text in re.findall(r"line (\d+) as `([^`]*)`", example):
        lines[int(number) - 1 : int(number)] = [text]
    left_out = {int(number) - 1 for number in re.findall(r"line (\d+)(?! as)", example)}
    return "".join(f"{line}\n" for at, line in enumerate(lines) if at not in left_out)


def changed_bytes(content: bytes, example: str) -> bytes:
    """A code file as an example has it."""
    found = re.search(r"byte (\d+) (?:as `(\w\w)`|left out)", example)
    assert found, example
    number, text = found.groups()
    return content[: int(number) - 1] + bytes.fromhex(text or "") + content[int(number) :]


def rows(page: str) -> Iterator[tuple[list[str], list[list[str]]]]:
    """The blocks and the rows with a place, in order: for each row its cells and the blocks so far."""
    blocks: list[list[str]] = []
    is_inside = False
    for line in page.splitlines():
        if line.startswith("    "):
            blocks += [] if is_inside else [[]]
            blocks[-1].append(line[4:])
        elif line.startswith("| E") and len(line.split(" | ")) == 5:
            yield [cell.strip("| ") for cell in line.split(" | ")], blocks
        is_inside = line.startswith("    ")


def packed(program: pathlib.Path, source: str) -> bytes:
    """The code file of a source."""
    return called(program, ["pack", "source"], {"source": source})[1]


def files_of(
    program: pathlib.Path, code: int, example: str, blocks: list[list[str]]
) -> tuple[dict[str, File], list[str], str]:
    """The files of an example, the words of its call, and the file that is refused."""
    if 61 <= code <= 64:
        code_file = changed_bytes(packed(program, blocks[-1][0]), example)
        world = "feast 1\ntiles 1 1\nsize 8 8\n"
        return {"w": world, "c": code_file}, ["steppack", "w", "c"], "c"
    if code < 70:
        return {"a": element(example)}, ["check", "a"], "a"
    if code < 80:
        return {"w": changed(blocks[-1], example), "e": WALKER}, ["step", "w", "e"], "w"
    files: dict[str, File] = {"w": changed(blocks[-2], ""), "j": changed(blocks[-1], example), "e": WALKER}
    times = re.search(r"with K (\d+)", example)
    return files, ["rewind", "w", "j", times[1], "e"] if times else ["replay", "w", "j", "e"], "j"


def fault(program: pathlib.Path, cells: list[str], blocks: list[list[str]]) -> Optional[str]:
    """What is wrong with a row, or None."""
    code, text, _, example, place = cells
    files, words, name = files_of(program, int(code[1:]), example, blocks)
    status, output = called(program, words, files)
    wanted = re.escape(f"{name}:{place}: {code} {text.strip('`')}").replace("N", r"\d+") + "\n"
    if status != status_of(code) or not re.fullmatch(wanted, output.decode(errors="replace")):
        return f"{code}: status {status}, {output[:200]!r}"
    return None


def checks(program: pathlib.Path) -> Iterator[Check]:
    """A check for each row with an example, by its code and its number from 1."""
    page = (TOP / "docs/errors.md").read_text()
    for number, (cells, blocks) in enumerate(rows(page), 1):
        yield Check(f"{cells[0]}/{number}", partial(fault, program, cells, list(blocks)))


if __name__ == "__main__":
    from driver import only

    sys.exit(only("errors"))
