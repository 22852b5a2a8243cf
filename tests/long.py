#!/usr/bin/env python3
"""Lists functions of more than 40 lines and files of more than 400: long.py [--functions N] [--files N].

A function's lines are those of its body. Files are those of crates/*/src, specs and proofs, and the Python of the
repository. More than N functions, or files, are a fault.
"""
from __future__ import annotations

import argparse
import pathlib
import sys
from typing import Iterator

sys.dont_write_bytecode = True
from rust_code import TOP, Code, line_of, sources  # noqa: E402

MOST_OF_FUNCTION, MOST_OF_FILE = 40, 400


def long_functions(path: pathlib.Path) -> Iterator[tuple[int, str]]:
    """The functions of a .rt file that are too long: their lines, and where they stand."""
    source = path.read_text()
    for function in Code(source).functions():
        lines = line_of(source, function.end) - line_of(source, function.body) - 1
        if lines > MOST_OF_FUNCTION:
            yield lines, f"{path.relative_to(TOP)}:{line_of(source, function.start)}: {function.name}"


def long_file(path: pathlib.Path) -> Iterator[tuple[int, str]]:
    """A file that is too long: its lines, and its name."""
    lines = path.read_text().count("\n")
    if lines > MOST_OF_FILE:
        yield lines, str(path.relative_to(TOP))


def told(what: str, found: list[tuple[int, str]], most: int) -> None:
    """Prints what is too long, the longest first."""
    for lines, name in sorted(found, reverse=True):
        print(f"{lines:5} {name}")
    print(f"{len(found)} {what} of more than {most} lines")


def main() -> int:
    """The command."""
    parser = argparse.ArgumentParser(description="Lists functions and files that are too long.")
    parser.add_argument("--functions", type=int, metavar="N", help="more than N functions are a fault")
    parser.add_argument("--files", type=int, metavar="N", help="more than N files are a fault")
    given = parser.parse_args()
    code = sources("src", ".rt")
    scripts = [path for folder in ("tests", "tools", "bench") for path in (TOP / folder).rglob("*.py")]
    functions = [it for path in code for it in long_functions(path)]
    texts = [*code, *sources("specs", ".antt"), *sources("proofs", ".antt"), *scripts]
    files = [it for path in texts for it in long_file(path)]
    told("functions", functions, MOST_OF_FUNCTION)
    told("files", files, MOST_OF_FILE)
    limits = ((functions, given.functions), (files, given.files))
    return 1 if any(most is not None and len(found) > most for found, most in limits) else 0


if __name__ == "__main__":
    sys.exit(main())
