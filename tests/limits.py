#!/usr/bin/env python3
"""Tests that each limit has one home: limits.py [--list].

The limits are the rows of the table in docs/formats.md ("Limits"): a number, the name of a constant, and its crate. In
crates/*/src, tests and benches apart, the constant stands in that crate alone, with that number; and each constant that
its name or a file limits.rt shows to be a limit has a row. A refusal in a row is one of docs/errors.md.

In crates/*/src and crates/*/specs, comments and texts apart, the numbers of NUMBERS stand at the constants of the limits
that they are, and elsewhere as often as EXCEPTIONS says, no more and no less. `--list` shows where.

tools/feast_lab/lab/base/limits.py has limits by the names and with the numbers of the table, each once, and none that no other file
uses. tools/feast_lab/recheck/limits.py, which is written apart, has some of the names with the same numbers. No other Python file gives
one of these names a value, but for those of APART.
"""
from __future__ import annotations

import argparse
import ast
import collections
import pathlib
import re
import sys
from dataclasses import dataclass
from typing import Iterator, Optional

sys.dont_write_bytecode = True
from antt_text import WORDS as ANTT_WORDS  # noqa: E402
from rust_code import TOP, WORDS, line_of, shown, sources, without  # noqa: E402

NUMBERS = (71, 72, 512, 576, 65_536, 200_000, 1_000_000, 4_294_967_295)
# Those that are several limits.
SHARED = {
    72: {"MOST_REACH", "MOST_SLOTS"},
    512: {"MOST_COLUMNS", "MOST_OPERANDS"},
    1_000_000: {"MOST_ATTEMPTS", "MOST_LEGS"},
    4_294_967_295: {"LAST_LEG", "LAST_STAMP"},
}
# Where such a number is no limit: how often it stands in a file, and what it is there.
EXCEPTIONS = {
    ("chain_text/specs/Drafts.antt", 72): (1, "the code of a refusal"),
    ("feast_base/src/refusal_line.rt", 71): (1, "the code of a refusal"),
    ("feast_base/src/refusal_line.rt", 72): (1, "the code of a refusal"),
    ("feast_base/specs/Refusals.antt", 71): (1, "the code of a refusal"),
    ("feast_base/specs/Refusals.antt", 72): (1, "the code of a refusal"),
    ("feast_run/src/worlds.rt", 71): (1, "the code of a refusal"),
    ("feast_run/src/worlds.rt", 72): (1, "the code of a refusal"),
    ("report_text/src/line.rt", 512): (1, "two digits for each byte"),
    ("stepped_world/specs/Rows.antt", 71): (1, "the number of an attempt, in an example"),
    ("stepped_world/specs/Rows.antt", 72): (1, "the number of an attempt, in an example"),
    ("text_lines/src/numbers.rt", 72): (1, "the bits of 18 digits"),
    ("tile_threads/src/stride.rt", 1_000_000): (1, "nanoseconds"),
    ("world_text/specs/Drafts.antt", 71): (1, "the code of a refusal"),
    ("world_text/specs/Drafts.antt", 72): (1, "the code of a refusal"),
    ("world_text/specs/Reading.antt", 71): (1, "the code of a refusal"),
    ("world_text/specs/Reading.antt", 72): (1, "the code of a refusal"),
    ("world_text/specs/Saying.antt", 72): (1, "the bits of 18 digits"),
}
ROW = re.compile(r"^\| [^|]+ \| ([\d,]+) \| `(\w+)` \| `(\w+)` \| ([^|]+) \|$", re.MULTILINE)
REFUSAL = re.compile(r"(E\d\d) `([^`]+)`")
CONSTANT = re.compile(r"\bconst\s+([A-Z][A-Z0-9_]*)\s*:[^=;]*=\s*([^;]*);")
# How the name of a limit looks.
LIMIT = re.compile(r"(?:MOST|LEAST|LAST|LONGEST)_\w+|\w+_(?:LIMIT|BITS)")
# Constants with such a name that are none.
NO_LIMITS = {
    "LONGEST_ABANDONED": "the length of a line, which follows from its numbers",
    "LONGEST_COUNT": "the length of a line, which follows from its numbers",
    "LONGEST_RECORD": "the length of a line, which follows from its numbers",
    "LONGEST_SITE": "the length of a part of a line, which follows from its numbers",
}
LITERAL = re.compile(r"(?<![\w'])(0x[0-9a-fA-F_]+|0o[0-7_]+|0b[01_]+|[0-9][0-9_]*)(?:[iu](?:8|16|32|64|128|size))?(?![\w'])")
IMPORT = re.compile(r"^from (?:feast_lab\.lab\.base|\.\.base|\.lab\.base|)\.limits import (\([^)]*\)|[^\n]*)", re.MULTILINE)
MODULE = TOP / "tools/feast_lab/lab/base/limits.py"
SECOND = TOP / "tools/feast_lab/recheck/limits.py"
# The folders that have Python, beside the scripts at the top.
PYTHON = ("tools", "tests", "bench", "editors")
# The Python that is written apart from the rest, and so has limits of its own.
APART = {"tools/feast_lab/recheck/limits.py", "tests/models/plane.py", "tests/models/chain_text.py", "tests/hostile/reading.py",
         "tests/hostile/base_model.py"}


@dataclass(frozen=True)
class Limit:
    """A row of the table: a limit's number, the name and the crate of its constant, and what is said past it."""

    number: int
    name: str
    crate: str
    said: str


@dataclass(frozen=True)
class Constant:
    """A constant of a crate: the place of what it is, and that as a number, if it is one."""

    name: str
    path: pathlib.Path
    at: int
    number: Optional[int]

    @property
    def crate(self) -> str:
        """The crate that declares it."""
        return self.path.relative_to(TOP / "crates").parts[0]


@dataclass(frozen=True)
class Place:
    """Where one of the numbers stands."""

    path: pathlib.Path
    at: int
    line: int
    number: int

    def __str__(self) -> str:
        return f"{shown(self.path)}:{self.line}: {self.number}"


def number_of(text: str) -> int:
    """The number that a literal is."""
    digits = text.replace("_", "")
    return int(digits, 0) if digits[1:2] in ("x", "o", "b") else int(digits)


def code_of(path: pathlib.Path) -> str:
    """The text of a file without its comments and texts."""
    return without(WORDS if path.suffix == ".rt" else ANTT_WORDS, path.read_text())


def files(part: str, suffix: str) -> list[pathlib.Path]:
    """The files of a part of each crate, but for the crates of tests and measurements."""
    return [path for path in sources(part, suffix) if not shown(path).startswith(("cases_", "bench_"))]


def constants() -> Iterator[Constant]:
    """The constants of the crates."""
    for path in files("src", ".rt"):
        for hit in CONSTANT.finditer(code_of(path)):
            literal = LITERAL.fullmatch(hit[2].strip())
            yield Constant(hit[1], path, hit.start(2), number_of(literal[1]) if literal else None)


def places() -> Iterator[Place]:
    """Where the numbers stand."""
    for path in [*files("src", ".rt"), *files("specs", ".antt")]:
        text = code_of(path)
        for hit in LITERAL.finditer(text):
            if (number := number_of(hit[1])) in NUMBERS:
                yield Place(path, hit.start(), line_of(text, hit.start()), number)


def table() -> list[Limit]:
    """The rows of the table."""
    page = (TOP / "docs/formats.md").read_text()
    part = page.partition("\n## Limits\n")[2].partition("\n## ")[0]
    return [Limit(int(number.replace(",", "")), *rest) for number, *rest in ROW.findall(part)]


def is_named(constant: Constant) -> bool:
    """Whether its name or its file shows a constant to be a limit."""
    return constant.path.name == "limits.rt" or LIMIT.fullmatch(constant.name) is not None


def constant_faults(limits: list[Limit], declared: list[Constant]) -> Iterator[str]:
    """The limits that aren't the one constant of their row, and the constants without a row."""
    names = [limit.name for limit in limits]
    for limit in limits:
        found = [it for it in declared if it.name == limit.name]
        if [(it.crate, it.number) for it in found] != [(limit.crate, limit.number)]:
            there = "; ".join(f"{shown(it.path)} has {it.number}" for it in found) or "no crate has it"
            yield f"docs/formats.md: `{limit.name}` is {limit.number} in {limit.crate}, and {there}"
    for name in sorted({name for name in names if names.count(name) > 1}):
        yield f"docs/formats.md: `{name}` has several rows"
    others = [it for it in declared if it.number is not None and it.name not in names and is_named(it)]
    for it in others:
        if it.name not in NO_LIMITS:
            yield f"{shown(it.path)}: `{it.name}` is {it.number} and has no row in docs/formats.md"
    yield from (f"no constant {name} needs to be told from limits" for name in sorted(NO_LIMITS.keys() - {it.name for it in others}))


def said_faults(limits: list[Limit]) -> Iterator[str]:
    """The refusals of the table that docs/errors.md has not, or with another text, and those that say another number."""
    texts = dict(re.findall(r"^\| (E\d\d) \| `([^`]+)` \|", (TOP / "docs/errors.md").read_text(), re.MULTILINE))
    for limit in limits:
        for code, text in REFUSAL.findall(limit.said):
            if texts.get(code) != text:
                yield f"docs/formats.md: `{limit.name}`: docs/errors.md has `{texts.get(code)}` for {code}, not `{text}`"
            if any(int(number) != limit.number for number in re.findall(r"\d+", text)):
                yield f"docs/formats.md: `{limit.name}` is {limit.number}, and {code} says `{text}`"


def number_faults(limits: list[Limit], declared: list[Constant], found: list[Place]) -> Iterator[str]:
    """The numbers that stand elsewhere than at their limits, and the exceptions that are none."""
    homes = {(it.path, it.at) for it in declared if it.name in {limit.name for limit in limits}}
    bare = [it for it in found if (it.path, it.at) not in homes]
    counts = collections.Counter((shown(it.path), it.number) for it in bare)
    for number in NUMBERS:
        names = {limit.name for limit in limits if limit.number == number}
        if names != SHARED.get(number, names) or (number not in SHARED and len(names) != 1):
            yield f"docs/formats.md: {number} is the number of {', '.join(sorted(names)) or 'no limit'}"
    for key, count in counts.items():
        if key not in EXCEPTIONS:
            yield from (f"{it} stands bare" for it in bare if (shown(it.path), it.number) == key)
        elif count > EXCEPTIONS[key][0]:
            yield from (f"{it} is one of {count}, not {EXCEPTIONS[key][0]}" for it in bare if (shown(it.path), it.number) == key)
    for (name, number), (times, reason) in EXCEPTIONS.items():
        if counts[name, number] < times:
            yield f"{name}: {number} ({reason}) stands {counts[name, number]} times, not {times}"


def module(path: pathlib.Path) -> list[tuple[str, object]]:
    """The names that a module of Python gives to values, each with its value."""
    found: list[tuple[str, object]] = []
    for statement in ast.parse(path.read_text()).body:
        if isinstance(statement, (ast.Assign, ast.AnnAssign)):
            value = statement.value.value if isinstance(statement.value, ast.Constant) else None
            targets = statement.targets if isinstance(statement, ast.Assign) else [statement.target]
            found += [(ast.unparse(target), value) for target in targets]
    return found


def python_files() -> Iterator[pathlib.Path]:
    """The files of Python but for the module: those that end so, and the scripts that say so in their first line."""
    below = [path for folder in PYTHON for path in sorted((TOP / folder).rglob("*"))]
    for path in [*sorted(TOP.iterdir()), *below]:
        if path.is_file() and path != MODULE and (path.suffix == ".py" or is_script(path)):
            yield path


def is_script(path: pathlib.Path) -> bool:
    """Whether the first line of a file has it run by Python."""
    with path.open("rb") as file:
        return file.read(2) == b"#!" and b"python" in file.readline()


def given(text: str) -> set[str]:
    """The names that a text in Python gives to values, anywhere in it and whatever these are."""
    targets: list[ast.expr] = []
    for node in ast.walk(ast.parse(text)):
        if isinstance(node, ast.Assign):
            targets += node.targets
        elif isinstance(node, (ast.AnnAssign, ast.AugAssign, ast.NamedExpr)):
            targets.append(node.target)
    return {name.id for target in targets for name in ast.walk(target) if isinstance(name, ast.Name)}


def python_faults(limits: list[Limit]) -> Iterator[str]:
    """What the module of Python has otherwise than the table, or twice, or for nobody; and what stands beside it."""
    numbers = {limit.name: limit.number for limit in limits}
    mine = module(MODULE)
    texts = {str(path.relative_to(TOP)): path.read_text() for path in python_files()}
    used = {word for text in texts.values() for names in IMPORT.findall(text) for word in re.findall(r"\w+", names)}
    for name, value in mine:
        if numbers.get(name) != value:
            yield f"tools/feast_lab/lab/base/limits.py: `{name}` is {value}, and in docs/formats.md {numbers.get(name)}"
        if [it for it, _ in mine].count(name) > 1:
            yield f"tools/feast_lab/lab/base/limits.py: `{name}` stands there several times"
        if name not in used:
            yield f"tools/feast_lab/lab/base/limits.py: `{name}` is used nowhere"
    for name, value in module(SECOND):
        if numbers.get(name) != value:
            yield f"tools/feast_lab/recheck/limits.py: `{name}` is {value}, and in docs/formats.md {numbers.get(name)}"
    own = {path: sorted(given(text) & set(numbers)) for path, text in texts.items()}
    for path, names in own.items():
        if names and path not in APART:
            yield f"{path}: {', '.join(names)}: tools/feast_lab/lab/base/limits.py has the limits"
    yield from (f"{path}: it has no limit of its own" for path in sorted(APART) if not own.get(path))


def main() -> int:
    """The command."""
    parser = argparse.ArgumentParser(description="Tests that each limit has one home.")
    parser.add_argument("--list", action="store_true", help="show each place of the numbers")
    listed = parser.parse_args().list
    limits, declared, found = table(), list(constants()), list(places())
    faults = [*constant_faults(limits, declared), *said_faults(limits), *number_faults(limits, declared, found),
              *python_faults(limits)]
    print("\n".join([*(map(str, found) if listed else ()), *faults]), end="\n" if listed or faults else "")
    print(f"{len(limits)} limits, {len(found)} places of their numbers, {len(faults)} faults in limits")
    return 1 if faults or not limits else 0


if __name__ == "__main__":
    sys.exit(main())
