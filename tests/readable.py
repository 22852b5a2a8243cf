#!/usr/bin/env python3
"""Lists what is hard to read in contracts: readable.py [--long N] [--list].

Three things are counted. The clauses of crates/*/src with more than 100 characters between their braces, spaces
squeezed: with `--long N` more than N in a hundred of all clauses are a fault, and one with more than 200 always is.
And the relations of crates/*/specs, records and definitions to `Type 0`, that take more than five explicit
arguments, each of which is a fault. And the functions of crates/*/src that take more than six parameters or have more
than eight clauses: each is a fault, unless EXCEPTIONS names it with a reason, and so is a name there that needs none.
`--list` shows each clause, relation and function that counts.
"""
from __future__ import annotations

import argparse
import pathlib
import re
import sys
from dataclasses import dataclass
from typing import Iterator

sys.dont_write_bytecode = True
from antt_text import Declaration, declarations  # noqa: E402
from rust_code import TOP, Code, end_of_braces, line_of, shown, sources  # noqa: E402

CLAUSE = re.compile(r"^[ \t]*(?:requires|ensures)\b[^{}\n]*(?=\{)", re.MULTILINE)
BINDER = re.compile(r"[({]([^(){}:]+) : ")
LONG, LONGEST, PLACES = 100, 200, 5
PARAMETERS, CLAUSES = 6, 8
# Functions that take or say more, by crate and name, and why.
EXCEPTIONS = {
    ("cases_edge", "count_up"): "a loop of a test, which says of each register what it is",
    ("cases_order", "run"): "a worked run with all that it starts from",
    ("code_gen", "assign_at"): "the parts of an assignment",
    ("edge_lock", "read"): "the clauses of `Board`, and what one edge keeps",
    ("edge_lock", "try_take"): "the clauses of `Board`, and what one edge keeps",
    ("feast_base", "load"): "the clauses of `Shelf`, and the list of calls that fail",
    ("feast_run", "feast"): "the promise of the whole program",
    ("serial_order", "settle_site"): "an edge between two tiles, and what is settled there",
    ("serial_order", "settle_stretch"): "an edge between two tiles, and what is settled there",
    ("tile_core", "advance"): "the promise of each step of the machine",
    ("tile_core", "attempt"): "the promise of a whole attempt, but for what gives edges back after a refusal",
    ("tile_core", "attempt_whole"): "the promise of a whole attempt, step by step",
    ("tile_threads", "run_over"): "all that a threaded run starts from",
    ("ulam_heirs", "add"): "a token with those around it, by which its part is known",
    ("ulam_meaning", "laws"): "a list of laws",
    ("ulam_names", "branch"): "the parts of an `if`",
    ("ulam_names", "declare"): "the parts of a declaration",
    ("world_runs", "threaded_from"): "all that a threaded run starts from",
    ("world_text", "put_atom"): "the parts of a line",
}


@dataclass(frozen=True)
class Clause:
    """A clause: where it stands, and what it says in one line."""

    path: pathlib.Path
    line: int
    text: str


def clauses(path: pathlib.Path) -> Iterator[Clause]:
    """The clauses of a file."""
    text = path.read_text()
    for hit in CLAUSE.finditer(text):
        said = text[hit.end() + 1 : end_of_braces(text, hit.end()) - 1]
        yield Clause(path, line_of(text, hit.start()), " ".join(said.split()))


def at_depth(text: str, mark: str) -> list[str]:
    """The parts of a text between the marks that stand in no bracket."""
    depth, parts = 0, [""]
    for letter in text:
        depth += {"(": 1, "{": 1, "[": 1, ")": -1, "}": -1, "]": -1}.get(letter, 0)
        if letter == mark and depth == 0:
            parts.append("")
        else:
            parts[-1] += letter
    return [part.strip() for part in parts]


def groups(text: str) -> list[str]:
    """The bracketed parts of a text, the outermost ones."""
    depth, found = 0, []
    for letter in text:
        if letter in "({":
            depth += 1
            if depth == 1:
                found.append("")
        if depth:
            found[-1] += letter
        if letter in ")}":
            depth -= 1
    return found


def binders(text: str) -> int:
    """How many explicit names the leading brackets of a text bind."""
    return sum(len(hit[1].split()) for group in groups(text) if group[0] == "(" and (hit := BINDER.match(group)))


def places(declaration: Declaration) -> int:
    """How many explicit arguments a relation takes; 0 for what is no relation."""
    if declaration.is_record:
        return binders(declaration.type.rpartition(" : ")[0])
    *taken, result = at_depth(declaration.type, "→")
    if not result.startswith("Type"):
        return 0
    return sum(binders(part) if BINDER.match(part) else 1 for part in taken)


def wide_relations() -> list[Declaration]:
    """The relations that take more than five explicit arguments."""
    return [it for path in sources("specs", ".antt") for it in declarations(path) if places(it) > PLACES]


@dataclass(frozen=True)
class Head:
    """The head of a function: where it stands, its name, and how many parameters and clauses it has."""

    path: pathlib.Path
    line: int
    name: str
    parameters: int
    clauses: int

    @property
    def key(self) -> tuple[str, str]:
        return self.path.relative_to(TOP / "crates").parts[0], self.name

    @property
    def is_long(self) -> bool:
        return self.parameters > PARAMETERS or self.clauses > CLAUSES


def parameters(text: str) -> int:
    """How many parameters there are between the brackets of a head."""
    depth, parts = 0, [""]
    for before, letter in zip(" " + text, text):
        depth += 1 if letter in "([{<" else -1 if letter in ")]}" or (letter == ">" and before != "-") else 0
        if letter == "," and depth == 0:
            parts.append("")
        else:
            parts[-1] += letter
    return sum(bool(part.strip()) for part in parts)


def heads(path: pathlib.Path) -> Iterator[Head]:
    """The heads of the functions of a file that have a body."""
    text = path.read_text()
    code = Code(text)
    for it in code.functions():
        opened = next(at for at in code.places if at >= it.start and code.text[at] == "(" and bare(code.text[it.start : at]))
        said = sum(it.start < hit.start() < it.body for hit in CLAUSE.finditer(text))
        yield Head(path, line_of(text, it.start), it.name, parameters(code.text[opened + 1 : code.closes[opened]]), said)


def bare(text: str) -> bool:
    """Whether the angle brackets of a text are closed."""
    return text.replace("->", "").count("<") == text.replace("->", "").count(">")


def main() -> int:
    """The command."""
    parser = argparse.ArgumentParser(description="Lists what is hard to read in contracts.")
    parser.add_argument("--long", type=float, metavar="N", help="more than N long clauses in a hundred are a fault")
    parser.add_argument("--list", action="store_true", help="show each clause and each relation that counts")
    options = parser.parse_args()
    found = [clause for path in sources("src", ".rt") for clause in clauses(path)]
    long = [clause for clause in found if len(clause.text) > LONG]
    longest = [clause for clause in long if len(clause.text) > LONGEST]
    wide = wide_relations()
    for clause in long if options.list else longest:
        print(f"{shown(clause.path)}:{clause.line}: {len(clause.text)} characters")
    for relation in wide:
        print(f"{shown(relation.path)}:{relation.line}: {relation.name} takes {places(relation)} arguments")
    every = [head for path in sources("src", ".rt") for head in heads(path)]
    wordy = [head for head in every if head.is_long]
    faults = [head for head in wordy if head.key not in EXCEPTIONS]
    needless = sorted(EXCEPTIONS.keys() - {head.key for head in wordy})
    for head in wordy if options.list else faults:
        print(f"{shown(head.path)}:{head.line}: `{head.name}` has {head.parameters} parameters and {head.clauses} clauses")
    for crate, name in needless:
        print(f"{crate}: `{name}` is named as an exception and is none")
    share = 100 * len(long) / max(1, len(found))
    print(f"{len(found)} clauses, {len(long)} over {LONG} characters ({share:.1f} in a hundred), {len(longest)} over {LONGEST}")
    print(f"{len(wide)} relations take more than {PLACES} arguments")
    print(f"{len(every)} functions, {len(wordy)} with more than {PARAMETERS} parameters or {CLAUSES} clauses, {len(faults)} of them unnamed")
    is_fault = bool(faults or needless) or (options.long is not None and share > options.long)
    return 1 if is_fault or longest or wide else 0


if __name__ == "__main__":
    sys.exit(main())
