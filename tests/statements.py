#!/usr/bin/env python3
"""Lists the statements that stand in more than one crate: statements.py [--most N].

It compares the declarations of crates/*/specs and crates/*/proofs: a lemma by its type, a definition or a record
by its type and what defines it, each with its bound names numbered. The invariants of loops, and answers to goals
of one function, don't count. With `--most N` more than N groups are a fault.
"""
from __future__ import annotations

import argparse
import collections
import re
import sys

sys.dont_write_bytecode = True
from antt_text import Declaration, declarations  # noqa: E402
from rust_code import TOP, shown, sources  # noqa: E402

BOUND = re.compile(r"[({]([^():{}]+?) : |λ ((?:[^\s().,{}]+ )*[^\s().,{}]+)\.")
WORD = re.compile(r"[^\s(){},.;]+")
RELATION = re.compile(r"[≡≢<≤>≥∈⊎]|×")
CONSTRUCTORS = {"true", "false", "zero", "suc", "refl", "tt", "_", "[]"}
# What is shorter than this is no statement of its own.
LEAST = 18


def bound_names(text: str) -> list[str]:
    """The names that a text binds, in order."""
    found = [name for hit in BOUND.finditer(text) for name in (hit[1] or hit[2]).split()]
    return list(dict.fromkeys(found))


def one_by_one(text: str) -> str:
    """The text with each binder of several names written as several."""

    def split(hit: re.Match[str]) -> str:
        return " ".join(f"{hit[1]}{name} : {hit[3]}{hit[4]}" for name in hit[2].split())

    return re.sub(r"([({])((?:[^\s():{}]+ )+[^\s():{}]+) : ([^(){}]*)([)}])", split, text)


def numbered(text: str, names: list[str]) -> str:
    """The text with names in place of which numbers stand."""
    numbers = {name: f"#{at}" for at, name in enumerate(names)}
    return WORD.sub(lambda hit: numbers.get(hit[0], hit[0]), text)


def conclusion(text: str) -> str:
    """What stands behind the last arrow of a type that is in no bracket."""
    depth, start = 0, 0
    for hit in re.finditer(r"[(){}]|→", text):
        depth += {"(": 1, "{": 1, ")": -1, "}": -1}.get(hit[0], 0)
        start = hit.end() if hit[0] == "→" and depth == 0 else start
    return text[start:]


def is_lemma(declaration: Declaration) -> bool:
    """Whether a declaration states something: its conclusion has a relation, or speaks of a bound value."""
    types = set(re.findall(r"[({]([^():{}]+?) : [^(){}]*Type", declaration.type))
    values = set(bound_names(declaration.type)) - {name for names in types for name in names.split()}
    end = conclusion(declaration.type)
    return not declaration.is_record and bool(RELATION.search(end) or values & set(WORD.findall(end)))


def key(declaration: Declaration) -> str:
    """What is the same for declarations that say the same; empty for what doesn't count."""
    said = one_by_one(declaration.type)
    if said.startswith("goal."):
        return ""
    names = bound_names(said)
    if is_lemma(declaration):
        return numbered(said, names) if len(said) >= LEAST else ""
    heads = [clause.partition(" = ")[0] for clause in declaration.body.split(" ; ")]
    taken = [] if declaration.is_record else [word for head in heads for word in WORD.findall(head) if word[0].islower()]
    names += [name for name in dict.fromkeys([*taken, *bound_names(declaration.body)]) if name not in {*names, *CONSTRUCTORS}]
    own = numbered(f"{said} | {declaration.body}", [declaration.name, *(it for it in names if it != declaration.name)])
    return own if declaration.body and len(declaration.body) >= LEAST else ""


def crate_of(declaration: Declaration) -> str:
    """The crate that a declaration stands in."""
    return declaration.path.relative_to(TOP / "crates").parts[0]


def groups() -> list[list[Declaration]]:
    """The declarations that say the same in several crates, those in most places first."""
    found = collections.defaultdict(list)
    files = [*sources("specs", ".antt"), *sources("proofs", ".antt")]
    for path in files:
        if path.name != "Invariants.antt":
            for declaration in declarations(path):
                found[key(declaration)].append(declaration)
    found.pop("", None)
    shared = [group for group in found.values() if len(set(map(crate_of, group))) > 1]
    return sorted(shared, key=lambda group: (-len(group), group[0].name))


def main() -> int:
    """The command."""
    parser = argparse.ArgumentParser(description="Lists the statements that stand in more than one crate.")
    parser.add_argument("--most", type=int, metavar="N", help="more than N groups are a fault")
    most = parser.parse_args().most
    found = groups()
    for group in found:
        print(f"{group[0].type[:200]}")
        for it in group:
            print(f"    {it.name} {shown(it.path)}:{it.line}")
    print(f"{len(found)} statements stand in more than one crate, in {sum(map(len, found))} places")
    return 1 if most is not None and len(found) > most else 0


if __name__ == "__main__":
    sys.exit(main())
