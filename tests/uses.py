#!/usr/bin/env python3
"""Lists where crates.txt disagrees with the libraries that the crates name: uses.py

A crate names a library if its code says `library::` or `use library`, or a contract or a proof says
`Rattle.library.`.
"""
from __future__ import annotations

import argparse
import re
import sys
from dataclasses import dataclass

sys.dont_write_bytecode = True
from rust_code import TOP  # noqa: E402


@dataclass
class Crate:
    """A line of crates.txt, with the words that the crate's files have where a library may be named."""

    name: str
    libraries: list[str]
    named: set[str]


def crates() -> list[Crate]:
    """The crates of crates.txt, in its order."""
    found = []
    for name, libraries in re.findall(r"^([a-z_]+)[^:#\n]*:(.*)$", (TOP / "crates.txt").read_text(), re.M):
        code = [path.read_text() for path in sorted((TOP / "crates" / name / "src").rglob("*.rt"))]
        folders = [TOP / "crates" / name / part for part in ("specs", "proofs")]
        proofs = [path.read_text() for folder in folders for path in sorted(folder.rglob("*.antt"))]
        in_code = {word for text in code for pair in re.findall(r"\b(\w+)::|\buse (\w+)", text) for word in pair}
        in_proofs = {word for text in code + proofs for word in re.findall(r"\bRattle\.(\w+)\.", text)}
        found.append(Crate(name, libraries.split(), in_code | in_proofs))
    return found


def line_faults(all_crates: list[Crate]) -> list[str]:
    """The libraries that a line has and the crate doesn't name, and those that it names and the line hasn't."""
    known = sorted({it for crate in all_crates for it in [crate.name, *crate.libraries]})
    too_many = [(crate, it) for crate in all_crates for it in crate.libraries if it not in crate.named]
    too_few = [
        (crate, it)
        for crate in all_crates
        for it in known
        if it not in [crate.name, *crate.libraries] and it in crate.named
    ]
    return [f"crates.txt: {crate.name} doesn't name {it}" for crate, it in too_many] + [
        f"crates.txt: {crate.name} names {it}, which its line hasn't" for crate, it in too_few
    ]


def main() -> int:
    """The command."""
    argparse.ArgumentParser(description="Holds crates.txt against what crates name.").parse_args()
    all_crates = crates()
    found = line_faults(all_crates)
    print("\n".join(found + [f"{len(all_crates)} crates, {len(found)} faults in what they use"]))
    return 1 if found else 0


if __name__ == "__main__":
    sys.exit(main())
