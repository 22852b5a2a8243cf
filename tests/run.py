#!/usr/bin/env python3
"""Runs the repository's own cases against a program: run.py PROGRAM [CASE..].

Each folder of tests/cases is one case: `args` has the words, one a line; `expected` has what the
program is to write on standard output; `status` has its exit status; `shows` says in one line what
the case shows. All other files are inputs, and the case runs in a copy of its folder. Where
`stdout` says `full`, standard output is a full device, and the status alone is compared. Each line
`NAME BYTES` of `spaces` makes an input of so many spaces, and each line of `examples` names a file of
the folder examples/ that is an input too. Where `then` has words, they are a second call: what the
first call wrote is its input `report`, and what is compared is its output; without `expected` that has
to be the first lines of what the first call wrote.
"""
from __future__ import annotations

import pathlib
import shutil
import subprocess
import sys
import tempfile
from functools import partial
from typing import Iterator, Optional

sys.dont_write_bytecode = True
from checks import Check  # noqa: E402
from program import call  # noqa: E402

CASES = pathlib.Path(__file__).resolve().parent / "cases"
EXAMPLES = CASES.parent.parent / "examples"


def words_of(file: pathlib.Path) -> list[bytes]:
    """The words of a call, as bytes."""
    text = file.read_bytes()
    return text.split(b"\n")[:-1] if text.endswith(b"\n") else text.split(b"\n")


def make_spaces(folder: pathlib.Path) -> None:
    """Makes the inputs that are nothing but spaces."""
    lines = folder / "spaces"
    if lines.exists():
        for name, size in (line.split() for line in lines.read_text().splitlines()):
            (folder / name).write_bytes(b" " * int(size))


def copy_examples(folder: pathlib.Path) -> None:
    """Copies the examples that the case runs on."""
    names = folder / "examples"
    if names.exists():
        for name in names.read_text().split():
            shutil.copy(EXAMPLES / name, folder)


def run(program: pathlib.Path, case: pathlib.Path) -> Optional[str]:
    """What is wrong with a case, or None."""
    with tempfile.TemporaryDirectory() as folder:
        copy = pathlib.Path(folder) / case.name
        shutil.copytree(case, copy)
        make_spaces(copy)
        copy_examples(copy)
        full = (case / "stdout").exists()
        with open("/dev/full", "wb") as device:
            done = call(program, words_of(case / "args"), copy, device if full else subprocess.PIPE)
        first = done
        if (case / "then").exists():
            (copy / "report").write_bytes(first.stdout)
            done = call(program, words_of(case / "then"), copy)
    status = int((case / "status").read_text())
    if done.returncode != status:
        return f"status {done.returncode}, not {status}"
    if full:
        return None
    if (case / "expected").exists():
        is_right = done.stdout == (case / "expected").read_bytes()
    else:
        is_right = done.stdout != b"" and first.stdout.startswith(done.stdout)
    return None if is_right else f"wrote {done.stdout[:200]!r}"


def checks(program: pathlib.Path) -> Iterator[Check]:
    """A check for each case."""
    for case in sorted(CASES.iterdir()):
        yield Check(case.name, partial(fault, program, case))


def fault(program: pathlib.Path, case: pathlib.Path) -> Optional[str]:
    """What is wrong with a case, behind what it shows."""
    said = run(program, case)
    return said and f"{(case / 'shows').read_text().strip()}: {said}"


if __name__ == "__main__":
    from driver import only

    sys.exit(only("cases"))
