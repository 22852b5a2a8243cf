#!/usr/bin/env python3
"""Audits the reports of all cases: audits.py PROGRAM [FOLDER OF CASES..].

Each case of the folders, or of tests/cases if none is named, whose words are those of a run or a stepped
run is run in a copy of its folder. Where the program writes a report, `audit` of that report, with the same
world and the same element files, has to write `yes`; the other cases are left out, and so are chains without journals.
"""
from __future__ import annotations

import argparse
import pathlib
import shutil
import subprocess
import sys
import tempfile
import unittest
from functools import partial
from typing import Iterator, Optional, Sequence

sys.dont_write_bytecode = True
from checks import Check, tried  # noqa: E402
from program import call  # noqa: E402
from run import CASES, copy_examples, make_spaces, words_of  # noqa: E402


def make_inputs(copy: pathlib.Path) -> None:
    """Makes the inputs of a case that its folder tells how to make."""
    make_spaces(copy)
    copy_examples(copy)
    if (copy / "gen").exists():
        subprocess.run([sys.executable, "gen"], cwd=copy, stdout=subprocess.DEVNULL, timeout=60, check=True)


def is_run(case: pathlib.Path) -> bool:
    """Whether the words of a case are those of a run whose report can be had."""
    return words_of(case / "args")[0] in (b"run", b"step") and not (case / "stdout").exists()


def fault(program: pathlib.Path, case: pathlib.Path) -> Optional[str]:
    """What is wrong with the audit of a case's report. SkipTest if the case has no report."""
    words = words_of(case / "args")
    with tempfile.TemporaryDirectory() as folder:
        copy = pathlib.Path(folder) / "case"
        shutil.copytree(case, copy)
        make_inputs(copy)
        done = call(program, words, copy)
        if done.returncode != 0:
            raise unittest.SkipTest("it writes no report")
        if done.stdout.startswith(b"feast 3\n"):
            raise unittest.SkipTest("it writes a report without a journal")
        (copy / "the report").write_bytes(done.stdout)
        judged = call(program, [b"audit", words[1], b"the report", *words[2:]], copy)
    if judged.returncode == 0 and judged.stdout == b"yes\n":
        return None
    return f"status {judged.returncode}, wrote {judged.stdout[:200]!r}"


def checks(program: pathlib.Path, folders: Sequence[pathlib.Path] = (CASES,)) -> Iterator[Check]:
    """A check for each run among the cases of folders."""
    for folder in folders:
        for args in sorted(folder.glob("*/args")):
            if args.stat().st_size and is_run(args.parent):
                yield Check(args.parent.name, partial(fault, program, args.parent.resolve()))


def main() -> int:
    """The command: the status is 1 if an audit doesn't say yes, or there is no report."""
    parser = argparse.ArgumentParser(description="Audits the reports of all cases.")
    parser.add_argument("program", type=pathlib.Path, help="the program")
    parser.add_argument("folders", metavar="FOLDER", nargs="*", type=pathlib.Path, default=[CASES],
                        help="of the cases of these folders, in place of tests/cases")
    given = parser.parse_args()
    outcomes = tried(list(checks(given.program.resolve(), given.folders)), aside=True)
    told("audits", outcomes, sum(outcome.seconds for outcome in outcomes))
    faults = any(outcome.fault for outcome in outcomes)
    return 1 if faults or not any(not outcome.left_out for outcome in outcomes) else 0


if __name__ == "__main__":
    from driver import told

    sys.exit(main())
