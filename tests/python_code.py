#!/usr/bin/env python3
"""What a type checker and a linter find in the repository's Python: python_code.py [NAME..].

mypy and flake8 are Debian's packages of these names, and pytest, which has to find the tests of the lab, is python3-pytest
(`apt-get install mypy flake8 python3-pytest`). One that isn't there is left out. The linter is ruff where that is there, which
Debian 12 and 13 don't have, and else flake8; pyproject.toml and .flake8 ask both for the same.
Modules of several folders have one name, so mypy looks at one folder after another.
"""
from __future__ import annotations

import os
import shutil
import subprocess
import sys
import tempfile
import unittest
from functools import partial
from pathlib import Path
from typing import Iterator, Optional

sys.dont_write_bytecode = True
from checks import Check  # noqa: E402

TOP = Path(__file__).resolve().parent.parent
# The folders whose modules are checked together, with those in which they find further ones, beside the packages of
# tools, each of which is checked whole.
TYPED: dict[str, list[str]] = {
    "tools/pictures": ["tools"],
    "examples/figures": [],
    "tests/lab": ["tools", "tests"],
    "tests": ["tools", "tests/tables", "tests/hostile", "tests/drawn"],
    "tests/tables": ["tools", "tests"],
    "tests/hostile": ["tools", "tests"],
    "tests/drawn": ["tools", "tests"],
    "tests/models": ["tools", "tests"],
    "tests/fakes": [],
    "bench": ["tools", "tests", "tests/tables", "tests/hostile", "tests/drawn"],
    "editors": [],
}
# What mypy keeps from one folder for the next: what it knows of the standard library.
KEPT = tempfile.TemporaryDirectory(prefix="mypy-")
# Files with Python that have no suffix.
SCRIPTS = ["lab", "tools/dist", "tools/proved", "tools/recheck", "tools/release", "bench/gate", "bench/proofs", "bench/run", "bench/even",
           "bench/chain"]


def program(name: str) -> str:
    """The command of a checker. SkipTest if it isn't there."""
    found = shutil.which(name) or shutil.which(name, path="/usr/bin")
    if found is None:
        raise unittest.SkipTest(f"{name} is not there: apt-get install {name}")
    return found


def said_by(words: list[str], folder: Path = TOP, **around: str) -> Optional[str]:
    """What a checker says that finds something."""
    done = subprocess.run(words, cwd=folder, env={**os.environ, **around}, stdin=subprocess.DEVNULL,
                          stdout=subprocess.PIPE, stderr=subprocess.STDOUT, text=True, check=False)
    return done.stdout if done.returncode else None


def type_faults(folder: str) -> Optional[str]:
    """What mypy finds in a folder."""
    words = [program("mypy"), "--config-file", str(TOP / "pyproject.toml"), "--cache-dir", KEPT.name]
    if folder not in TYPED:
        return said_by([*words, "-p", Path(folder).name], MYPYPATH=str(TOP / "tools"))
    paths = os.pathsep.join([str(TOP / it) for it in [folder] + TYPED[folder]])
    files = [str(path) for path in sorted((TOP / folder).glob("*.py"))]
    return said_by(words + files, MYPYPATH=paths)


def checks(_: object) -> Iterator[Check]:
    """A check of types for each folder, and one of all files by the linter."""
    packages = [str(path.parent.relative_to(TOP)) for path in sorted((TOP / "tools").glob("*/__init__.py"))]
    for folder in [*packages, *TYPED]:
        yield Check(f"mypy/{folder}", partial(type_faults, folder))
    yield Check("linter", lint_faults)
    yield Check("pytest", collection_faults)


def lint_faults() -> Optional[str]:
    """What the linter finds."""
    scripts = [script for script in SCRIPTS if (TOP / script).is_file() and is_python(TOP / script)]
    linter = [program("ruff"), "check", "--no-cache"] if shutil.which("ruff") else [program("flake8")]
    return said_by([*linter, "tools", "tests", "bench", "editors", "examples", "setup.py", *scripts])


def collection_faults() -> Optional[str]:
    """What pytest says if it can't find all tests of the lab, each of which is tried by ./test too."""
    for python in (sys.executable, "/usr/bin/python3"):
        if subprocess.run([python, "-c", "import pytest"], capture_output=True, check=False).returncode == 0:
            return said_by([python, "-B", "-m", "pytest", "-q", "--collect-only", "-p", "no:cacheprovider"])
    raise unittest.SkipTest("pytest is not there: apt-get install python3-pytest")


def is_python(path: Path) -> bool:
    """Whether a script is one of Python."""
    return b"python3" in path.read_bytes().partition(b"\n")[0]


if __name__ == "__main__":
    from driver import only

    sys.exit(only("python"))
