"""The files of the repository."""
from __future__ import annotations

import os
import shutil
import subprocess
from pathlib import Path

TOP = Path(__file__).resolve().parent.parent
# What .gitignore names, and git's own folder.
LEFT_OUT = {".git", "out", "__pycache__", ".mypy_cache"}


def files(top: Path = TOP) -> list[str]:
    """The names of the files that git keeps. Where it doesn't know the folder, as in an unpacked archive or in the clone of
    another user, those of all files that lie there and aren't built."""
    if shutil.which("git"):
        done = subprocess.run(["git", "ls-files", "-z"], cwd=top, capture_output=True, check=False)
        kept = [os.fsdecode(name) for name in done.stdout.split(b"\0") if name]
        if "README.md" in kept:
            return kept
    found: list[str] = []
    for at, folders, names in os.walk(top):
        folders[:] = [it for it in folders if it not in LEFT_OUT and not it.endswith(".egg-info")]
        found += [os.path.relpath(os.path.join(at, name), top) for name in names]
    return sorted(found)
