"""The repository, as git knows it."""
from __future__ import annotations

import subprocess
from pathlib import Path


class ReleaseError(Exception):
    """Why there is no release, as a reader is told."""


def git(top: Path, *words: str) -> str:
    """What git writes, without the last line's end. ReleaseError if it refuses."""
    done = subprocess.run(["git", "-C", str(top), *words], capture_output=True, text=True, check=False)
    if done.returncode != 0:
        raise ReleaseError(f"git {words[0]}: {done.stderr.strip() or done.stdout.strip()}")
    return done.stdout.rstrip("\n")


def commit_of(top: Path) -> str:
    """The commit that is checked out."""
    return git(top, "rev-parse", "HEAD")


def changes(top: Path) -> list[str]:
    """The files that differ from the commit, and those that it doesn't have and that aren't ignored."""
    return [line[3:] for line in git(top, "status", "--porcelain").splitlines()]


def common_folder(top: Path) -> Path:
    """Where git keeps what all working trees of the clone share."""
    return (top / git(top, "rev-parse", "--git-common-dir")).resolve()


def tagged(top: Path, tag: str) -> str | None:
    """The commit that a tag names; None if there is no such tag."""
    return git(top, "rev-parse", f"{tag}^{{commit}}") if git(top, "tag", "--list", tag) else None


def unpack(top: Path, paths: list[str], folder: Path) -> None:
    """Puts files of the commit into a folder. Paths that the commit doesn't have are refused."""
    made = subprocess.Popen(["git", "-C", str(top), "archive", "HEAD", *paths], stdout=subprocess.PIPE)
    unpacked = subprocess.run(["tar", "-x", "-C", str(folder)], stdin=made.stdout, check=False)
    if made.wait() != 0 or unpacked.returncode != 0:
        raise ReleaseError("the files of the commit can't be had")
