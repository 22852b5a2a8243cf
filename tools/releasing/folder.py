"""What the released folder has, and its checksums."""
from __future__ import annotations

import shutil
from pathlib import Path

from releasing.record import Record, digest
from releasing.tree import ReleaseError, unpack

# What users get of the commit.
PATHS = [
    "README.md", "CHANGELOG.md", "CITATION.cff", "CONTRIBUTING.md", "LICENSE-APACHE", "LICENSE-MIT", "SECURITY.md",
    "VERSION", "docs", "editors", "examples", "feast", "lab", "pyproject.toml", "setup.py", "tools",
]
# What of these is for those who make the program and its releases.
MAKERS = ["tools/dist", "tools/first_call", "tools/pictures", "tools/proved", "tools/release", "tools/releasing"]
PROGRAM = "bin/feast"
# The kit's crates of which parts are in the program, and which have licences.
PARTS = ("arrayvec", "indexmap", "itoa", "rand_core", "rand_xoshiro", "thiserror")
LICENCES = ("LICENSE*", "COPYRIGHT*")


def fill(folder: Path, top: Path, program: Path, kit: Path, record: Record) -> None:
    """Fills a folder with all that users get, the checksums last. The owner alone may write to it."""
    unpack(top, [*PATHS, *(f":(exclude){path}" for path in MAKERS)], folder)
    placed = folder / PROGRAM
    placed.parent.mkdir()
    shutil.copyfile(program, placed)
    placed.chmod(0o755)
    copy_licences(kit, folder / "licences")
    (folder / "KIT").write_text(told(record))
    (folder / "SHA256SUMS").write_text(checksums(folder))
    for path in (folder, *folder.rglob("*")):
        path.chmod(0o755 if path.is_dir() or path.stat().st_mode & 0o100 else 0o644)


def told(record: Record) -> str:
    """Where the program comes from, in three lines."""
    return f"commit {record.commit}\nproved with {record.kit}\nSHA-256 of {PROGRAM} {record.program}\n"


def copy_licences(kit: Path, folder: Path) -> None:
    """Copies the licences of the kit's parts. ReleaseError if the kit has none of one."""
    for part in PARTS:
        found = [path for form in LICENCES for path in sorted((kit / "rattle" / part).glob(form))]
        if not found:
            raise ReleaseError(f"{kit / 'rattle' / part}: there is no licence of this part of the program")
        (folder / part).mkdir(parents=True)
        for path in found:
            shutil.copyfile(path, folder / part / path.name)


def checksums(folder: Path) -> str:
    """The SHA-256 of each file of a folder, as `sha256sum -c` reads them."""
    files = sorted(path for path in folder.rglob("*") if path.is_file())
    return "".join(f"{digest(path)}  {path.relative_to(folder)}\n" for path in files)
