"""Makes a released folder of the commit that is checked out, and tags the commit with the version's number.

It asks that the tree has no change, that VERSION, CHANGELOG.md and CITATION.cff agree, that the last run of `./test all`
in this clone passed on this very commit and left nothing out but what the list of tools/releasing/left_out.py has, and that
the program of dist/, which the folder gets, is the one with which it passed. Beside the folder it puts FOLDER.tar.gz, which
has the same files and is the same bytes each time.
"""
from __future__ import annotations

import argparse
import os
import shutil
import subprocess
import sys
import tempfile
from pathlib import Path

from feast_lab.proved.found import DIST

from releasing import left_out
from releasing.archive import NAME, pack
from releasing.folder import PROGRAM, fill
from releasing.record import Record, digest
from releasing.tree import ReleaseError, changes, commit_of, git, tagged
from releasing.version import version_of

TOP = Path(__file__).resolve().parent.parent.parent


def main(words: list[str], top: Path = TOP) -> int:
    """The command: status 0 if the folder and the tag are made, 1 if the release is refused."""
    parser = argparse.ArgumentParser(prog="tools/release", description=__doc__)
    parser.add_argument("folder", metavar="FOLDER", type=Path, help="where the released folder goes; it isn't there yet")
    parser.add_argument("--kit", metavar="KIT", type=Path, help="the kit's folder, if its command rt isn't on the PATH")
    given = parser.parse_args(words)
    try:
        release(top, given.folder, given.kit or kit_folder())
    except (ReleaseError, OSError) as fault:
        print(f"release: {fault}", file=sys.stderr)
        return 1
    return 0


def release(top: Path, folder: Path, kit: Path) -> None:
    """Makes the folder and the tag. ReleaseError if something that is asked for doesn't hold; then neither is made."""
    record = asked(top, folder)
    tag = f"v{version_of(top)}"
    at = tagged(top, tag)
    if at not in (None, record.commit):
        raise ReleaseError(f"the tag {tag} is there, and names another commit: a new release needs a new VERSION")
    folder.parent.mkdir(parents=True, exist_ok=True)
    with tempfile.TemporaryDirectory(dir=folder.parent, prefix=".release-") as name:
        made, packed = Path(name) / "made", Path(name) / "packed"
        made.mkdir()
        fill(made, top, top / DIST.program, kit, record)
        try_out(made)
        pack(made, packed, f"feast-{tag[1:]}", int(git(top, "show", "-s", "--format=%ct", "HEAD")))
        if at is None:
            git(top, "tag", "--annotate", "--message", f"feast {tag[1:]}", tag)
        os.rename(packed, archive_of(folder))
        os.rename(made, folder)
    print(f"{folder}: feast {tag[1:]}; the tag is {tag}")


def archive_of(folder: Path) -> Path:
    """Where the archive of a folder lies."""
    return folder.with_name(folder.name + NAME)


def asked(top: Path, folder: Path) -> Record:
    """The note of the run of `./test all`. ReleaseError if the tree, the note, the program or the folder isn't as it has to be."""
    for path in (folder, archive_of(folder)):
        if path.exists():
            raise ReleaseError(f"{path}: it is there already")
    changed = changes(top)
    if changed:
        raise ReleaseError(f"the tree has changes that are not committed: {', '.join(changed[:5])}")
    record = Record.read(top)
    if record.commit != commit_of(top):
        raise ReleaseError(f"./test all has passed on {record.commit[:12]}, and not on {commit_of(top)[:12]}, which is checked out")
    if record.program != digest(top / DIST.program):
        raise ReleaseError(f"{DIST.program}: it is not the program with which ./test all has passed")
    left_out.check(record.left_out)
    return record


def kit_folder() -> Path:
    """The kit whose command a shell would run. ReleaseError if there is none."""
    command = shutil.which("rt")
    if command is None:
        raise ReleaseError("there is no command rt on the PATH, and --kit names no kit: its licences have to be copied")
    return Path(command).resolve().parent.parent


def try_out(folder: Path) -> None:
    """Calls the program as a user of the folder does. ReleaseError if it doesn't run."""
    words = ["./feast", "check", "examples/walker.ulam"]
    around = {name: value for name, value in os.environ.items() if name != "FEAST_PROGRAM"}
    done = subprocess.run(words, cwd=folder, env=around, capture_output=True, text=True, check=False)
    if done.returncode != 0:
        said = " ".join((done.stdout + done.stderr).split())
        raise ReleaseError(f"{PROGRAM}: {' '.join(words)} ended with status {done.returncode}: {said}")
