"""The lab, killed just before it puts a file in its place or adds to one, or when half is added: dying.py N WORDS, at the Nth time."""
import itertools
import os
import signal
import sys
from pathlib import Path

sys.dont_write_bytecode = True
sys.path.insert(0, str(Path(__file__).resolve().parent.parent.parent / "tools"))

from feast_lab.lab.base import files  # noqa: E402
from feast_lab.lab.chain import folder, keeper  # noqa: E402
from feast_lab.lab.command.main import main  # noqa: E402

last = int(sys.argv[1])
turn = itertools.count(1)
replace, append_to = os.replace, files.append_to


def replace_or_die(beside: Path, path: Path) -> None:
    """Puts a file in its place, until it is the turn to die."""
    if next(turn) == last:
        os.kill(os.getpid(), signal.SIGKILL)
    replace(beside, path)


def append_or_die(path: Path, data: bytes, is_lasting: bool = False) -> None:
    """Adds to a file, until it is the turn to die, when nothing or half is added."""
    for part in (b"", data[:len(data) // 2]):
        if next(turn) == last:
            append_to(path, part)
            os.kill(os.getpid(), signal.SIGKILL)
    append_to(path, data, is_lasting)


setattr(os, "replace", replace_or_die)
for module in (folder, keeper):
    setattr(module, "append_to", append_or_die)
sys.exit(main(sys.argv[2:]))
