"""Calls of the lab and of the program, for the tests."""
import io
import os
import re
import signal
import subprocess
import tempfile
import unittest
from contextlib import redirect_stderr, redirect_stdout
from dataclasses import dataclass
from pathlib import Path

from feast_lab.lab.command.main import main

TOP = Path(__file__).resolve().parent.parent.parent
EXAMPLES = TOP / "examples"
# what a command says of itself beside its result: how far it is, and, of a run on threads, whether its tiles kept pace
PROGRESS = re.compile(r"^(.*: \d+ % done.*|lab: warning: .*: the tiles did not keep pace: .*)\n", re.MULTILINE)
Word = str | Path


def program() -> Path:
    """The program that the tests are run with."""
    return Path(os.environ["FEAST_PROGRAM"])


def feast(*words: Word) -> str:
    """What the program writes."""
    return subprocess.run([program(), *words], stdout=subprocess.PIPE, check=True, text=True).stdout


def around(instead: Path | None = None) -> dict[str, str]:
    """The environment of a call of the lab: Python's own settings, and the program that it is to call."""
    plain = {name: value for name, value in os.environ.items() if not name.startswith("PYTHON")}
    return plain | {"FEAST_PROGRAM": str(instead or program())}


def be_interruptible() -> None:
    """Takes interrupts, which a shell has what it starts in the background ignore."""
    signal.signal(signal.SIGINT, signal.SIG_DFL)


def lab(*words: Word, instead: Path | None = None) -> subprocess.CompletedProcess[str]:
    """A call of the lab, with another program than that of the tests if one is named."""
    return subprocess.run([TOP / "lab", *words], capture_output=True, text=True, env=around(instead), timeout=300,
                          preexec_fn=be_interruptible, check=False)


@dataclass(frozen=True)
class Done:
    """A call of the lab that is over: its status, what it wrote, and what it said but for its progress."""

    status: int
    wrote: str
    said: str


def here(*words: Word) -> Done:
    """A call of the lab in the process of the tests, which is over sooner."""
    out, errors = io.StringIO(), io.StringIO()
    with redirect_stdout(out), redirect_stderr(errors):
        try:
            status = main([str(word) for word in words])
        except SystemExit as end:
            status = int(end.code or 0)
    return Done(status, out.getvalue(), PROGRESS.sub("", errors.getvalue()))


class LabCase(unittest.TestCase):
    """A test with a folder of its own."""

    def setUp(self) -> None:
        folder = tempfile.TemporaryDirectory()
        self.addCleanup(folder.cleanup)
        self.room = Path(folder.name)

    def file(self, name: str, text: str) -> Path:
        """A file of the test's folder."""
        path = self.room / name
        path.write_text(text, newline="")
        return path

    def passes(self, *words: Word) -> str:
        """What a call of the lab writes that is to go well, without a word on standard error."""
        done = here(*words)
        self.assertEqual((done.status, done.said), (0, ""))
        return done.wrote

    def refused(self, says: str, *words: Word) -> None:
        """Tries that a call of the lab is refused in one line, which has these words, and writes nothing else."""
        before = sorted(self.room.rglob("*"))
        done = here(*words)
        self.assertEqual((done.status, done.wrote), (2, ""), done.said)
        self.assertRegex(done.said, r"\Alab: [^\n]*\n\Z")
        self.assertIn(says, done.said)
        self.assertEqual(sorted(self.room.rglob("*")), before)
