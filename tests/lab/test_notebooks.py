"""The notebooks of examples/notebooks: they run, and say what is kept in them."""
import json
import os
import shutil
import subprocess
import unittest
from pathlib import Path
from typing import Any

from calls import EXAMPLES, TOP, LabCase, program
from packaged import python_with

NEEDS = "import numpy, pandas, matplotlib, nbconvert, nbclient, ipykernel"
MOST_BYTES = 400_000  # of a notebook with its output
BOOKS = sorted(path.name for path in (EXAMPLES / "notebooks").glob("*.ipynb"))


def told(book: Path) -> list[list[str]]:
    """What the cells of a notebook say in words, and the kinds of pictures that they show."""
    found = []
    for cell in json.loads(book.read_text())["cells"]:
        outputs: list[dict[str, Any]] = cell.get("outputs", [])
        texts = ["".join(it.get("text", it.get("data", {}).get("text/plain", ""))) for it in outputs if it.get("name") != "stderr"]
        kinds = [kind for it in outputs for kind in sorted(it.get("data", {})) if kind != "text/plain"]
        found.append([*(text for text in texts if " at 0x" not in text), *kinds])
    return found


class Notebooks(LabCase):
    """Each is run anew, beside the examples that it uses."""

    def check(self, name: str) -> None:
        """Runs a notebook, and compares what it says with what it said."""
        python = python_with(NEEDS)
        if python is None:
            raise unittest.SkipTest("no Python has Jupyter, NumPy, pandas and Matplotlib")
        shutil.copytree(EXAMPLES, self.room / "examples")
        book = self.room / "examples" / "notebooks" / name
        around = os.environ | {"PYTHONPATH": str(TOP / "tools"), "FEAST_PROGRAM": str(program()), "HOME": str(self.room)}
        done = subprocess.run([python, "-m", "nbconvert", "--to", "notebook", "--execute", "--output", "run.ipynb", book],
                              capture_output=True, text=True, env=around, check=False)
        self.assertEqual(done.returncode, 0, done.stderr)
        self.assertEqual(told(book.with_name("run.ipynb")), told(book))

    def test_kept(self) -> None:
        """What is kept in them is small, and each cell of code has been run, in order and without a fault."""
        self.assertEqual(BOOKS, ["horde.ipynb", "ring.ipynb"])
        for name in BOOKS:
            path = EXAMPLES / "notebooks" / name
            cells = [cell for cell in json.loads(path.read_text())["cells"] if cell["cell_type"] == "code"]
            self.assertLess(path.stat().st_size, MOST_BYTES)
            self.assertEqual([cell["execution_count"] for cell in cells], list(range(1, len(cells) + 1)))
            self.assertNotIn("error", [it["output_type"] for cell in cells for it in cell["outputs"]])

    def test_ring(self) -> None:
        """The ring that heals."""
        self.check("ring.ipynb")

    def test_horde(self) -> None:
        """The horde at four sizes."""
        self.check("horde.ipynb")
