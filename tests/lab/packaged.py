"""Scripts that use the package for Python, for the tests: run by a Python that has NumPy, pandas and Matplotlib."""
import os
import subprocess
import sys
from functools import cache
from pathlib import Path

from calls import PROGRESS, TOP, LabCase

EXTRAS = "import numpy, pandas, matplotlib"
WORLD = "feast 1\ntiles 2 1\nsize 8 8\nseed 3\nattempts 60\natom 1 1 Cell\natom 9 5 Wall\norder seed 500\n"
ELEMENTS = """element Cell { EventWindow ew; Random random; constant Unsigned odds = 2; Unsigned(7) age; Int(3) list[2];
  Void behave() { age += 1; list[1] = -2; if (random.oneIn(odds) && ew.isEmpty(4)) ew[4] = self; } }
element Wall { Void behave() { } }
"""


@cache
def python_with(imports: str) -> str | None:
    """A Python that can run these imports."""
    for path in (sys.executable, "/usr/bin/python3"):
        if subprocess.run([path, "-c", imports], capture_output=True, check=False).returncode == 0:
            return path
    return None


def with_extras() -> str | None:
    """A Python that has NumPy, pandas and Matplotlib."""
    return python_with(EXTRAS)


@cache
def without_extras() -> list[str]:
    """A Python that has none of them: its own site packages are left out."""
    return [sys.executable, "-B", "-I", "-S", "-c", f"import sys; sys.path.insert(0, {str(TOP / 'tools')!r}); exec(sys.stdin.read())"]


class PackageCase(LabCase):
    """A test of the package, with a world and element files. It is left out if no Python has what the package uses."""

    def setUp(self) -> None:
        super().setUp()
        self.world = self.file("w.world", WORLD)
        self.elements = self.file("e.ulam", ELEMENTS)

    def python(self) -> str:
        """The Python that has it."""
        found = with_extras()
        if found is None:
            self.skipTest("no Python has NumPy, pandas and Matplotlib")
        return found

    def says(self, script: str, *words: str, site: Path | None = None, **more: str) -> list[str]:
        """The lines that a script says, of a world and element files; `site` is where the package is, if not in the clone."""
        around = os.environ | {"PYTHONPATH": str(site or TOP / "tools"), "PYTHONDONTWRITEBYTECODE": "1"} | more
        front = f"world, elements = {str(self.world)!r}, {str(self.elements)!r}\nimport sys\nsys.argv[1:] = {words!r}\n"
        done = subprocess.run([self.python(), "-"], input=front + script, capture_output=True, text=True,
                              cwd=self.room, env={name: value for name, value in around.items() if value}, check=False)
        self.assertEqual((done.returncode, PROGRESS.sub("", done.stderr)), (0, ""))
        return done.stdout.splitlines()
