"""The package as it is installed: a wheel from a clone and one from a released folder, in a Python of its own."""
import os
import shutil
import subprocess
import unittest
import zipfile
from pathlib import Path

from calls import EXAMPLES, TOP, LabCase, program
from packaged import python_with

NEEDS = "import numpy, setuptools, wheel, venv, ensurepip, pip"
LACKS = "no Python has NumPy, setuptools, wheel, pip and venv"
FORMS = ("README.md", "LICENSE-APACHE", "LICENSE-MIT", "VERSION", "pyproject.toml", "setup.py")
SCRIPT = """import sys
import feast_lab


def fish(plane: feast_lab.Moment) -> int:
    return plane.counts()["Fish"]


world = feast_lab.World(sys.argv[1], size=(16, 16), attempts=500).fill("Fish", 0.3, seed=1)
run = feast_lab.run(world, step=True, timeout=60)
print(len(run.events), run.audit(), fish(run.end) > 0)
with feast_lab.chain(world, legs=2, until=lambda plane: fish(plane) < 0) as chain:
    print(len(chain), chain.measured(fish=fish)["fish"].tolist() == chain.course["Fish"].tolist())
"""


class Wheels(LabCase):
    """Wheels that are built and installed without the network."""

    def setUp(self) -> None:
        super().setUp()
        found = python_with(NEEDS)
        if found is None:
            raise unittest.SkipTest(LACKS)
        self.builder = found  # which builds without the network, and whose NumPy is used
        self.parts: list[str] = []
        self.around = {name: value for name, value in os.environ.items() if name not in ("FEAST_PROGRAM", "PYTHONPATH")}

    def said(self, *words: str | Path, **around: str) -> str:
        """What a call writes in the test's folder; it has to go well."""
        done = subprocess.run(words, capture_output=True, text=True, cwd=self.room, env=self.around | around, check=False)
        self.assertEqual(done.returncode, 0, done.stdout + done.stderr)
        return done.stdout

    def tree(self, is_released: bool) -> Path:
        """A clone, or a released folder, as far as the wheel is made of it, with the program of the tests."""
        top = self.room / "top"
        top.mkdir()
        for name in FORMS:
            shutil.copy(TOP / name, top)
        for name in ("docs", "tools"):
            shutil.copytree(TOP / name, top / name, ignore=shutil.ignore_patterns("__pycache__"))
        place = top / ("bin" if is_released else "dist")
        place.mkdir()
        shutil.copy(program(), place / "feast")
        if is_released:
            digest = self.said("sha256sum", program()).split()[0]
            (top / "KIT").write_text(f"commit x\nproved with a-kit\nSHA-256 of bin/feast {digest}\n")
        return top

    def wheel(self, top: Path) -> Path:
        """The wheel that is built of a tree, in which nothing is left by that."""
        before = sorted(top.rglob("*"))
        self.said(self.builder, "-m", "pip", "wheel", "-q", "--no-index", "--no-build-isolation", "--no-deps", "-w", self.room, top,
                  PYTHONDONTWRITEBYTECODE="1")
        self.assertEqual(sorted(top.rglob("*")), before)
        found = list(self.room.glob("*.whl"))
        self.assertEqual([it.name.split("-", 2)[2] for it in found], ["py3-none-manylinux_2_34_x86_64.whl"])
        return found[0]

    def installed(self, wheel: Path) -> Path:
        """The commands of a new Python in which the wheel is installed; NumPy is that of the builder."""
        self.said(self.builder, "-m", "venv", "--system-site-packages", self.room / "own")
        commands = self.room / "own" / "bin"
        self.said(commands / "python", "-m", "pip", "install", "-q", "--no-index", wheel)
        return commands

    def check(self, is_released: bool, kit: str) -> None:
        """Builds, installs and uses the package."""
        commands = self.installed(self.wheel(self.tree(is_released)))
        shutil.rmtree(self.room / "top")
        script = self.file("study.py", SCRIPT)
        elements = EXAMPLES / "wator.ulam"
        self.assertEqual(self.said(commands / "python", script, elements), "500 yes True\n2 True\n")
        told = self.said(commands / "feast-lab", "--version").splitlines()
        self.assertEqual((told[0], told[2]), (f"lab {(TOP / 'VERSION').read_text().strip()}", f"kit {kit}"))
        self.assertEqual(self.said(commands / "feast-lab", "check", elements), "accepted\n")
        self.said(commands / "feast-lab", "explain", "E20")
        checked = subprocess.run([commands / "python", "-m", "pip", "check"], capture_output=True, text=True, env=self.around, check=False)
        self.assertNotIn("feast-lab", checked.stdout)
        checker = shutil.which("mypy")
        if checker is None:
            self.parts.append("mypy is not there: apt-get install mypy")
            return
        self.said(checker, "--strict", "--python-executable", commands / "python", "--cache-dir", self.room / "kept", script)

    def test_clone(self) -> None:
        """From a clone."""
        self.check(is_released=False, kit="not known")

    def test_released(self) -> None:
        """From a released folder."""
        self.check(is_released=True, kit="a-kit")

    def test_contents(self) -> None:
        """The wheel has the licences, the program as one that may be called, and no name beside the package's."""
        with zipfile.ZipFile(self.wheel(self.tree(is_released=False))) as found:
            names = found.namelist()
            self.assertEqual({it.partition("/")[0].partition("-")[0] for it in names}, {"feast_lab"})
            self.assertTrue(found.getinfo("feast_lab/bin/feast").external_attr >> 16 & 0o100)
        for ending in ("/LICENSE-MIT", "/LICENSE-APACHE", "feast_lab/py.typed", "/docs/errors.md"):
            self.assertEqual(len([it for it in names if it.endswith(ending)]), 1, ending)


class Machines(LabCase):
    """What the package says where its program can't run."""

    def test_refused(self) -> None:
        """Another system, another processor and an older C library are named, unless a program is."""
        python = python_with(NEEDS)
        if python is None:
            raise unittest.SkipTest(LACKS)
        script = ("import os, platform, sys\nfrom unittest import mock\nimport feast_lab\nfrom feast_lab import command, programs\n"
                  "named = os.environ.pop('FEAST_PROGRAM')\n"
                  "for where, name, it in ((platform, 'system', 'Darwin'), (platform, 'machine', 'aarch64'),\n"
                  "                        (programs, 'library', 'glibc 2.31'), (programs, 'library', '')):\n"
                  "    with mock.patch.object(where, name, lambda it=it: it):\n"
                  "        try: programs.found(None)\n"
                  "        except feast_lab.LabError as error: print(error)\n"
                  "        programs.found(named)\n"
                  "        sys.stderr = sys.stdout; print(command.main())\n")
        done = subprocess.run([python, "-B", "-c", script], capture_output=True, text=True, cwd=self.room,
                              env=os.environ | {"PYTHONPATH": str(TOP / "tools")}, check=False)
        front, needs = "feast can't run here: its program", "needs glibc 2.34 or later, and this machine has"
        said = [f"{front} is built for Linux on x86-64, and this is Darwin on x86_64",
                f"{front} is built for Linux on x86-64, and this is Linux on aarch64",
                f"{front} {needs} glibc 2.31", f"{front} {needs} none"]
        self.assertEqual((done.stdout.splitlines(), done.stderr), ([line for it in said for line in (it, f"lab: {it}", "2")], ""))
