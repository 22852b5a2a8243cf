#!/usr/bin/env python3
"""Tries tools/release: on a small repository whose program only pretends, and on this one with a built program:
release.py [PROGRAM] [NAME..]."""
from __future__ import annotations

import hashlib
import json
import os
import shutil
import subprocess
import sys
import tarfile
import tempfile
import unittest
from pathlib import Path
from typing import Iterator

TOP = Path(__file__).resolve().parent.parent
sys.dont_write_bytecode = True
sys.path.insert(0, str(TOP / "tools"))

from checks import flat  # noqa: E402
from feast_lab.proved.found import BUILT  # noqa: E402
from feast_lab.proved.record import LAUNCHER, Record, digest_of  # noqa: E402
from feast_lab.proved.sources import digest  # noqa: E402
from releasing.folder import PATHS  # noqa: E402

# What a commit has at least for a release, beside the tool and the launcher.
FILES = {
    "README.md": "# feast\n", "CHANGELOG.md": "# Changes\n\n## 0.4.0 (2026-11-30)\n\n- More.\n",
    "CITATION.cff": "cff-version: 1.2.0\nversion: 0.4.0\n", "CONTRIBUTING.md": "x\n", "LICENSE-APACHE": "x\n",
    "LICENSE-MIT": "x\n", "SECURITY.md": "x\n", "VERSION": "0.4.0\n", "docs/page.md": "x\n", "editors/README.md": "x\n",
    "examples/walker.ulam": "element W { }\n", "lab": "#!/bin/sh\n", "tools/first_call/x.py": "", "tools/recheck": "",
    "pyproject.toml": "", "setup.py": "",
    "crates.txt": "feast:\n", "crates/feast/src/main.rt": "x\n", "HANDLES": "x\n",
    ".gitignore": "out/\n__pycache__/\n",
}
PROGRAM = "#!/bin/sh\n# pretends\necho \"did $*\"\n"
# The kit's parts of which a program has something, and a licence of each.
PARTS = ("arrayvec", "indexmap", "itoa", "rand_core", "rand_xoshiro", "thiserror")


class Repository(unittest.TestCase):
    """A folder for a test, with a repository in `top`, a kit in `kit`, and a place for the release in `made`."""

    def setUp(self) -> None:
        folder = tempfile.TemporaryDirectory(prefix="release-")
        self.addCleanup(folder.cleanup)
        self.room = Path(folder.name)
        self.top, self.kit, self.made = self.room / "top", self.room / "kit", self.room / "made"
        for part in PARTS:
            self.file(self.kit / "rattle" / part / "LICENSE-MIT", f"of {part}\n")
        self.file(self.kit / "bin" / "rt", "#!/bin/sh\nexit 9\n").chmod(0o755)

    def file(self, path: Path, text: str) -> Path:
        """A file with a text."""
        path.parent.mkdir(parents=True, exist_ok=True)
        path.write_text(text)
        return path

    def git(self, *words: str) -> str:
        """What git writes in the repository."""
        name = ["-c", "user.name=A Name", "-c", "user.email=name@example.org"]
        done = subprocess.run(["git", *name, *words], cwd=self.top, capture_output=True, text=True, check=True)
        return done.stdout.strip()

    def committed(self) -> str:
        """Commits all that there is; gives the commit."""
        self.git("add", "--all")
        self.git("commit", "-qm", "all")
        return self.git("rev-parse", "HEAD")

    def call(self, script: str, *words: str, mask: int = 0o022) -> subprocess.CompletedProcess[str]:
        """A call of a script of the repository. Git takes its names from the environment."""
        around = {name: value for name, value in os.environ.items() if name != "FEAST_PROGRAM"}
        around |= {"PATH": f"{self.kit / 'bin'}:/usr/bin:/bin", "GIT_COMMITTER_NAME": "A", "GIT_COMMITTER_EMAIL": "a@b.c"}
        return subprocess.run([sys.executable, "-B", self.top / script, *words], capture_output=True, text=True,
                              env=around, check=False, umask=mask)

    def copy(self, *names: str) -> None:
        """Copies files and folders of this repository."""
        for name in names:
            (self.top / name).parent.mkdir(parents=True, exist_ok=True)
            if (TOP / name).is_dir():
                shutil.copytree(TOP / name, self.top / name, ignore=shutil.ignore_patterns("__pycache__"))
            else:
                shutil.copy(TOP / name, self.top / name)


class Pretended(Repository):
    """A small repository, on which ./test all has passed."""

    def setUp(self) -> None:
        super().setUp()
        for name, text in FILES.items():
            self.file(self.top / name, text)
        self.copy("feast", "tools/release", "tools/releasing", "tools/feast_lab", "tools/proved", "tests/passed.py")
        self.program = self.file(self.top / "dist/feast", PROGRAM)
        self.program.chmod(0o755)
        self.git("init", "-q")
        self.head = self.committed()
        self.left_out = self.file(self.room / "left_out", '{"it writes no report": 3}')
        self.pass_all()

    def pass_all(self) -> str:
        """Notes that all passed; what is said."""
        return self.call("tests/passed.py", self.head, str(self.program), "the-kit\n logic 1\n", str(self.left_out)).stdout

    def release(self, mask: int = 0o022) -> subprocess.CompletedProcess[str]:
        """A call of tools/release."""
        return self.call("tools/release", str(self.made), mask=mask)

    def refused(self, says: str) -> None:
        """Tries that a release is refused in one line with these words, and leaves nothing."""
        before = self.git("tag")
        done = self.release()
        self.assertEqual((done.returncode, done.stdout), (1, ""))
        self.assertRegex(done.stderr, r"\Arelease: [^\n]*\n\Z")
        self.assertIn(says, done.stderr)
        self.assertEqual([path.name for path in self.room.iterdir() if path.name.startswith(("made", ".release"))], [])
        self.assertEqual(self.git("tag"), before)

    def test_made(self) -> None:
        done = self.release()
        self.assertEqual((done.returncode, done.stderr), (0, ""))
        self.assertEqual(done.stdout, f"{self.made}: feast 0.4.0; the tag is v0.4.0\n")
        self.assertEqual(self.git("rev-parse", "v0.4.0^{commit}"), self.head)
        told = (self.made / "KIT").read_text()
        sum_of = hashlib.sha256(PROGRAM.encode()).hexdigest()
        self.assertEqual(told, f"commit {self.head}\nproved with the-kit logic 1\nSHA-256 of bin/feast {sum_of}\n")
        self.assertFalse((self.made / "crates.txt").exists() or (self.made / "crates").exists())
        self.assertEqual(sorted(path.name for path in (self.made / "tools").iterdir()), ["feast_lab", "recheck"])
        self.assertEqual((self.made / "licences/itoa/LICENSE-MIT").read_text(), "of itoa\n")

    def test_archive(self) -> None:
        """An archive beside the folder has the same files, is the same bytes each time, and gives no group a right to write,
        whatever the maker's mask is."""
        packed, again = self.room / "made.tar.gz", self.room / "again.tar.gz"
        self.assertEqual(self.release(0o002).returncode, 0)
        packed.rename(again)
        shutil.rmtree(self.made)
        self.assertEqual(self.release(0o077).returncode, 0)
        self.assertEqual(packed.read_bytes(), again.read_bytes())
        subprocess.run(["tar", "-xzpf", packed, "-C", self.room], check=True)
        self.assertEqual(*(self.modes(folder) for folder in (self.made, self.room / "feast-0.4.0")))
        self.assertEqual(set(self.modes(self.made).values()), {0o644, 0o755})
        with tarfile.open(packed) as files:
            self.assertEqual({(it.uid, it.gid, it.uname, it.name.split("/")[0]) for it in files}, {(0, 0, "", "feast-0.4.0")})

    def modes(self, folder: Path) -> dict[str, int]:
        """The modes of all that a folder has, by its path."""
        return {str(path.relative_to(folder)): path.stat().st_mode & 0o7777 for path in (folder, *folder.rglob("*"))}

    def test_left_out(self) -> None:
        """What a run of the tests left out has to be on the list."""
        self.left_out.write_text('{"it writes no report": 3, "no Chromium": 2, "vim is not there": 1}')
        self.pass_all()
        self.refused("./test all left out what a release asks for: no Chromium (2); vim is not there (1)")

    def test_version_of_the_program(self) -> None:
        """The folder's launcher tells the version, the program and the kit; those of another program it doesn't know."""
        self.release()
        sum_of = hashlib.sha256(PROGRAM.encode()).hexdigest()
        call = [str(self.made / "feast"), "--version"]
        self.assertEqual(subprocess.check_output(call, text=True, env={"PATH": "/usr/bin:/bin"}),
                         f"feast 0.4.0\nprogram {sum_of}\nkit the-kit logic 1\n")
        other = self.file(self.room / "other", "#!/bin/sh\n")
        other.chmod(0o755)
        said = subprocess.check_output(call, text=True, env={"PATH": "/usr/bin:/bin", "FEAST_PROGRAM": str(other)})
        self.assertEqual(said.splitlines()[2], "kit not known")

    def test_launcher(self) -> None:
        """The launcher of the folder calls the folder's program, from any place and without the kit."""
        self.release()
        done = subprocess.run([self.made / "feast", "run", "two words"], cwd="/", env={"PATH": "/usr/bin:/bin"},
                              capture_output=True, text=True, check=False)
        self.assertEqual((done.returncode, done.stdout, done.stderr), (0, "did run two words\n", ""))

    def test_launcher_of_another_program(self) -> None:
        """FEAST_PROGRAM names another program, by a path from anywhere or in the folder of the call."""
        built = self.file(self.top / BUILT.program, PROGRAM)
        built.chmod(0o755)
        Record("the-kit", LAUNCHER, digest_of(built) or "", digest(self.top)).write(self.top / BUILT.record)
        other = self.file(self.room / "other", "#!/bin/sh\necho other $*\nexit 5\n")
        other.chmod(0o755)
        refused = "feast: the call was refused, with status 5: standard output has the reason\n"
        for name, status, wrote, said in (
            *((name, 5, "other run\n", refused) for name in (str(other), "other", "./other")),
            ("", 0, "did run\n", ""),
            ("nothing", 1, "", "feast: nothing: FEAST_PROGRAM names it, and it is no program\n"),
        ):
            with self.subTest(name):
                done = subprocess.run([self.top / "feast", "run"], cwd=self.room, capture_output=True, text=True,
                                      env={"PATH": "/usr/bin:/bin", "FEAST_PROGRAM": name}, check=False)
                self.assertEqual((done.returncode, done.stdout, done.stderr), (status, wrote, said))

    def test_checksums(self) -> None:
        """Each file has a checksum, and one that is changed is found."""
        self.release()
        check = ["sha256sum", "--check", "--strict", "--quiet", "SHA256SUMS"]
        self.assertEqual(subprocess.run(check, cwd=self.made, capture_output=True, check=False).returncode, 0)
        named = [line.split("  ")[1] for line in (self.made / "SHA256SUMS").read_text().splitlines()]
        files = [str(path.relative_to(self.made)) for path in self.made.rglob("*") if path.is_file()]
        self.assertEqual(sorted([*named, "SHA256SUMS"]), sorted(files))
        (self.made / "docs/page.md").write_text("y\n")
        self.assertEqual(subprocess.run(check, cwd=self.made, capture_output=True, check=False).returncode, 1)

    def test_tree(self) -> None:
        """A changed file, a further file and a deleted one are each named."""
        self.file(self.top / "more", "x")
        self.refused("not committed: more")
        (self.top / "more").unlink()
        (self.top / "README.md").write_text("y")
        self.refused("not committed: README.md")
        (self.top / "README.md").unlink()
        self.refused("not committed: README.md")

    def test_gate(self) -> None:
        """A run of ./test all has to have passed, here and on the very commit."""
        note = self.top / ".git" / "feast-passed.json"
        note.unlink()
        self.refused("no run of ./test all has passed in this clone")
        note.write_text("{}")
        self.refused("can't be read as the note")
        self.pass_all()
        (self.top / "docs/page.md").write_text("y\n")
        self.committed()
        self.refused(f"./test all has passed on {self.head[:12]}, and not on ")

    def test_program(self) -> None:
        """The program of dist/ has to be the one with which ./test all passed, whatever FEAST_PROGRAM names."""
        self.program.write_text(PROGRAM + "# changed\n")
        self.head = self.committed()
        self.call("tests/passed.py", self.head, str(self.file(self.room / "gate", PROGRAM)), "the-kit", str(self.left_out))
        self.refused("dist/feast: it is not the program with which ./test all has passed")
        self.program.unlink()
        self.head = self.committed()
        self.call("tests/passed.py", self.head, str(self.room / "gate"), "the-kit", str(self.left_out))
        self.refused("dist/feast: No such file")

    def test_program_that_does_not_run(self) -> None:
        self.program.write_text("#!/bin/sh\nexit 4\n")
        self.head = self.committed()
        self.pass_all()
        self.refused("bin/feast: ./feast check examples/walker.ulam ended with status 4")

    def test_version(self) -> None:
        """The pages that name the version have to agree."""
        for name, text, says in (
            ("VERSION", "0.4\n", "`0.4` is no number of a version"),
            ("VERSION", "0.5.0\n", "CHANGELOG.md: it has no heading `## 0.5.0 (YEAR-MONTH-DAY)`"),
            ("CHANGELOG.md", "## 0.4.0 (not released yet)\n", "CHANGELOG.md: it has no heading"),
            ("CITATION.cff", "version: 0.3.0\n", "CITATION.cff: it has no line `version: 0.4.0`"),
        ):
            with self.subTest(text):
                before = (self.top / name).read_text()
                (self.top / name).write_text(text)
                self.head = self.committed()
                self.pass_all()
                self.refused(says)
                (self.top / name).write_text(before)

    def test_tag(self) -> None:
        """A tag of another commit stays; one of this commit is taken as it is."""
        self.git("tag", "v0.4.0")
        self.assertEqual(self.release().returncode, 0)
        shutil.rmtree(self.made)
        (self.room / "made.tar.gz").unlink()
        (self.top / "docs/page.md").write_text("y\n")
        self.head = self.committed()
        self.pass_all()
        self.refused("the tag v0.4.0 is there, and names another commit")

    def test_folder(self) -> None:
        self.file(self.made / "kept", "x")
        self.assertIn(f"{self.made}: it is there already", self.release().stderr)
        self.assertEqual([path.name for path in self.made.iterdir()], ["kept"])
        shutil.rmtree(self.made)
        self.file(self.room / "made.tar.gz", "x")
        self.assertIn("made.tar.gz: it is there already", self.release().stderr)

    def test_kit(self) -> None:
        """The licences of the kit's parts have to be had."""
        shutil.rmtree(self.kit / "rattle" / "itoa")
        self.refused("itoa: there is no licence of this part")
        (self.kit / "bin" / "rt").unlink()
        self.refused("--kit names no kit")

    def test_note(self) -> None:
        """What passed is noted only of a commit without changes that is still checked out."""
        note = self.top / ".git" / "feast-passed.json"
        said = json.loads(note.read_text())
        self.assertEqual((said["commit"], said["kit"]), (self.head, "the-kit logic 1"))
        note.unlink()
        self.file(self.top / "more", "x")
        self.assertIn("on a tree with changes", self.pass_all())
        self.committed()
        self.assertIn("on a tree with changes", self.pass_all())
        self.assertFalse(note.exists())


class Real(Repository):
    """This repository as it stands, with the program under test, released and used without the kit."""

    def setUp(self) -> None:
        super().setUp()
        self.top.mkdir()
        self.copy(*PATHS, "tests/passed.py")
        program = Path(os.environ["FEAST_PROGRAM"])
        (self.top / "dist").mkdir()
        shutil.copy(program, self.top / "dist" / "feast")
        version = (self.top / "VERSION").read_text().strip()
        with (self.top / "CHANGELOG.md").open("a") as changes:
            changes.write(f"\n## {version} (2026-12-01)\n")
        self.git("init", "-q")
        head = self.committed()
        self.call("tests/passed.py", head, str(program), "kit", str(self.file(self.room / "left_out", "{}")))
        done = self.call("tools/release", str(self.made))
        self.assertEqual((done.returncode, done.stderr), (0, ""))

    def used(self, *words: str) -> str:
        """What a call writes in a folder for the pages' commands, with no kit on the PATH."""
        around = {"PATH": f"{Path(sys.executable).parent}:/usr/bin:/bin", "HOME": str(self.room)}
        done = subprocess.run(words, cwd=self.room / "work", env=around, capture_output=True, text=True, check=False)
        self.assertEqual(done.returncode, 0, done.stdout + done.stderr)
        return done.stdout

    def test_first_film(self) -> None:
        """The first report is the one that docs/report.md shows, and leads to a film."""
        subprocess.run([self.made / "tools" / "work", self.room / "work"], check=True)
        walk = ["examples/walk.world", "examples/walker.ulam"]
        written = self.used("./feast", "run", *walk)
        self.assertIn("\n\n" + "".join(f"    {line}\n" for line in written.splitlines()), (TOP / "docs/report.md").read_text())
        (self.room / "work" / "report").write_text(written)
        told = self.used("./lab", "--version").splitlines()
        self.assertEqual([line.split()[0] for line in told], ["lab", "program", "kit"])
        self.assertEqual(told[1:], self.used("./feast", "--version").splitlines()[1:])
        self.assertEqual(told[2], "kit kit")
        tools = sorted(path.name for path in (self.made / "tools").iterdir())
        self.assertEqual(tools, ["feast_lab", "help.txt", "recheck", "work"])
        self.used("./lab", "film", walk[0], "report", "-o", "walk.html", walk[1])
        self.assertIn("<html", (self.room / "work" / "walk.html").read_text())


def checks(_: Path) -> Iterator[unittest.TestCase]:
    """The tests of the tool on a small repository and on this one."""
    for kind in (Pretended, Real):
        yield from flat(unittest.defaultTestLoader.loadTestsFromTestCase(kind))


if __name__ == "__main__":
    from driver import only

    sys.exit(only("release"))
