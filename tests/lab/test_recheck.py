"""What `./lab recheck` makes of its words; tests/second_reader.py has what the second reader says."""
import subprocess
import sys

from calls import EXAMPLES, TOP, LabCase, Word, around, feast, lab


class Recheck(LabCase):
    """The verb."""

    def test_judges(self) -> None:
        report = self.room / "report"
        report.write_text(feast("step", EXAMPLES / "walk.world", EXAMPLES / "walker.ulam"))
        done = lab("recheck", EXAMPLES / "walk.world", report, EXAMPLES / "walker.ulam")
        self.assertEqual((done.returncode, done.stdout, done.stderr), (0, "yes\n", ""))
        done = lab("recheck", "--step", EXAMPLES / "walk.world", EXAMPLES / "walker.ulam")
        self.assertEqual((done.returncode, done.stdout, done.stderr), (0, report.read_text(), ""))

    def test_anywhere(self) -> None:
        """The verb and tools/recheck judge in a folder of modules that are called as those of the standard library."""
        for name in ("re", "types", "typing", "copy", "importlib"):
            self.file(f"{name}.py", "raise SystemExit(9)\n")
        self.file("report", feast("step", EXAMPLES / "walk.world", EXAMPLES / "walker.ulam"))
        words: list[Word] = [EXAMPLES / "walk.world", "report", EXAMPLES / "walker.ulam"]
        calls: list[list[Word]] = [[TOP / "lab", "recheck"], [TOP / "tools" / "recheck"], [sys.executable, TOP / "tools" / "recheck"]]
        for call in calls:
            done = subprocess.run([*call, *words], capture_output=True, text=True, cwd=self.room, env=around(), check=False)
            self.assertEqual((done.returncode, done.stdout, done.stderr), (0, "yes\n", ""))

    def test_refusal(self) -> None:
        report = self.room / "report"
        report.write_text("feast 1\n")
        done = lab("recheck", EXAMPLES / "walk.world", report, EXAMPLES / "walker.ulam")
        self.assertEqual((done.returncode, done.stdout, done.stderr), (6, f"{report}:2:1: E80 bad line\n", ""))

    def test_too_few_words(self) -> None:
        told = "recheck: it needs a world, a report and element files; with --step a world and element files"
        self.refused(told, "recheck", EXAMPLES / "walk.world", EXAMPLES / "walker.ulam")
        self.refused(told, "recheck", "--step", EXAMPLES / "walk.world")
