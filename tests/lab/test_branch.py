"""Branches of chains, and audits of single legs."""
import shutil
import subprocess
import sys
from pathlib import Path

from calls import EXAMPLES, LabCase, Word, around, here
from kept_chain import atoms, contents, packs_of, repack

HERE = Path(__file__).resolve().parent
WORLD = (EXAMPLES / "regulator-tiles.world").read_text().replace("attempts 40000", "attempts 300")
CLEAR = "clear:0,0,16,8"
SOUTH = "clear:0,8,16,8"


class BranchCase(LabCase):
    """A chain `old` of four legs, with its reports."""

    def setUp(self) -> None:
        super().setUp()
        self.old, self.new = self.room / "old", self.room / "new"
        self.inputs = [self.file("w", WORLD), self.file("regulator.ulam", (EXAMPLES / "regulator.ulam").read_text())]
        self.passes("chain", self.old, "--legs", "4", "--step", "--keep", "reports", "--at", f"2:{CLEAR}", "--at", "4:clear:0,0,1,1",
                    *self.inputs)


class Branches(BranchCase):
    """Chains that begin with the legs of another."""

    def test_branch(self) -> None:
        """A branch is the chain that its acts would have made from the start, byte for byte, and the old one stays."""
        before = contents(self.old)
        self.passes("chain", "--from", self.old, "2", self.new, "--legs", "5", "--at", f"3:{SOUTH}")
        self.passes("chain", self.room / "whole", "--legs", "5", "--step", "--keep", "reports", "--at", f"2:{CLEAR}", "--at", f"3:{SOUTH}",
                    *self.inputs)
        self.assertTrue(contents(self.new) == contents(self.room / "whole"))
        self.assertTrue(contents(self.old) == before)
        self.assertNotEqual(atoms(self.new, 3), atoms(self.old, 3))
        self.assertEqual(self.passes("chain", "--audit", self.new), "yes\n")

    def test_going_on(self) -> None:
        """The same words go on with a branch, and so do those of a chain with the same acts."""
        for legs in ("3", "4"):
            self.passes("chain", "--from", self.old, "2", self.new, "--legs", legs, "--at", f"3:{SOUTH}")
        self.passes("chain", self.new, "--legs", "5", "--step", "--keep", "reports", "--at", f"2:{CLEAR}", "--at", f"3:{SOUTH}", *self.inputs)
        self.assertEqual(len((self.new / "course.csv").read_text().splitlines()), 7)
        self.refused(f"--at 4:{SOUTH}: leg 4 is done", "chain", "--from", self.old, "2", self.new, "--legs", "6", "--at", f"4:{SOUTH}")

    def test_ends(self) -> None:
        """A branch from the start, and one from the last leg."""
        self.passes("chain", "--from", self.old, "0", self.new, "--legs", "2")
        self.assertEqual(packs_of(self.new).report(1).data, packs_of(self.old).report(1).data)
        self.assertNotEqual(atoms(self.new, 2), atoms(self.old, 2))
        self.passes("chain", "--from", self.old, "4", self.room / "last", "--legs", "4")
        self.assertTrue(contents(self.room / "last") == contents(self.old))

    def test_killed(self) -> None:
        """Whichever file a branch is stopped at, the same words come to the same chain."""
        words: list[Word] = ["chain", "--from", self.old, "2", self.new, "--legs", "3"]
        self.passes(*words)
        expected = contents(self.new)
        for number in range(1, 30, 3):
            shutil.rmtree(self.new)
            subprocess.run([sys.executable, HERE / "dying.py", str(number), *words], capture_output=True, env=around(), check=False)
            self.passes(*words)
            self.assertTrue(contents(self.new) == expected, number)

    def test_refused(self) -> None:
        words: list[Word] = ["chain", "--from", self.old]
        self.refused("old 5: the chain has the legs 0 to 4, and no leg 5", *words, "5", self.new, "--legs", "6")
        self.refused("old x: the chain has the legs 0 to 4, and no leg x", *words, "x", self.new, "--legs", "6")
        self.refused("--at 2:clear:0,0,1,1: the branch begins behind leg 2", *words, "2", self.new, "--legs", "6", "--at", "2:clear:0,0,1,1")
        self.refused("the branch takes its world, its elements, --step", *words, "2", self.new, "--legs", "6", "--seed", "9")
        self.refused("the branch takes its world, its elements, --step", *words, "2", self.new, "--legs", "6", *self.inputs)
        self.refused("no chain was begun there", "chain", "--from", self.new, "2", self.room / "third", "--legs", "6")
        self.refused("required: --legs", *words, "2", self.new)
        self.refused("required: DIR", *words, "2", "--legs", "3")
        self.passes("chain", self.new, "--legs", "1", "--step", "--seed", "77", "--keep", "reports", "--at", f"2:{CLEAR}", *self.inputs)
        self.refused("new: its legs are not those of", *words, "2", self.new, "--legs", "6")


class LegAudits(BranchCase):
    """`chain --audit DIR --leg K`."""

    def verdicts(self) -> list[str]:
        """The verdict of the start and of each leg."""
        return [here("chain", "--audit", self.old, "--leg", str(leg)).wrote for leg in range(5)]

    def test_each(self) -> None:
        """A fault is found by the audit of a leg that it belongs to, and all legs are true only if the chain is."""
        self.assertEqual(self.verdicts(), ["yes\n"] * 5)
        reports = {leg: report.data for leg, report in packs_of(self.old).all()}
        moved = reports[2].replace(b" 0000000", b" 0000001", 1)
        for edits, at in [({2: moved}, {2, 3}), ({4: reports[1]}, {4}), ({3: reports[3].replace(b"abandoned", b"abandoned ", 1)}, {3})]:
            repack(self.old, edits)
            faulty = {leg for leg, verdict in enumerate(self.verdicts()) if verdict != "yes\n"}
            self.assertEqual(faulty, at, edits.keys())
            self.assertEqual(here("chain", "--audit", self.old).status, 1)
            repack(self.old, reports)
        self.assertEqual(self.verdicts(), ["yes\n"] * 5)

    def test_refused(self) -> None:
        self.refused("old: the chain has the legs 0 to 4, and no leg 5", "chain", "--audit", self.old, "--leg", "5")
        self.refused("old: the chain has the legs 0 to 4, and no leg -1", "chain", "--audit", self.old, "--leg", "-1")
        self.refused("--leg 1: it belongs to --audit DIR", "chain", self.new, "--legs", "2", "--leg", "1", *self.inputs)
        (self.old / "legs.gz").unlink()
        self.refused("legs.gz: can't be read", "chain", "--audit", self.old, "--leg", "2")
