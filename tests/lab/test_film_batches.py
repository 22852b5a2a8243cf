"""Films of long chains, whose legs are played side by side, against those whose legs are played one after another."""
import os
from pathlib import Path
from unittest.mock import patch

from calls import EXAMPLES, LabCase, here
from kept_chain import packs_of, repack

from feast_lab.lab.film import batches

FRAIL = "element Frail { EventWindow ew; Random random; Void behave() { ew.isEmpty(random.create(4) + 38); } }\n"


class SideBySide(LabCase):
    """Chains in batches of few events."""

    def setUp(self) -> None:
        super().setUp()
        self.chain = self.room / "chain"

    def made(self, name: str, least: int, *options: str) -> tuple[str, str]:
        """The page and the table of the chain's film, made in batches of so many events."""
        page, table = self.room / f"{name}.html", self.room / f"{name}.csv"
        with patch.object(batches, "LEAST", least), patch.object(os, "sched_getaffinity", return_value={0, 1, 2}):
            done = here("film", self.chain, "-o", page, "--table", table, *options)
        self.assertEqual((done.status, done.said), (0, ""))
        return page.read_text(), table.read_text()

    def test_same(self) -> None:
        """Page and table are the same, with acts between legs, leaps of frames over legs, and legs in one batch or in many."""
        world = self.file("w", (EXAMPLES / "regulator-tiles.world").read_text().replace("attempts 40000", "attempts 300"))
        self.passes("chain", self.chain, "--legs", "7", "--step", "--keep", "reports", "--at", "3:clear:0,0,9,9",
                    "--at", "6:erase:0.5:0,0,16,16", world, EXAMPLES / "regulator.ulam")
        for frames in ("3", "5", "40"):
            whole = self.made("whole", 10 ** 9, "--frames", frames)
            for least in (1, 400, 700):
                self.assertEqual(self.made("parts", least, "--frames", frames), whole)

    def test_failures(self) -> None:
        """So are they with failed events."""
        atoms = "".join(f"atom {x} {y} Frail\n" for y in range(16) for x in range(16))
        world = self.file("w", f"feast 1\ntiles 1 1\nsize 16 16\nseed 5\nattempts 60\n{atoms}")
        self.passes("chain", self.chain, "--legs", "4", "--keep", "reports", world, self.file("frail.ulam", FRAIL))
        whole = self.made("whole", 10 ** 9, "--frames", "9", "--failures")
        self.assertEqual(self.made("parts", 1, "--frames", "9", "--failures"), whole)
        self.assertIn("failed", whole[1])

    def test_refused(self) -> None:
        """What is wrong with a report of a later batch is said in one line."""
        world = self.file("w", (EXAMPLES / "regulator-tiles.world").read_text().replace("attempts 40000", "attempts 300"))
        self.passes("chain", self.chain, "--legs", "3", "--step", "--keep", "reports", world, EXAMPLES / "regulator.ulam")
        repack(self.chain, {3: packs_of(self.chain).report(2).data})
        page = Path(self.room / "film.html")
        for least in (1, 10 ** 9):
            with patch.object(batches, "LEAST", least):
                self.refused("leg 3: its atoms are not those to which its events lead", "film", self.chain, "-o", page)
