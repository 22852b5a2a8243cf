"""A chain at work that is thinned out."""
import signal

import kept_chain
from test_live import LiveCase


class Thin(LiveCase):
    """Thinning out."""

    def test_thin(self) -> None:
        """A chain that is thinned out goes on in a folder beside, which keeps the atoms of one leg in some and of the last."""
        live = self.kinds("--step")
        self.does(live, {"do": "act", "acts": ["put:Cell:level=3:0,0"]})
        for leg in range(1, 6):
            self.does(live, {"do": "leg"})
            size = live.shot(leg=leg)["size"]
        self.assertEqual(size, sum(path.stat().st_size for path in self.chain.rglob("*") if path.is_file()))
        for every in (0, -1, 1.5, "2", True, None, 10 ** 10):
            self.assertEqual(live.order({"do": "thin", "every": every})[0], 400)
        before = kept_chain.contents(self.chain)
        self.assertIn("the chain goes on in chain-thin1,", live.order({"do": "thin", "every": 2})[1].lower())
        self.assertEqual(kept_chain.contents(self.chain) | {"live.html": b""}, before | {"live.html": b""})
        thin = self.room / "chain-thin1"
        self.assertEqual((thin / "course.csv").read_bytes(), before["course.csv"])
        for leg in (2, 4, 5):
            self.assertEqual(kept_chain.told(thin, leg, "atoms"), kept_chain.told(self.chain, leg, "atoms"))
        self.refused("aren't kept", "unpack", thin, "--leg", "3", "--atoms")
        self.does(live, {"do": "leg"})
        live.shot(leg=6)
        refusal = "refused: the chain keeps the atoms of every 2th leg alone, so 2 has to divide the number, and doesn't divide 3\n"
        self.assertEqual(live.order({"do": "thin", "every": 3}), (400, refusal))
        self.does(live, {"do": "thin", "every": 4})
        again = self.room / "chain-thin1-thin1"
        for leg in (4, 6):
            self.assertEqual(kept_chain.told(again, leg, "atoms"), kept_chain.told(thin, leg, "atoms"))
        self.assertEqual(live.ends(signal.SIGINT)[0], 0)
        attempts = self.rows()[5]["attempts"]
        self.passes("chain", self.chain, "--legs", "6", "--step", "--keep", "reports", "--at", f"6:attempts:{attempts}",
                    self.room / "kinds.world", self.room / "kinds.ulam")
        self.assertEqual(kept_chain.told(self.chain, 6, "atoms"), kept_chain.told(thin, 6, "atoms"))
