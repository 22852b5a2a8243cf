"""A chain of some thousand short legs with noise, killed on its way; `./test long` has one of a hundred thousand."""
from calls import LabCase
from long_chain import LongChain


class Long(LabCase):
    """Kills at any moment."""

    def test_killed(self) -> None:
        self.assertEqual(LongChain(self.room, 3000).faults(), [])
