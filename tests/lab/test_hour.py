"""Some minutes of live play, whose frames, legs and orders cost no more late than early; `./test long` has an hour."""
from calls import LabCase, program
from hour_of_play import faults, played


class Play(LabCase):
    """A play with an act now and then."""

    def test_costs(self) -> None:
        """What is counted of late frames, legs and acts is at most twice what early ones have."""
        early, late = played(program(), 200)
        self.assertEqual(faults(early, late), [])
        self.assertGreater(late["legs"], 200)
        self.assertEqual(len(faults({name: cost / 3 for name, cost in early.items()}, late)), len(early))
