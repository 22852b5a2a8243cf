"""The events and abandoned attempts of reports as CSV."""
from calls import LabCase

REPORT = """feast 1
atoms 1
6 2 Walker 000000000000000000
journal 2
1 0 0 1 4 00000000000000ff
2 1 1 9 4 0123456789abcdef
abandoned 1
1 0 8 4 0 0 0
"""


class Events(LabCase):
    """The verb events."""

    def test_events(self) -> None:
        report = self.file("report", REPORT)
        self.assertEqual(self.passes("events", report), "event,stamp,tile,attempt,x,y,seed\n"
                         "1,1,0,0,1,4,00000000000000ff\n2,2,1,1,9,4,0123456789abcdef\n")
        self.assertEqual(self.passes("events", "--abandoned", report),
                         "tile,attempt,x,y,edge,holder,holder_attempt\n1,0,8,4,0,0,0\n")

    def test_none(self) -> None:
        report = self.file("report", "feast 1\natoms 0\njournal 0\nabandoned 0\n")
        self.assertEqual(self.passes("events", report), "event,stamp,tile,attempt,x,y,seed\n")

    def test_refused(self) -> None:
        self.refused("report:5: no line of the part `journal`", "events", self.file("report", REPORT.replace("1 4 0", "1 4 ")))
        self.refused("nothing: can't be read", "events", self.room / "nothing")
