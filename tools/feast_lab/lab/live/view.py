"""A chain that runs, as the page reads it (`Live` of page/live.js): JSON, in which lists of numbers are bytes in base64."""
import base64
import json
import sys
from array import array
from collections import Counter
from collections.abc import Iterable, Mapping, Sequence
from itertools import accumulate
from threading import Lock

from ..film.page import head
from ..formats.leg_report import LegReport
from ..formats.whole import Drawn
from ..pictures.marks import Mark
from .session import Session, Shot

POINTS = 1000  # a page that is opened gets so many points of the curves at most


class View:
    """What pages are told of a session. Each change of the plane is worked out once for all of them."""

    def __init__(self, session: Session, marked: Sequence[Mark]) -> None:
        self.session = session
        self.marked = marked
        self.columns = session.maker.rule.world.columns
        self.kinds = {name: kind for kind, name in enumerate(session.maker.layout.elements, 1)}
        self.lock = Lock()
        self.last: tuple[Sequence[str], Sequence[str], dict[str, str]] = ([], [], {})
        self.dots: tuple[LegReport | None, dict[str, str]] = (None, sites({}))

    def begun(self, can_reload: bool) -> str:
        """What a page needs to know once, as JSON."""
        maker = self.session.maker
        told = head(maker.rule.world, maker.layout, self.marked)
        return json.dumps(told | {"acts": self.acts(), "step": maker.begun.step, "keep": maker.begun.keep,
                                  "canReload": can_reload, "history": self.history()}, separators=(",", ":"))

    def acts(self) -> list[dict[str, int]]:
        """The moments of what was done by hand so far, in events."""
        ends = list(accumulate(leg.events for leg in self.session.course.legs[:]))
        return [{"events": ends[leg - 1]} for leg in self.session.hands[:] if leg <= len(ends)]

    def shot_text(self, shot: Shot, before: Sequence[str]) -> str:
        """A shot as JSON, for a page that shows the atoms before."""
        after = shot.atoms.lines
        with self.lock:
            if self.last[0] is not before or self.last[1] is not after:
                self.last = (before, after, self.changes(before, after))
            changes = self.last[2]
            if self.dots[0] is not shot.last:
                self.dots = (shot.last, self.places(shot))
            places = self.dots[1]
        return json.dumps({
            "leg": shot.leg, "events": shot.events, "abandoned": shot.abandoned, "mode": shot.mode,
            "attempts": shot.attempts, "byItself": shot.by_itself, "speed": shot.speed, "fault": shot.fault,
            "acts": [act if len(act) < 80 else f"{act[:78]}.." for act in shot.acts],
            "done": shot.done, "size": self.session.maker.folder.size(), "changes": changes, "places": places,
            "failed": None if shot.failed is None else sites(shot.failed), "allFailed": shot.all_failed,
        }, separators=(",", ":"))

    def changes(self, before: Sequence[str], after: Sequence[str]) -> dict[str, str]:
        """The sites that changed, row by row, and their atoms, numbered among those that come up; 0 is none."""
        was, now = set(before), set(after)
        atoms: dict[str, int] = {"": 0}
        found: dict[int, int] = {}
        for line in was - now:
            x, y, _ = line.split(" ", 2)
            found[int(y) * self.columns + int(x)] = 0
        for line in now - was:
            x, y, atom = line.split(" ", 2)
            found[int(y) * self.columns + int(x)] = atoms.setdefault(atom, len(atoms))
        names = [atom.split(" ") for atom in atoms if atom]
        return {"kinds": packed("H", (self.kinds[name] for name, _ in names)),
                "states": base64.b64encode(bytes.fromhex("".join(state for _, state in names))).decode(),
                "sites": packed("I", found), "after": packed("I", found.values())}

    def places(self, shot: Shot) -> dict[str, str]:
        """The sites of attempts that were abandoned in the last leg, and how many there were at each."""
        if shot.last is None:
            return sites({})
        given_up = Drawn.given_up(self.session.maker.rule.world_of(shot.leg), shot.last)
        places = (site.split(" ") for _, _, site in given_up)
        return sites(Counter(int(y) * self.columns + int(x) for x, y in places))

    def history(self) -> list[list[int]]:
        """The events so far, and the counts of the elements, at the ends of legs; of many legs only some."""
        legs = self.session.course.legs[:]
        stride = max(-(-len(legs) // POINTS), 1)
        events, points = 0, []
        for number, leg in enumerate(legs):
            events += leg.events
            if number % stride == 0:
                points.append([events, *leg.counts])
        return points


def sites(counts: Mapping[int, int]) -> dict[str, str]:
    """Sites, and how many of something there were at each."""
    return {"sites": packed("I", counts), "counts": packed("I", counts.values())}


def packed(kind: str, numbers: Iterable[int]) -> str:
    """Numbers as bytes in base64, each with its lowest byte first: two bytes for `H`, four for `I`."""
    found = array(kind, numbers)
    if sys.byteorder == "big":
        found.byteswap()
    return base64.b64encode(found.tobytes()).decode()
