#!/usr/bin/env python3
"""An hour of live play, as fast as it goes, with an act now and then: hour_of_play.py [PROGRAM] [--frames N].

An hour has 36,000 frames, ten a second, and as many legs at least. What frames, legs and orders cost is counted, and not timed: the
steps of Python that the making of a frame, the taking of a leg and an act do, the bytes that a page is told, and those that an act
writes. It says early costs and late ones, and ends with status 1 if a late one is more than twice the early one.
"""
import argparse
import os
import sys
import tempfile
from collections.abc import Callable
from contextlib import ExitStack
from pathlib import Path
from types import FrameType
from typing import Any
from unittest.mock import patch

HERE = Path(__file__).resolve().parent
TOP = HERE.parent.parent
sys.dont_write_bytecode = True
sys.path[0:0] = [str(TOP / "tools"), str(HERE)]

from feast_lab.lab.base.program import Program  # noqa: E402
from feast_lab.lab.chain.folder import Folder  # noqa: E402
from feast_lab.lab.chain.start import Options, Start  # noqa: E402
from feast_lab.lab.live import session as sessions  # noqa: E402
from feast_lab.lab.live.session import Session  # noqa: E402
from feast_lab.lab.live.view import View  # noqa: E402

HOUR = 36_000
ATTEMPTS = 40  # of each tile in a leg
EVERY_ACT = 20  # frames
SOON = 0.002  # seconds from the beginning of a leg to that of the next, at least, where a play has a tenth
SAMPLE = 20  # so many early frames and late ones are counted
WORLD = "feast 1\ntiles 1 1\nsize 16 16\nseed 5\nattempts 50\n" + "".join(
    f"atom {x} {y} Stone\n" for y in range(0, 16, 2) for x in range(0, 16, 2))
ELEMENTS = "element Stone { EventWindow ew; Void behave() { if (ew.isEmpty(4)) ew.swap(0, 4); } }\n"
Costs = dict[str, float]


class Steps:
    """Counts the steps of Python, each an instruction of its machine, in one thread."""

    def __init__(self) -> None:
        self.count = 0

    def trace(self, frame: FrameType, event: str, _what: object) -> Any:
        """Counts a step."""
        frame.f_trace_opcodes = True
        self.count += event == "opcode"
        return self.trace

    def of(self, work: Callable[[], object]) -> int:
        """How many a piece of work does in this thread."""
        self.count = 0
        sys.settrace(self.trace)
        try:
            work()
        finally:
            sys.settrace(None)
        return self.count


class Hour:
    """A session that is played, and what its frames and orders cost."""

    def __init__(self, program: Path, room: Path) -> None:
        world, elements = room / "w", room / "stone.ulam"
        world.write_text(WORLD)
        elements.write_text(ELEMENTS)
        self.folder = Folder(room / "chain")
        self.folder.make()
        self.session = Session(*Start.of(Program(program), world, [elements], Options(keep="reports")).opened(self.folder))
        self.session.tempo.by_itself, self.session.tempo.attempts = False, ATTEMPTS
        self.view = View(self.session, [])
        self.number, self.lines = -1, list[str]()
        self.told = 0

    def frame(self) -> None:
        """What a page is told next."""
        shot = self.session.after(self.number, 60)
        assert shot is not None and not shot.fault, shot
        self.told += len(self.view.shot_text(shot, self.lines))
        self.number, self.lines = shot.number, list(shot.atoms.lines)

    def play(self, frames: int) -> None:
        """Plays so many frames, each of another leg, with an act now and then."""
        self.session.turn("play")
        for number in range(frames):
            if number % EVERY_ACT == 0:
                self.session.act(["clear:0,0,2,2", "put:Stone:0,0"])
            self.frame()
        self.session.rest()

    def leg(self) -> None:
        """Makes one leg, which is on record then."""
        before = self.session.next
        self.session.turn("leg")
        with self.session.changed:
            self.session.changed.wait_for(lambda: self.session.next > before and self.session.mode == "pause", 60)
        self.session.rest()

    def costs(self) -> Costs:
        """What a frame, a leg, an act and its undoing cost now."""
        steps = Steps()
        found: Costs = {}
        told, frames, acts = self.told, 0, 0
        written = os.stat(self.folder.path / "acts.txt").st_size
        for _ in range(SAMPLE):
            acts += steps.of(lambda: self.session.act(["put:Stone:0,0"]))
            acts += steps.of(self.session.undo)
            self.session.act(["put:Stone:0,0"])
            self.leg()
            self.number = -1
            frames += steps.of(self.frame)
        rule, first = self.session.maker.rule, self.session.next
        found["steps of the chain file of a play"] = steps.of(lambda: rule.text(first, sessions.AT_ONCE, "short", []))
        found["steps of a frame"] = frames / SAMPLE
        found["steps of an act and its undoing"] = acts / SAMPLE
        found["bytes of a frame"] = (self.told - told) / SAMPLE
        found["bytes on record of an act"] = (os.stat(self.folder.path / "acts.txt").st_size - written) / SAMPLE
        return found


def leg_steps(hour: Hour) -> float:
    """How many steps of Python a leg takes in the thread that makes it, by a call of the program, on the average of a sample."""
    steps = Steps()
    make = hour.session.make
    found = list[int]()
    with patch.object(hour.session, "make", lambda: found.append(steps.of(make))):
        for _ in range(SAMPLE):
            hour.leg()
    return sum(found) / len(found)


def played(program: Path, frames: int) -> tuple[Costs, Costs]:
    """What frames, legs and orders cost early and late in a play of so many frames."""
    with ExitStack() as stack:
        room = Path(stack.enter_context(tempfile.TemporaryDirectory()))
        stack.enter_context(patch.object(sessions, "EVERY", SOON))
        hour = Hour(program, room)
        stack.callback(hour.session.end)
        hour.play(SAMPLE)
        early = hour.costs() | {"steps of a leg": leg_steps(hour)}
        hour.play(frames)
        late = hour.costs() | {"steps of a leg": leg_steps(hour)}
        late["legs"] = hour.session.shot.leg
    return early, late


def faults(early: Costs, late: Costs) -> list[str]:
    """The costs that are more than twice as high late as early."""
    return [f"{name}: {early[name]:.1f} early, {late[name]:.1f} late" for name in early if late[name] > 2 * early[name]]


def main() -> int:
    """The command."""
    parser = argparse.ArgumentParser(description=__doc__, formatter_class=argparse.RawDescriptionHelpFormatter)
    parser.add_argument("program", metavar="PROGRAM", nargs="?", type=Path, default=TOP / "dist" / "feast")
    parser.add_argument("--frames", metavar="N", type=int, default=HOUR)
    given = parser.parse_args()
    early, late = played(given.program.resolve(), given.frames)
    for name, cost in early.items():
        print(f"hour_of_play: {name}: {cost:.1f} early, {late[name]:.1f} after {given.frames:,} frames and {late['legs']:,.0f} legs")
    found = faults(early, late)
    for fault in found:
        print(f"hour_of_play: more than twice as high: {fault}")
    return 1 if found else 0


if __name__ == "__main__":
    sys.exit(main())
