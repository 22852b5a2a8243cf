"""A chain that runs while it is watched: its legs one after another, and what is done to it in between.

In a play many legs are made in one call of the program, which is at the legs to come while those before are taken. An order
that they don't know of ends the call behind the leg that is being made, and the next call begins there. What is seen is asked
for by those who watch, at their own rate, so a leg that nobody sees costs no more than to keep it.
"""
import threading
import time
from bisect import bisect_right, insort
from collections import Counter, deque
from collections.abc import Callable, Mapping, Sequence
from dataclasses import dataclass, replace
from functools import cached_property

from ..base.errors import LabError
from ..base.files import cause
from ..chain.acts import Act, Acts
from ..chain.course import Course
from ..chain.keeper import Keeper
from ..chain.legs import LegMaker
from ..formats.leg_report import LegReport
from ..formats.outcome import atom_lines
from ..machine.windows import Disagreement
from .pace import EVERY, Tempo

WINDOW = 2.0  # over so many seconds the speed is measured
AT_ONCE = 1000  # so many legs are asked for in a call
ENDED = "the session has ended, and makes no leg any more; end ./lab live by Ctrl-C, and start it again"


class Atoms:
    """Atoms whose lines are made when someone asks for them first."""

    def __init__(self, made: Callable[[], Sequence[str]]) -> None:
        self.made = made

    @cached_property
    def lines(self) -> Sequence[str]:
        """The lines."""
        return self.made()


@dataclass(frozen=True)
class Shot:
    """The chain between two legs, as those who watch see it.

    `leg` is the number of legs that are over; `atoms` have the acts before the next leg done.
    `mode` is `play`, `pause`, `leg` while the last leg before a pause is made, or `end`.
    """

    number: int
    leg: int
    events: int
    abandoned: int
    atoms: Atoms
    last: LegReport | None  # the report of the last leg, if it was made since the chain was opened
    mode: str
    attempts: int  # of each tile in the next leg
    by_itself: bool
    speed: float  # events for each site, in a second
    acts: Sequence[str]  # those that wait for the next leg
    done: int  # how many acts there have been, with those that wait
    failed: Mapping[int, int] | None  # how many events of the last leg failed at each site, if that is looked for
    all_failed: int  # how many have failed since the chain was opened
    fault: str = ""


class Session:
    """A chain at work. Its folder is held by the caller for as long as it is.

    `mode` is `play`, `pause`, `leg` (one leg, and then a pause) or `end`. `fault` is what went wrong last: it stands until
    a leg is made again, and for good if the session has ended by it, which then refuses each order with that.
    """

    def __init__(self, maker: LegMaker, course: Course) -> None:
        self.all_failed = 0
        self.changed = threading.Condition()
        self.mode = "pause"
        self.fault = ""
        self.is_busy = False
        self.orders = 0  # how many there have been, which legs at work don't know of
        self.at_work = 0  # the attempts of each tile in the leg that is being made, unless the record says otherwise
        self.tempo = Tempo.of(maker.rule.world, course.legs[-1].attempts)
        self.open(maker, course)
        self.times: deque[tuple[float, int]] = deque()
        self.shot = self.taken(0)
        self.worker = threading.Thread(target=self.work, name="legs")
        self.worker.start()

    def open(self, maker: LegMaker, course: Course) -> None:
        """Takes the plane that the last leg left that is done, with the acts behind it."""
        self.maker, self.course = maker, course
        self.next = len(course.legs)
        self.last: LegReport | None = None
        self.failed: Counter[int] = Counter()
        self.hands = sorted(leg for leg, acts in maker.rule.acts.by_leg.items() for act in acts if act.attempts is None)
        maker.rule.acts.forget(self.next - 1)  # so what is done before a call doesn't grow with the legs that were made
        text = maker.folder.atoms(self.next - 1, maker.begun)
        self.left = Atoms(lambda: atom_lines(text))
        self.atoms = self.with_acts(self.next, self.left)
        self.keeper = Keeper(maker.folder, maker.begun, course)

    def by_hand(self, leg: int) -> list[Act]:
        """What is done to the atoms before a leg, and before no other."""
        return [act for act in self.maker.rule.acts.by_leg.get(leg, ()) if act.attempts is None]

    def with_acts(self, leg: int, left: Atoms) -> Atoms:
        """The atoms with which a leg begins, if something is done before it by hand; else those that the leg before left."""
        if not self.by_hand(leg):
            return left
        lines = self.maker.before(leg, left.lines)
        return Atoms(lambda: lines)

    # what those who watch ask for

    def after(self, number: int, seconds: float) -> Shot | None:
        """The newest shot, once it is another than that of a number; None if there is none for so many seconds."""
        with self.changed:
            if not self.changed.wait_for(lambda: self.shot.number != number, seconds):
                return None
            return self.shot

    def turn(self, mode: str) -> None:
        """Plays, pauses, or makes one leg."""
        with self.changed:
            self.refuse_if_ended()
            self.mode = mode
            self.orders += 1
            self.times.clear()
            if mode == "pause" and not self.is_busy and self.flush_fails():
                return
            self.publish()

    def flush_fails(self) -> bool:
        """Puts on record what is made, so that a pause shows nothing else; True if that can't be, which is told then."""
        try:
            self.keeper.flush()
        except Exception as error:
            self.fail(said_of(error))
            return True
        return False

    def refuse_if_ended(self) -> None:
        """Refuses what a session can't do any more."""
        if self.mode == "end":
            raise LabError(self.fault or ENDED)

    def change_tempo(self, way: str) -> None:
        """Makes legs `slower` or `faster`, or as long as they take `alone` to find out."""
        with self.changed:
            self.refuse_if_ended()
            self.tempo.turn(way)
            self.publish()

    def act(self, texts: Sequence[str]) -> None:
        """Does acts, written without their leg, before the next leg; puts all of them on record, or none."""
        with self.changed:
            self.refuse_if_ended()
            leg = self.next + self.is_busy
            try:
                acts = [Act.of(f"{leg}:{text}", self.maker.rule.world, self.maker.layout) for text in texts]
            except LabError as error:
                raise LabError(str(error).removeprefix(f"{leg}:")) from error
            waiting = list(self.maker.rule.acts.by_leg.get(leg, ()))
            self.maker.rule.acts.by_leg[leg] = waiting + acts
            try:
                atoms = self.atoms if self.is_busy else self.with_acts(leg, self.left)
                self.keep_lengths()
                self.maker.folder.add_acts(act.text for act in acts)
            except BaseException:
                self.maker.rule.acts.by_leg[leg] = waiting
                raise
            for _ in acts:
                insort(self.hands, leg)
            self.atoms = atoms
            self.orders += 1
            self.publish()

    def keep_lengths(self) -> None:
        """Puts the lengths of all legs that are made, or are being made, on record. So an act behind them is the last thing on
        record, and can be taken back without a word of the rest being written anew."""
        self.keeper.flush()
        if self.is_busy:
            length = self.length_of(self.next, self.at_work)
            self.maker.folder.add_acts(length)

    def length_of(self, number: int, attempts: int) -> list[str]:
        """What is to be put on record of a leg of so many attempts, unless the record says it or the world does."""
        rule = self.maker.rule
        if rule.acts.attempts(number) is not None or attempts == rule.world.attempts:
            return []
        text = f"{number}:attempts:{attempts}"
        rule.acts.add(Act.of(text, rule.world, self.maker.layout))
        return [text]

    def undo(self) -> None:
        """Takes back the last act that waits for the next leg."""
        with self.changed:
            self.refuse_if_ended()
            leg = self.next + self.is_busy
            waiting = self.by_hand(leg)
            if not waiting:
                raise LabError("there is nothing to take back: no act waits for the next leg")
            self.keeper.flush()  # which may put lengths of legs on record
            self.maker.folder.take_back(waiting[-1].text)
            acts = self.maker.rule.acts.by_leg[leg]
            acts.reverse()
            acts.remove(waiting[-1])
            acts.reverse()
            self.hands.remove(leg)
            self.orders += 1
            if not self.is_busy:
                self.atoms = self.with_acts(leg, self.left)
            self.publish()

    def rest(self) -> int:
        """Pauses; gives back how many legs are done when all that was begun is on record."""
        with self.changed:
            self.refuse_if_ended()
            self.mode = "pause"
            self.orders += 1
            self.publish()
            self.changed.wait_for(lambda: self.mode == "end" or not self.is_busy)
            self.refuse_if_ended()
            self.keeper.flush()
            return len(self.course.legs) - 1

    def end(self) -> None:
        """Ends, with a leg that is being made still made."""
        with self.changed:
            if self.mode != "end":
                self.mode = "end"
                self.orders += 1
                self.publish()
        self.worker.join()
        self.keeper.close()

    # what makes the legs

    def work(self) -> None:
        """Makes legs until the session ends. Nothing that goes wrong is lost: it ends the session if nothing else helps."""
        try:
            while self.is_wanted():
                try:
                    self.make()
                except Exception as error:  # also a fault of the lab is told, and the chain goes back to what is on record
                    self.fail(said_of(error))
        except BaseException as error:  # whatever it is: who waits for a leg has to be told
            self.die(error)

    def is_wanted(self) -> bool:
        """Waits until another leg is wanted; False if the session ends."""
        with self.changed:
            self.changed.wait_for(lambda: self.mode != "pause")
            self.is_busy, self.at_work = self.mode != "end", self.tempo.attempts
            return self.is_busy

    def make(self) -> None:
        """Makes legs by one call of the program, until there is an order that they don't know of, or another length."""
        with self.changed:
            first, orders, attempts = self.next, self.orders, self.tempo.attempts
            self.at_work = attempts
            last = first if self.mode == "leg" else first + AT_ONCE - 1
        legs = self.maker.called(first, last, self.left.lines, attempts)
        began = time.monotonic()
        try:
            for number, report in legs:
                self.take(number, report, attempts)
                with self.changed:
                    took = time.monotonic() - began
                    if number > first or self.mode != "play":  # the first one of many waits for the program to begin
                        self.tempo.heed(took, self.maker.rule.attempts_each(number))
                    self.rest_after(took)
                    if number == last or (orders, attempts) != (self.orders, self.tempo.attempts):
                        return
                    self.is_busy = True
                began = time.monotonic()
        finally:
            legs.close()

    def take(self, number: int, report: LegReport, attempts: int) -> None:
        """Takes a leg that was made, of so many attempts unless the record says otherwise."""
        with self.changed:
            length = self.length_of(number, attempts)
        failed = self.maker.failed(number, self.left.lines, report) if self.maker.finder is not None else None
        row = self.maker.row(number, report, failed if self.course.has_failures else None)
        left = Atoms(lambda: atom_lines(report.atoms))
        with self.changed:
            self.keeper.keep(row, report, length)
            self.next = number + 1
            self.maker.rule.acts.forget(number)
            self.left, self.atoms = left, self.with_acts(self.next, left)
            self.last, self.failed = report, failed or Counter()
            self.all_failed += self.failed.total()
            self.times.append((time.monotonic(), self.course.events))
            self.is_busy = False
            self.fault = ""

    def rest_after(self, took: float) -> None:
        """Shows a leg that took so long, and waits until another one may begin."""
        if self.mode == "leg":
            self.mode = "pause"
        if self.mode != "play":
            self.keeper.flush()  # so a pause shows what is on record
        self.publish()
        self.changed.wait_for(lambda: self.mode != "play", EVERY - took)

    def fail(self, fault: str) -> None:
        """Goes back to the last leg that is done, pauses, and says what went wrong; raises what keeps it from going back."""
        with self.changed:
            self.is_busy = False
            self.fault = fault
            try:
                self.keeper.close()
            except Exception as error:
                self.fault = joined(fault, said_of(error))
            self.go_back()
            self.orders += 1
            if self.mode != "end":
                self.mode = "pause"
            self.publish()

    def go_back(self) -> None:
        """Opens the chain as it is on record."""
        maker, course = self.maker, self.course
        folder, rule = maker.folder, maker.rule
        acts = Acts.of(folder.acts(rule.world, maker.layout))
        done = folder.packed(maker.begun).done
        self.open(replace(maker, rule=replace(rule, acts=acts)), folder.course(done, course.elements, course.sites))

    def die(self, error: BaseException) -> None:
        """Ends the session by what went wrong, and says so for good. What is seen last stays."""
        with self.changed:
            self.is_busy = False
            self.mode = "end"
            self.fault = joined(ENDED, self.fault, said_of(error))
            self.shot = replace(self.shot, number=self.shot.number + 1, mode="end", speed=0.0, fault=self.fault)
            self.changed.notify_all()

    # what is seen

    def publish(self) -> None:
        """Takes a new shot, for all who watch."""
        self.shot = self.taken(self.shot.number + 1)
        self.changed.notify_all()

    def taken(self, number: int) -> Shot:
        """A shot of the chain as it is."""
        coming = self.next + self.is_busy
        acts = [act.told for act in self.by_hand(coming)]
        mode = "leg" if self.is_busy and self.mode == "pause" else self.mode
        return Shot(number, self.next - 1, self.course.events, self.course.abandoned, self.atoms, self.last, mode,
                    self.tempo.attempts, self.tempo.by_itself, self.speed(), acts, bisect_right(self.hands, coming),
                    self.failed if self.maker.finder else None, self.all_failed, self.fault)

    def speed(self) -> float:
        """How many events each site has in a second, over the last seconds; 0 in a pause."""
        while len(self.times) > 2 and self.times[-1][0] - self.times[0][0] > WINDOW:
            self.times.popleft()
        if self.mode != "play" or len(self.times) < 2:
            return 0.0
        (first, before), (last, now) = self.times[0], self.times[-1]
        return (now - before) / max(last - first, 1e-6) / max(self.maker.rule.world.sites, 1)


def said_of(error: BaseException) -> str:
    """What went wrong, in a line or some."""
    if isinstance(error, (LabError, Disagreement)):
        return str(error)
    if isinstance(error, OSError):
        return f"{error.filename}: {cause(error)}" if error.filename else cause(error)
    if isinstance(error, MemoryError):
        return "the lab ran out of memory"
    return f"a fault of the lab: {type(error).__name__}: {error}"


def joined(*faults: str) -> str:
    """Several faults as one text; what is said twice stands once."""
    return "; ".join(dict.fromkeys(fault for fault in faults if fault))
