"""How evenly the tiles of threaded runs act, how far they get ahead of each other, and that a run without threads doesn't
wait in vain.

No tile may make far fewer events than the others, or get far ahead of them: on planes of 4, 16 and 64 tiles, on one with
a tile that is off, and on one with a tile that has no attempts, for which nobody is to wait.

Other work on the machine keeps processors from some tiles and not from others. So its share is measured beside each
run. What doesn't hold on a quiet machine is a fault at once; beside other work it is tried again some times.
"""
from __future__ import annotations

import math
import os
import random
import statistics
import subprocess
import time
from typing import NamedTuple, Optional, Sequence

from bench import DONE, Bench, tool
from load import QUIET, Meter

WANDER = b"""element Wander { EventWindow ew; Random random; Void behave() {
  Unsigned i = random.create(40) + 1; if (ew.isEmpty(i)) ew.swap(0, i); } }
"""
# How often something is tried beside other work.
TRIES = 8


class Plane(NamedTuple):
    """So many tiles each way, of so many columns and rows, each with so many attempts; some tiles are off, and some
    have no attempts."""

    tiles: int
    side: int
    attempts: int
    off: tuple[int, ...] = ()
    idle: tuple[int, ...] = ()

    @property
    def name(self) -> str:
        """What it is called."""
        off = f", {len(self.off)} of them off" if self.off else ""
        idle = f", {len(self.idle)} of them without attempts" if self.idle else ""
        return f"{self.tiles} by {self.tiles} tiles of {self.side} by {self.side}{off}{idle}"

    @property
    def acting(self) -> list[int]:
        """The tiles that have attempts."""
        return [tile for tile in range(self.tiles**2) if tile not in self.off + self.idle]

    def corner(self, tile: int) -> tuple[int, int]:
        """The first column and row of a tile."""
        return tile % self.tiles * self.side, tile // self.tiles * self.side

    def tries(self) -> bytes:
        """The attempts, each drawn here and in a line of its own."""
        draw = random.Random(77)
        lines = []
        for tile in self.acting:
            x, y = self.corner(tile)
            for _ in range(self.attempts):
                at = (x + draw.randrange(self.side), y + draw.randrange(self.side))
                lines.append(b"try %d %d %d %016x\n" % (tile, *at, draw.randrange(1 << 64)))
        return b"".join(lines)

    def text(self) -> bytes:
        """Its world: one site in four has an atom."""
        head = b"feast %d\ntiles %d %d\nsize %d %d\n" % (2 if self.off else 1, self.tiles, self.tiles, self.side, self.side)
        head += b"".join(b"off %d\n" % tile for tile in self.off)
        head += self.tries() if self.idle else b"seed 1000\nattempts %d\n" % self.attempts
        corners = [self.corner(tile) for tile in range(self.tiles**2) if tile not in self.off]
        sites = [(x + i, y + j) for x, y in corners for i in range(0, self.side, 2) for j in range(0, self.side, 2)]
        return head + b"".join(b"atom %d %d Wander\n" % site for site in sites)


# on tiles of 8 by 8 sites nearly each attempt needs an edge
PLANES = [
    Plane(2, 8, 20_000), Plane(4, 8, 20_000), Plane(8, 16, 15_000), Plane(3, 8, 20_000, off=(4,)), Plane(2, 8, 20_000, idle=(2,)),
]


def tiles_of(report: bytes) -> list[int]:
    """The tile of each event of a report, in the order of the journal."""
    lines = report.split(b"\n")
    head = 2 + int(lines[1].split()[1])
    records = int(lines[head].split()[1])
    return [int(line.split(b" ", 2)[1]) for line in lines[head + 1 : head + 1 + records]]


def drift(tiles: Sequence[int], acting: Sequence[int]) -> float:
    """How far one of the acting tiles was ahead of another at one of a thousand moments: the part of its own events that
    it had made by then, less the part that the other had."""
    events = {tile: max(1, tiles.count(tile)) for tile in acting}
    made = dict.fromkeys(acting, 0)
    worst = 0.0
    step = len(tiles) // 1000 + 1
    for moment in range(0, len(tiles), step):
        for tile in tiles[moment : moment + step]:
            made[tile] += 1
        parts = [made[tile] / events[tile] for tile in acting]
        worst = max(worst, max(parts) - min(parts))
    return worst


class Shown(NamedTuple):
    """What some runs of a plane showed, each as the middle of them: the events of the poorest tile beside the mean, how
    far one tile got ahead of another, and the part of the processors that others had."""

    poorest: float
    drift: float
    others: float

    @property
    def is_even(self) -> bool:
        """Whether each tile makes at least a third of the mean number of events, and none gets a tenth of its events
        ahead of another. The aims are three times that, and half of it."""
        return self.poorest >= 1 / 3 and self.drift < 0.1


def shown(bench: Bench, plane: Plane) -> Optional[Shown]:
    """What three runs of the plane in `w` show; None if one fails."""
    rows = []
    for _ in range(3):
        begin = Meter.now()
        answer = bench.call(["run", "w", "e"])
        beside = begin.others(answer.seconds)
        if not bench.say(answer.status == DONE, plane.name, answer.shown()):
            return None
        tiles = tiles_of(bench.output.read_bytes())
        least = min(tiles.count(tile) for tile in plane.acting) * len(plane.acting) / len(tiles)
        rows.append(Shown(least, drift(tiles, plane.acting), beside))
    poorest, drifts, others = ([row[place] for row in rows] for place in range(3))
    return Shown(statistics.median(poorest), statistics.median(drifts), statistics.median(others))


def tried(bench: Bench, plane: Plane) -> Optional[Shown]:
    """What runs of the plane in `w` show, tried again where they weren't even beside other work; None if one fails."""
    found = shown(bench, plane)
    for _ in range(1, TRIES):
        if found is None or found.is_even or found.others < QUIET:
            break
        bench.note(f"{plane.name}: tried again, since others had {found.others:.0%} of the processors")
        found = shown(bench, plane)
    return found


def even(bench: Bench) -> None:
    """The acting tiles of each plane act evenly."""
    if len(os.sched_getaffinity(0)) < 2:
        bench.leave_out("there is one processor", "how evenly tiles act")
        return
    bench.write("e", WANDER)
    for plane in PLANES:
        bench.write("w", plane.text())
        found = tried(bench, plane)
        if found is None:
            return
        told = f"the poorest tile made {found.poorest:.2f} of the mean, the drift was {found.drift:.3f}"
        told += f", others had {found.others:.0%} of the processors"
        bench.say(found.is_even, f"{plane.name}: tiles act evenly", told)
        bench.note(f"{plane.name}: {told}")


def without_threads() -> list[bytes]:
    """The words before a call that can start no thread; none if there is no way to forbid them."""
    limit = [b"prlimit", b"--nproc=1:1"]
    if os.geteuid() != 0:
        return limit if tool("prlimit") is not None else []
    if tool("prlimit") is None or tool("setpriv") is None:
        return []
    return [b"setpriv", b"--reuid=65534", b"--regid=65534", b"--clear-groups", *limit]


def alone(bench: Bench) -> None:
    """Where no thread can be started, workers that wait for others wait in vain: a run of 64 tiles then ends in at
    most four times the time that it takes with threads, each as the least of three. In the run without threads the time
    doesn't count for which no processor was free: other work makes it longer by that, and the other one by far less."""
    before = without_threads()
    if not before:
        bench.leave_out("prlimit or setpriv is not on this machine", "runs without threads")
        return
    plane = Plane(8, 64, 8_000)
    bench.write("w", plane.text())
    bench.write("e", WANDER)
    for name in ("w", "e"):
        (bench.folder / name).chmod(0o644)
    bench.folder.chmod(0o755)
    if subprocess.run([*before, b"test", b"-x", bench.program.encode()]).returncode != 0:
        bench.leave_out("the user nobody can't reach the program", "runs without threads")
        return
    ways: tuple[tuple[str, Sequence[bytes]], ...] = (("with threads", []), ("without threads", before))
    times = {name: math.inf for name, _ in ways}
    for _ in range(3):
        for name, words in ways:
            begin = time.perf_counter()
            answer = bench.call(["run", "w", "e"], before=words, seconds=240)
            passed = time.perf_counter() - begin
            times[name] = min(times[name], passed - (answer.delay if words else 0))
            if not bench.say(answer.status == DONE, f"{plane.name} {name}", answer.shown()):
                return
    held = times["without threads"] <= 4 * times["with threads"]
    bench.say(held, f"{plane.name} without threads ends soon", f"{times}")
    bench.note(f"{plane.name}: {times['with threads']:.2f} s with threads, {times['without threads']:.2f} s without")
