"""Runs with a worker for each tile: many small ones of many tiles, each report checked; workers of very
unequal load; all on one processor; and workers on small stacks or without any thread.

How evenly tiles act and how far they are apart is in `pace`.

What a report has to be is asked of the program itself, by forms that know no threads: `replay` of it has
to write its atoms, and `audit` has to say yes. Its entries are counted here.
"""
from __future__ import annotations

import random
import sys
from typing import Collection, NamedTuple, Optional, Sequence

from bench import DONE, MEMORY, Bench, Limits, main_of, tool
from element_texts import NESTS, deepest, nested
from jobs import ZEROS
from pace import alone, even

ELEMENTS = b"""element Wander { EventWindow ew; Random random; Void behave() {
  Unsigned i = random.create(40) + 1; if (ew.isEmpty(i)) ew.swap(0, i); } }
element Copy { EventWindow ew; Random random; Unsigned(9) n; Void behave() {
  Unsigned i = random.create(4) + 1; n += 1; if (ew.isEmpty(i) && n < 9) ew[i] = self; else ew.swap(0, i); } }
element Eat { EventWindow ew; Unsigned(30) eaten; Void behave() {
  for (Unsigned i = 1; i < 41; i++) if (ew[i] is Copy) { ew[i] = Empty.instanceof; eaten += 1; } } }
element Spin { Void behave() { while (true) { } } }
element Fail { Random random; Void behave() { if (random.oneIn(3)) random.create(0); } }
element Slow { EventWindow ew; Int x; Void behave() { for (Int i = 0; i < 900; i++) x = x * 7 + i; ew.swap(0, 4); } }
"""
KINDS = [b"Wander", b"Copy", b"Eat", b"Spin", b"Fail", b"Slow"]


class Sections(NamedTuple):
    """The atoms of a report, as `replay` writes them, and how many records and abandoned attempts it has."""

    atoms: bytes
    records: int
    abandoned: int


def sections(text: bytes) -> Sections:
    """The sections of a report."""
    lines = text.split(b"\n")
    atoms = int(lines[1].split(b" ")[1])
    records = int(lines[2 + atoms].split(b" ")[1])
    abandoned = int(lines[3 + atoms + records].split(b" ")[1])
    return Sections(b"\n".join(lines[: 2 + atoms]) + b"\n", records, abandoned)


def checked(
    bench: Bench,
    name: str,
    entries: int,
    limits: Optional[Limits] = None,
    before: Sequence[bytes] = (),
    seconds: float = 120,
) -> int:
    """A run whose report has so many entries, replays to its own atoms, and is a true account; under
    limits it may want memory. The number of the abandoned ones."""
    answer = bench.call(["run", "w", "e"], limits, seconds=seconds, before=before)
    if limits is not None and answer.status == MEMORY:
        bench.say(answer.size == 0, f"{name}: nothing is written for want of memory", answer.shown())
        return 0
    if not bench.say(answer.status == DONE, name, answer.shown()):
        return 0
    text = bench.output.read_bytes()
    atoms, records, abandoned = sections(text)
    bench.say(records + abandoned == entries, f"{name}: each attempt once", f"{records} + {abandoned}, not {entries}")
    bench.write("j", text)
    bench.expect(f"{name}: replayed", bench.call(["replay", "w", "j", "e"], seconds=seconds), DONE, atoms)
    bench.expect(f"{name}: audited", bench.call(["audit", "w", "j", "e"], seconds=seconds), DONE, b"yes\n")
    return abandoned


class Drawn(NamedTuple):
    """A world that was drawn, and how many attempts it has."""

    text: bytes
    attempts: int


def drawn_world(draw: random.Random) -> Drawn:
    """A small world of many tiles."""
    tx, ty = draw.choice([(2, 1), (1, 2), (2, 2), (3, 3), (4, 2), (4, 4), (8, 1), (8, 8), (5, 7)])
    w, h = draw.choice([(8, 8), (8, 8), (9, 8), (12, 10), (16, 16)])
    off = sorted(draw.sample(range(tx * ty), draw.choice([0, 0, 0, 1, tx * ty // 4])))
    count = draw.choice([1, 3, 10, 25])
    lines = [b"feast 2" if off else b"feast 1", b"tiles %d %d" % (tx, ty), b"size %d %d" % (w, h)]
    lines += [b"off %d" % tile for tile in off]
    lines += [b"seed %d" % draw.randrange(1 << 64), b"attempts %d" % count]
    most = draw.choice([1, tx * ty, tx * ty * w * h // 6])
    sites = {(draw.randrange(tx * w), draw.randrange(ty * h)) for _ in range(most)}
    for x, y in sorted(sites):
        if y // h * tx + x // w not in off:
            lines.append(b"atom %d %d %s" % (x, y, draw.choice(KINDS)))
    return Drawn(b"\n".join(lines) + b"\n", count * (tx * ty - len(off)))


def many(bench: Bench, count: int, before: Sequence[bytes] = ()) -> None:
    """Many small runs."""
    draw = random.Random(64)
    bench.write("e", ELEMENTS)
    attempts = abandoned = 0
    for number in range(count):
        text, entries = drawn_world(draw)
        bench.write("w", text)
        abandoned += checked(bench, f"run {number} of {text[:60]!r}", entries, before=before)
        attempts += entries
    where = " on one processor" if before else ""
    bench.note(f"{count} runs{where}, {attempts} attempts, {abandoned} of them abandoned")


TILES = b"feast 1\ntiles 8 8\nsize 8 8\n"


def corner(tile: int) -> tuple[int, int]:
    """The first column and row of one of 8 by 8 tiles of 8 by 8 sites."""
    return tile % 8 * 8, tile // 8 * 8


def attempts_of(tile: int, heavy: Collection[int]) -> int:
    """How many attempts a tile has, where these are heavy: most if they are few."""
    if tile not in heavy:
        return 1
    return 4000 if len(heavy) < 9 else 200


def unequal(bench: Bench, before: Sequence[bytes] = ()) -> None:
    """One worker with very much to do beside neighbours with little, and the other way round."""
    kinds = [b"Slow", b"Wander", b"Copy"]
    atoms = [b"atom %d %d %s\n" % (x, y, kinds[(x + y) // 3 % 3]) for y in range(0, 64, 3) for x in range(0, 64, 3)]
    for name, heavy in (
        ("one heavy worker", {27}),
        ("one idle worker", set(range(64)) - {27}),
        ("the corners", {0, 7, 56, 63}),
    ):
        lines = []
        for tile in range(64):
            x, y = corner(tile)
            sites = ((x + i % 8, y + i // 8 % 8) for i in range(attempts_of(tile, heavy)))
            lines += [b"try %d %d %d %s\n" % (tile, *site, ZEROS) for site in sites]
        bench.write("w", TILES + b"".join(lines + atoms))
        given_up = checked(bench, name, len(lines), before=before, seconds=600)
        where = " on one processor" if before else ""
        bench.note(f"{name}{where}: {len(lines)} attempts, {given_up} abandoned")


def crowded(bench: Bench) -> None:
    """Sixty-four workers that meet at their borders all the time."""
    lines = [TILES]
    count = 2000 if bench.long else 200
    for tile in range(64):
        x, y = corner(tile)
        lines += [b"try %d %d %d %s\n" % (tile, x + i % 2 * 7, y + i // 2 % 2 * 7, ZEROS) for i in range(count)]
    lines += [b"atom %d %d Wander\n" % (x, y) for y in range(0, 64, 2) for x in range(0, 64, 2)]
    bench.write("w", b"".join(lines))
    abandoned = checked(bench, "crowded borders", 64 * count, seconds=600)
    bench.note(f"crowded borders: {64 * count} attempts, {abandoned} abandoned")


def stacks(bench: Bench) -> None:
    """The deepest elements in workers, whose stacks are as large as the limit on stacks says."""
    tries = b"try 0 3 4 " + ZEROS + b"\ntry 1 12 4 " + ZEROS + b"\n"
    bench.write("w", b"feast 1\ntiles 2 1\nsize 8 8\n" + tries + b"atom 3 4 A\natom 12 4 A\n")
    least: dict[str, int] = {}
    for form in NESTS:
        bench.write("e", nested(form, deepest(form)))
        for stack in (128, 256, 512, 1024, 2048, 8192):
            if bench.call(["run", "w", "e"], Limits(stack=stack * 1024)).status == DONE:
                least[form] = stack
                break
    held = len(least) == len(NESTS) and max(least.values()) <= 2048
    bench.say(held, "the deepest elements on small stacks", f"{least}")
    bench.note(f"the deepest elements in workers need stacks of {max(least.values())} KiB at most")
    down = b"Void down(Unsigned(5) k) { if (k > 1) down(k - 1); }"
    bench.write("e", b"element A { Unsigned(5) n; " + down + b" Void behave() { n = 16; down(n); } }")
    checked(bench, "calls 16 deep in two workers", 2)
    bench.write("e", ELEMENTS)


def threadless(bench: Bench) -> None:
    """Where a thread can't be started, the work is done all the same."""
    draw = random.Random(1)
    bench.write("e", ELEMENTS)
    for number in range(40 if bench.long else 8):
        text, entries = drawn_world(draw)
        bench.write("w", text)
        for space in (24, 48, 96, 200):
            checked(bench, f"run {number} in {space} MiB", entries, Limits(space=space << 20))


def workers(bench: Bench) -> None:
    """The table."""
    many(bench, 10_000 if bench.long else 150)
    unequal(bench)
    crowded(bench)
    even(bench)
    alone(bench)
    stacks(bench)
    threadless(bench)
    if tool("taskset") is not None:
        one = (b"taskset", b"-c", b"0")
        many(bench, 1000 if bench.long else 40, one)
        unequal(bench, one)
    else:
        bench.leave_out("taskset is not on this machine", "runs on one processor")


if __name__ == "__main__":
    sys.exit(main_of(workers))
