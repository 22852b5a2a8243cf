#!/usr/bin/env python3
"""Draws the journal of a stepped run as a diagram of space and stamps, as SVG on standard output: journal.py [WORLD].

It is called at the top of a clone. The tiles of the world, by itself journal.world beside this script, have to stand in
one row, and all that counts is where events take place: no atoms are needed. Columns go from left to right, and
stamps from top to bottom; an event is a bar as wide as its window. Lines lead to it from the events that it is linked
to and whose stamp is one less: the one before it of its own tile, or one that needed an edge which it needs too.
"""
import argparse
import re
import subprocess
import sys
from dataclasses import dataclass
from pathlib import Path

sys.dont_write_bytecode = True

from sheet import svg  # noqa: E402
from window import REACH  # noqa: E402

SITE, STEP = 13, 30  # the width of a site, and the height of a stamp
COLORS = ("#0072b2", "#d55e00", "#009e73", "#cc79a7")


@dataclass(frozen=True)
class Event:
    """An event, or an abandoned attempt, whose stamp then is none."""

    tile: int
    attempt: int
    x: int
    stamp: int = 0


@dataclass(frozen=True)
class Row:
    """Tiles in a row: how many, and how wide each is."""

    tiles: int
    width: int

    def edges(self, event: Event) -> set[int]:
        """The edges that an attempt needs; edge t is that of tile t and the next one."""
        inside = event.x - event.tile * self.width
        left = {event.tile - 1} if inside < 2 * REACH and event.tile > 0 else set()
        right = {event.tile} if inside >= self.width - 2 * REACH and event.tile < self.tiles - 1 else set()
        return left | right

    def are_linked(self, one: Event, other: Event) -> bool:
        """Whether two events are of one tile, or needed an edge in common."""
        return one.tile == other.tile or bool(self.edges(one) & self.edges(other))


def read(world: str, report: str) -> tuple[Row, list[Event], list[Event]]:
    """The row of tiles, the events, and the abandoned attempts."""
    tiles = re.search(r"(?m)^tiles (\d+) 1$", world)
    size = re.search(r"(?m)^size (\d+) \d+$", world)
    if tiles is None or size is None:
        raise SystemExit("journal.py: the tiles of the world don't stand in one row")
    journal, abandoned = report[report.index("\njournal ") + 1:].split("abandoned ")
    numbers = [line.split() for line in journal.splitlines()[1:]]
    events = [Event(int(tile), int(attempt), int(x), int(stamp)) for stamp, tile, attempt, x, _, _ in numbers]
    lost = [Event(*map(int, line.split()[:3])) for line in abandoned.splitlines()[1:]]
    return Row(int(tiles[1]), int(size[1])), events, lost


def middle(event: Event, stamp: float) -> tuple[str, str]:
    """The middle of an event's bar."""
    return svg.number((event.x + 0.5) * SITE), svg.number(stamp * STEP)


def links(row: Row, events: list[Event]) -> list[str]:
    """The lines from the events that give an event its stamp."""
    shown = []
    for event in events:
        for other in events:
            if other.stamp == event.stamp - 1 and row.are_linked(other, event):
                (x, y), (to_x, to_y) = middle(other, other.stamp), middle(event, event.stamp)
                shown.append(f'<path d="M{x} {y}L{to_x} {to_y}" stroke="#8a929a" stroke-width="1.5"/>')
    return shown


def bars(row: Row, events: list[Event]) -> list[str]:
    """The events: a bar as wide as the window, and the number of the attempt on its centre."""
    shown = []
    for event in events:
        first, last = max(0, event.x - REACH), min(row.tiles * row.width - 1, event.x + REACH)
        color = COLORS[event.tile % len(COLORS)]
        x, y = middle(event, event.stamp)
        shown += [svg.rectangle(first * SITE, event.stamp * STEP - 4, (last - first + 1) * SITE, 8, f'fill="{color}" fill-opacity=".35"'),
                  f'<circle cx="{x}" cy="{y}" r="9" fill="{color}"/>',
                  f'<text x="{x}" y="{event.stamp * STEP + 4}" font-size="11" fill="#fff" text-anchor="middle">{event.attempt}</text>']
    return shown


def crosses(events: list[Event], lost: list[Event]) -> list[str]:
    """The abandoned attempts, half a step before the next event of their tile."""
    shown = []
    for attempt in lost:
        later = [event.stamp for event in events if event.tile == attempt.tile and event.attempt > attempt.attempt]
        last = max((event.stamp for event in events if event.tile == attempt.tile), default=0) + 1
        x, y = middle(attempt, min(later, default=last) - 0.5)
        color = COLORS[attempt.tile % len(COLORS)]
        shown.append(f'<path d="M{x} {y}m-6 -6l12 12m0 -12l-12 12" stroke="{color}" stroke-width="3"/>')
    return shown


def frame(row: Row, stamps: int) -> list[str]:
    """The tiles with the zones along their borders, and the stamps."""
    high = (stamps + 1) * STEP
    shown = []
    for border in range(1, row.tiles):
        shown.append(svg.rectangle((border * row.width - 2 * REACH) * SITE, 0, 4 * REACH * SITE, high, 'fill="#eef3f7"'))
    for tile in range(row.tiles):
        shown.append(svg.text((tile + 0.5) * row.width * SITE, -8, f"tile {tile}", ' text-anchor="middle" font-weight="600"'))
    lines = svg.lines(row.tiles * row.width * SITE, high, row.width * SITE, high)
    shown.append(f'<path d="{lines}" stroke="{svg.BORDER}" stroke-width="2" fill="none"/>')
    return [*shown, *(svg.text(-10, stamp * STEP + 5, str(stamp), ' text-anchor="end"') for stamp in range(1, stamps + 1))]


def main() -> int:
    """Writes the drawing."""
    parser = argparse.ArgumentParser(prog="journal.py", description="Draws the journal of a stepped run.")
    parser.add_argument("world", type=Path, nargs="?", default=Path(__file__).resolve().parent / "journal.world")
    world: Path = parser.parse_args().world
    words = ["./feast", "step", str(world), "examples/walker.ulam"]
    report = subprocess.run(words, stdout=subprocess.PIPE, check=True, text=True).stdout
    row, events, lost = read(world.read_text(), report)
    stamps = max(event.stamp for event in events)
    wide, high = row.tiles * row.width * SITE, (stamps + 1) * STEP
    caption = ("stamp", "A dot is an event, with the number of its attempt; its bar is the window.",
               "A cross is an abandoned attempt. Events in the shaded zones need the edge there.",
               "A line leads from each event that gives another one its stamp.")
    below = [svg.text(0, high + 24 + number * svg.LINE, line) for number, line in enumerate(caption[1:])]
    parts = [svg.placed(48, 32, [*frame(row, stamps), *links(row, events), *bars(row, events), *crosses(events, lost),
                                 svg.text(-44, -8, caption[0]), *below])]
    about = f"{len(events)} events of {row.tiles} tiles with their stamps, and {len(lost)} abandoned attempts."
    sys.stdout.write(svg.figure("A journal, column by column and stamp by stamp", about, wide + 64, high + 48 + 3 * svg.LINE, parts))
    return 0


if __name__ == "__main__":
    sys.exit(main())
