#!/usr/bin/env python3
"""Draws columns of a table as curves over the events, as SVG on standard output: curves.py TABLE.csv COLUMN=COLOR..

The table is one that `./lab film --csv` writes.
"""
import argparse
import csv
import sys
from pathlib import Path

sys.dont_write_bytecode = True

from sheet import svg  # noqa: E402

WIDE, HIGH = 620, 220
LEFT, TOP, RIGHT, BELOW = 48, 12, 90, 44


def step(most: float) -> int:
    """A round distance of marks, of which some three to six fit below a number."""
    power = int(10 ** (len(str(int(most))) - 1))
    return next(size for size in (power // 5, power // 2, power, 2 * power) if size and most / size <= 6)


def scale(most_events: int, most: int) -> list[str]:
    """The marks of both axes."""
    shown = []
    for mark in range(0, most + 1, step(most)):
        y = TOP + HIGH * (1 - mark / most)
        shown.append(f'<path d="M{LEFT} {svg.number(y)}h{WIDE}" stroke="#d7dbe0"/>')
        shown.append(svg.text(LEFT - 8, y + 5, f"{mark:,}", ' text-anchor="end"'))
    for mark in range(0, most_events + 1, step(most_events)):
        x = LEFT + WIDE * mark / most_events
        shown.append(f'<path d="M{svg.number(x)} {TOP + HIGH}v5" stroke="{svg.BORDER}"/>')
        shown.append(svg.text(x, TOP + HIGH + 20, f"{mark:,}", ' text-anchor="middle"'))
    return [*shown, svg.text(LEFT + WIDE / 2, TOP + HIGH + 38, "events", ' text-anchor="middle"')]


def curve(events: list[int], values: list[int], most: int, name: str, color: str) -> list[str]:
    """A curve with its name at its end."""
    points = [f"{svg.number(LEFT + WIDE * at / events[-1])} {svg.number(TOP + HIGH * (1 - value / most))}"
              for at, value in zip(events, values)]
    y = float(points[-1].split()[1])
    return [f'<path d="M{"L".join(points)}" stroke="{color}" stroke-width="2" fill="none"/>',
            svg.text(LEFT + WIDE + 8, y + 5, name, f' fill="{color}" font-weight="600"')]


def main() -> int:
    """Writes the drawing."""
    parser = argparse.ArgumentParser(prog="curves.py", description="Draws columns of a table as curves over the events.")
    parser.add_argument("table", type=Path)
    parser.add_argument("columns", nargs="+", metavar="COLUMN=COLOR")
    words = parser.parse_args()
    columns = dict(column.split("=") for column in words.columns)
    with open(words.table, newline="") as file:
        rows = list(csv.DictReader(file))
    events = [int(row["events"]) for row in rows]
    most = max(int(row[name]) for row in rows for name in columns)
    parts = [*scale(events[-1], most), *(part for name, color in columns.items()
                                         for part in curve(events, [int(row[name]) for row in rows], most, name, color))]
    names = " and ".join(columns)
    about = f"How many atoms of {names} there are, over {events[-1]:,} events."
    sys.stdout.write(svg.figure(f"{names} over the events", about, LEFT + WIDE + RIGHT, TOP + HIGH + BELOW, parts))
    return 0


if __name__ == "__main__":
    sys.exit(main())
