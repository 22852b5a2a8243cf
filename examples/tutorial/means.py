#!/usr/bin/env python3
"""Prints means over the runs of a sweep: means.py SWEEP.csv --by COLUMN --of COLUMN.. [--from LEG].

Each run counts once, with its mean over its legs from LEG on, since the legs of one run depend on one another. For each
value of the column of --by there is a line for each column of --of: how many runs there are, the mean of their
means, the standard deviation between runs, and the least and the greatest of them.
"""
from __future__ import annotations

import argparse
import csv
import pathlib
import statistics
import sys

Row = dict[str, str]


def run_means(rows: list[Row], column: str, first: int) -> list[float]:
    """The mean of a column in each run, over its legs from the first on."""
    runs: dict[str, list[float]] = {}
    for row in rows:
        if int(row["leg"]) >= first and row[column]:
            runs.setdefault(row["run"], []).append(float(row[column]))
    return [statistics.fmean(numbers) for numbers in runs.values()]


def line(value: str, column: str, means: list[float]) -> str:
    """A line of what is printed."""
    if not means:
        return f"{value:>8}  {column:<12} no runs"
    spread = f"{statistics.stdev(means):6.2f}" if len(means) > 1 else "     -"
    return (f"{value:>8}  {column:<12} runs {len(means)}  mean {statistics.fmean(means):7.2f}  deviation {spread}"
            f"  from {min(means):.2f} to {max(means):.2f}")


def main() -> None:
    """Prints the lines of all values."""
    parser = argparse.ArgumentParser(description=__doc__, formatter_class=argparse.RawDescriptionHelpFormatter)
    parser.add_argument("table", type=pathlib.Path, metavar="SWEEP.csv")
    parser.add_argument("--by", required=True, metavar="COLUMN")
    parser.add_argument("--of", required=True, nargs="+", metavar="COLUMN")
    parser.add_argument("--from", dest="first", type=int, default=1, metavar="LEG")
    given = parser.parse_args()
    with given.table.open(newline="") as file:
        rows = list(csv.DictReader(file))
    lost = sorted({"run", "leg", given.by, *given.of} - set(rows[0] if rows else ()))
    if lost:
        sys.exit(f"{given.table}: it has no column {', '.join(lost)}")
    for value in dict.fromkeys(row[given.by] for row in rows):
        those = [row for row in rows if row[given.by] == value]
        for column in given.of:
            print(line(value, column, run_means(those, column, given.first)))


if __name__ == "__main__":
    main()
