#!/usr/bin/env python3
"""Prints what the consumers of the demon horde took in: horde.py REPORT."""
import argparse
import pathlib

STATE_BITS = 71


def field(state: int, first: int, width: int) -> int:
    """The number in some of the bits of a state; bit 0 is the most significant one."""
    return state >> (STATE_BITS - first - width) & (1 << width) - 1


def consumers(text: str) -> list[tuple[int, int, int, int]]:
    """The row of each consumer of a report, the right number for it, and its count and error."""
    rows = [line.split() for line in text[:text.index("journal ")].splitlines()[2:]]
    states = [(int(y), int(state, 16)) for _, y, name, state in rows if name == "Consumer"]
    return [(y, field(state, 0, 7), field(state, 7, 16), field(state, 23, 24)) for y, state in states]


def main() -> None:
    """Prints a line for each consumer, and one for all."""
    parser = argparse.ArgumentParser(description="Prints what the consumers of the demon horde took in.")
    parser.add_argument("report", type=pathlib.Path)
    found = consumers(parser.parse_args().report.read_text())
    for row, right, count, error in found:
        print(f"row {row}, right {right}: {count} numbers, mean error {error / max(count, 1):.1f}")
    count, error = sum(it[2] for it in found), sum(it[3] for it in found)
    print(f"all: {count} numbers, mean error {error / max(count, 1):.1f}")


if __name__ == "__main__":
    main()
