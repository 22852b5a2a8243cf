"""Hostile texts: worlds, reports and code files of the greatest length and of hostile lines.

Short ones are answered as `reading.py` and `reading_reports.py` read them. Of long ones also the time and the
memory are measured: time goes with the length, and memory stays below a multiple of it.
"""
from __future__ import annotations

import sys

from bench import BAD_JOURNAL, BAD_WORLD, DONE, Bench, main_of
from jobs import MOST, WALKER
from reading import read_world, refusal, world_fault
from reading_reports import report_fault
from text_lines import HEAD, TRY, hard_reports, hard_worlds
from text_long import (
    MILLION, full_plane, long_codes, long_reports, long_worlds, most_attempts, rates, too_long,
)
from text_puts import long_puts

NAMES = [b"Walker"]


def short_worlds(bench: Bench) -> int:
    """Hostile worlds, answered as they are read by the rules."""
    tried = 0
    for text in hard_worlds(MILLION if bench.long else 100_000):
        fault = world_fault(text, NAMES)
        bench.write("w", text)
        answer = bench.call(["step", "w", "e"])
        name = f"the world {text[:60]!r} .. {text[-20:]!r} of {len(text)} bytes"
        if fault is None:
            bench.expect(name, answer, DONE, None)
        else:
            bench.expect(name, answer, BAD_WORLD, refusal("w", fault))
        tried += 1
    return tried


def short_reports(bench: Bench) -> int:
    """Hostile reports, answered as they are read by the rules."""
    text = HEAD + TRY * 3
    bench.write("w", text)
    world = read_world(text, NAMES)
    tried = 0
    for report in hard_reports(MILLION if bench.long else 100_000):
        fault = report_fault(report, world)
        bench.write("j", report)
        answer = bench.call(["replay", "w", "j", "e"])
        name = f"the report {report[:80]!r} of {len(report)} bytes"
        if fault is None:
            bench.expect(name, answer, DONE, b"feast 1\natoms 0\n")
        else:
            bench.expect(name, answer, BAD_JOURNAL, refusal("j", fault))
        tried += 1
    return tried


# what long worlds are full of whose times are compared
FULL_OF = {
    "empty lines": b"\n",
    "comments": b"# x\n",
    "orders": b"order 0 0 0 0 0 0\n",
    "atoms": b"atom 0 0 Walker\n",
}


def texts(bench: Bench) -> None:
    """The table."""
    bench.write("e", WALKER)
    bench.note(f"{short_worlds(bench)} short worlds, {short_reports(bench)} short reports")
    most_attempts(bench)
    for name, piece in FULL_OF.items():
        rates(bench, name, piece)
    full_plane(bench)
    total = MOST if bench.long else 16 * MILLION
    long_worlds(bench, total)
    long_reports(bench, total)
    long_codes(bench, total)
    if bench.long:
        too_long(bench)
        long_puts(bench)


if __name__ == "__main__":
    sys.exit(main_of(texts))
