"""How long the stack machine takes, by the codes of the crate `bench_parts`.

    python3 bench/machine.py            times, in nanoseconds an event
    python3 bench/machine.py --count    instructions of the processor, counted by valgrind

See README.md beside this file.
"""

from __future__ import annotations

import argparse
import pathlib
import re
import subprocess
import sys
import tempfile

HERE = pathlib.Path(__file__).resolve().parent
sys.path.insert(0, str(HERE))
sys.dont_write_bytecode = True
from calls import Words, instructions  # noqa: E402
from whole import build  # noqa: E402

CRATE = HERE.parent / "crates/bench_parts"
BENCH: Words = [CRATE / "out/bench_parts", "machine"]


def lines(*words: str) -> dict[str, int]:
    """What the bench prints for these words: a name and the first number behind it for each line."""
    text = subprocess.run([*BENCH, *words], capture_output=True, check=True, text=True).stdout
    return {name: int(n) for name, n in re.findall(r"^(\w+): (\d+)", text, re.M)}


def show_counts(steps: dict[str, int]) -> None:
    """Prints the instructions of an event and of a step of each code."""
    with tempfile.TemporaryDirectory() as name:
        folder = pathlib.Path(name)
        idle = instructions([*BENCH, "none"], folder)
        for code, count in steps.items():
            event = (instructions([*BENCH, code], folder) - idle) / lines(code)[code]
            print(f"{code}: {event:.0f} an event, {event / count:.1f} a step", flush=True)


def show_times(steps: dict[str, int]) -> None:
    """Prints the time of an event and of a step of each code, the least of three runs."""
    rounds = [lines("time") for _ in range(3)]
    for code, count in steps.items():
        event = min(times[code] for times in rounds) / 1000
        print(f"{code}: {event:.1f} ns an event, {event / count:.2f} ns a step", flush=True)


def main() -> None:
    """The command."""
    parser = argparse.ArgumentParser(description=__doc__, formatter_class=argparse.RawDescriptionHelpFormatter)
    parser.add_argument("--count", action="store_true", help="count instructions in place of times")
    given = parser.parse_args()
    build(CRATE)
    if given.count:
        show_counts(lines())
    else:
        show_times(lines())


if __name__ == "__main__":
    main()
