#!/usr/bin/env python3
"""What the lab takes, in processor time of all its processes: python3 bench/lab_times.py [--rounds N] [WORD..].

    chain      two legs of Wa-Tor, alone and with their failed events; on four tiles alone and with drift
    failures   the failed events of a report of 20,000 events of Wa-Tor
    recheck    the second reader: the stepped report of Wa-Tor on four tiles, made and judged
    task       a run of a sweep as a task of its own, beside `step` alone

Each figure is the least of some rounds. The program is the one that `./lab` calls.
"""
from __future__ import annotations

import argparse
import os
import resource
import subprocess
import sys
import tempfile
from collections.abc import Callable, Iterator
from pathlib import Path

TOP = Path(__file__).resolve().parent.parent
EXAMPLES = TOP / "examples"
Words = list[str]
Row = tuple[str, float]


def children() -> float:
    """The processor seconds of all processes that were begun here and have ended."""
    used = resource.getrusage(resource.RUSAGE_CHILDREN)
    return used.ru_utime + used.ru_stime


def seconds(words: Words, folder: Path) -> float:
    """The processor seconds of a call, which has to end well."""
    before = children()
    with (folder / "out").open("wb") as out:
        subprocess.run(words, cwd=folder, stdout=out, stderr=subprocess.DEVNULL, check=True)
    return children() - before


def example(name: str, files: str) -> Words:
    """The world of an example and its file of elements."""
    return [str(EXAMPLES / f"{name}.world"), str(EXAMPLES / f"{files}.ulam")]


def lab(*words: str) -> Words:
    """A call of the lab."""
    return [str(TOP / "lab"), *words]


def chain(folder: Path) -> Iterator[Row]:
    """A chain alone, and with the columns for which its events are made or read again."""
    for name, option in (("wator", ""), ("wator", "--failures"), ("wator-tiles", ""), ("wator-tiles", "--drift")):
        words = lab("chain", f"{name}{option}", "--legs", "2", *option.split(), *example(name, "wator"))
        yield f"./lab chain, two legs of 400,000 attempts, {name}, {option or 'alone'}", seconds(words, folder)


def failures(folder: Path) -> Iterator[Row]:
    """The search for failed events in a report, with a check of each window."""
    world, elements = example("wator", "wator")
    (folder / "world").write_text(Path(world).read_text().replace("attempts 400000\n", "attempts 20000\n"))
    seconds([str(TOP / "feast"), "run", "world", elements], folder)
    (folder / "out").rename(folder / "report")
    yield "./lab failures, 20,000 events of wator", seconds(lab("failures", "world", "report", elements), folder)


def recheck(folder: Path) -> Iterator[Row]:
    """The second reader in Python, and as the lab calls it, by PyPy where it is there; and the program's own step."""
    files = example("wator-tiles", "wator")
    for name, words in (("python3 tools/recheck", ["python3", str(TOP / "tools" / "recheck")]), ("./lab recheck", lab("recheck"))):
        yield f"{name} --step, wator-tiles", seconds([*words, "--step", *files], folder)
        (folder / "out").rename(folder / "report")
        yield f"{name}, wator-tiles", seconds([*words, files[0], "report", files[1]], folder)
    yield "./feast step, wator-tiles", seconds([str(TOP / "feast"), "step", *files], folder)


def task(folder: Path) -> Iterator[Row]:
    """A run of a sweep."""
    files = example("regulator", "regulator")
    seconds(lab("sweep", "--plan", "sweep", "--step", "--set", "Regulator.regulator_birth=20,40", *files), folder)
    yield "./lab sweep --task", seconds(lab("sweep", "--task", "sweep", "1"), folder)
    yield "./feast step of the same world", seconds([str(TOP / "feast"), "step", *files], folder)


PARTS: dict[str, Callable[[Path], Iterator[Row]]] = {"chain": chain, "failures": failures, "recheck": recheck, "task": task}


def measured(part: Callable[[Path], Iterator[Row]], rounds: int) -> dict[str, float]:
    """The least figures of a part."""
    least: dict[str, float] = {}
    for _ in range(rounds):
        with tempfile.TemporaryDirectory() as name:
            for what, took in part(Path(name)):
                least[what] = min(took, least.get(what, took))
    return least


def main() -> int:
    """The command."""
    parser = argparse.ArgumentParser(description=__doc__, formatter_class=argparse.RawDescriptionHelpFormatter)
    parser.add_argument("parts", nargs="*", metavar="WORD", help=", ".join(PARTS))
    parser.add_argument("--rounds", type=int, default=3, metavar="N")
    words = parser.parse_args()
    unknown = [it for it in words.parts if it not in PARTS]
    if unknown:
        parser.error(f"{unknown[0]}: the words are {', '.join(PARTS)}")
    os.environ["PYTHONDONTWRITEBYTECODE"] = "1"
    for part in words.parts or PARTS:
        for what, took in measured(PARTS[part], words.rounds).items():
            print(f"{took:8.2f} s  {what}", flush=True)
    return 0


if __name__ == "__main__":
    sys.exit(main())
