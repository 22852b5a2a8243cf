"""Cases: what a seed makes, asked of the program and of the second reader side by side."""
from __future__ import annotations

import contextlib
import functools
import os
import re
import tempfile
from pathlib import Path
from typing import Optional, Union

from breaks import broken_element, broken_lines
from chain_texts import chain_text
from chance import Chance
from drawn_classes import element_files
from edges import edge_text
from feast_lab.recheck.limits import MOST_ATTEMPTS
from feast_lab.recheck.main import answer
from planes import world_of
from program import call

# So many attempts of each tile are made of a world at most.
MOST_MADE = 2000
# How many cases `./test` tries, and how many `./test long`.
QUICK, LONG = 1000, 100_000


class Differs(Exception):
    """The program and the second reader answer a call in two ways."""


Answer = tuple[int, bytes]


@functools.cache
def takes_chains(program: Path) -> bool:
    """Whether the program takes chains; until it does, none are drawn."""
    with tempfile.TemporaryDirectory() as folder:
        put(f"{folder}/c", "chain 1\ntiles 1 1\nsize 8 8\nseed 1\nattempts 0\nlegs 1\n")
        put(f"{folder}/e", "element E1 { Void behave() { } }\n")
        return call(program, ["step", f"{folder}/c", f"{folder}/e"]).returncode == 0


class Case:
    """A case in a folder of its own, which is the current one."""

    def __init__(self, program: Path, seed: int) -> None:
        self.program = program
        self.chance = Chance(seed)
        self.draw_elements()

    def draw_elements(self) -> None:
        """Element files, and the names of their elements."""
        texts, self.names = element_files(self.chance)
        self.files = [f"e{number}" for number in range(len(texts))]
        for name, text in zip(self.files, texts):
            put(name, text)

    def asked(self, *words: str) -> Answer:
        """What the program answers to a call, which is what the second reader answers. Differs if it isn't."""
        done = call(self.program, words)
        found = answer([os.fsencode(word) for word in words])
        if found != (done.returncode, done.stdout):
            raise Differs(f"{' '.join(words)}: {difference((done.returncode, done.stdout), found)}")
        return found

    def trial(self) -> None:
        """Asks all of the case."""
        drawn = self.chance.below(100)
        if drawn < 8 and takes_chains(self.program):
            self.chains()
        elif drawn < 42:
            self.whole()
        elif drawn < 55:
            self.broken_elements()
        elif drawn < 67:
            self.slipped_elements()
        elif drawn < 75:
            self.edges()
        elif drawn < 84:
            self.broken_world()
        elif drawn < 96:
            self.broken_report()
        else:
            self.threads()

    def world(self, tiles: int) -> None:
        """A world file."""
        put("w", world_of(self.chance, self.names or ["E1"], tiles).text())

    def whole(self) -> None:
        """A stepped run of several tiles, or a run on one, and then what is made or said of its report."""
        tiles = self.chance.one_of([1, 1, 1, 2, 4, 6, 9, 16])
        self.world(tiles)
        is_one = Path("w").read_text().split("\n")[1] == "tiles 1 1"
        status, report = self.asked("run" if is_one and self.chance.happens(0.5) else "step", "w", *self.files)
        if self.chance.happens(0.2):
            self.asked("check", *self.files)
        if status == 0 and self.chance.happens(0.3):
            put("r", report)
            self.after(report)

    def after(self, report: bytes) -> None:
        """What is made or said of a report."""
        drawn = self.chance.below(3)
        counts = [int(said) for said in re.findall(rb"^journal ([0-9]{1,6})$", report, re.M)] or [1]
        if drawn == 0:
            self.asked("replay", "w", "r", *self.files)
        elif drawn == 1:
            self.asked("audit", "w", "r", *self.files)
        else:
            count = sum(counts)
            first = self.chance.one_of([0, 1, counts[0], counts[0] + 1, count, count + 1, self.chance.between(0, count + 1)])
            self.asked("rewind", "w", "r", str(first), *self.files)

    def broken_elements(self) -> None:
        """Element files with something broken."""
        texts = {name: Path(name).read_text() for name in self.files}
        for _ in range(2):
            name = self.chance.one_of(self.files)
            Path(name).write_bytes(broken_element(self.chance, texts[name]).encode("latin-1"))
            self.asked("check", *self.files)

    def slipped_elements(self) -> None:
        """Element files that break a rule of names or types in one place, if they have so many places."""
        for _ in range(3):
            self.chance.slip = self.chance.one_of([10, 30, 100, 300])
            self.chance.slip = self.chance.between(1, self.chance.slip)
            self.draw_elements()
            self.asked("check", *self.files)

    def edges(self) -> None:
        """Element files near the limits, and a few events of those that are no refusal."""
        self.files, self.names = ["e0"], ["E1"]
        for _ in range(5):
            put("e0", edge_text(self.chance))
            if self.asked("check", "e0")[0] == 0:
                put("w", "feast 1\ntiles 1 1\nsize 8 8\nseed 5\nattempts 90\n" + "".join(f"atom {x} 3 E1\n" for x in range(8)))
                self.asked("run", "w", "e0")

    def broken_world(self) -> None:
        """A world with something broken."""
        self.world(self.chance.one_of([1, 2, 4, 6]))
        text = Path("w").read_text()
        for _ in range(4):
            put("w", broken_lines(self.chance, text))
            if not is_long(Path("w").read_text()):
                self.asked("step", "w", *self.files)

    def broken_report(self) -> None:
        """A report with something broken."""
        self.world(self.chance.one_of([1, 2, 4, 4, 9, 9]))
        status, report = self.asked("step", "w", *self.files)
        for _ in range(4 if status == 0 else 0):
            broken = broken_lines(self.chance, report.decode())
            put("r", broken)
            self.after(broken.encode()) if self.chance.happens(0.2) else self.asked("audit", "w", "r", *self.files)

    def chains(self) -> None:
        """A chain, or one with something broken, and what is made or said of its reports."""
        tiles = self.chance.one_of([1, 1, 2, 4, 6])
        text = chain_text(self.chance, self.names or ["E1"], tiles)
        asked = broken_lines(self.chance, text) if self.chance.happens(0.3) else text
        put("w", asked)
        is_one = "\ntiles 1 1\n" in asked  # (what is broken may be the number of tiles)
        status, report = self.asked("run" if is_one and self.chance.happens(0.5) else "step", "w", *self.files)
        for _ in range(2 if status == 0 else 0):
            shown = broken_lines(self.chance, report.decode()).encode() if self.chance.happens(0.5) else report
            put("r", shown)
            self.after(shown)

    def threads(self) -> None:
        """A run with a thread for each of 2 to 64 tiles, judged by both."""
        self.world(self.chance.one_of([2, 4, 8, 16, 32, 64]))
        done = call(self.program, ["run", "w", *self.files])
        put("r", done.stdout)
        if done.returncode == 0 and self.asked("audit", "w", "r", *self.files) != (0, b"yes\n"):
            raise Differs("run w: the report is not one of its world")


def is_long(world: str) -> bool:
    """Whether a world may have so many attempts that the second reader takes long for it."""
    said = re.search(r"^attempts ([0-9]+)$", world, re.M)
    return said is not None and MOST_MADE < int(said[1]) <= (MOST_ATTEMPTS if "\ntiles 1 1\n" in world else MOST_ATTEMPTS // 2)


def put(name: str, text: Union[str, bytes]) -> None:
    """Writes a file."""
    Path(name).write_bytes(text if isinstance(text, bytes) else text.encode())


def difference(wanted: Answer, found: Answer) -> str:
    """Where two answers differ first, to be read."""
    if wanted[0] != found[0]:
        return f"the program ends with {wanted[0]}, {wanted[1][:100]!r}, the second reader with {found[0]}, {found[1][:100]!r}"
    pairs = list(zip(wanted[1].split(b"\n"), found[1].split(b"\n")))
    number = next((number for number, (one, other) in enumerate(pairs) if one != other), len(pairs) - 1)
    return f"line {number + 1}: {pairs[number][0]!r} of the program, {pairs[number][1]!r} of the second reader"


def case_fault(program: Path, seed: int, folder: Path) -> Optional[str]:
    """How the two answers of a case differ, if they do. The folder has what they were asked about afterwards."""
    folder.mkdir(parents=True, exist_ok=True)
    with contextlib.chdir(folder):
        try:
            Case(program, seed).trial()
        except Differs as differs:
            return str(differs)
        except Exception as fault:  # an error in either is told with its seed too
            return f"{type(fault).__name__}: {fault}"
    return None
