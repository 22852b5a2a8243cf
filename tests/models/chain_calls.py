#!/usr/bin/env python3
"""What a call over a chain answers, made of calls over plain worlds: chain_calls.py PROGRAM WORDS..

Each leg is a world of its own, which PROGRAM runs, replays or judges; whatever stands between legs is the model's. So
PROGRAM need take no chains, and one that does can be compared with itself. As a command this stands in for a program
that takes chains, but for want of memory and for speed: every other call is handed on as it is.
"""
import contextlib
import os
import pathlib
import re
import subprocess
import sys
import tempfile
from collections.abc import Iterator
from dataclasses import dataclass
from typing import NoReturn

from chain import Chain
from chain_reports import LegReport, plane_of, read_legs
from chain_text import LONGEST, Fault, Refused, is_chain, name_chain, read_chain
from plane import Plane

TEXTS = {
    71: "bad line", 72: "number out of range", 73: "unknown element", 74: "site is taken", 75: "too many attempts",
    76: "missing line", 80: "bad line", 81: "out of order after line {}", 82: "not a site of the tile",
    83: "not an attempt of the tile", 84: "journal has {} records",
}
BAD_WORLD, BAD_REPORT, SINK = 5, 6, 7
# How a stepped run of a leg is made, and a run of it, on element files and on a code file.
RUNS = {"run", "step", "runpack", "steppack"}


class Halted(Exception):
    """A call ends here, with a status and what it writes."""

    def __init__(self, status: int, text: bytes) -> None:
        super().__init__(status)
        self.status, self.text = status, text


def refusal(name: str, fault: Fault) -> bytes:
    """The line that tells a fault of a file."""
    return f"{name}:{fault.line}:1: E{fault.code} {TEXTS[fault.code].format(fault.number)}\n".encode()


@contextlib.contextmanager
def refused(name: str, status: int) -> Iterator[None]:
    """What is refused of this file ends the call."""
    try:
        yield
    except Refused as found:
        raise Halted(status, refusal(name, found.fault)) from None


@dataclass
class Program:
    """The program, and two files for its worlds and reports."""

    path: str
    world: pathlib.Path
    report: pathlib.Path

    def call(self, *words: str) -> subprocess.CompletedProcess[bytes]:
        """What it answers."""
        return subprocess.run([self.path, *words], stdin=subprocess.DEVNULL, stdout=subprocess.PIPE, check=False)

    def of_leg(self, chain: Chain, leg: int, plane: Plane, form: str, *files: str) -> bytes:
        """What it writes for a leg that begins with a plane; the call ends here if it writes nothing."""
        self.world.write_text(chain.leg_world(leg, plane))
        done = self.call(form, str(self.world), *files)
        if done.returncode:
            raise Halted(done.returncode, b"")
        return done.stdout

    def about(self, chain: Chain, leg: int, plane: Plane, report: LegReport, words: list[str]) -> bytes:
        """What it writes for a leg and its report."""
        self.report.write_bytes(report.text())
        return self.of_leg(chain, leg, plane, words[0], str(self.report), *words[1:])

    def replayed(self, chain: Chain, leg: int, plane: Plane, report: LegReport, words: list[str]) -> Plane:
        """The plane after a leg that begins with this one."""
        return plane_of(chain, self.about(chain, leg, plane, report, words).splitlines()[2:])


def elements_of(program: Program, form: str, files: list[str], names: set[str]) -> set[str]:
    """Those of these names that elements of the files have; the call ends here if a file is refused."""
    words = ["step"] if form not in ("runpack", "steppack") else ["steppack"]
    empty = Chain()
    found = set()
    for name in ["", *sorted(names)]:
        atom = f"atom 0 0 {name}\n" if name else ""
        program.world.write_text(empty.leg_world(1, empty.plane()).replace("order", f"{atom}order"))
        done = program.call(*words, str(program.world), *files)
        if done.returncode and not name:
            raise Halted(done.returncode, done.stdout)
        if done.returncode == 0:
            found.add(name)
    return found


@dataclass
class Chains:
    """A call over a chain: the program, the form, and the words behind the chain."""

    program: Program
    chain: Chain
    form: str
    words: list[str]

    def legs(self) -> Iterator[bytes]:
        """The reports of the legs, one after another, as a run makes them."""
        plane = self.chain.plane()
        events = losses = 0
        for leg in self.chain.numbers:
            self.chain.act(leg, plane)
            text = self.program.of_leg(self.chain, leg, plane, self.form, *self.words)
            (made,) = read_legs(text, leg_alone(self.chain, leg))
            plane = plane_of(self.chain, made.atoms)
            events, losses = events + len(made.events), losses + len(made.losses)
            if self.chain.is_told(leg):
                yield self.told(made, events, losses)
                events = losses = 0

    def told(self, made: LegReport, events: int, losses: int) -> bytes:
        """The report of a leg as the chain has it."""
        if self.chain.journal == "none":
            return made.counts(events, losses)
        return made.short() if self.chain.journal == "short" else made.text()

    def load(self, name: str, files: list[str]) -> list[LegReport]:
        """The reports of the legs; the call ends here if they can't be read."""
        self.program.world.write_text(Chain().leg_world(1, Chain().plane()))
        loaded = self.program.call("replay", str(self.program.world), name, *files)
        if loaded.returncode == 3:
            raise Halted(3, loaded.stdout)
        with refused(name, BAD_REPORT):
            return read_legs(pathlib.Path(name).read_bytes(), self.chain)

    def verdict(self, reports: list[LegReport], files: list[str]) -> bytes:
        """The line of an audit."""
        plane = self.chain.plane()
        for leg, report in zip(self.chain.numbers, reports, strict=True):
            self.chain.act(leg, plane)
            said = self.program.about(self.chain, leg, plane, report, ["audit", *files]).decode().split()
            if said[0] == "no":
                line = [str(int(it) + report.before) for it in said[2:]]
                return " ".join(["no", "leg", str(leg), said[1], *line]).encode() + b"\n"
            plane = self.program.replayed(self.chain, leg, plane, report, ["replay", *files])
        return b"yes\n"

    def replay(self, reports: list[LegReport], files: list[str]) -> bytes:
        """The atoms after the last leg."""
        plane = self.chain.plane()
        for leg, report in zip(self.chain.numbers, reports, strict=True):
            self.chain.act(leg, plane)
            plane = self.program.replayed(self.chain, leg, plane, report, ["replay", *files])
        return f"feast 1\n{plane.text()}".encode()

    def rewind(self, name: str, reports: list[LegReport], count: int, files: list[str]) -> bytes:
        """The atoms after so many events of all legs."""
        every = sum(len(report.events) for report in reports)
        if count > every:
            raise Halted(BAD_REPORT, refusal(name, Fault(84, 1, every)))
        plane = self.chain.plane()
        for leg, report in zip(self.chain.numbers, reports, strict=True):
            if count == 0:
                break
            self.chain.act(leg, plane)
            words = ["rewind", str(min(count, len(report.events))), *files]
            plane = self.program.replayed(self.chain, leg, plane, report, words)
            count -= min(count, len(report.events))
        return f"feast 1\n{plane.text()}".encode()

    def answer(self) -> Iterator[bytes]:
        """What the call writes, in pieces."""
        if self.form in RUNS:
            yield from self.legs()
        elif self.form == "rewind":
            name, count, *files = self.words
            yield self.rewind(name, self.load(name, files), int(count), files)
        else:
            name, *files = self.words
            reports = self.load(name, files)
            yield self.verdict(reports, files) if self.form == "audit" else self.replay(reports, files)


def leg_alone(chain: Chain, leg: int) -> Chain:
    """A leg as a chain of one, whose report is that of a world."""
    return Chain(chain.tiles, chain.size, chain.off, chain.leg_seed(leg), chain.attempts_of(leg))


def loaded_chain(program: Program, words: list[str], text: bytes) -> Chains:
    """The call over the chain that a text is; it ends here if something is refused that comes before the report."""
    form, name, *rest = words
    with refused(name, BAD_WORLD):
        draft = read_chain(text)
    before = {"replay": 1, "audit": 1, "rewind": 2}.get(form, 0)
    files = rest[before:]
    names = {line.name for _, line in [*draft.every, *draft.once, *draft.atoms] if line.name}
    known = elements_of(program, form, files, names)
    with refused(name, BAD_WORLD):
        return Chains(program, name_chain(draft, known), form, rest)


def put(text: bytes) -> None:
    """Writes to standard output; the command ends here if that fails."""
    while text:
        try:
            text = text[os.write(1, text[:4096]):]
        except OSError:
            sys.exit(SINK)


def has_form(words: list[str]) -> bool:
    """Whether words are those of a form with a world, and a number where it has one."""
    if not words or words[0] not in RUNS | {"replay", "audit", "rewind"}:
        return False
    before = {"replay": 3, "audit": 3, "rewind": 4}.get(words[0], 2)
    is_one = words[0] in ("runpack", "steppack")
    is_count = words[0] != "rewind" or len(words) > 3 and re.fullmatch("0|[1-9][0-9]{0,6}", words[3]) and int(words[3]) <= 1_000_000
    return bool(is_count) and 1 <= len(words) - before <= (1 if is_one else 64)


def chain_of(words: list[str]) -> bytes | None:
    """The text of the chain in the words of a call, or None if the call is of none."""
    path = pathlib.Path(words[1]) if has_form(words) else None
    try:
        text = path.read_bytes() if path and path.stat().st_size <= LONGEST else b""
    except OSError:
        return None
    return text if is_chain(text) else None


def main() -> NoReturn:
    """The command."""
    program, *words = sys.argv[1:]
    text = chain_of(words)
    if text is None:
        os.execv(program, [program, *words])
    with tempfile.TemporaryDirectory() as folder:
        inside = Program(program, pathlib.Path(folder) / "world", pathlib.Path(folder) / "report")
        try:
            for piece in loaded_chain(inside, words, text).answer():
                put(piece)
        except Halted as end:
            put(end.text)
            sys.exit(end.status)
    sys.exit(0)


if __name__ == "__main__":
    main()
