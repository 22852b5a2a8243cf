"""A small job of each form of words: its inputs, and what it is to write."""
from __future__ import annotations

import pathlib
from dataclasses import dataclass
from typing import Iterator, Optional

from bench import DONE, Bench
from feast_lab.lab.base.limits import CODE_LIMIT, ELEMENT_LIMIT, JOURNAL_LIMIT, WORLD_LIMIT

# How many bytes an input may have that is no element file: worlds, reports and code files have one limit.
MOST = WORLD_LIMIT

WALKER = b"element Walker { EventWindow ew; Void behave() { ew.swap(0, 4); } }"
ZEROS = b"0" * 16
STATE = b"0" * 18

ONE_TILE = b"feast 1\ntiles 1 1\nsize 8 8\ntry 0 3 4 " + ZEROS + b"\natom 3 4 Walker\n"
TWO_TILES = b"feast 1\ntiles 2 1\nsize 16 16\ntry 0 15 4 " + ZEROS + b"\ntry 0 3 3 " + ZEROS + b"\natom 15 4 Walker\n"
ONE_REPORT = b"feast 1\natoms 1\n4 4 Walker " + STATE + b"\njournal 1\n1 0 0 3 4 " + ZEROS + b"\nabandoned 0\n"
TWO_REPORT = (
    b"feast 1\natoms 1\n16 4 Walker " + STATE + b"\njournal 2\n1 0 0 15 4 " + ZEROS + b"\n2 0 1 3 3 " + ZEROS
    + b"\nabandoned 0\n"
)
LAYOUT = b"element Walker 1 0\n"
CODE = b"element Walker 1 4\nfunction 0 behave 0 0\n0 PushNum 0\n1 PushNum 4\n2 Swap\n3 ReturnVoid\n"
PACKED = bytes.fromhex(
    "4645415354430100" "0001" "00000006" + b"Walker".hex() + "00000001" "00000006" + b"behave".hex()
    + "00" "00000000" "000000" "00000004" + "00" * 10 + "00" * 9 + "04" "0c" "30"
)


@dataclass(frozen=True)
class File:
    """An input: its name, its bytes, and the most bytes that it may have."""

    name: str
    text: bytes
    most: int


def world(text: bytes) -> File:
    """The world of a job."""
    return File("w", text, WORLD_LIMIT)


def report(text: bytes) -> File:
    """The report of a job."""
    return File("j", text, JOURNAL_LIMIT)


def code(text: bytes) -> File:
    """The code file of a job."""
    return File("c", text, CODE_LIMIT)


def element(text: bytes) -> File:
    """The element file of a job."""
    return File("e", text, ELEMENT_LIMIT)


@dataclass
class Job:
    """A form's name, its words, its inputs in the order in which they are loaded, and what it is to write
    (None until its first call: whatever that writes without a fault, which is the same each time)."""

    name: str
    words: list[str]
    files: list[File]
    due: Optional[bytes]

    @property
    def out(self) -> bytes:
        """What it writes, once that is known."""
        if self.due is None:
            raise ValueError(f"{self.name}: what it writes is known from its first call on")
        return self.due


JOBS = [
    Job("check", ["check", "e"], [element(WALKER)], LAYOUT),
    Job("code", ["code", "e"], [element(WALKER)], CODE),
    Job("pack", ["pack", "e"], [element(WALKER)], PACKED),
    Job("run", ["run", "w", "e"], [world(ONE_TILE), element(WALKER)], ONE_REPORT),
    Job("run of two tiles", ["run", "w", "e"], [world(TWO_TILES), element(WALKER)], TWO_REPORT),
    Job("step", ["step", "w", "e"], [world(TWO_TILES), element(WALKER)], TWO_REPORT),
    Job("runpack", ["runpack", "w", "c"], [world(TWO_TILES), code(PACKED)], TWO_REPORT),
    Job("steppack", ["steppack", "w", "c"], [world(TWO_TILES), code(PACKED)], TWO_REPORT),
    Job(
        "replay", ["replay", "w", "j", "e"], [world(TWO_TILES), element(WALKER), report(TWO_REPORT)],
        b"feast 1\natoms 1\n16 4 Walker " + STATE + b"\n",
    ),
    Job("audit", ["audit", "w", "j", "e"], [world(TWO_TILES), element(WALKER), report(TWO_REPORT)], b"yes\n"),
    Job(
        "rewind", ["rewind", "w", "j", "0", "e"], [world(TWO_TILES), element(WALKER), report(TWO_REPORT)],
        b"feast 1\natoms 1\n15 4 Walker " + STATE + b"\n",
    ),
    Job("gen", ["gen", "5"], [], None),
]


def jobs_of(bench: Bench) -> Iterator[Job]:
    """The jobs, their inputs made, and each with what it writes."""
    for job in JOBS:
        lay(bench, job)
        answer = bench.call(job.words)
        if job.due is None:
            job.due = answer.out
        if bench.expect(f"{job.name}: as it is", answer, DONE, job.due):
            yield job


def clear(path: pathlib.Path) -> None:
    """Takes away what lies at a path."""
    if path.is_dir() and not path.is_symlink():
        path.rmdir()
    elif path.is_symlink() or path.exists():
        path.unlink()


def lay(bench: Bench, job: Job) -> None:
    """Makes the inputs of a job."""
    for file in job.files:
        path = bench.at(file.name)
        clear(path)
        path.write_bytes(file.text)
