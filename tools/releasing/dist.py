"""Puts the program that the gate has made into dist/, with the record of its proof.

`./test all` keeps such a record beside the program once `rt ci` has passed, whatever comes of the rest. Nothing else is
taken: not a program that ./feast has built, and not one of other sources than lie here now.
"""
from __future__ import annotations

import argparse
import os
import shutil
import sys
from pathlib import Path

from feast_lab.proved.found import BUILT, DIST
from feast_lab.proved.record import GATE, Record
from feast_lab.proved.sources import SourcesError, digest

TOP = Path(__file__).resolve().parent.parent.parent


class DistError(Exception):
    """Why dist/ can't be made, or isn't what it has to be, as a reader is told."""


def made(top: Path) -> Record:
    """The record of the program that the gate has made of the sources that lie there. DistError if there is none."""
    wants = "`./test all` makes one (its first part, `rt ci`, has to pass)"
    fault = BUILT.fault(top, digest(top))
    record = Record.read(top / BUILT.record)
    if fault or record is None:
        raise DistError(f"there is no program of the gate to take: {fault}; {wants}")
    if record.by != GATE:
        raise DistError(f"{BUILT.program} was proved by {record.by}, and not by the gate; {wants}")
    return record


def check(top: Path) -> None:
    """DistError if dist/ hasn't the very program and record that the gate has made."""
    record = made(top)
    told, there = DIST.fault(top, record.sources), Record.read(top / DIST.record)
    if not told and (top / DIST.program).read_bytes() != (top / BUILT.program).read_bytes():
        told = f"{DIST.program} is not the program that the gate has made of these sources"
    if not told and there and there.kit != record.kit:
        told = f"{DIST.record} names the kit {there.kit}, and the gate had {record.kit}"
    if not told and (top / DIST.record).read_text() != record.text():
        told = f"{DIST.record} is not the gate's"
    if told:
        raise DistError(f"{told}; `tools/dist` puts the gate's program there")


def write(top: Path) -> Record:
    """Puts the program into its place, and then its record, each whole. DistError if the gate has made none."""
    record, place = made(top), top / DIST.program
    place.parent.mkdir(exist_ok=True)
    beside = place.with_name(f".{place.name}.{os.getpid()}")
    try:
        shutil.copyfile(top / BUILT.program, beside)
        beside.chmod(0o755)
        os.replace(beside, place)
    finally:
        beside.unlink(missing_ok=True)
    record.write(top / DIST.record)
    return record


def main(words: list[str], top: Path = TOP) -> int:
    """The command: status 0 if dist/ has what the gate has made, 1 with the reason if not."""
    parser = argparse.ArgumentParser(prog="tools/dist", description=__doc__, formatter_class=argparse.RawDescriptionHelpFormatter)
    parser.add_argument("--check", action="store_true", help="changes nothing, and says whether dist/ is so")
    given = parser.parse_args(words)
    try:
        if given.check:
            check(top)
            print("dist/ has the program that the gate has made of these sources")
        else:
            record = write(top)
            print(f"{DIST.program}: proved with {record.kit}; {DIST.record} says of which sources")
    except (DistError, SourcesError, OSError) as fault:
        print(f"dist: {fault}", file=sys.stderr)
        return 1
    return 0
