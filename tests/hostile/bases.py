"""Hostile bases: texts of a mebibyte with classes or members by the thousand, and with heirs of heirs, each checked
within two seconds of processor time and 300 MB; and small files of few names that meet in many ways. What is to be
said of each comes from a model (base_model.py).
"""
from __future__ import annotations

import random
import resource
import sys
from collections import Counter

from base_draws import drawn
from base_model import accepted, first_fault
from base_rows import ROWS, Row
from base_texts import Class, text_of
from bench import BAD_ELEMENT, DONE, Answer, Bench, Limits, main_of

MOST_SECONDS = 2.0
MOST_BYTES = 300_000_000

# What a call is given at most, so that a program without bounds harms no machine: seconds of processor time, and an
# address space.
GIVEN_SECONDS = 5
GIVEN_BYTES = 1_500_000_000


def limited() -> None:
    """Limits the processor time of the process."""
    resource.setrlimit(resource.RLIMIT_CPU, (GIVEN_SECONDS, GIVEN_SECONDS))


GIVEN = Limits(space=GIVEN_BYTES, then=limited)


def told(bench: Bench, name: str, classes: list[Class], text: bytes) -> tuple[int, Answer]:
    """Checks a text, which is to be answered as the model says: its code, or 0, and the answer."""
    fault = first_fault(classes)
    bench.write("e", text)
    answer = bench.call(["check", "e"], GIVEN)
    due = fault.line(b"e") if fault else accepted(classes)
    bench.expect(name, answer, BAD_ELEMENT if fault else DONE, due)
    return fault.code if fault else 0, answer


def in_memory(bench: Bench, name: str, answer: Answer) -> None:
    """Counts whether a call took no more memory than it may."""
    bench.say(answer.memory <= MOST_BYTES, f"{name}: memory", f"{answer.memory >> 20} MiB")


def tried(bench: Bench, row: Row, size: int) -> Answer:
    """Checks the text of a row: what is said of it, and in how much memory."""
    name, classes = row.name(size), row.classes(size)
    code, answer = told(bench, name, classes, text_of(classes))
    bench.say(code == row.code, f"{name}: the model", f"{code}, not {row.code}")
    in_memory(bench, name, answer)
    return answer


def bounded(bench: Bench, rows: list[Row]) -> None:
    """Each kind at its whole size: what is said of it, and in how much memory and time."""
    answers = {row.name(row.size): tried(bench, row, row.size) for row in rows}
    for name, answer in answers.items():
        bench.say(answer.seconds <= MOST_SECONDS, f"{name}: time", f"{answer.seconds:.2f} s")
    slowest = max(answers, key=lambda name: answers[name].seconds)
    largest = max(answers, key=lambda name: answers[name].memory)
    bench.note(f"{len(answers)} texts of a mebibyte")
    bench.note(f"most time: {answers[slowest].seconds:.2f} s, {slowest}")
    bench.note(f"most memory: {answers[largest].memory >> 20} MiB, {largest}")


def few(bench: Bench) -> None:
    """Files of few classes and few names."""
    draw = random.Random(37)
    codes: Counter[int] = Counter()
    for number in range(5_000 if bench.long else 300):
        classes = drawn(draw)
        code, _ = told(bench, f"file {number} of few classes", classes, text_of(classes).rstrip(b" "))
        codes[code] += 1
    bench.note("few classes: " + ", ".join(f"{codes[code]} with {code or 'no fault'}" for code in sorted(codes)))


def bases(bench: Bench) -> None:
    """The table."""
    few(bench)
    bounded(bench, [row for row in ROWS if bench.long or not row.long])


if __name__ == "__main__":
    sys.exit(main_of(bases))
