#!/usr/bin/env python3
"""Compares the program's chains with those of the model, which makes each leg as a world of its own: chains.py PROGRAM [NAME..].

What is compared, byte for byte: what `step`, `steppack` and, on one tile, `run` and `runpack` write; what `audit`,
`replay` and `rewind` say of these reports, of reports that are cut or changed, and of those that threads made; the
reports of two parts of a chain and of the whole; and how chain files that are cut are refused.
"""
import argparse
import pathlib
import sys
import tempfile
import unittest
from collections.abc import Callable, Iterator
from contextlib import contextmanager
from dataclasses import dataclass, replace
from functools import partial

sys.dont_write_bytecode = True
sys.path[1:1] = [str(pathlib.Path(__file__).resolve().parent), str(pathlib.Path(__file__).resolve().parent.parent)]
from chain import Chain  # noqa: E402
from chain_calls import BAD_WORLD, Chains, Halted, Program, refusal  # noqa: E402
from chain_cases import ELEMENTS, FOUR_TILES, NAMES, ONE_TILE, WRITTEN, drawn, kinds  # noqa: E402
from chain_reports import plane_of, read_legs  # noqa: E402
from chain_text import Fault, Refused, is_chain, name_chain, read_chain  # noqa: E402
from checks import Check, tried  # noqa: E402
from program import call  # noqa: E402

# The program that makes the legs as worlds of their own, if another than the one that is compared.
PLAIN: list[str] = []
# How many chains are drawn.
DRAWN = 60
# What is changed in each line of a report: a field is another one, or a digit, or the line is twice there, or lost.
CHANGES: dict[str, Callable[[bytes], bytes]] = {
    "a last digit": lambda line: line[:-1] + (b"1" if line[-1:] != b"1" else b"2"),
    "a first field": lambda line: b"9" + line,
    "a field more": lambda line: line + b" 0",
    "twice": lambda line: line + b"\n" + line,
    "lost": lambda line: b"",
}
Answer = tuple[int, bytes]


@dataclass
class Bench:
    """A folder with the elements, the program, and the program as the model uses it."""

    program: pathlib.Path
    folder: pathlib.Path
    inside: Program

    def path(self, name: str) -> str:
        """The path of a file."""
        return str(self.folder / name)

    def made(self, form: str, text: bytes, *words: str) -> Answer:
        """What the program answers for a chain file, with these words behind it."""
        (self.folder / "chain").write_bytes(text)
        done = call(self.program, [form, "chain", *words], self.folder)
        return done.returncode, done.stdout

    def due(self, form: str, chain: Chain, *words: str) -> Answer:
        """What the model answers."""
        named = [self.path(word) if (self.folder / word).exists() else word for word in words]
        try:
            return 0, b"".join(Chains(self.inside, chain, form, named).answer())
        except Halted as end:
            return end.status, end.text.replace(f"{self.folder}/".encode(), b"")

    def fault(self, form: str, chain: Chain, *words: str) -> str | None:
        """In what the two differ, if they do."""
        return difference(self.made(form, chain.text().encode(), *words), self.due(form, chain, *words))


def difference(found: Answer, due: Answer) -> str | None:
    """How an answer is another than the one that is due."""
    if found == due:
        return None
    at = next((i for i, (a, b) in enumerate(zip(found[1], due[1])) if a != b), min(len(found[1]), len(due[1])))
    return f"status {found[0]}, not {due[0]}; from byte {at} on {found[1][at:at + 60]!r}, not {due[1][at:at + 60]!r}"


@contextmanager
def bench_of(program: pathlib.Path) -> Iterator[Bench]:
    """The bench of a program."""
    with tempfile.TemporaryDirectory() as name:
        folder = pathlib.Path(name)
        (folder / "elements").write_text(ELEMENTS)
        packed = call(program, ["pack", "elements"], folder)
        (folder / "code").write_bytes(packed.stdout)
        yield Bench(program, folder, Program((PLAIN or [str(program)])[0], folder / "leg", folder / "leg.report"))


def said(*faults: str | None) -> str | None:
    """What is wrong, of several things."""
    found = [fault for fault in faults if fault]
    return "; ".join(found[:3]) or None


def leg_faults(program: pathlib.Path, chain: Chain) -> str | None:
    """The reports of a chain, with each kind of reports."""
    forms = [("step", "elements"), ("steppack", "code")]
    forms += [("run", "elements"), ("runpack", "code")] if chain.count == 1 else []
    with bench_of(program) as bench:
        return said(*(bench.fault(form, kind, file) for kind in kinds(chain) for form, file in forms))


def judging_faults(bench: Bench, chain: Chain, report: bytes) -> Iterator[str | None]:
    """What is said of a report: its verdict, the atoms after it, and those after each number of events, and one more."""
    (bench.folder / "report").write_bytes(report)
    yield bench.fault("audit", chain, "report", "elements")
    yield bench.fault("replay", chain, "report", "elements")
    events = 0 if chain.journal == "none" else sum(len(leg.events) for leg in read_legs(report, chain))
    for count in sorted({*range(0, events + 2, max(1, events // 12)), events, events + 1}):
        yield bench.fault("rewind", chain, "report", str(count), "elements")


def report_faults(program: pathlib.Path, chain: Chain) -> str | None:
    """What is said of the reports of a chain."""
    with bench_of(program) as bench:
        found = []
        for kind in kinds(chain):
            status, report = bench.due("step", kind, "elements")
            found += [None if status == 0 else "no report", *judging_faults(bench, kind, report)]
        return said(*found)


def thread_faults(program: pathlib.Path, chain: Chain) -> str | None:
    """The report of threads: each leg's is one of its world, and the program and the model say the same of it."""
    with bench_of(program) as bench:
        for kind in (chain, replace(chain, journal="short")):
            status, report = bench.made("run", kind.text().encode(), "elements")
            if status:
                return f"status {status}"
            wrong = said(*judging_faults(bench, kind, report))
            if wrong or bench.due("audit", kind, "report", "elements")[1] != b"yes\n":
                return wrong or f"the report of threads ({kind.journal}) is none of the chain"
        counts = replace(chain, journal="none", period=chain.legs)
        status, report = bench.made("run", counts.text().encode(), "elements")
        entries = sum(int(line.split()[1]) for line in report.splitlines() if line.startswith((b"journal ", b"abandoned ")))
        due = sum(chain.attempts_of(leg) for leg in chain.numbers) * (chain.count - len(chain.off))
        return None if (status, entries) == (0, due) else f"status {status}, {entries} entries, not {due}"


def part_faults(program: pathlib.Path, chain: Chain) -> str | None:
    """Reports of the two parts of a chain are together that of the whole, wherever it is cut."""
    with bench_of(program) as bench:
        for kind in (chain, replace(chain, journal="short"), replace(chain, journal="none")):
            whole = bench.made("step", kind.text().encode(), "elements")
            for leg in kind.numbers[:-1]:
                front = kind.front(leg)
                made = bench.made("step", front.text().encode(), "elements")
                last = made[1][made[1].rindex(b"\natoms ") :].split(b"\n")[2:]
                left = plane_of(kind, last[: last.index(next(line for line in last if line.startswith(b"journal ")))])
                rest = bench.made("step", kind.back(leg, left).text().encode(), "elements")
                wrong = difference((made[0] or rest[0], made[1] + rest[1]), whole)
                if wrong:
                    return f"cut behind leg {leg} ({kind.journal}): {wrong}"
    return None


def text_due(bench: Bench, text: bytes) -> Answer:
    """What is due for a text that may be a chain."""
    if not is_chain(text):
        return BAD_WORLD, b""
    try:
        return bench.due("step", name_chain(read_chain(text), NAMES), "elements")
    except Refused as found:
        return BAD_WORLD, refusal("chain", found.fault)


def text_faults(program: pathlib.Path, chain: Chain, step: int) -> str | None:
    """A chain file that is cut behind each line, and behind many of its bytes."""
    text = chain.text().encode()
    ends = {at + 1 for at, byte in enumerate(text) if byte == ord("\n")}
    with bench_of(program) as bench:
        for end in sorted(ends | set(range(len(b"chain 1"), len(text), step))):
            wrong = difference(bench.made("step", text[:end], "elements"), text_due(bench, text[:end]))
            if wrong:
                return f"the first {end} bytes: {wrong}"
    return None


def fronts(report: bytes, step: int) -> Iterator[tuple[str, bytes]]:
    """A report that is cut behind each of its lines, and behind many of its bytes."""
    ends = {at + 1 for at, byte in enumerate(report) if byte == ord("\n")}
    yield from ((f"the first {end} bytes", report[:end]) for end in sorted(ends | set(range(0, len(report), step))))


def changed(report: bytes) -> Iterator[tuple[str, bytes]]:
    """A report with one change, in each of its lines."""
    lines = report.split(b"\n")[:-1]
    for at, line in enumerate(lines):
        for name, change in CHANGES.items():
            made = [change(line)] if name != "lost" else []
            yield f"line {at + 1}, {name}", b"".join(it + b"\n" for it in [*lines[:at], *made, *lines[at + 1 :]])


def reading_faults(program: pathlib.Path, chain: Chain, texts: Callable[[bytes], Iterator[tuple[str, bytes]]]) -> str | None:
    """How changed reports of a chain are read and judged."""
    with bench_of(program) as bench:
        _, report = bench.due("step", chain, "elements")
        for name, text in texts(report):
            (bench.folder / "report").write_bytes(text)
            wrong = bench.fault("audit", chain, "report", "elements")
            if wrong:
                return f"{name}: {wrong}"
    return None


def drawn_faults(program: pathlib.Path, seed: int) -> str | None:
    """A drawn chain: its reports, and what is said of them."""
    chain = drawn(seed)
    with bench_of(program) as bench:
        form = "run" if chain.count == 1 else "step"
        wrong = bench.fault(form, chain, "elements")
        _, report = bench.due(form, chain, "elements")
        return said(wrong, *judging_faults(bench, chain, report))


def takes_chains(program: pathlib.Path) -> bool:
    """Whether a program takes chains."""
    with bench_of(program) as bench:
        return bench.made("step", b"chain 1\n", "elements") == (BAD_WORLD, refusal("chain", Fault(76, 2)))


def if_taken(program: pathlib.Path, fault: Callable[[pathlib.Path], str | None]) -> str | None:
    """What is wrong, if the program takes chains; SkipTest if it doesn't."""
    if not takes_chains(program):
        raise unittest.SkipTest("the program takes no chains yet")
    return fault(program)


def written_checks() -> Iterator[tuple[str, Callable[[pathlib.Path], str | None]]]:
    """The names of the checks of written chains, and what finds what is wrong."""
    for name, chain in WRITTEN.items():
        yield f"legs/{name}", partial(leg_faults, chain=chain)
        yield f"reports/{name}", partial(report_faults, chain=chain)
        yield f"parts/{name}", partial(part_faults, chain=chain)
        if chain.count > 1:
            yield f"threads/{name}", partial(thread_faults, chain=chain)
    small = replace(ONE_TILE, attempts=2, once=ONE_TILE.once[:3], legs=3)
    torn = replace(FOUR_TILES, attempts=3, legs=2)
    yield "texts/one tile", partial(text_faults, chain=small, step=5)
    yield "texts/a tile that is off", partial(text_faults, chain=WRITTEN["a tile that is off"], step=11)
    for name, chain in (("one tile", small), ("four tiles", torn)):
        for kind in (chain, replace(chain, journal="short")):
            yield f"cut reports/{name}, {kind.journal}", partial(reading_faults, chain=kind, texts=partial(fronts, step=9))
            yield f"changed reports/{name}, {kind.journal}", partial(reading_faults, chain=kind, texts=changed)


def checks(program: pathlib.Path) -> Iterator[Check]:
    """All of them."""
    for name, fault in written_checks():
        yield Check(name, partial(if_taken, program, fault))
    for seed in range(DRAWN):
        yield Check(f"drawn/{seed}", partial(if_taken, program, partial(drawn_faults, seed=seed)))


def main() -> int:
    """The command: the status is 1 if a check fails, or none is tried."""
    parser = argparse.ArgumentParser(description="Compares the program's chains with those of the model.")
    parser.add_argument("program", type=lambda word: pathlib.Path(word).resolve(), help="the program")
    parser.add_argument("names", metavar="NAME", nargs="*", help="the checks whose names begin with one of these alone")
    parser.add_argument("--plain", metavar="PROGRAM", help="another one, which need take no chains, for the legs as worlds of their own")
    given = parser.parse_args()
    PLAIN[:] = [given.plain] * bool(given.plain)
    chosen = [it for it in checks(given.program) if not given.names or it.id().startswith(tuple(given.names))]
    outcomes = tried(chosen, aside=True)
    told("chains", outcomes, sum(outcome.seconds for outcome in outcomes))
    return 1 if any(it.fault for it in outcomes) or all(it.left_out for it in outcomes) else 0


if __name__ == "__main__":
    from driver import told

    sys.exit(main())
