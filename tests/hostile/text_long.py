"""Long inputs: worlds, reports and code files of a length or with as much as there can be in one, what is said of
each, and in how much memory.
"""
from __future__ import annotations

from dataclasses import dataclass
from typing import Iterable, Iterator, NamedTuple, Union

from bench import BAD_CODE, BAD_JOURNAL, BAD_WORLD, DONE, UNREADABLE, Answer, Bench
from feast_lab.lab.base.limits import MOST_ATTEMPTS, MOST_CLASSES, MOST_INSTRS, MOST_TILES
from jobs import MOST, PACKED, STATE
from text_lines import HEAD, RECORD, TRY
from text_pieces import FULL_NAMES, fill, full_report, full_world, lined, packed, records, stacking

MILLION = 1_000_000

# The most memory that a call may have: some to begin with, and so much for each byte of its inputs.
BASE = 96 << 20
TIMES = 12

# What `rewind` keeps of each event besides, if all sites of its window are occupied.
KEPT = 680

STEP = ["step", "w", "e"]
RUN = ["run", "w", "e"]
STEP_PACKED = ["steppack", "w", "c"]


@dataclass(frozen=True)
class Long:
    """A long input: its name here, the words of a call, the file that is long, and the pieces of that; the status of
    the call, what it writes, as bytes or in pieces, and how many events it keeps."""

    name: str
    words: list[str]
    file: str
    pieces: Iterable[bytes]
    status: int
    out: Union[bytes, Iterable[bytes]]
    kept: int = 0


def measured(bench: Bench, long: Long, answer: Answer, size: int) -> None:
    """Counts the memory of a call, and keeps its figures."""
    most = BASE + TIMES * size + KEPT * long.kept
    bench.say(answer.memory <= most, f"{long.name}: memory", f"{answer.memory} bytes for {size}")
    took = f"{answer.seconds:.2f} s, {answer.memory >> 20} MiB, {answer.memory / max(size, 1):.1f} bytes a byte"
    bench.note(f"{long.name}: {size / 1e6:.0f} MB, {took}")


def answered(bench: Bench, long: Long) -> None:
    """A long input with what is answered, and how much memory that takes."""
    bench.make(long.file, long.pieces)
    path = bench.at(long.file)
    size = path.stat().st_size
    answer = bench.call(long.words, seconds=600)
    if isinstance(long.out, bytes):
        bench.expect(long.name, answer, long.status, long.out)
    else:
        bench.say(answer.status == long.status and bench.same(long.out), long.name, answer.shown())
    measured(bench, long, answer, size)
    path.unlink()


class Form(NamedTuple):
    """The words of a form that reads a report, and what it writes."""

    words: list[str]
    out: bytes


def report_forms(count: int, verdict: bytes = b"yes\n") -> list[Form]:
    """The forms that read a report of a plane without atoms; `rewind` goes back to where so many events were made."""
    empty = b"feast 1\natoms 0\n"
    return [
        Form(["replay", "w", "j", "e"], empty),
        Form(["audit", "w", "j", "e"], verdict),
        Form(["rewind", "w", "j", f"{count}", "e"], empty),
    ]


def most_attempts(bench: Bench) -> None:
    """A million attempts, and one more; written and drawn; their report once more."""
    blocks = [TRY * 10_000] * (MOST_ATTEMPTS // 10_000)
    too_many = b"w:%d:1: E75 too many attempts\n" % (HEAD.count(b"\n") + MOST_ATTEMPTS + 1)
    answered(bench, Long("1,000,000 attempts", RUN, "w", [HEAD, *blocks], DONE, records(MOST_ATTEMPTS)))
    answered(bench, Long("1,000,001 attempts", RUN, "w", [HEAD, *blocks, TRY], BAD_WORLD, too_many))
    bench.make("w", [HEAD, *blocks])
    for words, out in report_forms(500_000):
        kept = MOST_ATTEMPTS if words[0] == "rewind" else 0
        answered(bench, Long(f"{words[0]} of 1,000,000 records", words, "j", records(MOST_ATTEMPTS), DONE, out, kept))
    drawn_attempts(bench)


def drawn_attempts(bench: Bench) -> None:
    """The same drawn, on one tile and on 64."""
    too_many = b"w:5:1: E75 too many attempts\n"
    bench.write("w", HEAD + b"seed 1\nattempts %d\n" % (MOST_ATTEMPTS + 1))
    bench.expect("1,000,001 attempts, drawn", bench.call(RUN), BAD_WORLD, too_many)
    bench.write("w", HEAD + b"seed 1\nattempts %d\n" % MOST_ATTEMPTS)
    answer = bench.call(RUN)
    held = answer.status == DONE and answer.out.startswith(b"feast 1\natoms 0\njournal %d\n" % MOST_ATTEMPTS)
    bench.say(held, "1,000,000 attempts, drawn", answer.shown())
    head = b"feast 1\ntiles 8 8\nsize 64 64\nseed 1\n"
    most = MOST_ATTEMPTS // MOST_TILES
    bench.write("w", head + b"attempts %d\n" % (most + 1))
    bench.expect(f"{MOST_TILES} times {most + 1:,} attempts", bench.call(STEP), BAD_WORLD, too_many)
    if bench.long:
        bench.write("w", head + b"attempts %d\norder seed 1\n" % most)
        answer = bench.call(STEP, seconds=600)
        bench.say(answer.status == DONE, f"{MOST_TILES} times {most:,} attempts", answer.shown())
        took = f"{answer.seconds:.1f} s, {answer.memory >> 20} MiB"
        bench.note(f"64 tiles of 64 by 64 sites, 1,000,000 attempts, stepped: {took}")


def full_plane(bench: Bench) -> None:
    """An atom at each of the 262,144 sites, of one of 256 elements with long names."""
    bench.write("f", b"".join(b"element %s { Void behave() { } }\n" % name for name in FULL_NAMES))
    answered(bench, Long("an atom at each site", ["step", "w", "f"], "w", full_world(), DONE, full_report()))


def long_worlds(bench: Bench, total: int) -> None:
    """Worlds of a length, by what they are full of."""
    for long in [*accepted_worlds(total), *refused_worlds(total)]:
        answered(bench, long)


def accepted_worlds(total: int) -> Iterator[Long]:
    """Long worlds of one atom."""
    rest = HEAD + b"atom 3 4 Walker\n"
    due = b"feast 1\natoms 1\n3 4 Walker " + STATE + b"\njournal 0\nabandoned 0\n"
    comment = [b"#", *[b" " * MILLION] * ((total - 1000) // MILLION), b"\n"]
    order = [b"order", *[b" 0" * 500_000] * ((total - 1000) // MILLION), b"\n"]
    for name, pieces in (
        ("one comment", [HEAD[:8], *comment, HEAD[8:], rest[len(HEAD):]]),
        ("empty lines", fill(HEAD[:8], b"\n" * 1000, total, rest[8:])),
        ("comments", fill(HEAD[:8], b"#\n", total, rest[8:])),
        ("an order in one line", [rest, *order]),
        ("an order in many lines", fill(rest, b"order 0 0 0 0 0 0 0 0 0\n", total)),
        ("an order in short lines", fill(rest, b"order 0\n", total)),
    ):
        yield Long(f"a world of {name}", STEP, "w", pieces, DONE, due)


def refused_worlds(total: int) -> Iterator[Long]:
    """Long worlds that are refused."""
    attempts = fill(HEAD, TRY, max(total, 28 * MILLION))
    for name, pieces, line in (
        ("attempts", attempts, b"w:1000004:1: E75 too many attempts\n"),
        ("atoms at one site", fill(HEAD, b"atom 0 0 Walker\n", total), b"w:5:1: E74 site is taken\n"),
        ("atoms of no element", fill(HEAD, b"atom 0 0 W\n", total), b"w:4:1: E73 unknown element\n"),
        ("one line of NULs", [b"\0" * MILLION] * (total // MILLION), b"w:1:1: E70 bad header\n"),
        ("one line behind the size", [HEAD, *[b"x" * MILLION] * ((total - 1000) // MILLION)], b"w:4:1: E71 bad line\n"),
    ):
        yield Long(f"a world of {name}", STEP, "w", pieces, BAD_WORLD, line)


def long_reports(bench: Bench, total: int) -> None:
    """Reports of a length, by what they are full of."""
    bench.write("w", HEAD)
    for long in [*accepted_reports(total), *refused_reports(total)]:
        answered(bench, long)


def accepted_reports(total: int) -> Iterator[Long]:
    """Long reports that are read, though they are no true accounts."""
    count, atoms = lined(b"0 0 Walker " + STATE + b"\n", total)
    for words, out in report_forms(0, b"no atoms\n"):
        pieces = [b"feast 1\natoms %d\n" % count, *atoms, b"journal 0\nabandoned 0\n"]
        yield Long(f"{words[0]} of a report of atoms", words, "j", pieces, DONE, out)
    count, abandoned = lined(b"0 0 0 0 0 0 0\n", total)
    for words, out in report_forms(0, b"no accounted\n"):
        pieces = [b"feast 1\natoms 0\njournal 0\nabandoned %d\n" % count, *abandoned]
        yield Long(f"{words[0]} of a report of abandoned attempts", words, "j", pieces, DONE, out)


def refused_reports(total: int) -> Iterator[Long]:
    """Long reports that are refused."""
    behind = (total - 100) // MILLION
    records_of_none = [b"feast 1\natoms 0\njournal 9000000\n", RECORD * 1000, *[b" " * MILLION] * behind]
    past_end = [b"feast 1\natoms 0\njournal 0\nabandoned 0\n", *[b"\n" * MILLION] * behind]
    for name, pieces, line in (
        ("records of no attempt", records_of_none, b"j:4:1: E83 not an attempt of the tile\n"),
        ("one line", [b"feast 1\n", *[b"x" * MILLION] * behind, b"\n"], b"j:2:1: E80 bad line\n"),
        ("lines behind its end", past_end, b"j:5:1: E80 bad line\n"),
    ):
        for words, _ in report_forms(0):
            yield Long(f"{words[0]} of a report of {name}", words, "j", pieces, BAD_JOURNAL, line)


def long_codes(bench: Bench, total: int) -> None:
    """Code files of a length, and of as much as there can be in one."""
    bench.write("w", HEAD)
    due = b"feast 1\natoms 0\njournal 0\nabandoned 0\n"
    every = MOST_CLASSES if bench.long else 16
    nuls = [b"\0" * MILLION] * (total // MILLION)
    for name, pieces, status, out in (
        ("a code file of NULs", nuls, BAD_CODE, b"c:1:1: E61 not a code file\n"),
        ("a code file and more", [PACKED, *nuls], BAD_CODE, b"c:1:69: E62 bad code file\n"),
        (f"{every} codes of the greatest length", packed(every, 1, 32_767), DONE, due),
        (f"{every} codes of most functions", packed(every, MOST_INSTRS, 0), DONE, due),
        ("a code whose places have most lists of operands", [stacking(32_767, b"\x30")], DONE, due),
        ("one instruction more", [stacking(32_767, b"\4\x30")], BAD_CODE, b"c:1:41: E62 bad code file\n"),
    ):
        answered(bench, Long(name, STEP_PACKED, "c", pieces, status, out))


def too_long(bench: Bench) -> None:
    """The greatest length, and one byte more."""
    spaces = [b"#" + b" " * (MILLION - 1)] + [b" " * MILLION] * (MOST // MILLION - 1)
    atom = HEAD + b"atom 3 4 Walker\n"
    due = b"feast 1\natoms 1\n3 4 Walker " + STATE + b"\njournal 0\nabandoned 0\n"
    for kind, words, file, front, status, out in (
        ("world", STEP, "w", atom, DONE, due),
        ("report", ["replay", "w", "j", "e"], "j", b"", BAD_JOURNAL, b"j:1:1: E80 bad line\n"),
        ("code file", STEP_PACKED, "c", b"", BAD_CODE, b"c:1:1: E61 not a code file\n"),
    ):
        bench.write("w", HEAD)
        pieces = [front, *spaces, b" " * (MOST % MILLION - len(front))]
        line = f"{file}: E02 longer than {MOST} bytes\n".encode()
        answered(bench, Long(f"a {kind} of {MOST:,} bytes", words, file, pieces, status, out))
        answered(bench, Long(f"a {kind} of {MOST + 1:,} bytes", words, file, [*pieces, b" "], UNREADABLE, line))


def rates(bench: Bench, name: str, piece: bytes) -> None:
    """Four times the text, filled with a piece, takes about four times the time."""
    seconds = []
    for total in (8 * MILLION, 32 * MILLION):
        bench.make("w", fill(HEAD, piece, total))
        seconds.append(min(bench.call(STEP).seconds for _ in range(2)))
    bench.say(seconds[1] <= 7 * seconds[0] + 0.1, f"{name}: time goes with length", f"{seconds}")
