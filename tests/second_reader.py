#!/usr/bin/env python3
"""Tries the second reader of tools/recheck against tables, cases and a program: second_reader.py PROGRAM [NAME..].

  tables/SUBJECT  the rows of tests/tables that are calls which it knows have its answers too
  meaning/NUMBER  it makes the events of small elements as the program does
  legs/JOURNAL    the reports of a chain's legs are those of worlds that the program runs one after another
  lengths         it counts as many instructions as the table of codes has
  cases/NAME      so have the cases of tests/cases, those of the examples with fewer attempts; what the program writes in
                  a run of several tiles is judged by it: `yes`
  planted/FIELD   a report with one byte changed in a field gets the same line as from the program's audit, and no `yes`
"""
from __future__ import annotations

import contextlib
import importlib
import os
import re
import shutil
import sys
import tempfile
import unittest
from functools import partial
from pathlib import Path
from typing import Iterator, Mapping, Optional, Sequence

HERE = Path(__file__).resolve().parent
sys.dont_write_bytecode = True
sys.path[0:0] = [str(HERE.parent / "tools"), str(HERE / "tables")]

from checks import Check  # noqa: E402
from feast_lab.recheck.elements import elements_of, read_elements  # noqa: E402
from feast_lab.recheck.length import length_of  # noqa: E402
from feast_lab.recheck.main import answer  # noqa: E402
from program import File, bytes_of, call, written  # noqa: E402
from rows import Row, shown  # noqa: E402
from run import CASES, copy_examples, make_spaces, words_of  # noqa: E402

EXAMPLES = HERE.parent / "examples"
SUBJECTS = "tokens grammar readings names classes bases stages typing_rules worlds reports calls".split()
KNOWN = (b"check", b"step", b"run", b"replay", b"audit", b"rewind")
# So many attempts has each tile of an example here, and so many bytes at most the files of a row.
ATTEMPTS = 500
MOST_BYTES = 100_000
# A call is left to the program if its world has more attempts than this.
MOST_MADE = 10_000
# Members and bodies of elements whose atoms make some events each, by the second reader and by the program.
MEANINGS = [
    ("Int(4) a; Int(7) b;", "a = a - 3; b = a * 9 - b / (a - 1); if (a == -8) a = 7;"),
    ("Unary(5) u; Unsigned(3) n; Bits(6) b;", "u += 2; if (u == 5) u = 1; n = n + u; b = (b << 1) ^ ~(Bits(6)) n; b >>= n;"),
    ("Unsigned(3) a[4]; Unsigned(3) i; Int(50) w;", "a[i] += 2; i = i + 1; w = w * 3 - (Int) i; if (i > 3) i = (Unsigned) (w % 4);"),
    ("Unary(8) u;", "u = u - 4294967167u + 33037u; u -= 3;"),
    ("Unsigned(9) n;", "ew[random.create(1)] = self; n = random.create(500); if (ew[random.create(1)] is A) n = random.create(500);"),
    ("Int(40) w;", "w = w * -3 + 70000; Int k = (Int) w; w = w - k % 7;"),
    ("Unsigned(6) n;", "n = down(n + 3); } Unsigned down(Unsigned k) { if (k > 1) return down(k - 1) + 1; return k;"),
    ("Unsigned(9) n;", "for (Unsigned i = 0; i < n * 100; i++) { if (i % 2 == 1) continue; if (i > 1200) break; } if (n != 10) n += 3;"),
    ("Unsigned(4) n;", "Unsigned i = random.create(6); ew.swap(0, i); n++; ew[i + 36] = self;"),
    ("Unsigned(4) n; Bool b;", "Atom x = ew[random.create(41)]; if (x as A) { x.n += 5; b = !x.b; ew[2] = x; } else b = random.oneIn(3);"),
]
# In so many lines of a part a byte is planted, and about as many again.
MOST_PLANTED = 12
# The fields of a line of a report, by the part that it stands in.
FIELDS = {
    "atoms": ("x", "y", "name", "state"),
    "journal": ("stamp", "tile", "attempt", "x", "y", "seed"),
    "abandoned": ("tile", "attempt", "x", "y", "edge", "holder", "holder-attempt"),
}
# What is planted in a field beside that: words that are near the ends of a field's form.
ODD = {
    ("atoms", 3): ("8" + "0" * 17, "f" * 18, "7" + "f" * 17, "0" * 17, "0" * 19, "0" * 17 + "A"),
    ("journal", 0): ("4294967295", "4294967296", "9" * 5000),
    ("journal", 2): ("18446744073709551615", "18446744073709551616", "9" * 5000),
    ("abandoned", 1): ("18446744073709551615", "18446744073709551616", "9" * 5000),
}


def answered(words: Sequence[bytes], files: Mapping[str, File]) -> tuple[int, bytes]:
    """What the second reader answers in a new folder that has these files alone."""
    with tempfile.TemporaryDirectory() as folder:
        for name, content in files.items():
            (Path(folder) / name).write_bytes(bytes_of(content))
        with contextlib.chdir(folder):
            return answer(words)


def has_tiles(texts: Sequence[bytes]) -> bool:
    """Whether one of some texts is a world of several tiles."""
    return any(re.search(rb"^tiles (?!1 1\r?$)", text, re.M) for text in texts)


def is_short(texts: Sequence[bytes]) -> bool:
    """Whether files are small, and their worlds have few attempts."""
    attempts = [int(found[1]) for text in texts for found in re.finditer(rb"^attempts (\d+)$", text, re.M)]
    return sum(map(len, texts)) <= MOST_BYTES and max(attempts, default=0) <= MOST_MADE


def is_known(words: Sequence[bytes], files: Mapping[str, File]) -> bool:
    """Whether the second reader has an answer of its own to a call: it makes no run of several tiles."""
    is_run = words[:1] == [b"run"] and has_tiles([bytes_of(file) for file in files.values()])
    return words[:1] in [[verb] for verb in KNOWN] and not is_run


def table_fault(subject: str) -> Optional[str]:
    """The first row of a table that the second reader answers in another way."""
    tried = 0
    for number, row in enumerate(importlib.import_module(subject).rows(), 1):
        words = row.words.encode().split(b" ") if isinstance(row, Row) else []
        if isinstance(row, Row) and is_known(words, row.files) and is_short([bytes_of(file) for file in row.files.values()]):
            tried += 1
            found, wanted = answered(words, row.files), (row.status, bytes_of(row.output))
            if found != wanted:
                return f"row {number}: {row.words}: {shown(found)}, not {shown(wanted)}"
    return None if tried else "no row is known"


def meaning_fault(program: Path, members: str, body: str) -> Optional[str]:
    """What differs in the reports of a world in which an element acts often."""
    text = f"element A {{ EventWindow ew; Random random; {members} Void behave() {{ {body} }} }}"
    atoms = "".join(f"atom {x} {y} A {(x * 77 + y) << 58:018x}\n" for x in range(8) for y in range(8))
    with tempfile.TemporaryDirectory() as folder, contextlib.chdir(folder):
        Path("a").write_text(text)
        Path("w").write_text(f"feast 1\ntiles 1 1\nsize 8 8\nseed 3\nattempts {ATTEMPTS}\n{atoms}")
        found, done = answer([b"step", b"w", b"a"]), call(program, ["step", "w", "a"])
    if found[0] == 0 and found == (done.returncode, done.stdout):
        return None
    return f"{shown(found)}, not {shown((done.returncode, done.stdout))}"


def legs_fault(program: Path, journal: str) -> Optional[str]:
    """What differs between the reports of a chain's legs and those of worlds that the program runs, each with the atoms that
    the one before it left. The only act, which empties an area before the second leg, is done here by leaving lines out."""
    head, seed = "tiles 2 1\nsize 8 8\n", 2**64 - 5
    kept = [f"atom {x} {y} A {(x * 77 + y) << 58:018x}" for x in range(16) for y in range(8)]
    reports = b""
    with tempfile.TemporaryDirectory() as folder, contextlib.chdir(folder):
        Path("a").write_text("element A { EventWindow ew; Random random; Unsigned(9) n; Void behave() { ew.swap(0, random.create(41)); n += 1; } }")
        Path("c").write_text(f"chain 1\n{head}seed {seed}\nattempts 40\nlegs 3\njournal {journal}\nact 2 clear 6 0 3 8\n" + "\n".join(kept))
        for leg in range(3):
            first = (seed + leg * 4) % 2**64
            kept = [line for line in kept if leg != 1 or not 6 <= int(line.split()[1]) < 9]
            order = f"order seed {(first + 2) % 2**64}\n"
            Path("w").write_text(f"feast 1\n{head}seed {first}\nattempts 40\n" + "".join(f"{line}\n" for line in kept) + order)
            report = written(program, "step", "w", "a")
            kept = [f"atom {line}" for line in report.split("\njournal")[0].split("\n")[2:]]
            reports += (in_short(report) if journal == "short" else report).encode()
        found = answer([b"step", b"c", b"a"])
        Path("r").write_bytes(reports)
        judged = answer([b"audit", b"c", b"r", b"a"])
    if found != (0, reports):
        return f"{shown(found)}, not {shown((0, reports))}"
    return None if judged == (0, b"yes\n") else shown(judged)


def in_short(report: str) -> str:
    """The report of a world as the short one of a leg."""
    lines, part = [], ""
    for line in report.splitlines()[1:]:
        fields = line.split(" ")
        part = part if fields[0].isdigit() else fields[0]
        if part == "journal" and fields[0].isdigit():
            fields = fields[:3]
        elif part == "abandoned" and fields[0].isdigit():
            fields = fields[:2] + fields[4:]
        lines.append(" ".join(fields))
    return "".join(f"{line}\n" for line in ["feast 2", *lines])


def lengths_fault() -> Optional[str]:
    """The first code of the table of codes whose length the second reader counts in another way."""
    tried = 0
    for number, row in enumerate(importlib.import_module("codes").rows(), 1):
        if isinstance(row, Row) and row.words == "code a" and row.status == 0:
            tried += 1
            elements = elements_of(read_elements([bytes_of(row.files["a"])]))
            found = [length_of(it) for it in elements]
            wanted = [int(length) for length in re.findall(r"^element \S+ \d+ (\d+)$", bytes_of(row.output).decode(), re.M)]
            if found != wanted:
                return f"row {number}: {found}, not {wanted}"
    return None if tried else "no row is known"


def shortened(world: Path) -> bytes:
    """An example's world with fewer attempts."""
    return re.sub(rb"^attempts \d+$", b"attempts %d" % ATTEMPTS, world.read_bytes(), flags=re.M)


def case_fault(program: Path, case: Path) -> Optional[str]:
    """What is wrong with the second reader's answer to a case, or with its judgement of what the program writes."""
    with tempfile.TemporaryDirectory() as folder:
        copy = Path(folder) / "case"
        shutil.copytree(case, copy)
        make_spaces(copy)
        copy_examples(copy)
        words = words_of(case / "args")
        if case.name.startswith("example-"):
            (copy / os.fsdecode(words[1])).write_bytes(shortened(copy / os.fsdecode(words[1])))
        files = {file.name: file.read_bytes() for file in copy.iterdir() if file.is_file()}
        if not is_short(list(files.values())):
            raise unittest.SkipTest("the second reader takes long for it")
        done = call(program, words, copy)
        wanted = done.returncode, done.stdout
        with contextlib.chdir(copy):
            if not is_known(words, files) and done.returncode == 0:
                (copy / "the report").write_bytes(done.stdout)
                words, wanted = [b"audit", words[1], b"the report", *words[2:]], (0, b"yes\n")
            found = answer(words)
    return None if found == wanted else f"{shown(found)}, not {shown(wanted)}"


class Planted:
    """A report, and what both judges say of it with another line in it."""

    def __init__(self, program: Path) -> None:
        self.program = program
        world, self.elements = EXAMPLES / "tutorial" / "rumour.world", EXAMPLES / "tutorial" / "rumour.ulam"
        Path("w").write_bytes(re.sub(rb"^attempts .*$", b"attempts 40", world.read_bytes(), flags=re.M))
        self.lines = written(program, "step", "w", self.elements).splitlines(keepends=True)

    def some_of(self, part: str) -> range:
        """Some of the lines of a part."""
        first = next(number for number, line in enumerate(self.lines) if line.startswith(f"{part} ")) + 1
        count = int(self.lines[first - 1].split()[1])
        return range(first, first + count, max(count // MOST_PLANTED, 1))

    def fault(self, line: int, field: int, word: str, may_be_yes: bool) -> Optional[str]:
        """What is wrong with the judgement of the report with another word in a field of a line."""
        fields = self.lines[line].rstrip("\n").split(" ")
        fields[field] = word
        Path("r").write_text("".join([*self.lines[:line], " ".join(fields) + "\n", *self.lines[line + 1 :]]))
        words = [b"audit", b"w", b"r", os.fsencode(self.elements)]
        found, done = answer(words), call(self.program, words)
        if found == (done.returncode, done.stdout) and (may_be_yes or found[1] != b"yes\n"):
            return None
        return f"line {line + 1}: {shown(found)}, not {shown((done.returncode, done.stdout))}"


def planted_fault(program: Path, part: str, field: int) -> Optional[str]:
    """What differs in the judgements of a report with another last byte in a field of one line. It is no report then,
    unless the attempt that an abandoned one names may be another too."""
    with tempfile.TemporaryDirectory() as folder, contextlib.chdir(folder):
        planted = Planted(program)
        words = ((line, planted.lines[line].split()[field]) for line in planted.some_of(part))
        faults = (planted.fault(line, field, other_end(word, 1 if line % 2 else 9), part == "abandoned") for line, word in words)
        return next((fault for fault in faults if fault), None)


def named_fault(program: Path) -> Optional[str]:
    """What differs in the judgements of a report in which an abandoned attempt names another attempt of the holder."""
    with tempfile.TemporaryDirectory() as folder, contextlib.chdir(folder):
        planted = Planted(program)
        named = ((line, int(planted.lines[line].split()[6])) for line in planted.some_of("abandoned"))
        faults = (planted.fault(line, 6, str(max(it + by, 0)), True) for line, it in named for by in (-9, -6, -4, -3, -2, 2, 4, 9))
        return next((fault for fault in faults if fault), None)


def odd_fault(program: Path, part: str, field: int, words: Sequence[str]) -> Optional[str]:
    """What differs in the judgements of a report with one of some words in a field: of the form of a line, or not."""
    with tempfile.TemporaryDirectory() as folder, contextlib.chdir(folder):
        planted = Planted(program)
        line = planted.some_of(part).start
        return next((fault for fault in (planted.fault(line, field, word, False) for word in words) if fault), None)


def other_end(word: str, more: int) -> str:
    """A word with another last letter or digit."""
    return word[:-1] + (str((int(word[-1]) + more) % 10) if word[-1].isdigit() else "b" if word[-1] == "a" else "a")


def checks(program: Path) -> Iterator[Check]:
    """All checks."""
    for subject in SUBJECTS:
        yield Check(f"tables/{subject}", partial(table_fault, subject))
    yield Check("lengths", lengths_fault)
    for journal in ("whole", "short"):
        yield Check(f"legs/{journal}", partial(legs_fault, program, journal))
    for number, (members, body) in enumerate(MEANINGS, 1):
        yield Check(f"meaning/{number}", partial(meaning_fault, program, members, body))
    for case in sorted(CASES.iterdir()):
        words = words_of(case / "args")
        if words[:1] in [[verb] for verb in KNOWN] and not (case / "stdout").exists():
            yield Check(f"cases/{case.name}", partial(case_fault, program, case))
    for part, names in FIELDS.items():
        for field, name in enumerate(names):
            yield Check(f"planted/{part}-{name}", partial(planted_fault, program, part, field))
    yield Check("planted/another-attempt", partial(named_fault, program))
    for (part, field), texts in ODD.items():
        yield Check(f"planted/odd-{part}-{FIELDS[part][field]}", partial(odd_fault, program, part, field, texts))


if __name__ == "__main__":
    from driver import only

    sys.exit(only("recheck"))
