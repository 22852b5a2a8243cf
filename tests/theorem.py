#!/usr/bin/env python3
"""Holds the pages of the theorems (docs/theorem*.md) to the sources: theorem.py [--write].

What the promise of a threaded run rests on are the definitions that its own definition names, those that these name,
and so on down to numbers and lists; and so it is with the laws of chains. The pages quote each of them once, and no
other, in blocks behind lines of the form

    From `crates/NAME/specs/FILE.antt`: `definition`, `definition`.

A block has the definitions of its line, in that order, as the file has them. Types of the code are quoted from their
`.rt` file, without comments. The number of definitions and of their lines, which the first page of a theorem gives, is
right too; those of an earlier theorem don't count in that of a later one.
--write puts the definitions of each line into its block, and says what is still missing.
"""
from __future__ import annotations

import argparse
import functools
import re
import sys
from collections.abc import Iterator
from dataclasses import dataclass, field
from pathlib import Path

sys.dont_write_bytecode = True
from rust_code import TOP  # noqa: E402

# the first page of each theorem, and the definitions with which all begins: their crates, their files, their names
THEOREMS = {
    "theorem.md": [("world_runs", "OneOrder", "IsThreadedRun")],
    "theorem-chains.md": [("chain_run", "Laws", "HaveOneCourse"), ("chain_run", "Laws", "AreCutAndJoined"),
                          ("chain_run", "Chains", "ChainsHaveOneCourse"), ("chain_run", "Chains", "AreChainsCutAndJoined")],
}
HEAD = re.compile(r"(?:(?:abbrev|unfoldable)(?: pub)?|(?:pub )?(?:record|data)|pub) (\S+)")
IMPORT = re.compile(r"(?:pub )?use Rattle\.([\w.]+)\.\{(.*)\}")
MODULE = re.compile(r"use Rattle\.([\w.]+) as (\w+)")
LINE = re.compile(r"From `(crates/\S+)`: (`.*`)\.")
TOTAL = re.compile(r"(\d+) definitions of (\d+) lines")


@dataclass
class File:
    """A file of definitions: their texts, and where its other names come from."""

    texts: dict[str, str] = field(default_factory=dict)
    imports: dict[str, tuple[str, str]] = field(default_factory=dict)
    modules: dict[str, str] = field(default_factory=dict)


@dataclass(frozen=True, order=True)
class Name:
    """A definition: the file that has it, from the top of the repository, and its name there."""

    file: str
    name: str


def definitions(lines: list[str]) -> Iterator[tuple[str, str]]:
    """Each definition of a file, with its name: its first line, and the lines up to a blank one."""
    at = 0
    while at < len(lines):
        head = HEAD.match(lines[at])
        end = at + 1
        while head and end < len(lines) and lines[end] and not HEAD.match(lines[end]):
            end += 1
        if head and not lines[at].startswith("pub mod"):
            yield head[1], "\n".join(line for line in lines[at:end] if not line.lstrip().startswith("--"))
        at = end


@functools.cache
def specs(path: str) -> File:
    """A file of definitions, by its path from the top; one without a definition if it isn't there."""
    lines = (TOP / path).read_text().splitlines() if (TOP / path).exists() else []
    found = File(dict(definitions(lines)))
    for line in lines:
        names, module = IMPORT.fullmatch(line), MODULE.fullmatch(line)
        for word in names[2].split(",") if names else []:
            source, _, here = word.strip().partition(" as ")
            found.imports[here or source] = (names[1] if names else "", source)
        if module:
            found.modules[module[2]] = module[1]
    return found


def path_of(module: str) -> str | None:
    """The file of a module's name, as `cell_grid.specs.Grid`; None for what is not of this repository. Of a type of the
    code, as `cell_grid.specs.declared.record.Record`, the file of the code."""
    parts = module.split(".")
    if not (TOP / "crates" / parts[0]).is_dir() or len(parts) < 3 or parts[1] != "specs":
        return None
    if parts[2] == "declared":
        return f"crates/{parts[0]}/src/{parts[3]}.rt" if len(parts) > 3 else None
    return f"crates/{parts[0]}/specs/{parts[2]}.antt"


def named_in(path: str, text: str) -> Iterator[Name]:
    """What a definition of a file names."""
    here = specs(path)
    for module, name in re.findall(r"\b(\w+)\.(\w+)", text):
        if module in here.modules and (file := path_of(here.modules[module])):
            yield Name(file, name)
    for word in set(re.findall(r"[A-Za-z_][\w']*", text)):
        if word in here.texts:
            yield Name(path, word)
        elif word in here.imports and (file := path_of(here.imports[word][0])):
            module = here.imports[word][0].split(".")
            is_part = "TheVariants" in module or "TheConstants" in module
            yield Name(file, module[4] if is_part and len(module) > 4 else here.imports[word][1])


@functools.cache
def text_of(name: Name) -> str | None:
    """The text of a definition, or of a type of the code; None if its file hasn't it."""
    if name.file.endswith(".antt"):
        return specs(name.file).texts.get(name.name)
    code = (TOP / name.file).read_text() if (TOP / name.file).exists() else ""
    found = re.search(rf"^pub (struct|enum) {name.name}\b.*?^\}}$", code, re.M | re.S)
    lines = found[0].splitlines() if found else []
    return "\n".join(line for line in lines if not line.lstrip().startswith(("///", "#["))) or None


def rests() -> dict[str, list[Name]]:
    """All that each theorem rests on, beside what the earlier ones do."""
    found: dict[str, list[Name]] = {}
    for page in THEOREMS:
        found[page] = sorted(reached(page) - {name for earlier in found.values() for name in earlier})
    return found


def reached(page: str) -> set[Name]:
    """All that the theorem of a page rests on."""
    left = [Name(f"crates/{crate}/specs/{file}.antt", name) for crate, file, name in THEOREMS[page]]
    found: set[Name] = set()
    while left:
        one = left.pop()
        text = text_of(one)
        if one in found or text is None:
            continue
        found.add(one)
        if one.file.endswith(".antt"):
            left.extend(named_in(one.file, text))
    return found


@dataclass
class Block:
    """A line that names definitions, and the block behind it: the lines of the page that it takes."""

    names: list[Name]
    begin: int
    end: int


def is_of_block(lines: list[str], at: int) -> bool:
    """Whether a line is one of a block: it is indented, or is blank before one that is."""
    following = lines[at + 1:at + 2]
    return lines[at].startswith("    ") or (not lines[at] and following != [] and following[0].startswith("    "))


def blocks(lines: list[str]) -> Iterator[Block]:
    """The blocks of a page."""
    for at, line in enumerate(lines):
        if found := LINE.fullmatch(line):
            begin = end = at + 1 + (lines[at + 1:at + 2] == [""])
            while end < len(lines) and is_of_block(lines, end):
                end += 1
            yield Block([Name(found[1], name) for name in re.findall(r"`([^`]+)`", found[2])], begin, end)


def wanted(block: Block) -> list[str]:
    """The lines that a block is to have."""
    texts = [text_of(name) or f"(no {name.name})" for name in block.names]
    return [f"    {line}" if line else "" for line in "\n\n".join(texts).splitlines()]


def rewrite(page: Path) -> None:
    """Puts into each block of a page what it is to have."""
    lines = page.read_text().splitlines()
    for block in reversed(list(blocks(lines))):
        rest = lines[block.end:]
        lines[block.begin:] = [*wanted(block), *([""] if rest[:1] not in ([], [""]) else []), *rest]
    page.write_text("\n".join(lines) + "\n")


def block_faults(page: Path) -> Iterator[str]:
    """The blocks of a page that differ from the sources."""
    lines = page.read_text().splitlines()
    for block in blocks(lines):
        if lines[block.begin:block.end] != wanted(block):
            yield f"{page.name}: the block of {', '.join(it.name for it in block.names)} differs from {block.names[0].file}"


def faults(pages: list[Path]) -> Iterator[str]:
    """What is wrong with the pages."""
    for page in pages:
        yield from block_faults(page)
    quoted = [name for page in pages for block in blocks(page.read_text().splitlines()) for name in block.names]
    named = [name for names in rests().values() for name in names]
    yield from (f"{name.file}: {name.name} is quoted nowhere" for name in named if name not in quoted)
    yield from (f"{name.file}: {name.name} is quoted, and no theorem rests on it" for name in quoted if name not in named)
    yield from (f"{name.file}: {name.name} is quoted twice" for name in sorted(set(quoted)) if quoted.count(name) > 1)
    for first, names in rests().items():
        total = (str(len(names)), str(sum((text_of(name) or "").count("\n") + 1 for name in names)))
        if TOTAL.findall((TOP / "docs" / first).read_text()) != [total]:
            yield f"docs/{first}: it is {total[0]} definitions of {total[1]} lines"


def main() -> int:
    """The command."""
    parser = argparse.ArgumentParser(description="Holds the pages of the theorems to the sources.")
    parser.add_argument("--write", action="store_true", help="put the definitions into their blocks")
    pages = sorted((TOP / "docs").glob("theorem*.md"))
    if parser.parse_args().write:
        for page in pages:
            rewrite(page)
    found = list(faults(pages))
    print("\n".join([*found, f"{sum(map(len, rests().values()))} definitions, {len(found)} faults"]))
    return 1 if found else 0


if __name__ == "__main__":
    sys.exit(main())
