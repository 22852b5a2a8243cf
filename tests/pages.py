#!/usr/bin/env python3
"""Tries the pages of the repository against its files and a program: pages.py PROGRAM.

Of each page (*.md): a link leads to a file; a path in backquotes that begins with a folder of the
repository is there. A block of text after a paragraph that ends with a path in backquotes and a colon is
that file, or its first lines if the paragraph says so. A block of classes is a file that `check` accepts, beside
files of which the paragraph before says that it is used with them.
A block of commands is run by a shell, in a folder that tools/work has made, one block of a page after another, and
writes nothing to standard error but how far it has come and whether tiles kept pace; a block after a paragraph that
ends with `writes` has what the last one wrote, and one after `begins with` the first lines of it. The map of crates
has a row for each crate of crates.txt. tools/work makes no folder where one is, or inside the clone. A page has at
most 200 lines. docs/README.md, which the README names, leads to each page of docs, and each of these says below its
title, in a line, whom it is for. The tables that examples/figures makes anew stand in their pages; of the one of runs on
threads, which differ, the heads and the examples do.
"""
from __future__ import annotations

import importlib.util
import os
import pathlib
import re
import subprocess
import sys
import tempfile
from functools import partial
from typing import Iterator, Optional

sys.dont_write_bytecode = True
from checks import Check  # noqa: E402
from tree import files  # noqa: E402

TOP = pathlib.Path(__file__).resolve().parent.parent
FOLDERS = "bench|crates|docs|editors|examples|tests|tools"
MOST_LINES = 200
# How the commands of a page begin, and the classes. Commands for no file in particular have NAME in place of one. A
# block that `check` writes begins like a class, but without a brace.
COMMANDS = ("./feast ", "./lab ", "grep ", "sed ", "for ", "python3 examples/")
CLASSES = re.compile(r"(element|quark) [^\n]*\{|/\*\* ")
# The top of a page of docs: its title, and in one line whom it is for.
FOR_WHOM = re.compile(r"# .+\n\n\*For [^*\n]{10,100}\.\*\n")
# The lines in which the lab says how far it has come, and that the threads of a run were apart, which they may be.
PROGRESS = re.compile(r"^(.*: \d+ % done.*|lab: warning: .*: the tiles did not keep pace: .*)\n", re.MULTILINE)


def pieces(page: str) -> Iterator[tuple[str, str]]:
    """The blocks of a page, each with the last line of the text before it."""
    before = ""
    block: list[str] = []
    for line in [*page.splitlines(), "end"]:
        if line.startswith("    "):
            block.append(line[4:])
        elif line and block:
            yield before, "\n".join(block).rstrip("\n") + "\n"
            before, block = line, []
        elif line:
            before = line
        elif block:
            block.append("")


def lost_paths(page: str, folder: pathlib.Path) -> list[str]:
    """The links and the paths of a page that lead nowhere."""
    links = [(folder / it, it) for it in re.findall(r"\]\(([^)#:]+)\)", page)]
    paths = [(TOP / it, it) for it in re.findall(rf"`((?:{FOLDERS})/[\w./-]+)`", page)]
    return [f"{name} is not there" for path, name in [*links, *paths] if "NAME" not in name and not path.exists()]


def make_folder(folder: pathlib.Path) -> None:
    """Makes a folder for the commands of a page, as a reader does, with the place of pictures that one page writes."""
    subprocess.run([TOP / "tools" / "work", folder], check=True)
    (folder / "docs" / "pictures").mkdir(parents=True)


def call(program: str, commands: str, folder: pathlib.Path, seconds: int = 600) -> subprocess.CompletedProcess[str]:
    """What a shell does with commands, in so many seconds at most."""
    around = {**os.environ, "FEAST_PROGRAM": program}
    words = ["sh", "-e", "-c", commands]
    return subprocess.run(words, cwd=folder, env=around, capture_output=True, text=True, timeout=seconds, check=False)


def refusal(program: str, classes: str, before: str, folder: pathlib.Path) -> str:
    """The line with which a text of classes is refused, beside the files that it is used with; empty if it isn't."""
    (folder / "listing.ulam").write_text(classes)
    others = re.findall(r"[Uu]sed with `(examples/\S+)`", before)
    checked = call(program, " ".join(["./feast check listing.ulam", *others]), folder)
    return checked.stdout if checked.returncode else ""


def wrong_blocks(program: str, page: str, folder: pathlib.Path) -> Iterator[str]:
    """The blocks that differ from the file or from the call that they are of, and those that fail."""
    wrote = None
    for before, block in pieces(page):
        file = re.search(r"`(examples/\S+)`:$", before)
        if block.startswith("./lab live "):  # serves until it is interrupted; tests/lab/test_live.py tries it
            continue
        if block.startswith(COMMANDS) and "NAME" not in block:
            done = call(program, block, folder)
            wrote = done.stdout
            errors = PROGRESS.sub("", done.stderr)
            if done.returncode or errors:
                yield f"the commands behind '{before[-60:]}' fail: {done.stdout[-200:]}{errors[-200:]}"
            continue
        if CLASSES.match(block) and "{ .. }" not in block:
            refused = refusal(program, block, before, folder)
            if refused:
                yield f"the classes behind '{before[-60:]}' are refused: {refused}"
        if file:
            text = (TOP / file[1]).read_text()
        elif wrote is not None and re.search(r"(writes|begins with|writes the report)$", before):
            text = wrote
        else:
            continue
        is_front = "first lines" in before or before.endswith("begins with")
        if not (text.startswith(block) if is_front else text == block):
            yield f"the block behind '{before[-60:]}' differs from {text[:200]!r}"


def map_faults() -> list[str]:
    """The crates of crates.txt that docs/crates.md has no row for, and the other way round."""
    crates = set(re.findall(r"^([a-z_]+)[^:#]*:", (TOP / "crates.txt").read_text(), re.M))
    rows = set(re.findall(r"^\| `([a-z_]+)` \|", (TOP / "docs/crates.md").read_text(), re.M)) - {"feast", "test"}
    return [f"docs/crates.md: {crate} is not in both" for crate in sorted((crates - {"feast"}) ^ rows)]


def list_faults(folder: pathlib.Path = TOP / "docs") -> list[str]:
    """The pages of docs that their list doesn't lead to, and those that don't say whom they are for."""
    index = (folder / "README.md").read_text()
    pages = sorted(folder.glob("*.md"))
    lost = [f"docs/README.md: {page.name} is not in it" for page in pages
            if page.name != "README.md" and f"]({page.name})" not in index]
    silent = [f"docs/{page.name}: its third line doesn't say whom it is for" for page in pages
              if not FOR_WHOM.fullmatch("\n".join(page.read_text().split("\n")[:4]))]
    named = "`docs/README.md`" in (folder.parent / "README.md").read_text()
    return [*lost, *silent, *([] if named else ["README.md: docs/README.md is not named"])]


def walk_faults() -> list[str]:
    """The files that name one operator (`Xor`) and that the walk to a new one leaves out."""
    page = (TOP / "docs/changes.md").read_text()
    walk = page[page.index("## A new operator"):page.index("## A new line of a world")]
    files = [path for kind in ("*.rt", "*.antt") for path in sorted((TOP / "crates").rglob(kind))]
    named = [path.relative_to(TOP / "crates") for path in files
             if "out" not in path.parts and re.search(r"\b(PairOp::|op?\.)Xor\b", path.read_text())]
    return [f"docs/changes.md: a new operator needs a row in {path} too" for path in named
            if f"`{path.parts[0]}`" not in walk or path.name not in walk]


def work_faults() -> list[str]:
    """The folders that tools/work ought to refuse, and doesn't in one line that says why."""
    wrong = []
    for words, says in (("work", "it is inside "), ("docs/../work", "it is inside "), ("/tmp", "it is there already"),
                        ("", "usage: "), ("/tmp/one /tmp/two", "usage: ")):
        done = subprocess.run(["tools/work", *words.split()], cwd=TOP, capture_output=True, text=True, check=False)
        lines = done.stderr.splitlines()
        if (done.returncode, done.stdout, len(lines)) != (2, "", 1) or says not in lines[0]:
            wrong.append(f"tools/work {words} ends with {done.returncode} and says: {done.stderr}")
    return wrong


def faults(program: str, path: pathlib.Path) -> list[str]:
    """What is wrong with a page."""
    page = path.read_text()
    lines = page.count("\n")
    too_long = [f"it has {lines} lines, at most {MOST_LINES}"] if lines > MOST_LINES else []
    with tempfile.TemporaryDirectory() as name:
        folder = pathlib.Path(name, "work")
        make_folder(folder)
        return [*too_long, *lost_paths(page, path.parent), *wrong_blocks(program, page, folder)]


def figure_pages() -> dict[str, str]:
    """The names that examples/figures takes, with the pages of their tables."""
    spec = importlib.util.spec_from_file_location("figures_main", TOP / "examples/figures/__main__.py")
    assert spec is not None and spec.loader is not None
    module = importlib.util.module_from_spec(spec)
    spec.loader.exec_module(module)
    return dict(module.PAGES)


def figure_faults(program: str, name: str, page: str) -> list[str]:
    """The tables of a page that are made anew and don't stand there."""
    text = (TOP / page).read_text()
    done = call(program, f"python3 examples/figures {name}", TOP, seconds=1800)
    if done.returncode:
        return [f"python3 examples/figures {name} fails: {done.stderr[-300:]}"]
    return [f"{page} lacks the table\n{table}" for table in done.stdout.split("\n\n") if table.rstrip("\n") not in text]


def figure_fault(program: str, name: str, page: str) -> Optional[str]:
    """The tables of a page that are made anew and don't stand there, as one text."""
    return said(figure_faults(program, name, page))


def thread_faults(program: str) -> list[str]:
    """What of the table of runs on threads isn't in its page, numbers aside: its heads, and the names of its rows."""
    done = call(program, "python3 examples/figures threads --runs 1", TOP, seconds=1800)
    if done.returncode:
        return [f"python3 examples/figures threads fails: {done.stderr[-300:]}"]
    heads, _, *rows = done.stdout.splitlines()
    page = (TOP / "examples/README.md").read_text()
    begin = [heads, *(row[:row.index(" |", 2) + 2] for row in rows)]
    return [f"examples/README.md lacks a line that begins with {it}" for it in begin if f"\n{it}" not in page]


def said(found: list[str]) -> Optional[str]:
    """Faults as one text; None if there are none."""
    return "\n".join(found) or None


def checks(program: pathlib.Path) -> Iterator[Check]:
    """A check for each page, for the tables of some, and those of the map of crates, the walks and the list of pages."""
    for page in (name for name in files() if name.endswith(".md")):
        yield Check(page, partial(page_fault, str(program), TOP / page))
    for name, page in figure_pages().items():
        yield Check(f"figures/{name}", partial(figure_fault, str(program), name, page))
    yield Check("figures/threads", lambda: said(thread_faults(str(program))))
    yield Check("the map of crates", lambda: said(map_faults()))
    yield Check("the walk to a new operator", lambda: said(walk_faults()))
    yield Check("the list of pages", lambda: said(list_faults()))
    yield Check("tools/work", lambda: said(work_faults()))


def page_fault(program: str, page: pathlib.Path) -> Optional[str]:
    """What is wrong with a page."""
    return said(faults(program, page))


if __name__ == "__main__":
    from driver import only

    sys.exit(only("pages"))
