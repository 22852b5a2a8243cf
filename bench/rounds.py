#!/usr/bin/env python3
"""Tries the must-fail edits of a crate in rounds, several in one check: rounds.py CRATE [--whole] [--only].

A round is a copy of the crate with edits of functions none of which calls another. It counts for an edit if the
function that the edit changes is not proved there and a goal of its own is open: a function is proved against the
contracts of what it calls, so no edit of another body can open it. Every other edit is tried alone. The last line
says how many were refused, and the status is 0 if all were, and as many as there are files.
"""
from __future__ import annotations

import argparse
import re
import resource
import shutil
import subprocess
import sys
import tempfile
from dataclasses import dataclass, field
from pathlib import Path

TOP = Path(__file__).resolve().parent.parent
sys.path[:0] = [str(TOP / part) for part in ("tools", "tests", "bench")]
sys.dont_write_bytecode = True
from children import called, end_in_order  # noqa: E402
from edit_table import Crate, Node  # noqa: E402
from edits import edits_of, pairs  # noqa: E402
from first_call.crates import listed  # noqa: E402

KIT = Path(shutil.which("rattle") or "/opt/rattle/bin/rattle").resolve().parent.parent
PARTS = ("src", "specs", "proofs")
# an error that says that a proof file names what an edit took away, or that a callee's theorem is missing
NAMES = re.compile(r"has no field|is not in scope|has no `|was not admitted|it calls|ran out of|outgrew|gave up")
OPEN = re.compile(r"(?m)^(?:note: )?(?:\./)?(?P<file>(?:proofs|src)/\S+?):(?P<line>\d+):\d+: "
                  r"(?P<said>(?:error: `(?P<goal>[^`]*)`|it is not proved that\b).*)$")
RING = re.compile(r"#\[cycle\((\w+)\)\]\s*(?:#\[[^\n]*\s*)*(?:pub(?:\([^)]*\))?\s+)?$")


class Fault(Exception):
    """Why edits can't be tried, or can't be made together."""


@dataclass(frozen=True)
class Edit:
    """An edit: its name, its changes as file, old and new text, and the functions that it changes."""

    name: str
    changes: tuple[tuple[str, str, str], ...]
    nodes: frozenset[Node]


@dataclass
class Told:
    """What the rounds told of an edit, and in which check."""

    verdict: str
    check: str
    goal: str = ""


@dataclass
class Checks:
    """The checks of a crate: its name, their words, the folder that they begin with, and the seconds that each took."""

    crate: str
    words: list[str]
    seed: Path | None
    took: list[float] = field(default_factory=list)

    def check(self, name: str, texts: dict[str, str], more: list[str]) -> tuple[int, str]:
        """Checks a copy of the crate with these texts in place of its own, over a copy of the seed."""
        with tempfile.TemporaryDirectory(prefix="rounds-") as room:
            folder = Path(room)
            for part in PARTS:
                if (TOP / "crates" / self.crate / part).is_dir():
                    shutil.copytree(TOP / "crates" / self.crate / part, folder / part)
            for file, text in texts.items():
                (folder / file).write_text(text)
            words = [str(KIT / "bin/rattle"), "check", *self.words, *more]
            if self.seed:
                shutil.copytree(self.seed, folder / "kept", symlinks=True)
                words += ["--incremental", "kept"]
            before = spent()
            done = called(words, folder, err=subprocess.STDOUT)
        self.took.append(spent() - before)
        print(f"{self.took[-1]:7.1f} s {self.crate} {name}", file=sys.stderr, flush=True)
        return done.returncode, done.stdout.decode(errors="replace")


def spent() -> float:
    """The seconds for which processes had a processor that this one has waited for."""
    used = resource.getrusage(resource.RUSAGE_CHILDREN)
    return used.ru_utime + used.ru_stime


def words_of(crate: str) -> list[str]:
    """The words of a check of a crate, over the libraries as they were built last. Fault if there is no such crate, or one
    of the libraries isn't built."""
    used, every = listed(TOP), [crate]
    if crate not in used:
        raise Fault(f"crates.txt has no crate {crate}")
    for name in every:
        every += [it for it in used[name] if it in used and it not in every]
    rlib = {name: TOP / "crates" / name / "out/rlib" for name in used}
    if missing := [name for name in every[1:] if not (rlib[name] / f"{name}.rlib").is_file()]:
        raise Fault(f"{crate} is checked over libraries that aren't built: {', '.join(missing)}; check {crate} first")
    main = "src/main.rt" if (TOP / "crates" / crate / "src/main.rt").is_file() else "src/lib.rt"
    words = ["--crate-name", crate, main, "-L", f"dependency={KIT}/rlibs"]
    for name in ["std", *used[crate]]:
        words += ["--extern", f"{name}={rlib[name] / name if name in used else KIT / 'rlibs' / name}.rlib"]
    for name in every[1:]:
        words += ["-L", f"dependency={rlib[name]}"]
    logic = ["--antt-project", f"{KIT}/rattle/logic/antt-project.json", "--logic-built", f"{KIT}/logic_built"]
    return [*words, *logic, "--jobs", "1"]


def kept_by(crate: str) -> Path:
    """The folder of what the last check of a crate kept. Fault if there is none."""
    folder = TOP / "crates" / crate / "out/incremental"
    if not folder.is_dir():
        raise Fault(f"no check of {crate} has kept anything: check it first, or begin from nothing with --whole")
    return folder


def path_of(node: Node) -> str:
    """A function's path below its crate: its module, its type with a trait, and its name."""
    module = [] if node.file in ("lib.rt", "main.rt") else [node.file.removesuffix(".rt")]
    owner = [f"{node.owner.name}{node.owner.trait}"] if node.owner.name else []
    return "::".join([*module, *owner, node.name])


def changed(crate: Crate, file: str, old: str) -> set[Node]:
    """The function in whose body a text of a file stands; none if it stands in no body, but in a clause, say."""
    found = crate.changed(file, old)
    at = crate.files[found[0].file].text.find(old) + len(old) - len(old.lstrip()) if found else 0
    return {node for node in found if f"src/{node.file}" == file and node.end - len(node.body) < at <= node.end}


def read_edits(crate: Crate) -> list[Edit]:
    """The edits of a crate, with the functions in whose bodies each changes something; none if one is in no body."""
    found = []
    for path in edits_of(crate.name):
        changes = tuple(pairs(path))
        nodes = [changed(crate, file, old) for file, old, _ in changes]
        found.append(Edit(path.stem, changes, frozenset(set[Node]().union(*nodes) if all(nodes) else set())))
    return found


def edited(crate: str, edits: list[Edit]) -> dict[str, str]:
    """The texts of the files that edits change."""
    texts: dict[str, str] = {}
    for edit in edits:
        for file, old, new in edit.changes:
            text = texts.get(file) or (TOP / "crates" / crate / file).read_text()
            if text.count(old) != 1:
                raise Fault(f"{edit.name}: '{old}' stands {text.count(old)} times in {file}")
            texts[file] = text.replace(old, new)
    return texts


def above(crate: Crate, nodes: frozenset[Node]) -> set[Node]:
    """Functions and all that call them, by name."""
    found, level = set(nodes), set(nodes)
    while level:
        level = {it for node in level for it in crate.callers[node]} - found
        found |= level
    return found


def in_rounds(crate: Crate, edits: list[Edit]) -> list[list[Edit]]:
    """The edits in rounds: those of a round change one function each, and none that calls another's."""
    rounds: list[list[Edit]] = []
    for edit in edits:
        for others in rounds:
            apart = all(not edit.nodes & above(crate, it.nodes) and not it.nodes & above(crate, edit.nodes) for it in others)
            if len(edit.nodes) == 1 and all(len(it.nodes) == 1 for it in others) and apart:
                others.append(edit)
                break
        else:
            rounds.append([edit])
    return rounds


def open_goal(crate: Crate, said: str, node: Node) -> str:
    """The first open goal of a function that is told as not proved; nothing if there is none of its own."""
    path = path_of(node)
    line = re.search(rf"(?m)^fn {crate.name}::{path}: (.*)$", said)
    if not line or not line[1].startswith(("not proved", "no proof")):
        return ""
    text = crate.files[node.file].text
    # a note stands at the function's first line, and its attributes may be in front of that
    first, last = text.count("\n", 0, node.start) + 1, text.count("\n", 0, node.end) + 1
    ring = RING.search(text, 0, node.start)
    folder = path.replace("::", "/") if ring is None else f"{path.rpartition('::')[0].replace('::', '/')}/+{ring[1]}"
    for hit in OPEN.finditer(said):
        is_own = hit["file"] == f"src/{node.file}" and first <= int(hit["line"]) <= last
        if hit["file"].startswith(f"proofs/{folder}/"):
            is_own = ring is None or (hit["goal"] or "").startswith(f"{node.name}-")
        if is_own and not NAMES.search(hit["said"]):
            return f"{hit['file']}:{hit['line']}: {hit['said']}"
    return ""


def alone(checks: Checks, edit: Edit) -> Told:
    """What a check with one edit comes to."""
    try:
        status, said = checks.check(edit.name, edited(checks.crate, [edit]), [])
    except Fault as fault:
        return Told("BAD EDIT", "alone", str(fault))
    last = said.rstrip("\n").rpartition("\n")[2]
    goal = next((hit[0] for hit in OPEN.finditer(said)), "")
    if status == 1 and last.startswith("logic=not-proved"):
        return Told("refused", "alone", goal)
    return Told({0: "NOT REFUSED", 1: "BAD EDIT"}.get(status, "NOT TRIED"), "alone", goal or last)


def in_round(crate: Crate, checks: Checks, edits: list[Edit], name: str, by_only: bool) -> dict[str, str]:
    """The open goals that a check with several edits tells, by the edits; none if they can't be made together."""
    nodes = {edit.name: next(iter(edit.nodes)) for edit in edits}
    only = [word for node in nodes.values() for word in ("--only", path_of(node))] if by_only else []
    try:
        _, said = checks.check(name, edited(crate.name, edits), only)
    except Fault:
        return {}
    return {name: goal for name, node in nodes.items() if (goal := open_goal(crate, said, node))}


def tried(crate: Crate, checks: Checks, edits: list[Edit], by_only: bool) -> dict[str, Told]:
    """What each edit comes to: in its round if its function has an open goal there, and otherwise alone."""
    found: dict[str, Told] = {}
    for number, together in enumerate(in_rounds(crate, edits), 1):
        name = f"round {number}, of {len(together)}"
        goals = in_round(crate, checks, together, name, by_only) if len(together) > 1 else {}
        for edit in together:
            goal = goals.get(edit.name)
            found[edit.name] = Told("refused", name, goal) if goal else alone(checks, edit)
    return found


def main() -> int:
    """The command."""
    parser = argparse.ArgumentParser(description=__doc__, formatter_class=argparse.RawDescriptionHelpFormatter)
    parser.add_argument("crate", help="a crate whose check and libraries are done")
    parser.add_argument("--whole", action="store_true", help="from nothing, and not over what the last check kept")
    parser.add_argument("--only", action="store_true", help="check only the edited functions and what they call")
    given = parser.parse_args()
    end_in_order()
    try:
        checks = Checks(given.crate, words_of(given.crate), None if given.whole else kept_by(given.crate))
    except Fault as fault:
        parser.error(str(fault))
    crate = Crate(given.crate)
    if checks.check("as it stands", {}, [])[0] != 0:
        sys.exit(f"{given.crate} is not proved as it stands")
    found = tried(crate, checks, read_edits(crate), given.only)
    for name, told in found.items():
        print(f"{given.crate}/{name}: {told.verdict} ({told.check}) {told.goal[:150]}")
    refused, files = [it.verdict for it in found.values()].count("refused"), len(edits_of(given.crate))
    print(f"{given.crate}: {refused} of {files} edits refused, {len(checks.took)} checks, {sum(checks.took):.1f} s")
    return 0 if refused == len(found) == files else 1


if __name__ == "__main__":
    sys.exit(main())
