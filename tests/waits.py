#!/usr/bin/env python3
"""Tests that nothing waits at an edge, as far as one can see it in the code: waits.py

No contract counts the looks at a word or the turns of a loop, and a test could see them only by the clock. So this
looks at the code of crates/*/src, tests and benches apart, for three things, and at these words alone.

What lets time go by (`spin_loop`, `yield_now`, `sleep` and `park`) stands only where a worker pauses or waits for
others between two attempts, and where gates rest: in the functions of PAUSES, and each of these has what it is said to
have (so that a pause also yields the processor, which no test can see). What takes an edge, uses it or gives it back
makes one step on its words and has no loop: each function of STEPS. And the files in which a worker makes an attempt,
and in which a thread prints its part of a report, have the loops of LOOPS and no others, each with this very
condition; a call that goes through a list or a function that calls itself counts as a loop. What those files call
elsewhere isn't looked at, unless it is a function of STEPS.
"""
from __future__ import annotations

import argparse
import pathlib
import re
import sys
from typing import Iterator

sys.dont_write_bytecode = True
from rust_code import TOP, Code, line_of, shown, sources  # noqa: E402

# What lets time go by.
PAUSE = re.compile(r"\b(spin_loop|yield_now|sleep\w*|park\w*)\s*\(")
# Where that stands: for a file and the functions of a name, what they have.
PAUSES = {
    "feast_base/src/gate.rt": {"rest": {"yield_now", "sleep"}},
    "tile_threads/src/backoff.rt": {"after_attempt": {"spin_loop", "yield_now"}},
    "tile_threads/src/stride.rt": {"wait": {"yield_now"}},
}
# The steps on an edge's words, and the calls that come to them.
STEP = re.compile(
    r"(?:\.\s*|\b)(compare_exchange\w*|load|store|swap|fetch_\w+|note_access|try_take|read|write|give|give_back)"
    r"\s*(?:::<[\w<>]+>)?\s*\("
)
# For a file and a function, the one step that it makes.
STEPS = {
    "edge_lock/src/edge.rt": {"try_take": "compare_exchange", "read": "note_access", "write": "note_access", "give": "store"},
    "edge_lock/src/edge_steps.rt": {"note_access": "load"},
    "edge_lock/src/shared_end.rt": {
        "try_take": "try_take",
        "read": "read",
        "write": "write",
        "give": "give",
        "give_back": "give",
    },
    "tile_core/src/state.rt": {"lock": "try_take", "give": "give", "back": "give_back"},
}
LOOP = re.compile(r"\b(for|while|loop)\b")
# What goes on for a while: a loop with what stands before its body, a call that goes through a list, and the mark of a
# function that calls itself.
THROUGH = "(?:try_)?(?:for_each|fold)|any|all|find\\w*|r?position|count|last|nth|sum|map_while|skip_while|take_while"
ROUND = re.compile(rf"\b(?:for|while|loop)\b[^{{]*|\.\s*(?:{THROUGH})\s*\(|#\[cycle\(\w+\)\]")
# For a file all that goes on for a while in it, by the function in which or before which that stands.
LOOPS: dict[str, dict[str, list[str]]] = {
    "tile_core/src/attempt.rt": {
        "take_edges": ["while self.phase == Phase::Lock"],
        "give_edges": ["while self.phase == Phase::Give"],
    },
    "tile_core/src/state.rt": {},
    "tile_core/src/tile.rt": {"attempt_whole": ["while !phase.is_over()"]},
    "tile_core/src/clocks.rt": {
        "read_clocks": ["for i in 0..needs.len()"],
        "write_clocks": ["for i in 0..needs.len()"],
    },
    "tile_threads/src/worker.rt": {
        "work": ["while is_drawing(&self.tile)"],
        "run_some": ["#[cycle(halves)]"],
        "run_both": ["#[cycle(halves)]"],
    },
    "report_text/src/part.rt": {
        "print_lines": ["while out.capacity() - out.len() >= LONGEST_RECORD"],
        "put_walk": ["while let Some(entry) = walk.next()"],
    },
}


def pauses(path: pathlib.Path, code: Code) -> Iterator[str]:
    """The places of a file where time goes by that isn't a worker's pause, and the pauses that lack something."""
    functions = list(code.functions())
    wanted = PAUSES.get(shown(path), {})
    found: dict[str, set[str]] = {name: set() for name in wanted}
    for pause in PAUSE.finditer(code.text):
        names = {it.name for it in functions if it.body < pause.start() < it.end} & set(wanted)
        for name in names:
            found[name].add(pause[1])
        if not names:
            yield f"{shown(path)}:{line_of(code.text, pause.start())}: `{pause[1]}` where nothing may wait"
    for name, has in found.items():
        if has != wanted[name]:
            yield f"{shown(path)}: `{name}` has {sorted(has)}, not {sorted(wanted[name])}"


def steps(path: pathlib.Path, code: Code) -> Iterator[str]:
    """The functions of a file that don't make their one step, or have a loop."""
    wanted = STEPS.get(shown(path), {})
    found = [it for it in code.functions() if it.name in wanted]
    for name in sorted(set(wanted) - {it.name for it in found}):
        yield f"{shown(path)}: there is no `{name}`"
    for function in found:
        body = code.text[function.body : function.end]
        made = STEP.findall(body)
        if made != [wanted[function.name]]:
            yield f"{shown(path)}: `{function.name}` makes the steps {made}, not one `{wanted[function.name]}`"
        if LOOP.search(body):
            yield f"{shown(path)}: `{function.name}` has a loop"


def loops(path: pathlib.Path, code: Code) -> Iterator[str]:
    """What goes on for a while in a file of LOOPS and isn't named there, and what is named and isn't there."""
    wanted = LOOPS.get(shown(path))
    if wanted is None:
        return
    functions = list(code.functions())
    found: dict[str, list[str]] = {name: [] for name in wanted}
    for hit in ROUND.finditer(code.text):
        if re.match(r"for\s+\w+(?:<[^{]*>)?\s*$", hit[0]):
            continue  # of an `impl .. for ..`
        inside = [it.name for it in functions if it.body < hit.start() < it.end]
        behind = [it.name for it in functions if it.start > hit.start()]
        name = inside[-1] if inside else behind[0] if behind else ""
        found.setdefault(name, []).append(" ".join(hit[0].split()))
    for name, has in found.items():
        if has != wanted.get(name, []):
            yield f"{shown(path)}: `{name}` goes on for a while by {has}, not by {wanted.get(name, [])}"


def main() -> int:
    """The command."""
    argparse.ArgumentParser(description="Tests that nothing waits at an edge, as far as one can see it in the code.").parse_args()
    files = [path for path in sources("src", ".rt") if not shown(path).startswith(("cases_", "bench_"))]
    named = [*PAUSES, *STEPS, *LOOPS]
    faults = [f"{name}: there is no such file" for name in named if not (TOP / "crates" / name).is_file()]
    for path in files:
        code = Code(path.read_text())
        faults += [*pauses(path, code), *steps(path, code), *loops(path, code)]
    checked = f"{sum(map(len, STEPS.values()))} functions that make one step, {len(LOOPS)} files whose loops are named"
    print("\n".join([*faults, f"{len(files)} files, {checked}, {len(faults)} faults in what waits"]))
    return 1 if faults else 0


if __name__ == "__main__":
    sys.exit(main())
