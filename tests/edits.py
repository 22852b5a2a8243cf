#!/usr/bin/env python3
"""Tests that edits that the check must refuse show what public calls promise, and that each can be applied:
edits.py [--table] [NAME..].

The edits are crates/CRATE/must-fail/*.edit. An edit can be applied if its files are there, each text that it
replaces stands in its file once, and it changes something. Nothing is proved here: the gate tries the edits, and
`rt must-fail CRATE` those of one crate.

A crate has at least so many, and each public call with a clause of what it gives is shown by one: the edit changes
the call itself or what it reaches in at most two calls. A call that only gives fields, or puts its arguments into
fields, needs none; further ones that need none, or are shown from further below, are listed here by name. A table of
public calls with the edits that show them is printed first (with `--table` it alone), by what `edit_table.py` reads.
"""
from __future__ import annotations

import functools
import pathlib
import sys
from functools import partial
from typing import Iterator, Optional

sys.dont_write_bytecode = True
from checks import Check  # noqa: E402
from edit_table import Crate, Row, rows  # noqa: E402

TOP = pathlib.Path(__file__).resolve().parent.parent
PARTS = ("src", "specs", "proofs")
# how many edits a crate has at least
FEWEST = 5
# crates that have fewer: one or a few short calls, and those in which no body can be wrong, since they are
# definitions and lemmas, their functions do nothing, or what they have is a `main`
FEWER = {
    "datum": 2,
    "plane_grid": 4,
    "event_film": 4,
    "call_form": 1,
    "feast_run": 4,
    "list_laws": 0,
    "ulam_meaning": 0,
    "type_rules": 0,
    "fault_places": 0,
    "fault_laws": 0,
    "source_laws": 0,
    "accepted_laws": 0,
    "pack_laws": 0,
    "chain_run": 0,
    "feast": 0,
    "bench_parts": 0,
}
# how the names of crates begin that have only tests
CASES = "cases_"
# how many calls below a public call an edit may be at most
FAR = 2
# public calls that only begin a long way down, and how many calls below an edit of them may be
FURTHER = {
    "border_cache": {"Cache::refresh": 3},
    "chain_text": {"read": 4},
    "code_file": {"write": 7},
    "code_gen": {"build": 3},
    "event_journal": {"Journal::walk": 5},
    "text_lines": {"push_line": 3},
    "tile_map": {"Map::new": 4, "Map::with_off": 4},
    "ulam_heirs": {"heads": 4},
    "ulam_lex": {"lex": 4},
    "ulam_names": {"resolve": 5},
    "ulam_parse": {"parse": 3},
    "ulam_types": {"check": 9},
    "world_text": {"name": 3},
}
# public calls that no edit has to show, by the reason
SPARED = {
    "it gives a field, or puts its arguments, or copies of them, into fields": {
        "code_gen": "make::seq make::pick make::only make::test_loop make::ever",
        "draw_stream": "AttemptPlan::seeded",
        "event_film": "Film::new",
        "event_machine": "CountLedger::new Steps::new",
        "feast_base": "FileShelf::new MemShelf::new MemSink::stopping Name::new Source::new StdSink::new",
        "report_judge": "ReadReport::journal",
        "tile_map": "Map::plane",
        "ulam_tree": "typed_build::group",
        "window_sites": "Window::empty",
        "world_text": "PartialWorld::new PartialWorld::into_raw",
    },
    "it gives an entry of a list that it has, or their number": {
        "atom_layout": "Layout::width",
        "border_cache": "Cache::cell",
        "cell_grid": "Grid::is_live Grid::get",
        "stack_code": "Code::len",
        "tile_map": "Map::edges Map::ends Map::shared Needs::len Needs::edge",
        "window_sites": "offset Window::get",
        "world_text": "type_of",
    },
    "it hands on to calls that are shown, or to a library's": {
        "border_cache": "Cache::window",
        "cell_grid": "Grid::window_at",
        "code_file": "CodeSet::actor",
        "code_gen": "make::then_instr",
        "draw_stream": "EventDraws::new",
        "edge_lock": "Map::edges Map::ends Map::sites PlainBoard::give_back SharedEnd::give_back",
        "element_set": "ElementSet::actor",
        "feast_base": "MemSink::new text::push text::push_number",
        "feast_run": "feast_in_memory",
        "report_judge": "ReadReport::grid_part",
        "serial_order": "PlainBoard::word ClosedEdges::word",
        "stepped_world": "run_settled",
        "text_lines": "take_number one_number one_seed two_numbers",
        "tile_core": "Tile::into_log",
    },
    "no edit shows it yet": {
        "atom_layout": "Layout::bits",
        "bit_field": "Atom::new",
        "border_cache": "Cache::new",
        "cell_grid": "Grid::new",
        "edge_lock": "Closed::word Edge::close PlainBoard::new PlainBoard::word SharedEnd::read",
        "event_journal": "Journal::abandoned_len",
        "event_machine": "CountLedger::note Steps::tick",
        "feast_base": "StdSink::put text::push_hex is_word_byte is_type_name",
        "feast_run": "Status::code",
        "sat_math": "add sub mul and or xor shr",
        "text_lines": "first_field seed_digits state_digits seed",
        "tile_core": "Phase::is_over Tile::in_hand",
        "tile_map": "Map::tiles Map::width Map::height Map::tile_width Map::tile_height Map::tile_sites Map::is_on "
                    "Map::owner Area::place_within",
        "ulam_lex": "is_keyword",
        "world_runs": "fresh_tiles",
        "world_text": "PartialWorld::width PartialWorld::height RawWorld::tiles",
    },
}


class Fault(Exception):
    """Why an edit can't be applied."""


def pairs(edit: pathlib.Path) -> Iterator[tuple[str, str, str]]:
    """The changes of an edit: the file, the text that is replaced, and what it is replaced by."""
    file = old = ""
    for line in edit.read_text().splitlines():
        word, _, text = line.partition(":")
        text = text.removeprefix(" ")
        if word == "file":
            file = text.strip()
        elif word == "old":
            old = text
        elif word == "new":
            if not file or not old:
                raise Fault("a 'new:' line stands before any 'file:' or 'old:' line")
            yield file, old, text
            old = ""


def apply(edit: pathlib.Path, crate: pathlib.Path) -> None:
    """Applies an edit to the texts of a crate, in memory."""
    texts: dict[str, str] = {}
    for file, old, new in pairs(edit):
        path = crate / file
        if pathlib.PurePath(file).parts[0] not in PARTS or not path.is_file():
            raise Fault(f"there is no file {file}")
        text = texts[file] if file in texts else path.read_text()
        if text.count(old) != 1:
            raise Fault(f"'{old}' stands {text.count(old)} times in {file}, and not once")
        texts[file] = text.replace(old, new)
    if all(text == (crate / file).read_text() for file, text in texts.items()):
        raise Fault("it changes nothing")


def edits_of(crate: str) -> list[pathlib.Path]:
    """The edits of a crate."""
    return sorted((TOP / "crates" / crate / "must-fail").glob("*.edit"))


def fewest(crate: str) -> int:
    """How many edits a crate has at least."""
    return 0 if crate.startswith(CASES) else FEWER.get(crate, FEWEST)


def too_few(crate: str) -> Optional[str]:
    """Whether a crate has too few edits."""
    found, wanted = len(edits_of(crate)), fewest(crate)
    return f"{found} edits, and {wanted} are wanted" if found < wanted else None


def why_not(edit: pathlib.Path) -> Optional[str]:
    """Why an edit can't be applied."""
    try:
        apply(edit, edit.parent.parent)
    except Fault as fault:
        return str(fault)
    return None


@functools.cache
def rows_of(crate: str) -> list[Row]:
    """The public calls of a crate, with the edits that show them."""
    return rows(Crate(crate), {edit.stem: list(texts(edit)) for edit in edits_of(crate)})


def texts(edit: pathlib.Path) -> Iterator[tuple[str, str]]:
    """The files of an edit with the texts that it replaces; nothing if it can't be read."""
    try:
        yield from [(file, old) for file, old, _ in pairs(edit)]
    except Fault:
        return


@functools.cache
def spared(crate: str) -> dict[str, str]:
    """The public calls of a crate that no edit has to show, each with the reason."""
    return {call: reason for reason, crates in SPARED.items() for call in crates.get(crate, "").split()}


def is_shown(row: Row) -> bool:
    """Whether an edit shows a public call that isn't too far below."""
    nearest = row.nearest()
    return nearest is not None and nearest <= FURTHER.get(row.crate, {}).get(row.call, FAR)


def not_shown(row: Row) -> Optional[str]:
    """Why a public call isn't shown, if it is to be."""
    if is_shown(row) or row.call in spared(row.crate):
        return None
    far = FURTHER.get(row.crate, {}).get(row.call, FAR)
    return f"no edit shows it within {far} calls" + (f", and the nearest is {row.nearest()} below" if row.edits else "")


def listed_in_vain(crate: str) -> Optional[str]:
    """Which calls of a crate are listed here, and needn't be."""
    by_name = {row.call: row for row in rows_of(crate) if row.is_wanted}
    lost = [call for call in [*spared(crate), *FURTHER.get(crate, {})] if call not in by_name]
    shown = [call for call in spared(crate) if call in by_name and is_shown(by_name[call])]
    near = [call for call, far in FURTHER.get(crate, {}).items() if call in by_name and by_name[call].nearest() != far]
    said = [("no public call that is to be shown", lost), ("shown, so it is not spared", shown),
            ("its nearest edit is not as far below as is said", near)]
    return "; ".join(f"{', '.join(calls)}: {why}" for why, calls in said if calls) or None


def table(crates: list[str]) -> Iterator[str]:
    """The lines of the table: each public call with the edits that show it, nearest first, each with how many calls
    it is below; or the reason why none has to."""
    for crate in crates:
        for row in rows_of(crate):
            edits = ", ".join(f"{edit} ({far})" if far else edit for far, edit in row.edits)
            yield f"{crate:16} {row.call:24} {edits or '- ' + spared(crate).get(row.call, '')}"


def crates_with(names: list[str]) -> list[str]:
    """The crates, or those that names of checks begin with."""
    found = sorted(folder.name for folder in (TOP / "crates").iterdir() if not folder.name.startswith(CASES))
    return [crate for crate in found if not names or crate in {name.partition("/")[0] for name in names}]


def checks(_: object) -> Iterator[Check]:
    """Checks for each crate: whether it has enough edits, each of them, and whether each public call is shown."""
    for folder in sorted((TOP / "crates").iterdir()):
        yield Check(folder.name, partial(too_few, folder.name))
        for edit in edits_of(folder.name):
            yield Check(f"{folder.name}/{edit.stem}", partial(why_not, edit))
        if folder.name.startswith(CASES):
            continue
        yield Check(f"{folder.name}/lists", partial(listed_in_vain, folder.name))
        for row in rows_of(folder.name):
            if row.is_wanted:
                yield Check(f"{folder.name}/{row.call}", partial(not_shown, row))


if __name__ == "__main__":
    from driver import only

    is_table = "--table" in sys.argv
    sys.argv = [word for word in sys.argv if word != "--table"]
    if not any(word.startswith("-") for word in sys.argv[1:]):
        print(*table(crates_with(sys.argv[1:])), sep="\n")
    sys.exit(0 if is_table else only("edits"))
