"""What the entries of a report have to be: each attempt once, in order, with its stamp, or excused.

These are the definitions of docs/theorem-journal.md and docs/theorem-stamps.md, each made so that it takes one pass.
"""
from __future__ import annotations

import bisect
from collections import Counter
from typing import Optional, Sequence

from .plane import Plane
from .report import Abandoned, Journal, Plan, Record, attempt_of


def is_accounted(plane: Plane, plan: Plan, journal: Journal) -> bool:
    """Whether each attempt of each tile is exactly one event or one abandoned attempt at its site, an event with its seed,
    and there are no other entries; and whether events and abandoned attempts are in order."""
    for record in journal.records:
        if attempt_of(plane, plan, record.tile, record.attempt) != (record.x, record.y, record.seed):
            return False
    for entry in journal.abandoned:
        found = attempt_of(plane, plan, entry.tile, entry.attempt)
        if found is None or found[:2] != (entry.x, entry.y):
            return False
    entries = Counter((it.tile, it.attempt) for it in journal.records)
    entries.update((it.tile, it.attempt) for it in journal.abandoned)
    # (all entries are of attempts, so if there are as many as attempts and none has two, each attempt has one)
    is_once = len(entries) == sum(map(len, plan)) and max(entries.values(), default=1) == 1
    return is_once and are_in_order(journal)


def are_in_order(journal: Journal) -> bool:
    """Whether events stand by stamp and then by tile, abandoned attempts by tile and then by attempt, and the stamps of
    each tile's events rise with their attempts."""
    by_stamp = [(it.stamp, it.tile) for it in journal.records]
    by_tile = [(it.tile, it.attempt) for it in journal.abandoned]
    attempts: dict[int, int] = {}
    for it in journal.records:
        if it.attempt <= attempts.get(it.tile, -1):
            return False
        attempts[it.tile] = it.attempt
    return is_rising(by_stamp) and is_rising(by_tile)


def is_rising(keys: Sequence[tuple[int, int]]) -> bool:
    """Whether each key is above the one before it."""
    return all(key < other for key, other in zip(keys, keys[1:]))


def first_not_stamped(plane: Plane, records: Sequence[Record]) -> Optional[int]:
    """The position of the first event whose stamp isn't 1 more than the greatest stamp among those before it that it is
    linked to: those of its tile, and those that needed an edge that it needs."""
    of_tile = [0] * plane.tiles
    of_edge = [0] * len(plane.edges)
    for position, it in enumerate(records):
        needs = plane.needs(it.x, it.y)
        greatest = of_tile[it.tile]
        for edge in needs:
            greatest = max(greatest, of_edge[edge])
        if it.stamp != greatest + 1:
            return position
        # (the stamp is above all that are linked, so it is the greatest of them from now on)
        of_tile[it.tile] = it.stamp
        for edge in needs:
            of_edge[edge] = it.stamp
    return None


class Excuses:
    """Judges abandoned attempts by the events of a journal that is accounted for."""

    def __init__(self, plane: Plane, plan: Plan, journal: Journal) -> None:
        self.plane = plane
        self.plan = plan
        self.events = {(it.tile, it.attempt) for it in journal.records}
        self.given_up_at = {(it.tile, it.attempt): it.edge for it in journal.abandoned}
        # for each edge and each tile at it, the tile's events there: their attempts, and their stamps. Both rise.
        self.on_edge: dict[tuple[int, int], tuple[list[int], list[int]]] = {}
        for it in journal.records:
            for edge in plane.needs(it.x, it.y):
                attempts, stamps = self.on_edge.setdefault((edge, it.tile), ([], []))
                attempts.append(it.attempt)
                stamps.append(it.stamp)

    def first_not_excused(self, abandoned: Sequence[Abandoned]) -> Optional[int]:
        """The position of the first abandoned attempt that isn't excused."""
        return next((position for position, it in enumerate(abandoned) if not self.is_excused(it)), None)

    def is_excused(self, it: Abandoned) -> bool:
        """Whether an abandoned attempt is excused by the attempt that it names."""
        holder = it.holder, it.holder_attempt
        return (
            self.needs(it.tile, it.attempt, it.edge)
            and self.plane.edges[it.edge] == (min(it.tile, it.holder), max(it.tile, it.holder))
            and self.needs(*holder, it.edge)
            # the holder came to hold the edge: it became an event, or was itself abandoned at a greater one
            and (holder in self.events or self.given_up_at.get(holder, -1) > it.edge)
            # its own tile's events before it come before the holder's from the named attempt on
            and self.comes_first(it.edge, (it.tile, it.attempt), holder)
            # the holder's up to the named attempt come before its own tile's after it
            and self.comes_first(it.edge, (it.holder, it.holder_attempt + 1), (it.tile, it.attempt + 1))
        )

    def needs(self, tile: int, attempt: int, edge: int) -> bool:
        """Whether a tile has an attempt of a number, and it needs an edge."""
        found = attempt_of(self.plane, self.plan, tile, attempt)
        return found is not None and edge in self.plane.needs(*found[:2])

    def comes_first(self, edge: int, one: tuple[int, int], other: tuple[int, int]) -> bool:
        """Whether the events on an edge of one tile before an attempt have smaller stamps than those of another tile from an
        attempt on. Stamps rise with attempts, so the last of the former and the first of the latter say it of all."""
        attempts, stamps = self.on_edge.get((edge, one[0]), ([], []))
        others, their_stamps = self.on_edge.get((edge, other[0]), ([], []))
        before = bisect.bisect_left(attempts, one[1])
        after = bisect.bisect_left(others, other[1])
        return before == 0 or after == len(others) or stamps[before - 1] < their_stamps[after]
