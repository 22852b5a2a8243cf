"""Drawn chains: a few legs of a drawn plane, with acts between them."""
from __future__ import annotations

from typing import Sequence

from chance import Chance
from feast_lab.recheck.limits import LAST_LEG, STATE_BITS
from planes import World, put_atoms, sizes

# So many attempts has a leg at most.
MOST_MADE = 60


def chance_of_act(chance: Chance) -> str:
    """The chance of an act, often at an end."""
    return chance.one_of(["0", "1", "0.5", "0.25", "0.1", "0.999999999", "0.000000001", f"0.{chance.between(1, 999)}"])


def area(chance: Chance, world: World) -> str:
    """A rectangle within the plane, often as large as it can be."""
    width, height = world.across * world.width, world.down * world.height
    x, y = (chance.one_of([0, 0, side - 1, chance.below(side)]) for side in (width, height))
    sides = [chance.one_of([1, left, chance.between(1, left)]) for left in (width - x, height - y)]
    return f"{x} {y} {sides[0]} {sides[1]}"


def act(chance: Chance, world: World, names: Sequence[str]) -> str:
    """An act on an area."""
    kind = chance.one_of(["clear", "put", "put", "erase", "flip", "flip"])
    where = area(chance, world)
    if kind == "put":
        state = f" {chance.near_end(STATE_BITS):018x}" if chance.happens(0.7) else ""
        return f"put {where} {chance.one_of(names)}{state}"
    return f"clear {where}" if kind == "clear" else f"{kind} {chance_of_act(chance)} {where}"


def legs_of(chance: Chance) -> tuple[int, int]:
    """The number of the first leg and how many there are."""
    count = chance.one_of([1, 2, 2, 3, 3, 4, 6])
    return chance.one_of([1, 1, 1, 2, 3, 10, LAST_LEG - count + 1, chance.between(1, 1000)]), count


def chain_text(chance: Chance, names: Sequence[str], tiles: int) -> str:
    """The text of a chain with atoms of some elements."""
    world = sizes(chance, tiles)
    put_atoms(chance, world, names)
    first, count = legs_of(chance)
    made = max(MOST_MADE // len(world.tiles_on()), 1)
    lines = ["chain 1", f"tiles {world.across} {world.down}", f"size {world.width} {world.height}"]
    lines += [f"off {tile}" for tile in world.off]
    lines += [f"seed {chance.near_end(64)}", f"attempts {chance.one_of([0, 1, made, made, made])}", f"legs {count}"]
    lines += [f"first {first}"] if first > 1 or chance.happens(0.2) else []
    journal = chance.one_of(["", "whole", "short", "short", "none"])
    lines += [f"journal {journal}"] if journal else []
    lines += [f"print {chance.one_of([1, 2, 3, 1000000])}"] if journal == "none" and chance.happens(0.7) else []
    lines += [f"every {chance.one_of([1, 1, 2, 3, first])} {act(chance, world, names)}" for _ in range(chance.below(3))]
    due = sorted(min(first + chance.below(count + 2), LAST_LEG) for _ in range(chance.below(5)))
    for leg in due:
        done = f"attempts {chance.below(made + 1)}" if chance.happens(0.25) else act(chance, world, names)
        lines.append(f"act {leg} {done}")
    lines += [f"atom {x} {y} {said}" for (x, y), said in world.atoms.items()]
    return "".join(f"{line}\n" for line in lines)
