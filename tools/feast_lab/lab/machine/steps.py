"""What each instruction of the stack machine does, as a step.

A step is a function without parameters that does what the instruction says and gives back the place of the next one;
below 0 the event is over.
"""
from collections.abc import Callable

from ..base.limits import MOST_CALLS, STATE_BITS
from .code import ElementCode
from .event import Event, Failed, Step
from .fields import FIELD_STEPS
from .numbers import BINARY, Binary, DividedByZero, fitting, shifted_up

OVER = -1
Unary = Callable[[int], int]


def step_of(event: Event, code: ElementCode, place: int) -> Step:
    """The step of an instruction."""
    it = code.instructions[place]
    if it.name in BINARY:
        return binary(event, place + 1, BINARY[it.name])
    if it.name == "Call":
        return call(event, place + 1, code, int(it.arguments[0]))
    return STEPS[it.name](event, place + 1, *it.arguments)


def push(event: Event, after: int, number: int) -> Step:
    """`PushNum`; with an atom as its number `PushAtom`."""
    put = event.operands.append

    def step() -> int:
        put(number)
        return after

    return step


def pop(event: Event, after: int) -> Step:
    """`Pop`."""
    def step() -> int:
        event.operands.pop()
        return after

    return step


def dup(event: Event, after: int) -> Step:
    """`Dup`."""
    operands = event.operands

    def step() -> int:
        operands.append(operands[-1])
        return after

    return step


def load_local(event: Event, after: int, slot: int) -> Step:
    """`LoadLocal`."""
    put = event.operands.append

    def step() -> int:
        put(event.slots[slot])
        return after

    return step


def store_local(event: Event, after: int, slot: int) -> Step:
    """`StoreLocal`."""
    take = event.operands.pop

    def step() -> int:
        event.slots[slot] = take()
        return after

    return step


def unary(event: Event, after: int, operate: Unary) -> Step:
    """An operator on the topmost operand."""
    operands = event.operands

    def step() -> int:
        operands[-1] = operate(operands[-1])
        return after

    return step


def is_kind(kind: int) -> Unary:
    """The operator that says whether an atom has a type."""
    return lambda atom: int(atom >> STATE_BITS == kind)


def flipped(width: int) -> Unary:
    """The operator that gives so many low bits of the complement."""
    mask = (1 << width) - 1
    return lambda number: ~number & mask


def negated(width: int) -> Unary:
    """The operator that turns the sign, in `Int` of so many bits."""
    fit = fitting("Int", width)
    return lambda number: fit(-number)


def binary(event: Event, after: int, operate: Binary) -> Step:
    """An operator on the two topmost operands."""
    operands = event.operands

    def step() -> int:
        other = operands.pop()
        try:
            operands[-1] = operate(operands[-1], other)
        except DividedByZero:
            raise Failed(3) from None
        return after

    return step


def load_self(event: Event, after: int) -> Step:
    """`LoadSelf`."""
    def step() -> int:
        event.operands.append(event.own())
        return after

    return step


def load_site(event: Event, after: int) -> Step:
    """`LoadSite`."""
    operands, cells, cell_of = event.operands, event.cells, event.cell_of

    def step() -> int:
        operands[-1] = cells[cell_of(operands[-1])]
        return after

    return step


def store_site(event: Event, after: int) -> Step:
    """`StoreSite`."""
    operands = event.operands

    def step() -> int:
        atom, site = operands.pop(), operands.pop()
        cell = event.cell_of(site)
        is_live = cell != event.nowhere
        event.note("store", site, is_live, atom)
        if is_live:
            event.write(cell, atom)
        return after

    return step


def swap(event: Event, after: int) -> Step:
    """`Swap`."""
    operands, cells = event.operands, event.cells

    def step() -> int:
        other, one = operands.pop(), operands.pop()
        first, second = event.cell_of(one), event.cell_of(other)
        are_live = event.nowhere not in (first, second)
        event.note("swap", one, other, are_live)
        if are_live:
            before = cells[first]
            event.write(first, cells[second])
            event.write(second, before)
        return after

    return step


def is_live(event: Event, after: int) -> Step:
    """`IsLive`."""
    operands = event.operands

    def step() -> int:
        operands[-1] = int(event.cell_of(operands[-1]) != event.nowhere)
        return after

    return step


def is_empty(event: Event, after: int) -> Step:
    """`IsEmpty`."""
    operands, cells = event.operands, event.cells

    def step() -> int:
        operands[-1] = int(cells[event.cell_of(operands[-1])] >> STATE_BITS == 0)
        return after

    return step


def random_create(event: Event, after: int) -> Step:
    """`RandCreate`."""
    return unary(event, after, lambda bound: event.random(bound, False))


def random_one_in(event: Event, after: int) -> Step:
    """`RandOneIn`."""
    return unary(event, after, lambda bound: int(event.random(bound, True) == 0))


def jump(_event: Event, _after: int, place: int) -> Step:
    """`Jump`."""
    return lambda: place


def jump_false(event: Event, after: int, place: int) -> Step:
    """`JumpFalse`."""
    take = event.operands.pop

    def step() -> int:
        return after if take() else place

    return step


def turn(event: Event, after: int) -> Step:
    """`Turn`."""
    def step() -> int:
        event.take_turn()
        return after

    return step


def call(event: Event, after: int, code: ElementCode, number: int) -> Step:
    """`Call`."""
    function = code.functions[number]
    operands, first, parameters = event.operands, function.first, function.parameters
    others = [0] * (function.slots - parameters)

    def step() -> int:
        event.take_turn()
        if len(event.waiting) == MOST_CALLS:
            raise Failed(2)
        event.waiting.append((after, event.slots, event.base))
        event.note("call", number)
        start = len(operands) - parameters
        event.slots = operands[start:] + others
        del operands[start:]
        event.base = start
        return first

    return step


def end(event: Event, _after: int) -> Step:
    """`ReturnVoid`: goes on with the function that waits last, if one does."""
    def step() -> int:
        del event.operands[event.base:]
        if not event.waiting:
            return OVER
        place, event.slots, event.base = event.waiting.pop()
        return place

    return step


def end_with(event: Event, after: int) -> Step:
    """`Return`."""
    operands, close = event.operands, end(event, after)

    def step() -> int:
        result = operands.pop()
        place = close()
        operands.append(result)
        return place

    return step


STEPS: dict[str, Callable[..., Step]] = {
    **FIELD_STEPS,
    "PushNum": push,
    "PushAtom": lambda event, after, kind: push(event, after, kind << STATE_BITS),
    "Pop": pop, "Dup": dup, "LoadLocal": load_local, "StoreLocal": store_local,
    "LoadSelf": load_self, "LoadSite": load_site, "StoreSite": store_site, "Swap": swap,
    "IsLive": is_live, "IsEmpty": is_empty, "RandCreate": random_create, "RandOneIn": random_one_in,
    "IsKind": lambda event, after, kind: unary(event, after, is_kind(kind)),
    "NegI": lambda event, after: unary(event, after, negated(32)),
    "NegL": lambda event, after: unary(event, after, negated(64)),
    "NotW": lambda event, after, width: unary(event, after, flipped(width)),
    "NotB": lambda event, after: unary(event, after, lambda number: int(number == 0)),
    "Fit": lambda event, after, kind, width: unary(event, after, fitting(kind, width)),
    "Shl": lambda event, after, width: binary(event, after, shifted_up(width)),
    "Jump": jump, "JumpFalse": jump_false, "Turn": turn, "Return": end_with, "ReturnVoid": end,
}
