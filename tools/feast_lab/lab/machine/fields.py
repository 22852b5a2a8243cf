"""What the instructions of the stack machine do that read and write members: of the acting atom, and of one in a slot."""
from collections.abc import Callable

from ..base.limits import STATE_BITS
from .event import Event, Failed, Step
from .numbers import Field


def load_field(event: Event, after: int, first: int, width: int, kind: str) -> Step:
    """`LoadField`."""
    put, own, value = event.operands.append, event.own, Field(first, width, kind).value

    def step() -> int:
        put(value(own()))
        return after

    return step


def store_field(event: Event, after: int, first: int, width: int, kind: str) -> Step:
    """`StoreField`."""
    field = Field(first, width, kind)

    def step() -> int:
        number = event.operands.pop()
        event.write(event.sites[0], field.put(event.own(), number))
        return after

    return step


def load_part(event: Event, after: int, slot: int, first: int, width: int, kind: str) -> Step:
    """`LoadPart`."""
    put, value = event.operands.append, Field(first, width, kind).value

    def step() -> int:
        put(value(event.slots[slot]))
        return after

    return step


def store_part(event: Event, after: int, slot: int, first: int, width: int, kind: str) -> Step:
    """`StorePart`."""
    field = Field(first, width, kind)

    def step() -> int:
        number = event.operands.pop()
        if event.slots[slot] >> STATE_BITS:
            event.slots[slot] = field.put(event.slots[slot], number)
        return after

    return step


def item(fields: list[Field], index: int) -> Field:
    """The field of that number."""
    if not 0 <= index < len(fields):
        raise Failed(7)
    return fields[index]


def items(first: int, width: int, kind: str, length: int) -> list[Field]:
    """The fields of an array."""
    return [Field(first + at * width, width, kind) for at in range(length)]


def load_field_at(event: Event, after: int, first: int, width: int, kind: str, length: int) -> Step:
    """`LoadFieldAt`."""
    operands, fields = event.operands, items(first, width, kind, length)

    def step() -> int:
        own = event.own()
        operands[-1] = item(fields, operands[-1]).value(own)
        return after

    return step


def store_field_at(event: Event, after: int, first: int, width: int, kind: str, length: int) -> Step:
    """`StoreFieldAt`."""
    operands, fields = event.operands, items(first, width, kind, length)

    def step() -> int:
        number, index = operands.pop(), operands.pop()
        own = event.own()
        event.write(event.sites[0], item(fields, index).put(own, number))
        return after

    return step


def load_part_at(event: Event, after: int, slot: int, first: int, width: int, kind: str, length: int) -> Step:
    """`LoadPartAt`."""
    operands, fields = event.operands, items(first, width, kind, length)

    def step() -> int:
        operands[-1] = item(fields, operands[-1]).value(event.slots[slot])
        return after

    return step


def store_part_at(event: Event, after: int, slot: int, first: int, width: int, kind: str, length: int) -> Step:
    """`StorePartAt`."""
    operands, fields = event.operands, items(first, width, kind, length)

    def step() -> int:
        number, index = operands.pop(), operands.pop()
        field = item(fields, index)
        if event.slots[slot] >> STATE_BITS:
            event.slots[slot] = field.put(event.slots[slot], number)
        return after

    return step


FIELD_STEPS: dict[str, Callable[..., Step]] = {
    "LoadField": load_field, "StoreField": store_field, "LoadPart": load_part, "StorePart": store_part,
    "LoadFieldAt": load_field_at, "StoreFieldAt": store_field_at,
    "LoadPartAt": load_part_at, "StorePartAt": store_part_at,
}
