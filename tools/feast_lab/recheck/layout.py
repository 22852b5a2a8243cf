"""Where data members are in an atom's state (docs/types.md, "Layout")."""
from __future__ import annotations

from . import trees
from .faults import Refused
from .limits import STATE_BITS

QUARK_BITS = 32
MOST_TOLD = 2**64 - 1


def lay_out(classes: list[trees.Class]) -> None:
    """Gives data members their bits, and classes their sums. Refused with 40 and 41."""
    done: dict[trees.Class, int] = {}
    for it in classes:
        it.bits = bits_of(it, done)
        if it.bits > (QUARK_BITS if it.is_quark else STATE_BITS):
            raise Refused(40 if it.is_quark else 41, it.word.at, min(it.bits, MOST_TOLD))


def bits_of(of: trees.Class, done: dict[trees.Class, int]) -> int:
    """The bits of a class; each of its data members is given its own."""
    if of not in done:
        first = 0
        for member in of.fields():
            member.first = first
            type = member.of.type
            each = bits_of(type, done) if isinstance(type, trees.Class) else type.width if isinstance(type, trees.NumberType) else 0
            member.bits = each * (member.length or 1)
            first += member.bits
        done[of] = first
    return done[of]


def layout_text(classes: list[trees.Class]) -> str:
    """What `check` writes (docs/formats.md, "Check")."""
    lines: list[str] = []
    for it in classes:
        head = f"quark {it.word.text}" if it.is_quark else f"element {it.word.text} {it.number}"
        lines.append(f"{head} {it.bits}")
        for member in it.fields():
            if member.bits:
                length = f"[{member.length}]" if member.length else ""
                lines.append(f"member {member.word.text} {type_text(member.of.type)}{length} {member.first} {member.bits}")
    return "".join(line + "\n" for line in lines)


def type_text(type: trees.Type) -> str:
    """A type, with its width."""
    if isinstance(type, trees.NumberType):
        return "Bool" if type.kind == "Bool" else f"{type.kind}({type.width})"
    return type.word.text if isinstance(type, trees.Class) else type.name
