"""Code files made from instructions as `code` writes them."""
from __future__ import annotations

import dataclasses
from typing import Sequence

MAGIC = b"FEASTC\x01\x00"

# The names of the instructions in the order of their bytes.
NAMES = (
    "PushNum PushAtom LoadLocal StoreLocal Pop LoadField StoreField LoadPart StorePart LoadSelf LoadSite StoreSite "
    "Swap IsLive IsEmpty RandCreate RandOneIn IsKind AddI SubI MulI DivI RemI AddU SubU MulU DivU RemU NegI And Or "
    "Xor NotW Shl Shr Fit NotB Eq Ne Lt Le Gt Ge Jump JumpFalse Turn Call Return ReturnVoid AddL SubL MulL DivL RemL "
    "AddV SubV MulV DivV RemV NegL Dup LoadFieldAt StoreFieldAt LoadPartAt StorePartAt"
).split()

KINDS = ["Int", "Unsigned", "Bits", "Bool", "Unary"]

# The bytes of an argument, where it takes more than one.
SIZES = {"PushNum": 9, "PushAtom": 2, "IsKind": 2, "Jump": 4, "JumpFalse": 4, "Call": 4}

# What a function answers.
NOTHING, NUMBER, ATOM = 0, 1, 2


@dataclasses.dataclass(frozen=True)
class Function:
    """A function by its name, the place where it begins, its parameters, its slots (each NUMBER or ATOM), its
    answer, and the first bit of its class."""

    name: str = "behave"
    first: int = 0
    params: int = 0
    slots: tuple[int, ...] = ()
    answer: int = NOTHING
    base: int = 0

    def packed(self) -> bytes:
        """Its bytes."""
        place = self.first.to_bytes(4, "big")
        counts = bytes([self.params, self.answer, len(self.slots)])
        return named(self.name) + bytes([self.base]) + place + counts + bytes(kind - NUMBER for kind in self.slots)


def named(name: str) -> bytes:
    """The bytes of a name."""
    return len(name).to_bytes(4, "big") + name.encode()


def instruction(text: str) -> bytes:
    """The bytes of an instruction."""
    name, *words = text.split(" ")
    size = SIZES.get(name, 1)
    arguments = [KINDS.index(it) if it in KINDS else int(it) for it in words]
    # negative numbers are those of PushNum alone
    parts = [(it % (1 << 8 * size)).to_bytes(size, "big") for it in arguments]
    return bytes([NAMES.index(name)]) + b"".join(parts)


def element(name: str, functions: Sequence[Function], instructions: Sequence[str]) -> bytes:
    """The bytes of an element."""
    heads = len(functions).to_bytes(4, "big") + b"".join(it.packed() for it in functions)
    return named(name) + heads + len(instructions).to_bytes(4, "big") + b"".join(map(instruction, instructions))


def code_file(*elements: bytes) -> bytes:
    """A code file of elements."""
    return MAGIC + len(elements).to_bytes(2, "big") + b"".join(elements)
