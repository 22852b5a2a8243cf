"""The compiled code of elements, as `pack` writes it, and its text, as `code` writes it.

The bytes say what the text leaves out: how many parameters a function has, which a machine has to know.
"""
from collections.abc import Iterator, Sequence
from dataclasses import dataclass
from pathlib import Path

from ..base.errors import LabError
from ..base.program import Program

MAGIC = b"FEASTC\x01\x00"
KINDS = ("Int", "Unsigned", "Bits", "Bool", "Unary")
# The instructions in the order of their bytes, each with its arguments: a number, a type, a byte, a kind or a place.
FORMS = """
PushNum:number PushAtom:type LoadLocal:byte StoreLocal:byte Pop LoadField:byte,byte,kind StoreField:byte,byte,kind
LoadPart:byte,byte,byte,kind StorePart:byte,byte,byte,kind LoadSelf
LoadSite StoreSite Swap IsLive IsEmpty RandCreate RandOneIn IsKind:type AddI SubI
MulI DivI RemI AddU SubU MulU DivU RemU NegI And
Or Xor NotW:byte Shl:byte Shr Fit:kind,byte NotB Eq Ne Lt
Le Gt Ge Jump:place JumpFalse:place Turn Call:place Return ReturnVoid AddL
SubL MulL DivL RemL AddV SubV MulV DivV RemV NegL
Dup LoadFieldAt:byte,byte,kind,byte StoreFieldAt:byte,byte,kind,byte
LoadPartAt:byte,byte,byte,kind,byte StorePartAt:byte,byte,byte,kind,byte
"""
INSTRUCTIONS = [(name, tuple(forms.split(",")) if forms else ())
                for name, _, forms in (word.partition(":") for word in FORMS.split())]
LENGTHS = {"number": 9, "type": 2, "byte": 1, "kind": 1, "place": 4}


@dataclass(frozen=True)
class Instruction:
    """An instruction, and its arguments, each a number or the name of a kind of number."""

    name: str
    arguments: tuple[int | str, ...] = ()

    def text(self) -> str:
        """The instruction as `code` writes it."""
        return " ".join([self.name, *map(str, self.arguments)])


@dataclass(frozen=True)
class CodeFunction:
    """A function: the first state bit of its class, the place where it begins, how many of its slots are parameters."""

    name: str
    base: int
    first: int
    parameters: int
    slots: int


@dataclass(frozen=True)
class ElementCode:
    """The code of an element, whose type number counts from 1; an event runs function 0."""

    name: str
    number: int
    functions: Sequence[CodeFunction]
    instructions: Sequence[Instruction]

    def function_at(self, place: int) -> CodeFunction:
        """The function that has an instruction."""
        return next(function for function in reversed(self.functions) if function.first <= place)

    def text(self) -> str:
        """The code as `code` writes it."""
        lines = [f"element {self.name} {self.number} {len(self.instructions)}"]
        heads = {it.first: f"function {at} {it.name} {it.base} {it.slots}" for at, it in enumerate(self.functions)}
        for place, instruction in enumerate(self.instructions):
            lines += [heads[place]] if place in heads else []
            lines.append(f"{place} {instruction.text()}")
        return "".join(f"{line}\n" for line in lines)


def element_codes(program: Program, files: Sequence[Path]) -> list[ElementCode]:
    """The codes of the elements of some files, in the order of their type numbers."""
    return list(CodeReader(program.call(["pack", *files]).output).codes())


class CodeReader:
    """Reads the bytes of a code file."""

    def __init__(self, data: bytes) -> None:
        self.data = data
        self.at = 0

    def take(self, count: int) -> bytes:
        """The next bytes."""
        found = self.data[self.at:self.at + count]
        if len(found) < count:
            raise LabError(f"the program wrote code that breaks off after byte {len(self.data)}")
        self.at += count
        return found

    def number(self, count: int) -> int:
        """The number of the next bytes."""
        return int.from_bytes(self.take(count), "big")

    def name(self) -> str:
        """A name, behind its length."""
        return self.take(self.number(4)).decode("ascii")

    def codes(self) -> Iterator[ElementCode]:
        """The codes of the elements."""
        if self.take(len(MAGIC)) != MAGIC:
            raise LabError("the program wrote code of a form that the lab doesn't know")
        for number in range(1, self.number(2) + 1):
            name = self.name()
            functions = [self.function() for _ in range(self.number(4))]
            yield ElementCode(name, number, functions, [self.instruction() for _ in range(self.number(4))])
        if self.at < len(self.data):
            raise LabError(f"the program wrote code that goes on after its end, at byte {self.at + 1}")

    def function(self) -> CodeFunction:
        """A function; what kinds its slots and its result have is left out, as the machine doesn't ask for it."""
        name, base, first, parameters = self.name(), self.number(1), self.number(4), self.number(1)
        self.take(1)
        slots = self.number(1)
        self.take(slots)
        return CodeFunction(name, base, first, parameters, slots)

    def instruction(self) -> Instruction:
        """An instruction."""
        byte = self.number(1)
        if byte >= len(INSTRUCTIONS):
            raise LabError(f"the program wrote code with an instruction that the lab doesn't know: {byte}")
        name, forms = INSTRUCTIONS[byte]
        return Instruction(name, tuple(self.argument(form) for form in forms))

    def argument(self, form: str) -> int | str:
        """An argument of one of the forms."""
        if form == "number":
            return int.from_bytes(self.take(LENGTHS[form]), "big", signed=True)
        number = self.number(LENGTHS[form])
        if form != "kind":
            return number
        if number >= len(KINDS):
            raise LabError(f"the program wrote code with a kind of number that the lab doesn't know: {number}")
        return KINDS[number]
