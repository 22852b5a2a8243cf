"""Names of classes and of their members (docs/language.md, "Names"); bodies are looked up in scopes.py.

Refused with 30 to 36, in the order of the page.
"""
from __future__ import annotations

from typing import Iterator, Optional

from . import trees
from .faults import Refused
from .limits import MOST_CLASSES, MOST_MEMBERS, MOST_PARAMS, STATE_BITS

BUILT_IN: dict[str, trees.PlainType] = {
    it.name: it for it in (trees.ATOM, trees.VOID, trees.WINDOW, trees.RANDOM, trees.EMPTY)
}
NUMBERS = {"Int": (2, 64, 32), "Unsigned": (1, 64, 32), "Bits": (1, 64, 8), "Bool": (1, 1, 1), "Unary": (1, 64, 32)}


class Names:
    """The classes of all files by their names."""

    def __init__(self, classes: list[trees.Class]) -> None:
        self.classes = classes
        self.by_name: dict[str, trees.Class] = {}
        for it in classes:
            if len(self.by_name) == MOST_CLASSES:
                raise Refused(35, it.word.at)
            if is_built_in(it.word.text) or it.word.text in self.by_name:
                raise Refused(30, it.word.at)
            self.by_name[it.word.text] = it
        for number, it in enumerate((it for it in classes if not it.is_quark), 1):
            it.number = number

    def check_use(self, word: trees.Word) -> None:
        """Refuses a `use` of what is no class."""
        if word.text not in ("EventWindow", "Random") and word.text not in self.by_name:
            raise Refused(31, word.at)

    def look_up(self, of: trees.TypeRef, known: dict[str, trees.Member]) -> trees.Type:
        """Notes which type is written, where members of a class are known, and gives it."""
        name = of.word.text
        member = known.get(name)
        least_most = NUMBERS.get(name)
        if least_most is None or isinstance(member, trees.Typedef):
            found = member.of.type if isinstance(member, trees.Typedef) else BUILT_IN.get(name) or self.by_name.get(name)
            if found is None:
                raise Refused(31, of.word.at)
            if of.width is not None:
                raise Refused(36, of.word.at)
            of.type = found
            return found
        least, most, width = least_most
        if of.width is not None:
            width = number_of(of.width, known)
        if not least <= width <= most:
            raise Refused(36, of.word.at)
        of.type = trees.NumberType(name, width)
        return of.type


def is_built_in(name: str) -> bool:
    """Whether a type of the language has the name."""
    return name in BUILT_IN or name in NUMBERS


def number_of(width: trees.Width, known: dict[str, trees.Member]) -> int:
    """The number that is a width or a length: written, or that of a constant."""
    if isinstance(width, trees.Word):
        constant = known.get(width.text)
        if not isinstance(constant, trees.Constant):
            raise Refused(31, width.at)
        return constant.value
    assert width is not None
    return width


class Declared:
    """Declares the members of a class one after another."""

    def __init__(self, names: Names, of: trees.Class) -> None:
        self.names = names
        self.of = of
        self.taken: set[str] = set()
        self.counts = {"named": 0, "field": 0, "function": 0}

    def declare(self, member: trees.Member) -> None:
        """Declares a member, with its types and parameters."""
        known = self.of.known
        type = self.names.look_up(member.of, known)
        if isinstance(member, (trees.Typedef, trees.Constant)):
            if not isinstance(type, trees.NumberType):
                raise Refused(36, member.of.word.at)
            self.claim(member.word, "named")
            if isinstance(member, trees.Constant):
                member.value = constant_value(member, known)
        elif isinstance(member, trees.Field):
            if not is_field_type(type, member.written is not None):
                raise Refused(36, member.of.word.at)
            self.claim(member.word, "field")
            self.measure(member)
        else:
            self.claim(member.word, "function")
            self.declare_params(member)
        known[member.word.text] = member

    def claim(self, word: trees.Word, kind: str) -> None:
        """Takes a name for a member of a kind."""
        self.counts[kind] += 1
        if self.counts[kind] > MOST_MEMBERS:
            raise Refused(35, word.at)
        if word.text in self.taken or is_built_in(word.text):
            raise Refused(30, word.at)
        self.taken.add(word.text)

    def measure(self, member: trees.Field) -> None:
        """Notes the length of an array."""
        if member.written is not None:
            member.length = number_of(member.written, self.of.known)
            if not 1 <= member.length <= STATE_BITS:
                raise Refused(36, member.word.at)

    def declare_params(self, function: trees.Function) -> None:
        """Declares parameters as the first locals of a function."""
        taken: set[str] = set()
        for of, word in function.params:
            self.names.look_up(of, self.of.known)
            if len(taken) == MOST_PARAMS:
                raise Refused(35, word.at)
            if word.text in taken:
                raise Refused(30, word.at)
            taken.add(word.text)
            function.locals.append(trees.Local(word, of, len(function.locals)))


def is_field_type(type: trees.Type, is_array: bool) -> bool:
    """Whether a data member may have a type."""
    if isinstance(type, trees.NumberType):
        return True
    is_other = type in (trees.WINDOW, trees.RANDOM) or (isinstance(type, trees.Class) and type.is_quark)
    return is_other and not is_array


def constant_value(constant: trees.Constant, known: dict[str, trees.Member]) -> int:
    """The value of a constant. Refused with 34 if it is none of its type's."""
    type = constant.type()
    value, is_truth = constant.written, isinstance(constant.written, bool)
    if isinstance(value, trees.Word):
        other = known.get(value.text)
        if not isinstance(other, trees.Constant):
            raise Refused(31, value.at)
        value, is_truth = other.value, other.type().kind == "Bool"
    if is_truth != (type.kind == "Bool") or not type.least() <= value <= type.greatest():
        raise Refused(34, constant.word.at)
    return int(value)


def contained_quarks(of: trees.Class) -> Iterator[trees.Class]:
    """The quarks that are data members of a class."""
    for member in of.fields():
        if isinstance(member.of.type, trees.Class):
            yield member.of.type


def contains_itself(quark: trees.Class) -> bool:
    """Whether a quark is a data member of itself, through any number of data members."""
    found = list(contained_quarks(quark))
    for other in found:
        found += [it for it in contained_quarks(other) if it not in found]
    return quark in found


def behave_of(element: trees.Class) -> Optional[trees.Function]:
    """The function `Void behave()` of an element."""
    for function in element.functions():
        if function.word.text == "behave" and function.of.type is trees.VOID and not function.params:
            return function
    return None


def declare_all(files: list[trees.File]) -> Names:
    """Looks up all names but those in bodies."""
    names = Names([it for file in files for it in file.classes])
    for file in files:
        uses = list(file.uses)
        for position in range(len(file.classes) + 1):
            while uses and uses[0][0] == position:
                names.check_use(uses.pop(0)[1])
            if position < len(file.classes):
                declared = Declared(names, file.classes[position])
                for member in file.classes[position].members:
                    declared.declare(member)
    for it in names.classes:
        if not it.is_quark and behave_of(it) is None:
            raise Refused(33, it.word.at)
    for it in names.classes:
        if it.is_quark and contains_itself(it):
            raise Refused(32, it.word.at)
    return names


def known_at(of: trees.Class, function: trees.Function) -> dict[str, trees.Member]:
    """The typedefs and constants that are known in the body of a function, and all data members and functions."""
    known: dict[str, trees.Member] = {}
    is_before = True
    for member in of.members:
        is_before = is_before and member is not function
        if is_before or not isinstance(member, (trees.Typedef, trees.Constant)):
            known[member.word.text] = member
    return known
