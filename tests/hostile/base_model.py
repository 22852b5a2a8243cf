"""What `check` is to say of classes with bases: a model of the rules of docs/language.md, "Bases" and "Names".

It knows classes as base_texts has them: functions without parameters and statements, data members of the types in
BITS, and no typedefs. No class has more bits than fit. It goes through the classes once for each rule, with indexes
of names.
"""
from __future__ import annotations

from collections import Counter
from dataclasses import dataclass
from typing import Iterator, Optional

from base_texts import Class, Member, Place

TOLD = {
    30: b"name declared twice", 33: b"no behave", 35: b"too many", 37: b"base is not a quark",
    38: b"class is its own base", 39: b"override does not match", 56: b"missing return",
}
# A model is written apart from the rest, so it has these limits once more.
MOST_CLASSES, MOST_MEMBERS = 256, 64
# How many bits a data member of each type takes.
BITS = {b"Random": 0, b"Bool": 1}


@dataclass(frozen=True)
class Fault:
    """A code and its place."""

    code: int
    place: Place

    def line(self, name: bytes) -> bytes:
        """The refusal of a file."""
        return b"%b:%d:%d: E%d %b\n" % (name, *self.place, self.code, TOLD[self.code])


@dataclass(frozen=True)
class Entry:
    """A member of a flat class: the place of its name, and whether it is a virtual function."""

    member: Member
    place: Place
    virtual: bool


class Bases:
    """The classes of a file by their numbers, with the number of each one's base."""

    def __init__(self, classes: list[Class]) -> None:
        self.classes = classes
        first: dict[bytes, int] = {}
        for number, of in enumerate(classes):
            first.setdefault(of.name, number)
        self.base = [first.get(of.base) if of.base else None for of in classes]
        self._flat: dict[int, list[Entry]] = {}
        self._virtual: dict[Optional[int], frozenset[bytes]] = {None: frozenset()}

    def place(self, number: int) -> Place:
        """Where a class has its name."""
        return number + 1, len(self.classes[number].head()) + 1

    def base_place(self, number: int) -> Place:
        """Where it has the name of its base."""
        line, column = self.place(number)
        return line, column + len(self.classes[number].name) + 1

    def members(self, number: int) -> Iterator[tuple[Member, Place]]:
        """The members of a class, each with the place of its name."""
        of = self.classes[number]
        return zip(of.members, of.places(number + 1))

    def flat(self, number: int) -> Iterator[Entry]:
        """The members of a class and of its bases, without virtual functions that a later class of its line has again."""
        above = []
        at = self.base[number]
        while at is not None and at not in self._flat:
            above.append(at)
            at = self.base[at]
        for base in reversed(above):
            self._flat[base] = list(self._heir(base))
            said = frozenset(member.name for member in self.classes[base].members if member.is_function and member.virtual)
            self._virtual[base] = self._virtual[self.base[base]] | said
        return self._heir(number)

    def _heir(self, number: int) -> Iterator[Entry]:
        """The same, once the bases have been made flat."""
        base = self.base[number]
        own = {member.name for member in self.classes[number].members if member.is_function}
        if base is not None:
            yield from (it for it in self._flat[base] if not (it.virtual and it.member.name in own))
        known = self._virtual[base]
        for member, place in self.members(number):
            yield Entry(member, place, member.is_function and (member.virtual or member.name in known))


def not_quark(bases: Bases) -> Optional[Fault]:
    """The first base that is no quark."""
    for number, of in enumerate(bases.classes):
        base = bases.base[number]
        if of.base and (base is None or not bases.classes[base].quark):
            return Fault(37, bases.base_place(number))
    return None


def own_base(bases: Bases) -> Optional[Fault]:
    """The first class that is its own base: the least number on a ring."""
    walk: dict[int, int] = {}
    rings: list[int] = []
    for start in range(len(bases.classes)):
        at: Optional[int] = start
        path = []
        while at is not None and at not in walk:
            walk[at] = start
            path.append(at)
            at = bases.base[at]
        if at is not None and walk[at] == start:
            rings += path[path.index(at):]
    return Fault(38, bases.place(min(rings))) if rings else None


def is_bad(member: Member, types: dict[bytes, Counter[bytes]]) -> bool:
    """Whether a member breaks a rule of overriding, given the types of the virtual functions of each name in bases."""
    if not member.is_function:
        return member.sort == "data" and member.virtual
    return any(other != member.type for other in types.get(member.name, ()))


def bad_override(bases: Bases) -> Optional[Fault]:
    """The first member of all classes that breaks a rule of overriding. The classes are walked from roots to heirs."""
    heirs: dict[Optional[int], list[int]] = {}
    for number, base in enumerate(bases.base):
        heirs.setdefault(base, []).append(number)
    types: dict[bytes, Counter[bytes]] = {}
    faults: list[tuple[int, Fault]] = []
    # a class that is to be entered, or one that is to be left, with its virtual functions
    todo: list[tuple[int, Optional[list[Member]]]] = [(number, None) for number in heirs.get(None, [])]
    while todo:
        number, left = todo.pop()
        if left is not None:
            for member in left:
                types[member.name] -= Counter([member.type])
            continue
        faults += [(number, Fault(39, place)) for member, place in bases.members(number) if is_bad(member, types)][:1]
        own = [m for m in bases.classes[number].members if m.is_function and (m.virtual or types.get(m.name))]
        for member in own:
            types.setdefault(member.name, Counter())[member.type] += 1
        todo.append((number, own))
        todo += [(heir, None) for heir in heirs.get(number, [])]
    return min(faults, key=lambda found: found[0])[1] if faults else None


def class_names(bases: Bases) -> Optional[Fault]:
    """The first class that is one too many, or whose name another has."""
    seen: set[bytes] = set()
    for number, of in enumerate(bases.classes):
        if number >= MOST_CLASSES:
            return Fault(35, bases.place(number))
        if of.name in seen:
            return Fault(30, bases.place(number))
        seen.add(of.name)
    return None


def member_names(bases: Bases) -> Optional[Fault]:
    """The first member that is one too many of its sort in a flat class, or whose name another has."""
    for number in range(len(bases.classes)):
        seen: set[bytes] = set()
        count: Counter[str] = Counter()
        for entry in bases.flat(number):
            if count[entry.member.sort] >= MOST_MEMBERS:
                return Fault(35, entry.place)
            if entry.member.name in seen:
                return Fault(30, entry.place)
            seen.add(entry.member.name)
            count[entry.member.sort] += 1
    return None


def no_behave(bases: Bases) -> Optional[Fault]:
    """The first element that has no `behave` without a result, also not from a base."""
    for number, of in enumerate(bases.classes):
        functions = ((entry.member.type, entry.member.name) for entry in bases.flat(number) if entry.member.is_function)
        if not of.quark and (b"Void", b"behave") not in functions:
            return Fault(33, bases.place(number))
    return None


def no_return(bases: Bases) -> Optional[Fault]:
    """The first function with a result, since none has a statement."""
    for number in range(len(bases.classes)):
        for entry in bases.flat(number):
            if entry.member.is_function and entry.member.type != b"Void":
                return Fault(56, entry.place)
    return None


def first_fault(classes: list[Class]) -> Optional[Fault]:
    """The fault that is to be reported, or None."""
    bases = Bases(classes)
    for rule in (not_quark, own_base, bad_override, class_names, member_names, no_behave, no_return):
        fault = rule(bases)
        if fault:
            return fault
    return None


def layout(bases: Bases) -> Iterator[bytes]:
    """The lines of all classes, whose bits are few enough."""
    elements = 0
    for number, of in enumerate(bases.classes):
        fields = [entry.member for entry in bases.flat(number) if entry.member.sort == "data"]
        bits = sum(BITS[member.type] for member in fields)
        elements += not of.quark
        yield b"quark %b %d\n" % (of.name, bits) if of.quark else b"element %b %d %d\n" % (of.name, elements, bits)
        first = 0
        for member in fields:
            if BITS[member.type]:
                yield b"member %b %b %d %d\n" % (member.name, member.type, first, BITS[member.type])
            first += BITS[member.type]


def accepted(classes: list[Class]) -> bytes:
    """What `check` writes of classes without a fault."""
    return b"".join(layout(Bases(classes)))
