"""Bases and virtual functions (docs/language.md, "Bases"): each class is given the members of its line."""
from __future__ import annotations

import copy
from dataclasses import dataclass, field
from typing import Iterator, Optional

from . import trees
from .faults import Refused, Spot
from .tokens import Token


@dataclass
class Heads:
    """What is taken out of the tokens: the base of the class whose name is at a place, and the places of the types that
    `virtual` precedes."""

    bases: dict[Spot, trees.Word] = field(default_factory=dict)
    virtual: set[Spot] = field(default_factory=set)


def without_heads(tokens: list[Token], file: int, heads: Heads) -> list[Token]:
    """The tokens that remain, once bases and `virtual` are noted and taken out."""
    kept: list[Token] = []
    braces = 0
    position = 0
    while position < len(tokens):
        token = tokens[position]
        kinds = [it.kind for it in tokens[max(position - 2, 0) : position + 3]]
        if token.kind == ":" and position >= 2 and kinds[0] in ("element", "quark") and kinds[1:] == ["type", ":", "type", "{"]:
            base = tokens[position + 1]
            heads.bases[file, tokens[position - 1].at] = trees.Word(base.text, (file, base.at))
            position += 2
            continue
        if token.text == "virtual" and braces == 1 and is_virtual(tokens, position):
            heads.virtual.add((file, tokens[position + 1].at))
        else:
            kept.append(token)
        braces = braces + 1 if token.kind == "{" else max(braces - 1, 0) if token.kind == "}" else braces
        position += 1
    return kept


def is_virtual(tokens: list[Token], position: int) -> bool:
    """Whether the name `virtual` at a position stands where it is taken out."""
    return tokens[position - 1].kind in ("{", ";", "}") and tokens[position + 1].kind == "type"


class Line:
    """The classes of all files with their bases."""

    def __init__(self, classes: list[trees.Class], heads: Heads) -> None:
        self.classes = classes
        self.heads = heads
        self.first: dict[str, trees.Class] = {}
        for it in classes:
            self.first.setdefault(it.word.text, it)

    def base(self, of: trees.Class) -> Optional[trees.Class]:
        """The base of a class, if it has one."""
        word = self.heads.bases.get(of.word.at)
        return self.first.get(word.text) if word else None

    def bases(self, of: trees.Class) -> list[trees.Class]:
        """The bases of a class from the nearest on, each once."""
        found: list[trees.Class] = []
        base = self.base(of)
        while base is not None and base not in found:
            found.append(base)
            base = self.base(base)
        return found

    def is_virtual(self, name: str, of: trees.Class) -> bool:
        """Whether functions of a name are virtual in a class: by its own text, or by a base's."""
        return any(
            it.word.text == name and it.of.word.at in self.heads.virtual for each in [of, *self.bases(of)] for it in each.functions()
        )

    def check(self) -> None:
        """Refuses with 37, 38 and 39."""
        for it in self.classes:
            word = self.heads.bases.get(it.word.at)
            base = self.base(it)
            if word and (base is None or not base.is_quark):
                raise Refused(37, word.at)
        for it in self.classes:
            if it in self.bases(it):
                raise Refused(38, it.word.at)
        for it in self.classes:
            for member in it.members:
                self.check_member(it, member)

    def check_member(self, of: trees.Class, member: trees.Member) -> None:
        """Refuses a member that doesn't match a virtual function of a base."""
        if isinstance(member, trees.Field) and member.of.word.at in self.heads.virtual:
            raise Refused(39, member.word.at)
        if not isinstance(member, trees.Function):
            return
        for base in self.bases(of):
            for other in base.functions():
                if other.word.text == member.word.text and self.is_virtual(other.word.text, base):
                    if types_of(other) != types_of(member):
                        raise Refused(39, member.word.at)

    def members(self, of: trees.Class) -> Iterator[trees.Member]:
        """The members of the line of a class, from its root base on."""
        line = [*reversed(self.bases(of)), of]
        for position, each in enumerate(line):
            later = {it.word.text for heir in line[position + 1 :] for it in heir.functions()}
            for member in each.members:
                name = member.word.text
                is_replaced = isinstance(member, trees.Function) and name in later and self.is_virtual(name, each)
                if not is_replaced:
                    yield member if each is of else copy.deepcopy(member)


def types_of(function: trees.Function) -> list[tuple[str, object]]:
    """The result and the parameters of a function, as they are written."""
    written = [function.of, *(of for of, _ in function.params)]
    return [(of.word.text, of.width.text if isinstance(of.width, trees.Word) else of.width) for of in written]


def flatten(classes: list[trees.Class], heads: Heads) -> None:
    """Gives each class the members of its bases. Refused with 37 to 39."""
    line = Line(classes, heads)
    line.check()
    if heads.bases:
        for it, members in [(it, list(line.members(it))) for it in classes]:
            it.members = members
