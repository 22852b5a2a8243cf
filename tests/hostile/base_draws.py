"""Small files with bases, drawn: few classes and few names, which meet in many ways."""
from __future__ import annotations

import random

from base_texts import BEHAVE, Class, Member, functions


def drawn_member(draw: random.Random) -> Member:
    """A member of one of five names."""
    name = draw.choice([b"a", b"b", b"f", b"g", b"behave"])
    sort = draw.choice(["data", "function", "function", "function", "constant"])
    if sort == "function":
        return Member(sort, b"Int" if draw.random() < 0.1 else b"Void", name, draw.random() < 0.5)
    if sort == "constant":
        return Member(sort, b"Int", name)
    return Member(sort, draw.choice([b"Bool", b"Random"]), name, draw.random() < 0.05)


def drawn_class(draw: random.Random, number: int, count: int) -> Class:
    """A class of a few, mostly with another one as its base."""
    base = named_by(draw.randrange(count)) if draw.random() < 0.8 else None
    members = [drawn_member(draw) for _ in range(draw.choice([0, 0, 1, 1, 2, 3]))]
    if draw.random() < 0.05:
        members += functions(draw.choice([62, 63, 64, 65]), b"h", draw.random() < 0.5)
    if draw.random() < 0.3:
        members.append(BEHAVE)
    quark = draw.random() < 0.9
    return Class(quark, named_by(number if draw.random() < 0.97 else draw.randrange(count)), base, tuple(members))


def named_by(number: int) -> bytes:
    """The name of a class of a few."""
    return b"ABCDEFGH"[number : number + 1]


def without_ring(classes: list[Class]) -> list[Class]:
    """The same classes, of which each may have only an earlier one as its base."""
    names = [of.name for of in classes]
    kept = []
    for number, of in enumerate(classes):
        base = of.base if of.base in names[:number] else None
        kept.append(Class(of.quark, of.name, base, of.members))
    return kept


def drawn(draw: random.Random) -> list[Class]:
    """The classes of a file; in most files no class can be its own base."""
    count = draw.randint(1, 6)
    classes = [drawn_class(draw, number, count) for number in range(count)]
    if draw.random() < 0.2:
        return classes
    classes = without_ring(classes)
    return classes if draw.random() < 0.5 else classes[::-1]
