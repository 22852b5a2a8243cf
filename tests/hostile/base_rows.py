"""The rows of the table `bases`: classes whose texts are of each bad kind, with the code of their refusal."""
from __future__ import annotations

import re
from dataclasses import dataclass
from typing import Callable

from base_texts import (
    BEHAVE, STOPPED, Class, Member, chain, constants, data, functions, named, one_name, star,
)


@dataclass(frozen=True)
class Row:
    """A kind of text: what it is, with N for its size; the greatest size of which a mebibyte has room; the classes of a
    size; the code of its refusal (0: accepted); and whether only `--long` tries it."""

    kind: str
    size: int
    classes: Callable[[int], list[Class]]
    code: int
    long: bool = False

    def name(self, size: int) -> str:
        """The kind at a size."""
        return re.sub(r"\bN\b", f"{size:,}", self.kind)


# Chains

WIDTH = 20


def ring(count: int) -> list[Class]:
    """Quarks in a ring of bases."""
    return [Class(True, named(k, WIDTH), named((k + 1) % count, WIDTH)) for k in range(count)]


def into_a_ring(count: int) -> list[Class]:
    """A chain whose root is one of the last two classes, which are each other's bases."""
    return [Class(True, named(k, WIDTH), named(k + 1 if k + 1 < count else count - 2, WIDTH)) for k in range(count)]


def without_base(count: int, at: int) -> list[Class]:
    """A chain in which one class has a base that there is not."""
    classes = chain(count, WIDTH)
    classes[at] = Class(True, named(at, WIDTH), b"Nowhere")
    return classes


def overridden(count: int) -> list[Class]:
    """A chain whose last class declares a virtual function of the first with another result."""
    classes = chain(count, WIDTH)
    classes[0] = Class(True, named(0, WIDTH), None, one_name(1, True))
    classes[-1] = Class(True, named(count - 1, WIDTH), named(count - 2, WIDTH), (STOPPED,))
    return classes


CHAINS = [
    Row("a chain of N", 20_000, lambda n: chain(n, WIDTH), 35),
    Row("a chain of N, heirs first", 20_000, lambda n: chain(n, WIDTH)[::-1], 35),
    Row("a chain of N with shorter names", 33_000, lambda n: chain(n, 9), 35, long=True),
    Row("a chain of 256", 256, lambda _: chain(256, 200), 0),
    Row("a chain of 256, heirs first", 256, lambda _: chain(256, 200)[::-1], 0, long=True),
    Row("a chain of 257, heirs first", 257, lambda _: chain(257, 200)[::-1], 35, long=True),
    Row("a chain of N, the first without its base", 20_000, lambda n: without_base(n, 0), 37, long=True),
    Row("a chain of N, the last without its base", 20_000, lambda n: without_base(n, n - 1), 37),
    Row("a chain of N, heirs first, the root without its base", 20_000, lambda n: without_base(n, 0)[::-1], 37, long=True),
    Row("a ring of N", 20_000, ring, 38),
    Row("a chain of N that leads into a ring", 20_000, into_a_ring, 38),
    Row("a chain of N, the last a bad override", 19_998, overridden, 39),
    Row("a chain of N, heirs first, the first a bad override", 19_998, lambda n: overridden(n)[::-1], 39, long=True),
]


# Stars


def root(*members: Member) -> Class:
    """A quark with these members."""
    return Class(True, b"A", None, members)


def bare_star(count: int) -> list[Class]:
    """A star without members."""
    return star(root(), count, (), 50)


def full_star(count: int, last: Class) -> list[Class]:
    """A star in which each heir declares the virtual function again, and one more class."""
    return [*star(root(*one_name(1, True)), count, one_name(1, False), 26), last]


STARS = [
    Row("a star of N", 15_000, bare_star, 35),
    Row("a star of N, heirs first", 15_000, lambda n: bare_star(n)[::-1], 35, long=True),
    Row("a star of N, the last without its base", 14_000, lambda n: full_star(n, Class(True, b"C", b"Nowhere")), 37, long=True),
    Row("a star of N, the last its own base", 14_000, lambda n: full_star(n, Class(True, b"C", b"C")), 38, long=True),
    Row("a star of N, the last an heir of an element", 14_000, lambda n: full_star(n, Class(False, b"C", b"C")), 37, long=True),
    Row("a star of N, the last a bad override", 14_000, lambda n: full_star(n, Class(True, b"C", b"A", (STOPPED,))), 39),
]


# All members in one class


def heirs(members: tuple[Member, ...], own: tuple[Member, ...] = ()) -> list[Class]:
    """255 classes with all members in the first; the last has members of its own."""
    classes = star(root(*members), 254)
    return [*classes[:-1], Class(True, classes[-1].name, b"A", own)]


def elements_of(members: tuple[Member, ...], count: int) -> list[Class]:
    """A quark with all members, and elements that are its heirs."""
    return [root(*members, BEHAVE), *(Class(False, b"E%d" % k, b"A") for k in range(count))]


FULL = (*data(64, b"d", 250), *functions(63, b"f", False, 250), *constants(64, 250))
ALL_IN_ONE = [
    Row("255 classes, N data members in the first", 35_000, lambda n: heirs(data(n, b"d", 19)), 35),
    Row("255 classes, N data members in the last", 35_000, lambda n: heirs(data(n, b"d", 19))[::-1], 35),
    Row("255 classes, N functions in the first", 25_000, lambda n: heirs(functions(n, b"f", False, 28)), 35, long=True),
    Row("255 classes, N virtual functions in the last", 25_000, lambda n: heirs(functions(n, b"f", True, 20))[::-1], 35),
    Row("255 classes, N constants in the last", 25_000, lambda n: heirs(constants(n, 24))[::-1], 35, long=True),
    Row("255 classes, 64 of everything in the first", 255, lambda _: heirs(FULL), 0),
    Row("255 classes, 64 of everything in the last", 255, lambda _: heirs(FULL)[::-1], 0, long=True),
    Row("255 classes, 64 of everything in the first, one more in the last", 255, lambda _: heirs(FULL, data(1, b"e")), 35, long=True),
    Row("255 elements, 64 of everything in their base", 255, lambda _: elements_of(FULL, 255), 0),
    Row("256 elements, 64 of everything in their base", 256, lambda _: elements_of(FULL, 256), 35, long=True),
]


# Functions of one name


def again(members: tuple[Member, ...], more: tuple[Member, ...]) -> list[Class]:
    """A class, and an heir of it."""
    return [root(*members), Class(True, b"B", b"A", more)]


def heirs_of_one_name(count: int) -> list[Class]:
    """Heirs that each declare a function again, before their base, which has it so many times."""
    return star(root(*one_name(count, True)), 200, one_name(1, False))[::-1]


def all_in_reverse(count: int) -> list[Class]:
    """Virtual functions, which an heir has again in reverse."""
    return again(functions(count, b"f", True, 26), functions(count, b"f", False, 26)[::-1])


def one_name_again(count: int, virtual: bool, last: tuple[Member, ...] = ()) -> list[Class]:
    """A function of one name, so many times in a class and in its heir, `virtual` in the first or in the second."""
    return again(one_name(count, virtual), (*one_name(count, not virtual), *last))


FIELD = Member("data", b"Bool", b"m" * 11, True)
VIRTUAL = [
    Row("N virtual data members of one name", 40_000, lambda n: [root(*(FIELD,) * n)], 39),
    Row("N virtual functions of one name", 27_000, lambda n: [root(*one_name(n, True))], 30),
    Row("N virtual functions of one name, N again", 13_000, lambda n: one_name_again(n, True), 30, long=True),
    Row("N virtual functions of one name, N again, heir first", 13_000, lambda n: one_name_again(n, True)[::-1], 30),
    Row("N virtual functions of one name, N again, the last a bad override", 13_000, lambda n: one_name_again(n, True, (STOPPED,)), 39),
    Row("N functions of one name, virtual when N again", 13_000, lambda n: one_name_again(n, False), 30, long=True),
    Row("N virtual functions of one name, again in each of 200 heirs", 20_000, heirs_of_one_name, 30),
    Row("N virtual functions, all again in reverse", 12_000, all_in_reverse, 35, long=True),
    Row("N virtual functions, all again in reverse, heir first", 12_000, lambda n: all_in_reverse(n)[::-1], 35),
]


# Heirs of heirs


def generations(count: int, own: Callable[[int], tuple[Member, ...]]) -> list[Class]:
    """A chain of quarks with members of their own; the first has 64 of everything, of which the functions are virtual."""
    first = Class(True, named(0), None, (*data(64, b"d", 200), *functions(64, b"f", True, 45), *constants(64, 200)))
    return [first, *(Class(True, named(k), named(k - 1), own(k)) for k in range(1, count))]


def all_again(number: int) -> tuple[Member, ...]:
    """All functions of the first class again."""
    return functions(64, b"f", False, 45)


def one_bad(at: int) -> Callable[[int], tuple[Member, ...]]:
    """The same, but in one class the last function has another result."""
    bad = Member("function", b"Int", all_again(0)[-1].name)
    return lambda number: (*all_again(number)[:-1], bad) if number == at else all_again(number)


def one_more(at: int) -> Callable[[int], tuple[Member, ...]]:
    """The same, but one class has one function more."""
    return lambda number: (*all_again(number), *functions(number == at, b"g"))


def other_names(number: int) -> tuple[Member, ...]:
    """64 data members and 64 functions with names that no other class has."""
    return (*data(64, b"d%da" % number, 14), *functions(64, b"f%da" % number, False, 14))


GENERATIONS = [
    Row("N heirs of heirs, each with all 64 functions again", 255, lambda n: generations(n, all_again), 0),
    Row("N heirs of heirs, each with all again, heirs first", 255, lambda n: generations(n, all_again)[::-1], 0, long=True),
    Row("N heirs of heirs, the last with one more", 255, lambda n: generations(n, one_more(n - 1)), 35),
    Row("N heirs of heirs, the first with one more", 255, lambda n: generations(n, one_more(1)), 35, long=True),
    Row("N heirs of heirs, the last a bad override", 255, lambda n: generations(n, one_bad(n - 1)), 39),
    Row("N heirs of heirs, the first a bad override", 255, lambda n: generations(n, one_bad(1)), 39, long=True),
    Row("N heirs of heirs, each with 128 more", 255, lambda n: generations(n, other_names), 35),
    Row("N heirs of heirs, each with 128 more, heirs first", 255, lambda n: generations(n, other_names)[::-1], 35, long=True),
]

ROWS = [*CHAINS, *STARS, *ALL_IN_ONE, *VIRTUAL, *GENERATIONS]
