"""Texts with bases: which members an heir has, which function a name leads to, and where faults are told."""
from __future__ import annotations

from typing import Iterator

from packing import Function, code_file, element
from rows import Row, refused, written
from texts import report, world

# Texts with the code of their elements, a line a function.
CODES: list[tuple[str, list[str]]] = [
    # a typedef and a constant of a base, in use by an heir and by an heir of it
    (
        "quark Root { typedef Unsigned(3) Small; constant Unsigned c = 5; } quark Mid : Root { Small n; } "
        "element A : Mid { Unsigned(c) m; Void behave() { Small k = c; m = k; } }",
        [
            "element A 1 6",
            "function 0 behave 0 1; 0 PushNum 5; 1 Fit Unsigned 3; 2 StoreLocal 0; 3 LoadLocal 0; "
            "4 StoreField 3 5 Unsigned; 5 ReturnVoid",
        ],
    ),
    # `behave` of a base
    (
        "quark B { Bool b; Void behave() { b = true; } } element A : B { }",
        ["element A 1 3", "function 0 behave 0 0; 0 PushNum 1; 1 StoreField 0 1 Bool; 2 ReturnVoid"],
    ),
    # after `self` and after a quark, a name leads to the nearest declaration as well
    (
        "quark B { Unsigned(2) n; virtual Void go() { n = 1; } Void turn() { self.go(); } } "
        "element A : B { Void go() { n = 2; } Void behave() { turn(); self.go(); } }",
        [
            "element A 1 8",
            "function 0 behave 0 0; 0 Call 1; 1 Call 2; 2 ReturnVoid",
            "function 1 turn 0 0; 3 Call 2; 4 ReturnVoid",
            "function 2 go 0 0; 5 PushNum 2; 6 StoreField 0 2 Unsigned; 7 ReturnVoid",
        ],
    ),
    # an inherited function of a quark that is a member runs that quark's version, on that quark's bits
    (
        "quark B { Unsigned(2) n; virtual Void go() { n = 1; } Void turn() { go(); } } quark Q : B { Void go() { n = 2; } } "
        "element A : B { Q q; B b; Void go() { n = 3; } Void behave() { turn(); q.turn(); b.turn(); q.go(); } }",
        [
            "element A 1 20",
            "function 0 behave 0 0; 0 Call 1; 1 Call 2; 2 Call 3; 3 Call 4; 4 ReturnVoid",
            "function 1 turn 0 0; 5 Call 5; 6 ReturnVoid",
            "function 2 turn 2 0; 7 Call 4; 8 ReturnVoid",
            "function 3 turn 4 0; 9 Call 6; 10 ReturnVoid",
            "function 4 go 2 0; 11 PushNum 2; 12 StoreField 2 2 Unsigned; 13 ReturnVoid",
            "function 5 go 0 0; 14 PushNum 3; 15 StoreField 0 2 Unsigned; 16 ReturnVoid",
            "function 6 go 4 0; 17 PushNum 1; 18 StoreField 4 2 Unsigned; 19 ReturnVoid",
        ],
    ),
    # a function behind all 71 bits
    (
        "quark E { Void f() { } } element A { Bits(64) a; Bits(7) b; E e; Void behave() { e.f(); } }",
        ["element A 1 3", "function 0 behave 0 0; 0 Call 1; 1 ReturnVoid", "function 1 f 71 0; 2 ReturnVoid"],
    ),
    # two members of a quark without bits, at one bit and at two
    (
        "quark E { Void f() { } } element A { E a; E b; Bool c; E d; Void behave() { a.f(); b.f(); d.f(); } }",
        [
            "element A 1 6",
            "function 0 behave 0 0; 0 Call 1; 1 Call 1; 2 Call 2; 3 ReturnVoid",
            "function 1 f 0 0; 4 ReturnVoid",
            "function 2 f 1 0; 5 ReturnVoid",
        ],
    ),
]

# Texts with the part at which a refusal stands, by its last occurrence, with its code and its number.
FAULTS: list[tuple[str, str, str, int]] = [
    # a quark that contains itself, or takes too many bits, by a member of its base
    ("quark B { A a; } quark A : B { }", "A : B", "E32", 0),
    ("quark B { Bits(30) a; } quark Q : B { Bits(3) b; }", "Q : B", "E40", 33),
    ("quark B { Bits(32) a; } element A : B { Bits(32) b; Bits(8) c; Void behave() { } }", "A : B", "E41", 72),
    # `behave` of a base with a result is none
    ("quark B { Int behave() { return 1; } } element A : B { }", "A : B", "E33", 0),
    # a body of a base that has a fault in the heir's copy alone: there T is a number
    (
        "element T { Void behave() { } } quark B { virtual T go() { return T.instanceof; } Void f() { T x = go(); } } "
        "element A : B { typedef Int T; T go() { return 1; } Void behave() { f(); } }",
        "x = go",
        "E52",
        0,
    ),
    # the other way round: in the base there is no such member, and `self` is no value
    ("quark B { Void f() { n = 1; } } element A : B { Int n; Void behave() { f(); } }", "n = 1", "E31", 0),
    ("element A : B { Void behave() { f(); } } quark B { Void f() { Atom a = self; } }", "self", "E50", 0),
    # faults in both copies: that of the class that comes first is told
    (
        "element A : B { Void behave() { f(); } } quark B { Void f() { T x = self; } } element T { Void behave() { } }",
        "x = self",
        "E52",
        0,
    ),
    (
        "quark B { Void f() { T x = self; } } element A : B { Void behave() { f(); } } element T { Void behave() { } }",
        "self",
        "E50",
        0,
    ),
]

# A name that is declared twice, and a function that doesn't match that of its base.
TWICE = "element A { Int n; Bool n; Void behave() { } }"
UNLIKE = "quark B { virtual Void f() { } } quark C : B { Int f() { return 1; } }"


def nested(depth: int) -> str:
    """An heir with an assignment whose brackets nest so deep: two braces, the sign, and the others."""
    return f"quark B {{ }} element A : B {{ Int n; Void behave() {{ n = {'(' * (depth - 3)}1{')' * (depth - 3)}; }} }}"


def turning(most: int) -> Iterator[Row]:
    """An event whose `behave` calls itself, while a number is below one: each call counts one up. At most 16 calls are
    inside one another."""
    text = f"element A {{ Unsigned(8) n; Void behave() {{ if (n < {most}) {{ n++; behave(); }} }} }}"
    atoms = [f"3 4 A {most << 63:018x}"] if most <= 16 else []
    yield written("step w a", {"w": world("try 0 3 4", "atom 3 4 A"), "a": text}, report(atoms, ["1 0 0 3 4"]))


def at_the_end() -> Iterator[Row]:
    """A code file whose function stands behind all 71 bits, and one whose function stands one further."""
    for base in (71, 72):
        functions = [Function(), Function("f", 2, base=base)]
        coded = code_file(element("A", functions, ["Call 1", "ReturnVoid", "ReturnVoid"]))
        files: dict[str, str | bytes] = {"w": world("try 0 3 4", "atom 3 4 A"), "c": coded}
        if base == 71:
            yield written("steppack w c", files, report(["3 4 A"], ["1 0 0 3 4"]))
        else:
            yield refused("steppack w c", files, f"c:1:{coded.index(bytes([base])) + 1}", "E62")


def rows() -> Iterator[Row]:
    """The rows."""
    for text, functions in CODES:
        yield written("code a", {"a": text}, "".join(function.replace("; ", "\n") + "\n" for function in functions))
    for text, part, code, number in FAULTS:
        yield refused("check a", {"a": text}, f"a:1:{text.rindex(part) + 1}", code, number)
    # the head of a base doesn't count in the depth
    yield written("check a", {"a": nested(64)}, "quark B 0\nelement A 1 32\nmember n Int(32) 0 32\n")
    deeper = nested(65)
    yield refused("check a", {"a": deeper}, f"a:1:{deeper.index('1')}", "E21")
    # bases come before names, in whichever file
    yield refused("check a b", {"a": TWICE, "b": UNLIKE}, f"b:1:{UNLIKE.rindex('f()') + 1}", "E39")
    yield refused("check a b", {"a": UNLIKE, "b": TWICE}, f"a:1:{UNLIKE.rindex('f()') + 1}", "E39")
    for most in (16, 17):
        yield from turning(most)
    yield from at_the_end()
