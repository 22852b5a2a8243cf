"""Two files with the first refusal of all stages."""
from __future__ import annotations

from typing import Iterator

from rows import Row, refused


def first(place: str, code: str, one: str, other: str = "", number: int = 0) -> Row:
    """The first fault of the files `a` and `b`, by its place, its code and its number."""
    return refused("check a b", {"a": one, "b": other}, place, code, number)


# Nine parameters, one more than a function may have.
PARAMS = ", ".join(f"Int p{k}" for k in range(9))

# Data members of 72 bits.
WIDE = "Bits(32) a; Bits(32) b; Bits(8) c;"

REFUSALS = [
    first("a:1:11", "E20", "element B ; { Void behave() { } }", "@"),
    first("a:1:13", "E10", "element B { @ Void behave() { } }", "element B ; { Void behave() { } }"),
    first("a:1:13", "E11", "element A { /* x"),
    first("a:1:40", "E12", "element A { Int n; Void behave() { n = 4294967296; } }"),
    first("b:1:11", "E20", "element B { Void behave() { x = 1; } }", "element B ; { Void behave() { } }"),
    first("a:1:94", "E21", f"element A {{ Void behave() {{ x = {'(' * 62}) ; ; }}"),
    first("a:1:11", "E37", "quark Q : X { } quark R : R { }"),
    first("a:1:7", "E38", "quark Q : Q { }"),
    first("a:1:23", "E39", "quark B { virtual Int n; }"),
    first("b:1:9", "E30", "element A { Void behave() { x = 1; } }", "element A { Void behave() { } }"),
    first("b:1:29", "E31", f"element B {{ {WIDE} Void behave() {{ }} }}", "element C { Void behave() { x = 1; } }"),
    first("a:2:7", "E32", "element A { Void behave() { x = 1; } }\nquark Q { Q q; }"),
    first("a:2:9", "E33", "element A { Void behave() { x = 1; } }\nelement B { }"),
    first("a:1:29", "E34", "element A { constant Int(4) c = 8; Void behave() { } }"),
    first("a:1:88", "E35", f"element A {{ Void f({PARAMS}) {{ }} Void behave() {{ }} }}"),
    first("a:1:13", "E36", "element A { A n; Void behave() { } }"),
    first("a:1:7", "E40", "quark Q { Bits(33) a; }", number=33),
    first("b:1:9", "E41", "element B { Void behave() { break; } }", f"element C {{ {WIDE} Void behave() {{ }} }}", 72),
    first("a:1:41", "E50", "quark Q { Int(3) n; Void f() { Atom a = self; } }"),
    first("a:1:60", "E51", "element M { Int(4) a; Unsigned(4) b; Void behave() { a = a + b; } }"),
    first("a:1:42", "E52", "element A { Int(3) a[2]; Void behave() { a = 1; } }"),
]


def rows() -> Iterator[Row]:
    """The rows."""
    yield from REFUSALS
