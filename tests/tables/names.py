"""Texts that break a rule on names, with their first fault, and how many names there may be."""
from __future__ import annotations

import dataclasses
from typing import Iterator

from feast_lab.lab.base.limits import MOST_CLASSES, MOST_LOCALS, MOST_MEMBERS, MOST_PARAMS
from rows import Row, refused, written

# Files, with `$` between the first and the second one, and the place and the code of their first fault.
FAULTS: list[tuple[str, str, str]] = [
    ("element A { Void behave() { } }$ulam 5;\nquark A { }", "b:2:7", "E30"),
    ("element Atom { Void behave() { } }", "a:1:9", "E30"),
    ("element A { Int(3) n; Bool n; Void behave() { } }", "a:1:28", "E30"),
    ("element A { Void f() { } Void f(Int a) { } Void behave() { } }", "a:1:31", "E30"),
    ("element A { constant Int n = 3; Int(3) n; Void behave() { } }", "a:1:40", "E30"),
    ("element A { typedef Int(3) Bits; Void behave() { } }", "a:1:28", "E30"),
    ("element A { Void behave() { for (Int i = 0; i < 3; i++) { } Int i; Int i; } }", "a:1:72", "E30"),
    ("element A { Void f(Int a) { Int a; } Void behave() { } }", "a:1:33", "E30"),
    ("element A { Void f(Int a, Bool a) { } Void behave() { } }", "a:1:32", "E30"),
    ("element A { Void behave() { Int a; { Int a; Int a; } } }", "a:1:49", "E30"),
    ("element A { Int(3) behave; Void behave() { } }", "a:1:33", "E30"),
    ("element A { constant Int c = d; constant Int d = 3; Void behave() { } }", "a:1:30", "E31"),
    ("element A { Int(w) n; constant Unsigned w = 3; Void behave() { } }", "a:1:17", "E31"),
    ("element A { T n; typedef Int(3) T; Void behave() { } }", "a:1:13", "E31"),
    ("quark Q { constant Int c = 3; }\nelement A { Int(c) n; Void behave() { } }", "a:2:17", "E31"),
    ("use Foo; element A { Void behave() { } }", "a:1:5", "E31"),
    ("use Int; element A { Void behave() { } }", "a:1:5", "E31"),
    ("element A { Void behave() { Int a = a; } }", "a:1:37", "E31"),
    ("element A { Void behave() { for (Int i = 0; i < 3; i++) ; i = 1; } }", "a:1:59", "E31"),
    ("element A { Int(3) n; Void behave() { Int m; self.m = 1; } }", "a:1:51", "E31"),
    ("quark Q { Int(3) n; }\nelement A { Q q; Void behave() { q.m = 1; } }", "a:2:36", "E31"),
    ("element A { Void behave() { Int n; n.m = 1; } }", "a:1:38", "E31"),
    ("element A { EventWindow ew; Void behave() { ew.create(1); } }", "a:1:48", "E31"),
    ("element A { Int(3) n; Void behave() { Atom a; if (a as A) a.m = 1; } }", "a:1:61", "E31"),
    ("element A { Int(3) n; Void behave() { Atom a; if (a as A) ; a.n = 1; } }", "a:1:63", "E31"),
    ("element A { Int(3) n; Void behave() { Atom a; if (a as A) ; else a.n = 1; } }", "a:1:68", "E31"),
    ("element A { Void behave() { Atom a; if (a as Foo) ; } }", "a:1:46", "E31"),
    ("quark Q { Int(3) n; }\nelement A { Void behave() { n = 1; } }", "a:2:29", "E31"),
    ("quark Q { Q q; }", "a:1:7", "E32"),
    ("quark O { Int(3) n; } quark N { O o; } quark P { Q q; } quark Q { P p; N n; }", "a:1:46", "E32"),
    ("quark X { Q q; } quark Q { Q q; }", "a:1:24", "E32"),
    ("element A { }", "a:1:9", "E33"),
    ("element A { Void behave(Int a) { } }", "a:1:9", "E33"),
    ("element A { Int behave() { return 1; } }", "a:1:9", "E33"),
    ("element A { constant Int(4) c = 8; Void behave() { } }", "a:1:29", "E34"),
    ("element A { constant Int(4) c = -9; Void behave() { } }", "a:1:29", "E34"),
    ("element A { constant Int c = 2147483648; Void behave() { } }", "a:1:26", "E34"),
    ("element A { constant Bits c = true; Void behave() { } }", "a:1:27", "E34"),
    ("element A { constant Bits(4) c = -1; Void behave() { } }", "a:1:30", "E34"),
    ("element A { constant Bool a = true; constant Int(4) b = a; Void behave() { } }", "a:1:53", "E34"),
    (
        "element A { Void f(Int p0, Int p1, Int p2, Int p3, Int p4, Int p5, Int p6, Int p7, Int p7) { } Void "
        "behave() { } }",
        "a:1:88",
        "E35",
    ),
    ("element A { Int(1) n; Void behave() { } }", "a:1:13", "E36"),
    ("element A { Int(65) n; Void behave() { } }", "a:1:13", "E36"),
    ("element A { Int(4294967295) n; Void behave() { } }", "a:1:13", "E36"),
    ("element A { EventWindow(3) n; Void behave() { } }", "a:1:13", "E36"),
    ("element A { Atom(3) n; Void behave() { } }", "a:1:13", "E36"),
    ("element A { Bool(2) n; Void behave() { } }", "a:1:13", "E36"),
    ("element A { constant Unsigned w = 70; Int(w) q; Void behave() { } }", "a:1:39", "E36"),
    ("element A { Void behave() { } } element B { A a; Void behave() { } }", "a:1:45", "E36"),
    ("element A { typedef Int(4) T; T(4) q; Void behave() { } }", "a:1:31", "E36"),
    ("quark Q { } element A { typedef Q T; Void behave() { } }", "a:1:33", "E36"),
    ("element A { Bool a[0]; Void behave() { } }", "a:1:18", "E36"),
    ("element A { Bool a[72]; Void behave() { } }", "a:1:18", "E36"),
    ("quark Q { Bool p; } element A { Q a[2]; Void behave() { } }", "a:1:33", "E36"),
    ("element A { Bool a[len]; Void behave() { } }", "a:1:20", "E31"),
    ("element A { constant Int c = 3; Void behave() { Int n = self.c; } }", "a:1:62", "E31"),
    ("element A { Void behave() { n = 1; } } use Foo;", "a:1:44", "E31"),
    ("quark Q { Q q; } element A { }", "a:1:26", "E33"),
    ("element A { Bool n; Bool n[0]; Void behave() { } }", "a:1:26", "E30"),
    ("element A { Foo n; } quark A { }", "a:1:28", "E30"),
    ("element A { Void behave() { n = 1; } } quark Q { Q q; }", "a:1:46", "E32"),
    ("quark Q { Int n; } element A { Q q; Void behave() { Q p; p.n = 1; } }", "a:1:60", "E31"),
    ("quark Q { R r; } quark R { Q q; }", "a:1:7", "E32"),
]


@dataclasses.dataclass(frozen=True)
class Many:
    """A text of many declarations, each on a line of its own behind the first line."""

    # What stands before them, on both sides of the number of each, and behind all.
    front: str
    each: tuple[str, str]
    back: str
    # The greatest number of them that is accepted, and the column of the fault where there is one more.
    most: int
    column: int
    # What `check` writes of the greatest number: first, and then for each; # stands for its number.
    first: str
    then: str = ""

    def text(self, count: int) -> str:
        """The text of so many declarations."""
        before, behind = self.each
        return self.front + "".join(f"\n{before}{number}{behind}" for number in range(count)) + self.back

    def checked(self) -> str:
        """What `check` writes of the greatest number."""
        return self.first + "".join(self.then.replace("#", str(number)) for number in range(self.most))


LIMITS = [
    Many(
        "element A { Void behave() { }", ("Bool m", ";"), "}",
        MOST_MEMBERS, 6, f"element A 1 {MOST_MEMBERS}\n", "member m# Bool # 1\n",
    ),
    Many("element A { Void behave() { }", ("Void f", "() { }"), "}", MOST_MEMBERS - 1, 6, "element A 1 0\n"),
    Many(
        "element A { typedef Int T; Void behave() { }", ("constant Int c", " = 0;"), "}",
        MOST_MEMBERS - 1, 14, "element A 1 0\n",
    ),
    Many("element A { Void behave() { Int n;", ("{ Int v", "; }"), "} }", MOST_LOCALS - 1, 7, "element A 1 0\n"),
    Many(
        "element A { Void behave() { } Void f(Int a, Int b, Int c, Int d, Int e, Int g, Int h, Int i) {",
        ("Int v", ";"), "} }", MOST_LOCALS, 5, "element A 1 0\n",
    ),
    Many("element A { Void behave() { } Void f(Int p", (", Int p", ""), ") { } }", MOST_PARAMS - 1, 7, "element A 1 0\n"),
    Many(
        "element A { Void behave() { } }", ("quark Q", " { }"), "",
        MOST_CLASSES - 1, 7, "element A 1 0\n", "quark Q# 0\n",
    ),
]


def files(texts: str) -> dict[str, str]:
    """The files `a` and `b` of texts with `$` between them, or `a` alone."""
    return dict(zip("ab", texts.split("$")))


def rows() -> Iterator[Row]:
    """The rows."""
    for texts, place, code in FAULTS:
        yield refused("check " + " ".join(files(texts)), files(texts), place, code)
    for many in LIMITS:
        yield written("check a", {"a": many.text(many.most)}, many.checked())
        yield refused("check a", {"a": many.text(many.most + 1)}, f"a:{many.most + 2}:{many.column}", "E35")
