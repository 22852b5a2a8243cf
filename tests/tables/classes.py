"""Texts with their classes as `check` writes them, or with the bits that are too many."""
from __future__ import annotations

from typing import Iterator

from rows import Row, refused, written

# Texts with where the data members of their classes lie.
LAYOUTS: list[tuple[str, str]] = [
    (
        "element A { Int(2) a; Int(32) b; Unsigned(1) c; Bits(1) d; Unary(1) e; Bool f; EventWindow ew; Bits g; "
        "Random random; Unary(5) h; Void behave() { } }",
        "element A 1 51\nmember a Int(2) 0 2\nmember b Int(32) 2 32\nmember c Unsigned(1) 34 1\n"
        "member d Bits(1) 35 1\nmember e Unary(1) 36 1\nmember f Bool 37 1\nmember g Bits(8) 38 8\n"
        "member h Unary(5) 46 5\n",
    ),
    (
        "quark In { Int(3) a; Bool b; } quark Out { Bool p; In i; EventWindow ew; In j; } element A { Out o; Bool "
        "z; In i; Void behave() { } }",
        "quark In 4\nmember a Int(3) 0 3\nmember b Bool 3 1\nquark Out 9\nmember p Bool 0 1\nmember i In 1 4\n"
        "member j In 5 4\nelement A 1 14\nmember o Out 0 9\nmember z Bool 9 1\nmember i In 10 4\n",
    ),
    (
        "element A { Bool a[71]; Void behave() { } } quark Q { Bits(31) a; Bool b; }",
        "element A 1 71\nmember a Bool[71] 0 71\nquark Q 32\nmember a Bits(31) 0 31\nmember b Bool 31 1\n",
    ),
    (
        "element A { P p; Q q; Void behave() { } } quark P { Q a; Q b; } quark Q { Unsigned(3) a[2]; Void f() { } "
        "Bool n; }",
        "element A 1 21\nmember p P 0 14\nmember q Q 14 7\nquark P 14\nmember a Q 0 7\nmember b Q 7 7\nquark Q 7\n"
        "member a Unsigned(3)[2] 0 6\nmember n Bool 6 1\n",
    ),
    (
        "quark Q { Bits k; Void clear() { k = 0; } } element A { EventWindow ew; Q q; Int m; Void behave() { "
        "q.clear(); q.k = 1; Atom a = ew[1]; if (a as A) { a.m = self.m; a.q.k = q.k; } } }",
        "quark Q 8\nmember k Bits(8) 0 8\nelement A 1 40\nmember q Q 0 8\nmember m Int(32) 8 32\n",
    ),
]

# Texts with the types of the data members of their classes.
TYPES: list[tuple[str, str]] = [
    (
        "element Full { Bits(32) a; Bits(32) b; Bits(7) c; Void behave() { } }",
        "element Full 1 71\nmember a Bits(32) 0 32\nmember b Bits(32) 32 32\nmember c Bits(7) 64 7\n",
    ),
    (
        "/** Counts its meetings.\n    \\symbol Ct */\nulam 5;\nuse EventWindow;\nuse Random;\nquark Tally {\n"
        "  Unsigned(5) count;\n  Void bump() { count += 1; }\n}\nelement Counter {\n  EventWindow ew;\n"
        "  Random random;\n  Tally tally;\n  Bool met;\n  Void behave() {\n"
        "    Unsigned i = random.create(4) + 1;\n    Atom other = ew[i];\n    if (other as Counter) {\n"
        "      if (other.met) { met = true; }\n      tally.bump();\n    }\n"
        "    else if (other is Empty) ew.swap(0, i);\n  }\n}\n",
        "quark Tally 5\nmember count Unsigned(5) 0 5\nelement Counter 1 6\nmember tally Tally 0 5\n"
        "member met Bool 5 1\n",
    ),
    (
        "element Arr { Unsigned(3) a[4]; Unsigned(3) i; Void behave() { a[i] += 2; i = i + 1; } }",
        "element Arr 1 15\nmember a Unsigned(3)[4] 0 12\nmember i Unsigned(3) 12 3\n",
    ),
    (
        "quark Base { Unsigned(2) n; virtual Void go() { n = 1; } Void turn() { go(); } }\n"
        "element Heir : Base { Void go() { n = 2; } Void behave() { turn(); } }\n"
        "element Plain : Base { Void behave() { turn(); } }\n",
        "quark Base 2\nmember n Unsigned(2) 0 2\nelement Heir 1 2\nmember n Unsigned(2) 0 2\nelement Plain 2 2\n"
        "member n Unsigned(2) 0 2\n",
    ),
    (
        "quark In { Int(3) a; Bool b; } quark Out { Bool p; In i; EventWindow ew; In j; }\n"
        "element A { Out o; Bool z; In i; Void behave() { } }",
        "quark In 4\nmember a Int(3) 0 3\nmember b Bool 3 1\nquark Out 9\nmember p Bool 0 1\nmember i In 1 4\n"
        "member j In 5 4\nelement A 1 14\nmember o Out 0 9\nmember z Bool 9 1\nmember i In 10 4\n",
    ),
    (
        "quark Tools { EventWindow ew; Random random; Void f() { } } element A { Tools tools; Bool b; Void "
        "behave() { } }",
        "quark Tools 0\nelement A 1 1\nmember b Bool 0 1\n",
    ),
    (
        "element A { typedef Unsigned(5) Small; constant Unsigned w = 7; typedef Int(w) Mid; typedef Bool Flag; "
        "Small a; Mid b; Flag c; typedef Small Again; Again d; Void behave() { } }",
        "element A 1 18\nmember a Unsigned(5) 0 5\nmember b Int(7) 5 7\nmember c Bool 12 1\n"
        "member d Unsigned(5) 13 5\n",
    ),
    (
        "element A { Int(64) a; Bits(7) b; Void behave() { } } element B { Unsigned(33) a; Unary(38) b; Void "
        "behave() { } } element C { typedef Bits(64) Word; constant Unsigned w = 40; Word a; Bool b; Void "
        "behave() { } } element D { constant Unsigned w = 40; Int(w) a; Void behave() { } }",
        "element A 1 71\nmember a Int(64) 0 64\nmember b Bits(7) 64 7\nelement B 2 71\n"
        "member a Unsigned(33) 0 33\nmember b Unary(38) 33 38\nelement C 3 65\nmember a Bits(64) 0 64\n"
        "member b Bool 64 1\nelement D 4 40\nmember a Int(40) 0 40\n",
    ),
]

# Texts with the column and the code of a class that is too wide, and how many bits it takes.
TOO_WIDE: list[tuple[str, int, str, int]] = [
    ("quark R { Q a; Bool b; } quark Q { Bits(32) a; Bool b; }", 7, "E40", 34),
    ("quark Q { Bits(32) a; } element A { Q a; Q b; Bits(8) c; Void behave() { } }", 33, "E41", 72),
    ("quark Q { Bits(30) a; } element A { Q a; Q b; Q c; Void behave() { } } quark R { Q a; Q b; }", 33, "E41", 90),
    ("quark Q { Unsigned(8) a[5]; }", 7, "E40", 40),
]

# How many times a quark has two of the next one, of which the last has 32 bits, and how many bits the first takes. They
# are counted up to the greatest number of 64 bits.
DOUBLED: list[tuple[int, int]] = [(54, 576460752303423488), (70, 18446744073709551615)]


def doubled(times: int) -> str:
    """Quarks of which each but the last has two of the next one."""
    pairs = [f"quark Q{outer} {{ Q{outer + 1} a; Q{outer + 1} b; }} " for outer in range(times)]
    return "".join(pairs) + f"quark Q{times} {{ Bits(32) a; }}"


def rows() -> Iterator[Row]:
    """The rows."""
    for text, output in LAYOUTS + TYPES:
        yield written("check a", {"a": text}, output)
    for text, column, code, bits in TOO_WIDE:
        yield refused("check a", {"a": text}, f"a:1:{column}", code, bits)
    yield written("check a", {"a": doubled(0)}, "quark Q0 32\nmember a Bits(32) 0 32\n")
    for times, bits in DOUBLED:
        yield refused("check a", {"a": doubled(times)}, "a:1:7", "E40", bits)
