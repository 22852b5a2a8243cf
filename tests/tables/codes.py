"""Files with the code of their elements, as `code` writes it."""
from __future__ import annotations

from typing import Iterator

from rows import Row, written

# The files of a call, and the code of their elements, of which each function is a line.
CODES: list[tuple[list[str], list[str]]] = [
    (
        [
            "element Walker { EventWindow ew; Void behave() { ew.swap(0, 4); } }",
        ],
        [
            "element Walker 1 4",
            "function 0 behave 0 0; 0 PushNum 0; 1 PushNum 4; 2 Swap; 3 ReturnVoid",
        ],
    ),
    (
        [
            "/** Counts its meetings.\n"
            "    \\symbol Ct */\n"
            "ulam 5;\n"
            "use EventWindow;\n"
            "use Random;\n"
            "quark Tally {\n"
            "  Unsigned(5) count;\n"
            "  Void bump() { count += 1; }\n"
            "}\n"
            "element Counter {\n"
            "  EventWindow ew;\n"
            "  Random random;\n"
            "  Tally tally;\n"
            "  Bool met;\n"
            "  Void behave() {\n"
            "    Unsigned i = random.create(4) + 1;\n"
            "    Atom other = ew[i];\n"
            "    if (other as Counter) {\n"
            "      if (other.met) { met = true; }\n"
            "      tally.bump();\n"
            "    }\n"
            "    else if (other is Empty) ew.swap(0, i);\n"
            "  }\n"
            "}\n",
        ],
        [
            "element Counter 1 30",
            "function 0 behave 0 2; 0 PushNum 4; 1 RandCreate; 2 PushNum 1; 3 AddU; 4 Fit Unsigned 32; "
            "5 StoreLocal 0; 6 LoadLocal 0; 7 LoadSite; 8 StoreLocal 1; 9 LoadLocal 1; 10 IsKind 1; "
            "11 JumpFalse 18; 12 LoadPart 1 5 1 Bool; 13 JumpFalse 16; 14 PushNum 1; 15 StoreField 5 1 Bool; "
            "16 Call 1; 17 Jump 24; 18 LoadLocal 1; 19 IsKind 0; 20 JumpFalse 24; 21 PushNum 0; "
            "22 LoadLocal 0; 23 Swap; 24 ReturnVoid",
            "function 1 bump 0 0; 25 LoadField 0 5 Unsigned; 26 PushNum 1; 27 AddU; "
            "28 StoreField 0 5 Unsigned; 29 ReturnVoid",
        ],
    ),
    (
        [
            "element A { Void behave() { Atom a = B.instanceof; } } quark Q { Void f() { } }",
            "element B { Bool p; Void behave() { p = self is A; } }",
        ],
        [
            "element A 1 3",
            "function 0 behave 0 1; 0 PushAtom 2; 1 StoreLocal 0; 2 ReturnVoid",
            "element B 2 4",
            "function 0 behave 0 0; 0 LoadSelf; 1 IsKind 1; 2 StoreField 0 1 Bool; 3 ReturnVoid",
        ],
    ),
    (
        [
            "quark Base { Unsigned(2) n; virtual Void go() { n = 1; } Void turn() { go(); } }\n"
            "element Heir : Base { Void go() { n = 2; } Void behave() { turn(); } }\n"
            "element Plain : Base { Void behave() { turn(); } }\n",
        ],
        [
            "element Heir 1 7",
            "function 0 behave 0 0; 0 Call 1; 1 ReturnVoid",
            "function 1 turn 0 0; 2 Call 2; 3 ReturnVoid",
            "function 2 go 0 0; 4 PushNum 2; 5 StoreField 0 2 Unsigned; 6 ReturnVoid",
            "element Plain 2 7",
            "function 0 behave 0 0; 0 Call 1; 1 ReturnVoid",
            "function 1 turn 0 0; 2 Call 2; 3 ReturnVoid",
            "function 2 go 0 0; 4 PushNum 1; 5 StoreField 0 2 Unsigned; 6 ReturnVoid",
        ],
    ),
    (
        [
            "element Spin { Void behave() { while (true) { } } }",
        ],
        [
            "element Spin 1 5",
            "function 0 behave 0 0; 0 PushNum 1; 1 JumpFalse 4; 2 Turn; 3 Jump 0; 4 ReturnVoid",
        ],
    ),
    (
        [
            "quark In { Unsigned(4) v; Void inc() { v += 1; } }\n"
            "quark Out { Bool pad; In one; In two; Void both() { one.inc(); two.inc(); pad = true; } }\n"
            "element A { Unsigned(3) lead; Out o; In own;\n"
            "Void behave() { o.both(); own.inc(); own.v = o.two.v; o.one.inc(); } }",
        ],
        [
            "element A 1 26",
            "function 0 behave 0 0; 0 Call 1; 1 Call 2; 2 LoadField 8 4 Unsigned; 3 StoreField 12 4 Unsigned; "
            "4 Call 3; 5 ReturnVoid",
            "function 1 both 3 0; 6 Call 3; 7 Call 4; 8 PushNum 1; 9 StoreField 3 1 Bool; 10 ReturnVoid",
            "function 2 inc 12 0; 11 LoadField 12 4 Unsigned; 12 PushNum 1; 13 AddU; "
            "14 StoreField 12 4 Unsigned; 15 ReturnVoid",
            "function 3 inc 4 0; 16 LoadField 4 4 Unsigned; 17 PushNum 1; 18 AddU; 19 StoreField 4 4 Unsigned; "
            "20 ReturnVoid",
            "function 4 inc 8 0; 21 LoadField 8 4 Unsigned; 22 PushNum 1; 23 AddU; 24 StoreField 8 4 Unsigned; "
            "25 ReturnVoid",
        ],
    ),
    (
        [
            "element A { Unsigned(3) a[4]; Unsigned(3) i;\n"
            "Void behave() { a[i] += 2; a[0] = a[1]; } }",
        ],
        [
            "element A 1 11",
            "function 0 behave 0 0; 0 LoadField 12 3 Unsigned; 1 Dup; 2 LoadFieldAt 0 3 Unsigned 4; "
            "3 PushNum 2; 4 AddU; 5 StoreFieldAt 0 3 Unsigned 4; 6 PushNum 0; 7 PushNum 1; "
            "8 LoadFieldAt 0 3 Unsigned 4; 9 StoreFieldAt 0 3 Unsigned 4; 10 ReturnVoid",
        ],
    ),
    (
        [
            "element A { Int(4) n; Void behave() {\n"
            "for (Int i = 0; i < 3; i++) { if (i == 1) continue; n = i; } } }",
        ],
        [
            "element A 1 22",
            "function 0 behave 0 1; 0 PushNum 0; 1 Fit Int 32; 2 StoreLocal 0; 3 LoadLocal 0; 4 PushNum 3; "
            "5 Lt; 6 JumpFalse 21; 7 LoadLocal 0; 8 PushNum 1; 9 Eq; 10 JumpFalse 12; 11 Jump 14; "
            "12 LoadLocal 0; 13 StoreField 0 4 Int; 14 LoadLocal 0; 15 PushNum 1; 16 AddI; 17 Fit Int 32; "
            "18 StoreLocal 0; 19 Turn; 20 Jump 3; 21 ReturnVoid",
        ],
    ),
    # a number below 0, and parts of an atom in a slot
    (
        ["element Twice { constant Int(4) c = -5; Int(4) other() { return c; } Void behave() { other(); } }"],
        [
            "element Twice 1 8",
            "function 0 behave 0 0; 0 Call 1; 1 Pop; 2 ReturnVoid",
            "function 1 other 0 0; 3 PushNum -5; 4 Fit Int 4; 5 Return; 6 PushNum 0; 7 Return",
        ],
    ),
    (
        ["element A { Bits(2) u; Bits(3) a[4]; Void behave() { Int i; A x; x.a[i] = x.u; } }"],
        [
            "element A 1 8",
            "function 0 behave 0 2; 0 PushNum 0; 1 StoreLocal 0; 2 PushAtom 1; 3 StoreLocal 1; 4 LoadLocal 0; "
            "5 LoadPart 1 0 2 Bits; 6 StorePartAt 1 2 3 Bits 4; 7 ReturnVoid",
        ],
    ),
]


def rows() -> Iterator[Row]:
    """The rows."""
    for texts, functions in CODES:
        files = dict(zip("ab", texts))
        code = "".join(function.replace("; ", "\n") + "\n" for function in functions)
        yield written("code " + " ".join(files), files, code)
