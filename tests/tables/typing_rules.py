"""Bodies that the rules on types accept, and bodies that they refuse."""
from __future__ import annotations

from typing import Iterator

from rows import Row, refused, written

# A quark, an element, and the front of a second element.
FRONT = (
    "quark Tally { Unsigned(5) count; Void bump() { count += 1; } Int(4) get() { return 1; } }\n"
    "element B { Int(3) n; Void f() { } Void behave() { } }\n"
    "element A { EventWindow ew; Random random; Int(8) n; Int(8) m; Unsigned(8) u; Unsigned(8) v; Unary(8) y; "
    "Bits(8) b; Bits(4) c; Bool p; Bool q; Tally t; constant Int k = 3; constant Bool yes = true; Void go() { } "
    "Int(4) num() { return 1; } Unsigned(4) uns() { return 1; } Bits(4) bts() { return 1; } Bool tru() { return "
    "true; } Atom atm() { return self; } A elm() { return self; } Void two(Int a, Bool d) { } "
)

# What `check` writes of them.
CLASSES = (
    "quark Tally 5\n"
    "member count Unsigned(5) 0 5\n"
    "element B 1 3\n"
    "member n Int(3) 0 3\n"
    "element A 2 59\n"
    "member n Int(8) 0 8\n"
    "member m Int(8) 8 8\n"
    "member u Unsigned(8) 16 8\n"
    "member v Unsigned(8) 24 8\n"
    "member y Unary(8) 32 8\n"
    "member b Bits(8) 40 8\n"
    "member c Bits(4) 48 4\n"
    "member p Bool 52 1\n"
    "member q Bool 53 1\n"
    "member t Tally 54 5\n"
)

# A further member and a body of `behave`, with the column and the code of the first fault.
UNTYPED: list[tuple[str, str, int, str]] = [
    ("", "two(2147483648, true);", 429, "E50"),
    ("", "Atom x; if (x as B) x.f();", 445, "E50"),
    ("", "u = random.create(n);", 429, "E50"),
    ("", "for (; u; ) ;", 432, "E50"),
    ("", "n = n + b;", 431, "E50"),
    ("", "n = !n == m;", 429, "E50"),
    ("", "n = n + 4294967295;", 433, "E50"),
    ("Void h(Tally x) { } ", "", 416, "E50"),
    ("Int h() { return; } ", "", 419, "E50"),
    ("", "n = go() + 1;", 429, "E50"),
    ("", "n = u - n;", 431, "E51"),
    ("", "n = n + 1 + u;", 435, "E51"),
    ("", "u -= n;", 425, "E51"),
    ("", "p = n;", 425, "E52"),
    ("", "self = self;", 425, "E52"),
    ("", "Bool x = 0;", 430, "E52"),
    ("", "Atom x; if (x as B) x = self;", 445, "E52"),
    ("", "n = num() + 1; self.two(n, n);", 440, "E52"),
    ("A h() { return ew[0]; } ", "", 417, "E52"),
    ("", "ew.swap(1);", 425, "E53"),
    ("", "n = 1 + num(1);", 433, "E53"),
    ("", "go(true + 1);", 425, "E53"),
    ("", "p = self is Tally;", 437, "E54"),
    ("", "ew[1] = Tally.instanceof;", 433, "E54"),
    ("", "if (n as B) ;", 429, "E54"),
    ("", "Atom x; if (x as B) { if (x as B) ; }", 451, "E54"),
    ("", "while (true) { } continue;", 442, "E55"),
    ("", "for (;;) { break; } break;", 445, "E55"),
    ("Int h() { if (true) return 1; } ", "", 413, "E56"),
    ("Int h() { for (;;) { } } ", "", 413, "E56"),
    ("Int h() { while (true) { return 1; } } ", "", 413, "E56"),
]

# A further member and a body of `behave` that are accepted.
TYPED: list[tuple[str, str]] = [
    (
        "",
        "Atom a = self; a = ew[1]; a = B.instanceof; a = Empty.instanceof; A x = self; x = A.instanceof; x = "
        "elm(); a = x; ew[1] = x; ew[n] = a; ew[u] = ew[y]; ew[k] = atm(); self.ew[1] = self; p = a is B; p = x "
        "is A; p = x is Empty; p = ew[1] is Empty; p = self is B; if (a as B) { a.n = 1; n = a.n; a.n += 1; "
        "a.n++; ew[1] = a; a = B.instanceof; p = a is A; B z = a; } else a = self; x.n = 3; n = x.n; x.t.count = "
        "1; u = x.t.count; B w; w.n--;",
    ),
    (
        "",
        "go(); self.go(); n = num(); num(); tru(); atm(); two(1, true); two(n, tru()); t.bump(); self.t.bump(); n "
        "= t.get(); t.count = 3; self.n = self.m; ew.swap(0, 1); ew.swap(n, u); p = ew.isLive(y); ew.isLive(1); "
        "random.create(3); u = random.create(u) + 1; p = random.oneIn(y); u = random.create(3u); "
        "self.random.create(2); two(num(), yes); n = k; if (yes) ; random.create(1 );",
    ),
    (
        "",
        "n = (Int(4)) u; u = (Unsigned) n; b = (Bits(4)) n; n = (Int) p; p = (Bool) n; p = (Bool) b; y = "
        "(Unary(3)) n; n = (Int) b; u = (Unsigned(3)) b; b = (Bits) true; n = (Int(3)) - 5; n = (Int) (Bits(3)) n;",
    ),
    (
        "",
        "while (p) { break; } for (;;) { continue; } for (Int i = 0; i < 3; i++) for (n = 0; ; ++n) { if (p) "
        "break; while (q) continue; } for (go(); p; t.bump()) ; for (ew[1] = self; p; ew[2] = self) ;",
    ),
    (
        "",
        "n = n + m * n - m / n % m; u = u + y * v - 1u; y = u; n = -n; n = - -1; n = 1 + 2; u = u + 1; u = "
        "4294967295; u = u / 3000000000; y = 3; n = 3; b = 3; b = 4294967295; b = b & c | b ^ c; b = ~b; c = b; b "
        "= b & 4294967295; b = 3 | b; b = b << 1; b = b >> u; b = b << y; b = b >> 1u; p = n < m && u >= y || !(n "
        "== m); p = b == c; p = b != 3; p = p == q; p = true; p = u == 0; p = 0 < u; b <<= 1; b >>= u; b &= 1; b "
        "|= c; b ^= b; n += 1; n -= m; n *= 2; n /= 3; n %= 4; u += y; u++; --u; y--; ++n; p = 1 < 2; n = (3); u "
        "= (3); n = ((3)) + 1;",
    ),
    (
        "Int r1() { return 1; } Int r2() { if (p) return 1; else return 2; } Int r3() { { return 1; } } Int r4() "
        "{ return 1; n = 2; } Int r5() { if (p) { return 1; } else if (q) { return 2; } else { { return 3; } } } "
        "Int r6() { while (true) { if (p) break; else continue; n = 1; } return 1; } Void r7() { return; } Void "
        "r8() { if (p) return; } Int r9() { if (p) { return 1; } return 2; } ",
        "",
    ),
]


def framed(member: str, body: str) -> dict[str, str]:
    """The file whose last element has one more member, with a body of `behave`."""
    return {"a": f"{FRONT}{member}Void behave() {{ {body} }} }}"}


def rows() -> Iterator[Row]:
    """The rows."""
    for member, body, column, code in UNTYPED:
        yield refused("check a", framed(member, body), f"a:3:{column}", code)
    for member, body in TYPED:
        yield written("check a", framed(member, body), CLASSES)
