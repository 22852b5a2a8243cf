"""Texts that are read as others: groups that go without brackets, branches without braces, blanks and comments."""
from __future__ import annotations

from typing import Iterator

from rows import Pair, Row, refused

# Statements, the same with each group in brackets, and with other groups, which are other code.
GROUPS: list[tuple[str, str, str]] = [
    ("a = a - b - c;", "a = (a - b) - c;", "a = a - (b - c);"),
    ("a = a - b + c;", "a = (a - b) + c;", "a = a - (b + c);"),
    ("a = a / b % c * d;", "a = ((a / b) % c) * d;", "a = a / (b % (c * d));"),
    ("a = a + b * c;", "a = a + (b * c);", "a = (a + b) * c;"),
    ("a = a * b + c;", "a = (a * b) + c;", "a = a * (b + c);"),
    ("a = a % b - c / d;", "a = (a % b) - (c / d);", "a = (a % (b - c)) / d;"),
    ("a = -a * b;", "a = (-a) * b;", "a = -(a * b);"),
    ("a = -a - b;", "a = (-a) - b;", "a = -(a - b);"),
    ("a = (Int(4)) -a + b;", "a = ((Int(4)) (-a)) + b;", "a = (Int(4)) (-a + b);"),
    ("p = p & q << n;", "p = p & (q << n);", "p = (p & q) << n;"),
    ("p = p | q ^ r;", "p = p | (q ^ r);", "p = (p | q) ^ r;"),
    ("p = p ^ q | r;", "p = (p ^ q) | r;", "p = p ^ (q | r);"),
    ("p = p ^ q & r;", "p = p ^ (q & r);", "p = (p ^ q) & r;"),
    ("p = p & q ^ r;", "p = (p & q) ^ r;", "p = p & (q ^ r);"),
    ("p = p | q & r;", "p = p | (q & r);", "p = (p | q) & r;"),
    ("p = ~p & q;", "p = (~p) & q;", "p = ~(p & q);"),
    ("u = !u == v;", "u = (!u) == v;", "u = !(u == v);"),
    ("u = !u && v;", "u = (!u) && v;", "u = !(u && v);"),
    ("u = u || v && w;", "u = u || (v && w);", "u = (u || v) && w;"),
    ("u = u && v || w;", "u = (u && v) || w;", "u = u && (v || w);"),
    ("u = u && v == w;", "u = u && (v == w);", "u = (u && v) == w;"),
    ("u = u == v && w;", "u = (u == v) && w;", "u = u == (v && w);"),
    ("u = u == v != w;", "u = (u == v) != w;", "u = u == (v != w);"),
    ("a = l[a + 1] - b;", "a = (l[(a + 1)]) - b;", "a = l[a + 1 - b];"),
    ("a = f(b - c) * d;", "a = (f((b - c))) * d;", "a = f((b - c) * d);"),
]

# The same where any other groups have no type.
ONLY_GROUPS: list[tuple[str, str]] = [
    ("p = p << n >> n;", "p = (p << n) >> n;"),
    ("p = p << n + n;", "p = p << (n + n);"),
    ("p = p << n & q;", "p = (p << n) & q;"),
    ("u = u == a < b;", "u = u == (a < b);"),
    ("u = a <= b != v;", "u = (a <= b) != v;"),
    ("u = a - b > c;", "u = (a - b) > c;"),
    ("u = x is A == v;", "u = (x is A) == v;"),
    ("u = v == x is A;", "u = v == (x is A);"),
]

# Statements with a fault at an operator that would be none if the groups were others.
MISREAD: list[tuple[str, str]] = [
    ("u = p & q == r;", "&"),
    ("u = p | q != r;", "|"),
    ("u = u < v == w;", "<"),
    ("u = x is A < v;", "<"),
]

# Statements that are read as others, and those.
STATEMENTS: list[tuple[str, str]] = [
    ("if (u) if (v) a = 1; else b = 1;", "if (u) { if (v) { a = 1; } else { b = 1; } }"),
    ("if (u) { if (v) a = 1; } else b = 1;", "if (u) { if (v) { a = 1; } } else { b = 1; }"),
    (
        "if (u) while (v) if (w) a = 1; else b = 1; else c = 1;",
        "if (u) { while (v) { if (w) { a = 1; } else { b = 1; } } } else { c = 1; }",
    ),
    ("if (u) a = 1; else if (v) b = 1; else c = 1;", "if (u) { a = 1; } else { if (v) { b = 1; } else { c = 1; } }"),
    ("while (u) if (v) break; else continue;", "while (u) { if (v) { break; } else { continue; } }"),
    ("for (; u;) a = 1; b = 1;", "for (; u;) { a = 1; } b = 1;"),
    ("if (u) ;", "if (u) { }"),
    ("{ ; { } }", ";"),
    ("{ a = 1; { b = 1; } }", "a = 1; b = 1;"),
    ("a += 1;", "a = a + 1;"),
    ("a -= b;", "a = a - b;"),
    ("a *= b;", "a = a * b;"),
    ("a /= b;", "a = a / b;"),
    ("a %= b;", "a = a % b;"),
    ("p &= q;", "p = p & q;"),
    ("p |= q;", "p = p | q;"),
    ("p ^= q;", "p = p ^ q;"),
    ("p <<= n;", "p = p << n;"),
    ("p >>= n;", "p = p >> n;"),
    ("a -= b - c;", "a = a - (b - c);"),
    ("a++;", "a += 1;"),
    ("++a;", "a += 1;"),
    ("a--;", "a -= 1;"),
    ("--a;", "a -= 1;"),
    ("++l[a];", "l[a]++;"),
    ("a = (a);", "a = a;"),
    ("self.a = self.f(self.b);", "a = f(b);"),
    ("self.l[a] = self.k.h(a, b);", "l[a] = k.h(a, b);"),
    ("x = (A.instanceof);", "x = A.instanceof;"),
    ("Int iff = a; b = iff;", "Int _if = a; b = _if;"),
]

# Statements that differ in blanks and comments alone.
BLANKS: list[tuple[str, str]] = [
    ("u=!v;", "u = ! v ;"),
    ("a=b+-c;", "a = b + - c;"),
    ("p<<=n;", "p <<= n ;"),
    ("p=p<<n;", "p = p << n;"),
    ("u=a<b==v;", "u = a < b == v;"),
    ("u=a<=b||v;", "u = a <= b || v;"),
    ("u=u&&!(a!=b);", "u = u && ! ( a != b ) ;"),
    ("a/**/=/***/b/*/ @\n*/;//", "a = b;"),
    ("a = /*// */ b; // /* no comment begins here", "a = b;"),
    ("\ta\r\n=\n\nb ;", "a = b;"),
    ("a = 0x0000000f;", "a = 0b1111;"),
]

# Members of an element that give its atoms the same bits.
MEMBERS: list[tuple[str, str]] = [
    ("typedef Int(5) Small; Small n;", "Int(5) n;"),
    ("constant Unsigned w = 3u; Int(w) n[w];", "Int(3) n[3];"),
    ("constant Int low = -3; constant Int w = 4; Int(w) n;", "Int(4) n;"),
    ("constant Bool one = true; Bits(one) n;", "Bits(1) n;"),
    ("Int n;", "Int(32) n;"),
    ("Bits n; Unsigned m;", "Bits(8) n; Unsigned(32) m;"),
]

# Files that are read as the file of an empty element is.
EMPTY = "element A { Void behave() { } }"
FILES: list[str] = [
    f"ulam 5; use A; {EMPTY} ulam 1;",
    f"use EventWindow; use Random; {EMPTY} use A;",
    f"// no element B\n/* element B {{ }} */{EMPTY}// at the end",
]


def element(statement: str) -> str:
    """An element whose `behave` has a statement, on the second line."""
    return (
        "quark Q { Int(3) m; Int h(Int a, Int b) { return a; } } element A { EventWindow ew; Int(4) a; Int(4) b; "
        "Int(4) c; Int(4) d; Bits(4) p; Bits(4) q; Bits(4) r; Bool u; Bool v; Bool w; Unsigned(3) n; Int(3) l[3]; Q k; "
        f"Int f(Int a) {{ return a; }} Void behave() {{ Atom x = ew[1]; Atom y = ew[2];\n{statement}\n}} }}"
    )


def members(text: str) -> str:
    """An element with these members."""
    return f"element A {{ {text} Void behave() {{ }} }}"


def rows() -> Iterator[Row | Pair]:
    """The rows."""
    for text, one, other in GROUPS:
        yield Pair("code", (element(text), element(one)), alike=True)
        yield Pair("code", (element(text), element(other)), alike=False)
    for text, operator in MISREAD:
        yield refused("check a", {"a": element(text)}, f"a:2:{text.index(operator) + 1}", "E50")
    for text, other in ONLY_GROUPS + STATEMENTS + BLANKS:
        yield Pair("code", (element(text), element(other)), alike=True)
    for text, other in MEMBERS:
        yield Pair("check", (members(text), members(other)), alike=True)
    for text in FILES:
        yield Pair("code", (text, EMPTY), alike=True)
