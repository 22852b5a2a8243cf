"""Texts that are not in the grammar, with their first fault, and how deep texts may nest."""
from __future__ import annotations

from typing import Iterator

from rows import Row, refused, written

# Statements of `behave` with the column of their first fault.
STATEMENTS: list[tuple[str, int]] = [
    ("f() = 1;", 33),
    ("x = y = 1;", 35),
    ("ew[1].x = 1;", 34),
    ("x = 1 2;", 35),
    ("}", 33),
    ("{", 34),
    ("x = (1 + 2;", 39),
    ("f(1,);", 33),
    ("x = f()();", 36),
    ("x = (Int);", 38),
    ("x: x = 1;", 30),
    ("continue 1;", 38),
    ("y = x++;", 34),
    ("++f();", 32),
    ("++1;", 31),
    ("x++++;", 32),
    ("Int a = 1 Int b;", 39),
    ("Int a += 1;", 35),
    ("else ;", 29),
    ("if (x) ; else ; else ;", 45),
    ("for (;; Int i = 0) ;", 37),
    ("for (;) ;", 35),
    ("if (x as A && y) ;", 40),
    ("if ((x as A)) ;", 36),
    ("if (x as a) ;", 38),
    ("if (Int x) ;", 37),
    ("if x ;", 32),
    ("x = f()[2];", 36),
    ("x = ew[1][2];", 38),
    ("x = A.foo;", 35),
    ("x = a.instanceof;", 35),
    ("x = y is a;", 38),
    ("x = y is A is B;", 40),
    ("x = y *;", 36),
    ("x = y ! == 1;", 35),
    ("x = a.1;", 35),
    ("x = a.B;", 35),
    ("return 1 2;", 38),
    ("x = y >>> 2;", 37),
    ("(x) = 1;", 29),
    ("element B { }", 29),
    ("x;", 30),
    ("true;", 29),
    ("Int;", 32),
    ("x = y : 1;", 35),
    ("while (x as A) ;", 38),
    ("x = 1 +;", 36),
]

# Files with the place and the code of their first fault.
FILES: list[tuple[str, str, str]] = [
    ("element A { /* x", "1:13", "E11"),
    ("element", "1:8", "E20"),
    ("element a { }", "1:9", "E20"),
    ("element A ; { }", "1:11", "E20"),
    ("element A { constant Int low = 1; constant Int max = -low; }", "1:55", "E20"),
    ("element A { constant Int max = 3 + 1; }", "1:34", "E20"),
    ("element A { // x", "1:17", "E20"),
    ("element A {\n", "2:1", "E20"),
    ("element A { Void f(); }", "1:21", "E20"),
    ("element A { Void behave() { }; }", "1:30", "E20"),
    ("element A { Bool is; }", "1:18", "E20"),
    ("element A {\n  Void behave() {\n    x = 1\n  }\n}\n", "4:3", "E20"),
    ("element A { n Int; }", "1:13", "E20"),
    ("element A { if (true) ; }", "1:13", "E20"),
    ("element A { Int N; }", "1:17", "E20"),
    ("element A { Void f(Int a,) { } }", "1:26", "E20"),
    ("element A { Void f(Int) { } }", "1:23", "E20"),
    ("foo", "1:1", "E20"),
    ("element A { Void behave() { } };", "1:32", "E20"),
    ("element A { typedef Int(3) small; }", "1:28", "E20"),
    ("ulam x;", "1:6", "E20"),
    ("ulam 5 element A { }", "1:8", "E20"),
    ("use Random, EventWindow;", "1:11", "E20"),
    ("element A { Int() n; }", "1:17", "E20"),
    ("element A { Int(N) n; }", "1:17", "E20"),
    ("element A { Void behave() {", "1:28", "E20"),
]

# Each word that is no name, and each sign.
WORDS = (
    "element quark ulam use typedef constant if else while for return break continue is as self true false instanceof "
    "{ } ( ) [ ] ; : , . = == != < <= > >= + - * / % & | ^ ~ ! && || << >> ++ -- += -= *= /= %= &= |= ^= <<= >>="
)

# Statements that nest 64 deep or less: a front, a unit so many times, a middle, what closes each unit, and a back;
# and the column of a name that is unknown, if there is one.
AT_MOST: list[tuple[str, str, int, str, str, str, int]] = [
    ("x = ", "(", 61, "1", ")", ";", 29),
    ("", "{", 62, "", "}", "", 0),
    ("", "if (true) ", 61, ";", "", "", 0),
    ("x = 1", " + 1", 61, ";", "", "", 29),
    ("x = f(1, 2", " + 1", 60, ", 3);", "", "", 29),
    ("", "x = 1 + 1; ", 100, "", "", "", 29),
]

# Statements that nest too deep or are at fault before: a front, a unit so many times, and a back; the place and the
# code of the first fault.
TOO_DEEP: list[tuple[str, str, int, str, str, str]] = [
    ("x = ", "(", 62, "1", "1:94", "E21"),
    ("x = ", "(", 62, ") ; ; }", "1:94", "E21"),
    ("x = ", "(", 60, ") (((((", "1:93", "E20"),
    ("", "{", 63, "", "1:91", "E21"),
    ("", "{", 62, "( } }", "1:91", "E20"),
    ("", "if (true) ", 62, ";", "1:642", "E21"),
    ("", "if (true) ; else ", 62, ";", "1:1069", "E21"),
    ("", "while (true) ", 62, ";", "1:828", "E21"),
    ("", "for (;;) ", 62, ";", "1:582", "E21"),
    ("x = ", "! ", 62, "y;", "1:155", "E21"),
    ("x = 1", " + 1", 62, ";", "1:279", "E21"),
    ("x = ", "a[", 62, "1", "1:156", "E21"),
    ("x = ", "f(1, ", 62, "1", "1:339", "E21"),
    ("x = ", "(T) ", 62, "1;", "1:277", "E21"),
]


def behaving(statements: str) -> str:
    """A file of an element with these statements."""
    return f"element A {{ Void behave() {{ {statements} }} }}"


def faulty(text: str, place: str, code: str) -> Row:
    """A text that is refused."""
    return refused("check a", {"a": text}, f"a:{place}", code)


def rows() -> Iterator[Row]:
    """The rows."""
    for text, column in STATEMENTS:
        yield faulty(behaving(text), f"1:{column}", "E20")
    for text, place, code in FILES:
        yield faulty(text, place, code)
    for word in WORDS.split(" "):
        yield faulty(f"use {word};", "1:5", "E20")
    for front, unit, count, middle, close, back, unknown in AT_MOST:
        text = behaving(front + unit * count + middle + close * count + back)
        if unknown:
            yield faulty(text, f"1:{unknown}", "E31")
        else:
            yield written("check a", {"a": text}, "element A 1 0\n")
    for front, unit, count, back, place, code in TOO_DEEP:
        yield faulty(behaving(front + unit * count + back), place, code)
