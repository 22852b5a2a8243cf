"""Element files near the limits of the language: as much as there may be, and a little less or more."""
from __future__ import annotations

from typing import Callable

from chance import Chance
from feast_lab.recheck.limits import (
    LONGEST_NAME, MOST_CALLS, MOST_CLASSES, MOST_DEPTH, MOST_LOCALS, MOST_MEMBERS, MOST_PARAMS, MOST_TURNS, STATE_BITS,
)
from shapes import QUARK_BITS


def near(chance: Chance, limit: int) -> int:
    """A number at a limit or one or two beside it."""
    return limit + chance.one_of([-2, -1, 0, 0, 0, 1, 1, 2])


def element(members: str, body: str) -> str:
    """An element E1 with a window, random numbers and a number."""
    return f"element E1 {{ EventWindow ew; Random random; Unsigned(9) n; {members} Void behave() {{ {body} }} }}\n"


def nested(chance: Chance) -> str:
    """Brackets, signs, blocks or branches inside one another."""
    # (the class, the function and the signs around take a few levels themselves)
    count = chance.between(MOST_DEPTH - 8, MOST_DEPTH + 1)
    front, inner, back = chance.one_of([
        ("(", "1", ")"), ("!", "true", ""), ("- ", "1", ""), ("~(", "(Bits) 1", ")"), ("1 + ", "1", ""), ("(Int) ", "1", ""),
        ("ew[", "1", "]"), ("f(", "1", ")"),
    ])
    if chance.happens(0.5):
        return element("Int f(Int a) { return a; }", f"n = {front * count}{inner}{back * count};")
    front, back = chance.one_of([("{", "}"), ("if (true) ", ""), ("while (n > 9) ", ""), ("if (n == 1) {", "}"), ("for (;n > 9;) ", "")])
    return element("", f"{front * count} n += 1; {back * count}")


def many(chance: Chance) -> str:
    """Locals, parameters, members, or classes."""
    drawn = chance.below(5)
    if drawn == 0:
        return element("", " ".join(f"Int l{number};" for number in range(near(chance, MOST_LOCALS))) + " n = 1;")
    if drawn == 1:
        count = near(chance, MOST_PARAMS)
        params, args = ", ".join(f"Int a{it}" for it in range(count)), ", ".join(str(it) for it in range(count))
        return element(f"Int f({params}) {{ return a1; }}", f"n += (Unsigned) f({args});")
    if drawn == 2:
        forms = ["constant Int c{} = 1;", "typedef Int T{};", "Void g{}() {{ }}", "Bool b{};"]
        form = chance.one_of(forms)
        members = " ".join(form.format(number) for number in range(near(chance, MOST_MEMBERS) - chance.one_of([0, 0, 1, 3])))
        return element(members, "n += 1;")
    if drawn == 3:
        return "".join(f"quark Q{number} {{ }}" for number in range(near(chance, MOST_CLASSES) - 1)) + element("", "n += 1;")
    name = "a" * near(chance, LONGEST_NAME)
    return element(f"Unsigned(5) {name};", f"{name} += 1;")


def wide(chance: Chance) -> str:
    """Members with as many bits as there are, arrays, widths at their ends."""
    drawn = chance.below(4)
    if drawn == 0:
        bits = near(chance, QUARK_BITS)
        return f"quark Q1 {{ Bits({bits // 2}) a; Bits({bits - bits // 2}) b; }} " + element("Q1 q;", "q.a = (Bits) n; n += 1;")
    if drawn == 1:
        bits = near(chance, STATE_BITS) - 9
        return element(f"Bits({bits // 2}) a; Unsigned({bits - bits // 2}) b;", "b += n; n += 1;")
    if drawn == 2:
        return element(f"Bool a[{chance.one_of([0, 1, 61, 62, 63, 71, 72])}];", "a[n % 9] = !a[n % 61]; n += 1;")
    name, width = chance.one_of(["Int", "Unsigned", "Bits", "Bool", "Unary"]), chance.one_of([0, 1, 2, 62, 63, 64, 65])
    return element("", f"{name}({width}) l; n += 1;")


def numbers(chance: Chance) -> str:
    """Numbers and constants at the ends of what they may be."""
    value = chance.one_of([2**31, 2**32, 2**33, 2**63, 2**64]) + chance.one_of([-1, -1, 0, 1])
    text = chance.one_of([f"{value}", f"{value:#x}", f"0x{value:X}", f"{value:#b}"]) + chance.one_of(["", "", "u"])
    if chance.happens(0.5):
        return element("", f"{chance.one_of(['Int', 'Unsigned', 'Int(64)', 'Bits(33)'])} l = {text}; n = (Unsigned) (l % 7);")
    name, width = chance.one_of(["Int", "Unsigned", "Bits", "Unary", "Bool"]), chance.one_of([2, 3, 8, 31, 32])
    most = {"Int": 1 << width - 1, "Unary": width + 1, "Bool": 2}.get(name, 1 << width)
    least = -most if name == "Int" else 0
    value = chance.one_of([most - 1, most - 1, most, least, least, least - 1])
    written = chance.one_of(["true", "false"]) if name == "Bool" and chance.happens(0.7) else str(value)
    of = name if name == "Bool" else f"{name}({width})"
    return element(f"constant {of} c = {written};", "n = (Unsigned) c;")


def long_run(chance: Chance) -> str:
    """Loops of as many turns as an event has, and calls inside one another."""
    if chance.happens(0.5):
        count = near(chance, MOST_TURNS)
        return element("Void f() { }", f"for (Unsigned i = 0; i < {count // 2}; i++) f(); {'f(); ' * (count % 2)} n += 1;")
    count = near(chance, MOST_CALLS)
    return element(f"Int f(Int a) {{ if (a < {count}) return f(a + 1); return a; }}", "n += (Unsigned) f(1);")


KINDS: tuple[Callable[[Chance], str], ...] = (nested, many, wide, numbers, long_run)


def edge_text(chance: Chance) -> str:
    """An element file near a limit."""
    return chance.one_of(KINDS)(chance)
