"""Element files for hostile use, how deep they nest, and what a call is to say of them."""
from __future__ import annotations

import re
from typing import Optional

from bench import BAD_ELEMENT, DONE, Answer, Bench, Limits
from feast_lab.lab.base.limits import MOST_DEPTH
from jobs import STATE, ZEROS

TOKEN = re.compile(rb"[A-Za-z0-9_]+|<<=|>>=|==|!=|<=|>=|&&|\|\||<<|>>|\+\+|--|[-+*/%&|^]=|\S")
PLAIN = {b";", b",", b".", b"(", b")", b"[", b"]", b"{", b"}"}


def too_deep(text: bytes) -> Optional[int]:
    """The column of the first token of a line with which the nesting is too deep, or None."""
    counts = [0]
    before = b""
    for found in TOKEN.finditer(text):
        token = found.group()
        if before in (b";", b"}") and token != b"else":
            counts[-1] = 0
        sign = not (token[:1].isalnum() or token[:1] == b"_") and token not in PLAIN
        if token in (b"if", b"while", b"for") or sign or (token == b"(" and before == b")"):
            counts[-1] += 1
        if token == b",":
            counts[-1] = 0
        if token in (b"(", b"[", b"{"):
            counts.append(0)
        elif token in (b")", b"]", b"}") and len(counts) > 1:
            counts.pop()
        if len(counts) - 1 + sum(counts) > MOST_DEPTH:
            return found.start() + 1
        before = token
    return None


def depth_fault(text: bytes) -> int:
    """The same of a line that has such a token."""
    found = too_deep(text)
    assert found is not None
    return found


def element(body: bytes, members: bytes = b"") -> bytes:
    """An element with this body, and with some members of each kind."""
    return (
        b"element A { EventWindow ew; Int x; Bool b; Bits(8) c; Unsigned(3) a[4]; " + members
        + b" Int f(Int n) { return n; } Void behave() { " + body + b" } }"
    )


# Forms that nest: what stands before, in the middle and behind, once for each level but the middle.
NESTS = {
    "round brackets": (b"x = ", b"(", b"1", b")", b";"),
    "not": (b"b = ", b"!", b"true", b"", b";"),
    "minus": (b"x = ", b"- ", b"1", b"", b";"),
    "flips": (b"c = ", b"~", b"c", b"", b";"),
    "casts": (b"x = ", b"(Int)", b"x", b"", b";"),
    "casts in brackets": (b"x = ", b"(Int)(", b"x", b")", b";"),
    "sums": (b"x = 1", b"", b"", b" + 1", b";"),
    "sums on the right": (b"x = ", b"1 + (", b"1", b")", b";"),
    "products and sums": (b"x = ", b"2 * (1 + ", b"1", b")", b";"),
    "both": (b"b = b", b"", b"", b" && b", b";"),
    "either": (b"b = ", b"b || (", b"b", b")", b";"),
    "shifts": (b"c = c", b"", b"", b" << 1u", b";"),
    "comparisons": (b"b = ", b"(", b"b", b" == b)", b";"),
    "calls": (b"x = ", b"f(", b"1", b")", b";"),
    "indices": (b"x = (Int) ", b"a[", b"0", b"]", b";"),
    "blocks": (b"", b"{", b";", b"}", b""),
    "ifs": (b"", b"if (b) ", b";", b"", b""),
    "ifs in blocks": (b"", b"if (b) { ", b";", b" }", b""),
    "else ifs": (b"if (b) ;", b"", b"", b" else if (b) ;", b""),
    "whiles": (b"", b"while (b) ", b";", b"", b""),
    "fors": (b"", b"for (;b;) ", b";", b"", b""),
    "fors in blocks": (b"", b"for (Int i = 0; i < 1; i++) { ", b";", b" }", b""),
    "conditions": (b"if (", b"!(", b"b", b")", b") ;"),
    "windows": (b"Atom z = ew[(Int) ", b"a[", b"0", b"]", b"];"),
}


def nested(form: str, levels: int) -> bytes:
    before, open_, middle, close, behind = NESTS[form]
    return element(before + open_ * levels + middle + close * levels + behind)


def deepest(form: str) -> int:
    """The most levels of a form that are not too deep."""
    levels = 1
    while too_deep(nested(form, levels + 1)) is None:
        levels += 1
    return levels


def world(name: bytes, state: bytes = STATE) -> bytes:
    """A world of one tile with an element at (3,4), and one attempt there."""
    return b"feast 1\ntiles 1 1\nsize 8 8\ntry 0 3 4 " + ZEROS + b"\natom 3 4 " + name + b" " + state + b"\n"


def atoms(*rows: bytes) -> bytes:
    return b"feast 1\natoms %d\n" % len(rows) + b"".join(row + b"\n" for row in rows)


def refused(bench: Bench, name: str, text: bytes, at: int, code: int, told: bytes) -> bool:
    """An element file that is refused at a column of its first line."""
    bench.write("e", text)
    line = b"e:1:%d: E%d %s\n" % (at, code, told)
    return bench.expect(name, bench.call(["check", "e"]), BAD_ELEMENT, line)


def accepted(bench: Bench, name: str, text: bytes, limits: Optional[Limits] = None) -> Answer:
    """An element file that has a layout and codes."""
    bench.write("e", text)
    answer = bench.call(["check", "e"], limits)
    bench.expect(name, answer, DONE, None)
    return answer


def survives(
    bench: Bench, name: str, text: bytes, kind: bytes, stays: bool, state: bytes = STATE, after: Optional[bytes] = None
) -> Answer:
    """A run in which the acting atom stays, or fails and is gone."""
    bench.write("e", text)
    bench.write("w", world(kind, state))
    answer = bench.call(["run", "w", "e"])
    due = atoms(b"3 4 " + kind + b" " + (after or state)) if stays else atoms()
    held = answer.status == DONE and answer.out.startswith(due)
    bench.say(held, name, f"{answer.shown()}, not {due!r}")
    return answer
