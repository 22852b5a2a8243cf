"""Elements at each limit of the language and past it by one: nesting, members, bits, tokens, bytes, code."""
from __future__ import annotations

from typing import Callable

from bench import BAD_ELEMENT, DONE, Bench, Limits
from element_texts import NESTS, accepted, atoms, deepest, depth_fault, element, nested, refused, too_deep, world
from feast_lab.lab.base.limits import (
    ELEMENT_LIMIT, LONGEST_NAME, MOST_CLASSES, MOST_INSTRS, MOST_LOCALS, MOST_MEMBERS, MOST_OPERANDS, MOST_PARAMS, MOST_TOKENS,
    STATE_BITS,
)


def nesting(bench: Bench) -> None:
    """Each form at its deepest, one deeper, and without an end, on stacks of several sizes."""
    least = {}
    for form in NESTS:
        levels = deepest(form)
        text = nested(form, levels)
        accepted(bench, f"{form}, {levels} deep", text)
        bench.write("w", world(b"A"))
        answer = bench.call(["run", "w", "e"])
        bench.expect(f"{form}, {levels} deep, run", answer, DONE, None)
        deeper = nested(form, levels + 1)
        refused(bench, f"{form}, {levels + 1} deep", deeper, depth_fault(deeper), 21, b"nested too deep")
        many = nested(form, 5_000)
        refused(bench, f"{form}, 5,000 deep", many, depth_fault(many), 21, b"nested too deep")
        for stack in (16, 32, 64, 128, 256, 512, 1024, 8192):
            bench.write("e", text)
            bench.write("w", world(b"A"))
            if bench.call(["run", "w", "e"], Limits(stack=stack * 1024)).status == DONE:
                least[form] = stack
                break
    worst = max(least, key=lambda form: least[form])
    bench.say(least[worst] <= 2048, "the deepest texts need a quarter of 8 MiB at most", f"{least}")
    bench.note(f"deepest texts: {worst} needs a stack of {least[worst]} KiB, of 8,192 that are usual")
    unclosed(bench)


def unclosed(bench: Bench) -> None:
    """Tokens that open and never close, and that close what is not open, nearly as many as a file has."""
    for token, code, told in (
        (b"(", 21, b"nested too deep"), (b"{", 21, b"nested too deep"), (b"!", 21, b"nested too deep"),
    ):
        text = b"element A { Bool b; Void behave() { " + (b"" if token == b"{" else b"b = ") + token * 190_000
        refused(bench, f"190,000 {token.decode()}", text, depth_fault(text), code, told)
    for token in (b")", b"}", b"]", b"else ", b";"):
        refused(bench, f"190,000 {token.decode()}", token * 190_000, 1, 20, b"syntax")


def limits(bench: Bench) -> None:
    """Each limit met, and passed by one."""
    def names(count: int, form: bytes) -> bytes:
        return b" ".join(form % i for i in range(count))

    def class_of(inside: bytes) -> bytes:
        return b"element A { " + inside + b" Void behave() { } }"

    def last(text: bytes, name: bytes) -> int:
        return text.rindex(name) + 1

    rows: list[tuple[str, int, Callable[[int], bytes], bytes]] = [
        ("data members", MOST_MEMBERS, lambda n: class_of(names(n, b"Bool m%d_;")), b"m%d_"),
        ("functions", MOST_MEMBERS - 1, lambda n: class_of(names(n, b"Void f%d_() { }")), b"behave"),
        ("constants", MOST_MEMBERS, lambda n: class_of(names(n, b"constant Int k%d_ = 1;")), b"k%d_"),
        ("typedefs", MOST_MEMBERS, lambda n: class_of(names(n, b"typedef Int T%d_;")), b"T%d_"),
        ("locals", MOST_LOCALS, lambda n: element(names(n, b"Int l%d_;")), b"l%d_"),
        ("locals in blocks", MOST_LOCALS, lambda n: element(names(n, b"{ Int l%d_; }")), b"l%d_"),
        ("parameters", MOST_PARAMS, lambda n: class_of(b"Void g(" + names(n, b"Int p%d_,")[:-1] + b") { }"), b"p%d_"),
        ("classes", MOST_CLASSES - 1, lambda n: names(n, b"quark Q%d_ { }") + class_of(b""), b"A "),
    ]
    for what, most, form, name in rows:
        accepted(bench, f"{most} {what}", form(most))
        text = form(most + 1)
        refused(bench, f"{most + 1} {what}", text, last(text, name.replace(b"%d", b"%d" % most)), 35, b"too many")
    for length, good in ((1, True), (STATE_BITS, True), (STATE_BITS + 1, False), (0, False), (2**32 - 1, False)):
        text = class_of(b"Bool row[%d];" % length)
        if good:
            accepted(bench, f"an array of {length}", text)
        else:
            refused(bench, f"an array of {length}", text, last(text, b"row"), 36, b"bad width")
    widths(bench, class_of)
    words(bench, class_of)
    codes(bench)


def widths(bench: Bench, class_of: Callable[[bytes], bytes]) -> None:
    """Bits of classes and of types."""
    accepted(bench, "71 bits", class_of(b"Bits(64) p; Bits(7) q;"))
    refused(bench, "72 bits", class_of(b"Bits(64) p; Bits(8) q;"), 9, 41, b"element takes 72 bits, at most %d" % STATE_BITS)
    wide = class_of(b"Bits(64) p[71]; ")
    refused(bench, "4,544 bits", wide, 9, 41, b"element takes 4544 bits, at most %d" % STATE_BITS)
    refused(bench, "33 bits", b"quark Q { Bits(33) p; }", 7, 40, b"quark takes 33 bits, at most 32")
    for kind, least, most in ((b"Int", 2, 64), (b"Unsigned", 1, 64), (b"Bits", 1, 64), (b"Unary", 1, 64), (b"Bool", 1, 1)):
        for width in (0, least - 1, least, most, most + 1, 2**32 - 1):
            text = class_of(kind + b"(%d) p;" % width)
            if least <= width <= most:
                accepted(bench, f"{kind.decode()}({width})", text)
            else:
                refused(bench, f"{kind.decode()}({width})", text, text.index(kind) + 1, 36, b"bad width")


def words(bench: Bench, class_of: Callable[[bytes], bytes]) -> None:
    """Tokens at their longest, and too long."""
    accepted(bench, "the longest name", class_of(b"Bool " + b"m" * LONGEST_NAME + b";"))
    longer = LONGEST_NAME + 1
    text = class_of(b"Bool " + b"m" * longer + b";")
    refused(bench, "a longer name", text, text.index(b"m" * longer) + longer, 10, b"bad byte")
    text = class_of(b"Bool " + b"m" * 1_000_000 + b";")
    refused(bench, "a name of a million bytes", text, text.index(b"mmm") + longer, 10, b"bad byte")
    text = b"element " + b"N" * longer + b" { }"
    refused(bench, "a longer class name", text, len(b"element ") + longer, 10, b"bad byte")
    for number in (b"4294967295u", b"0xffffffffu", b"0b" + b"1" * 32 + b"u", b"0x" + b"0" * 100_000 + b"1", b"0b" + b"0" * 100_000):
        accepted(bench, f"the number {number[:20]!r}", class_of(b"constant Unsigned(64) k = " + number + b";"))
    for number in (b"4294967296", b"9" * 1_000_000, b"0x1" + b"0" * 900_000, b"0b1" + b"0" * 900_000):
        text = class_of(b"constant Unsigned(64) k = " + number + b";")
        refused(bench, f"the number {number[:20]!r}", text, text.index(number) + 1, 12, b"number too large")
    head = b"element A { Void behave() { "
    few = MOST_TOKENS - 10  # eight before these and two behind
    accepted(bench, "most tokens", head + b";" * few + b" } }")
    # (a pass over the tokens that calls itself for each would end here, and on no text that nests alone)
    accepted(bench, "most tokens, on a stack of 256 KiB", head + b";" * few + b" } }", Limits(stack=256 * 1024))
    text = head + b";" * (few + 1) + b" } }"
    refused(bench, "one token more", text, len(text), 13, b"too many tokens")
    bench.write("e", b";" * ELEMENT_LIMIT)
    bench.expect("a file of tokens", bench.call(["check", "e"]), BAD_ELEMENT, b"e:1:%d: E13 too many tokens\n" % (MOST_TOKENS + 1))
    bytes_of(bench)


def bytes_of(bench: Bench) -> None:
    """Bytes that are no text."""
    for what, text, line in (
        ("NULs alone", b"\0" * ELEMENT_LIMIT, b"e:1:1: E10 bad byte\n"),
        ("a NUL at the end", b" " * (ELEMENT_LIMIT - 1) + b"\0", b"e:1:%d: E10 bad byte\n" % ELEMENT_LIMIT),
        ("LFs and a bad byte", b"\n" * (ELEMENT_LIMIT - 1) + b"@", b"e:%d:1: E10 bad byte\n" % ELEMENT_LIMIT),
        ("CRs and a bad byte", b"\r" * (ELEMENT_LIMIT - 1) + b"@", b"e:1:%d: E10 bad byte\n" % ELEMENT_LIMIT),
        ("a comment without an end", b"/*" + b"*" * (ELEMENT_LIMIT - 2), b"e:1:1: E11 comment is not closed\n"),
        ("comments and one without an end", b"/**/" * 200_000 + b"/*/", b"e:1:800001: E11 comment is not closed\n"),
        ("a byte order mark", b"\xef\xbb\xbfelement", b"e:1:1: E10 bad byte\n"),
    ):
        bench.write("e", text)
        bench.expect(what, bench.call(["check", "e"]), BAD_ELEMENT, line)
    for what, text in (
        ("nothing", b""), ("a comment of a mebibyte", b"//" + b"\0" * (ELEMENT_LIMIT - 2)), ("white space alone", b" \t\r\n" * 262_144),
        ("comments alone", b"/**/" * 262_144), ("a comment of slashes", b"/*" + b"/" * (ELEMENT_LIMIT - 4) + b"*/"),
    ):
        bench.write("e", text)
        bench.expect(what, bench.call(["check", "e"]), DONE, b"")


def codes(bench: Bench) -> None:
    """Codes of the greatest length, and one longer; the deepest operands; no file reaches their limit."""
    walker = b"element Walker { EventWindow ew; Void behave() { " + b"ew.swap(0, 4);" * 21_845 + b" } }"
    accepted(bench, "65,536 instructions", walker)
    bench.write("w", world(b"Walker"))
    bench.expect("65,536 instructions, run", bench.call(["run", "w", "e"]), DONE, None)
    told = b"code is longer than %d instructions" % MOST_INSTRS
    longer = walker.replace(b" } }", b" ; ew.swap(0, 4); } }")
    refused(bench, "65,539 instructions", longer, 9, 60, told)
    one = b"element Walker { EventWindow ew; Int x; Void behave() { " + b"ew.swap(0, 4);" * 21_844 + b"%s } }"
    accepted(bench, "65,536 instructions of other kinds", one % b"x = -x;")
    refused(bench, "65,537 instructions", one % b"x = -x; return;", 9, 60, told)
    operands(bench)


def operands(bench: Bench) -> None:
    """Calls of eight arguments within each other's last, as deep as they may be."""
    open_ = b"g(1, 1, 1, 1, 1, 1, 1, "
    levels = 1

    def text(levels: int) -> bytes:
        sums = b"Int g(Int a1, Int a2, Int a3, Int a4, Int a5, Int a6, Int a7, Int a8) { return a8 + 1; }"
        return element(b"x = " + open_ * levels + b"x" + b")" * levels + b";", sums)

    while too_deep(text(levels + 1)) is None:
        levels += 1
    accepted(bench, f"{7 * levels} operands and more", text(levels))
    bench.write("w", world(b"A"))
    state = b"%018x" % (levels << 39)
    answer = bench.call(["run", "w", "e"])
    bench.say(answer.out.startswith(atoms(b"3 4 A " + state)), "operands at their deepest, run", answer.shown())
    bench.note(f"the deepest operands of a text: {7 * levels} and some, of {MOST_OPERANDS}")
