"""The widest and longest of elements: names, chains of classes, files, codes of one function; and that time goes
with size."""
from __future__ import annotations

from typing import Callable

from bench import BAD_ELEMENT, DONE, Bench
from element_texts import accepted, element, refused, survives
from feast_lab.lab.base.limits import ELEMENT_LIMIT, MOST_FILES


def widest(bench: Bench) -> None:
    """The widest and longest of everything: names, members, classes, chains of quarks, of bases, of constants."""
    long = b"_" * 240
    text = b""
    due = []
    for k in range(255):
        text += b"quark Q%d%s { Bool m%s; }\n" % (k, long, long)
        due.append(b"quark Q%d%s 1\nmember m%s Bool 0 1\n" % (k, long, long))
    bench.write("e", text + b"element A { Void behave() { } }")
    bench.expect("255 quarks of long names", bench.call(["check", "e"]), DONE, b"".join(due) + b"element A 1 0\n")
    members = b"".join(b"Q%d m%d%s; " % (i % 32, i, long) for i in range(64))
    quarks = b"".join(b"quark Q%d { Bool b; }\n" % i for i in range(32))
    accepted(bench, "64 quark members of long names", quarks + b"element A { " + members + b"Void behave() { } }")
    chains(bench)
    called(bench)
    many_files(bench)
    repeated(bench)


def called(bench: Bench) -> None:
    """An element that calls each of the 64 functions of each of five quarks and one of its own: 322 functions of code."""
    functions = b" ".join(b"Void f%d() { b = !b; }" % k for k in range(64))
    quarks = b"".join(b"quark Q%d { Bool b; %s }\n" % (q, functions) for q in range(5))
    members = b" ".join(b"Q%d q%d;" % (q, q) for q in range(5))
    calls = b" ".join(b"q%d.f%d();" % (q, k) for q in range(5) for k in range(64))
    text = quarks + b"element A { " + members + b" Void more() { q0.f0(); } Void behave() { " + calls + b" more(); } }"
    survives(bench, "322 functions of code", text, b"A", True, after=b"4" + b"0" * 17)


def chains(bench: Bench) -> None:
    """Chains of 255 quarks within each other, of 255 bases, of 64 constants and typedefs."""
    inside = b"quark Q0 { Bool b; Void set() { b = true; } }\n" + b"".join(
        b"quark Q%d { Q%d q; }\n" % (k, k - 1) for k in range(1, 255)
    )
    path = b".".join([b"q"] * 255)
    text = inside + b"element A { Q254 q; Void behave() { " + path + b".set(); } }"
    survives(bench, "255 quarks within each other", text, b"A", True, after=b"4" + b"0" * 17)
    bases = b"quark Q0 { Bool b; virtual Void go() { } }\n" + b"".join(
        b"quark Q%d : Q%d { Void go() { b = true; } }\n" % (k, k - 1) for k in range(1, 255)
    )
    text = bases + b"element A : Q254 { Void behave() { go(); } }"
    survives(bench, "255 bases of each other", text, b"A", True, after=b"4" + b"0" * 17)
    ring = b"".join(b"quark Q%d { Q%d q; }\n" % (k, (k + 1) % 256) for k in range(256))
    bench.write("e", ring)
    bench.expect("a ring of 256 quarks", bench.call(["check", "e"]), BAD_ELEMENT, b"e:1:7: E32 quark contains itself\n")
    ring = b"".join(b"quark Q%d : Q%d { }\n" % (k, (k + 1) % 256) for k in range(256))
    bench.write("e", ring)
    bench.expect("a ring of 256 bases", bench.call(["check", "e"]), BAD_ELEMENT, b"e:1:7: E38 class is its own base\n")
    full = b"".join(b"quark Q%d { " % k + b"".join(b"Q%d m%d; " % ((k + 1 + i) % 256, i) for i in range(64)) + b"}\n" for k in range(255))
    bench.write("e", full + b"quark Q255 { }")
    bench.expect("rings of 255 quarks by 64 ways", bench.call(["check", "e"]), BAD_ELEMENT, b"e:1:7: E32 quark contains itself\n")
    tower = [b"quark Q0 { Bool b; }\n"] + [
        b"quark Q%d { " % k + b"".join(b"Q%d m%d; " % (k - 1, i) for i in range(64)) + b"}\n" for k in range(1, 100)
    ]
    for what, quarks, line in (
        ("least first", tower, b"e:2:7: E40 quark takes 64 bits, at most 32\n"),
        ("greatest first", tower[::-1], b"e:1:7: E40 quark takes 18446744073709551615 bits, at most 32\n"),
    ):
        bench.write("e", b"".join(quarks))
        bench.expect(f"64 to the 99th bits, {what}", bench.call(["check", "e"]), BAD_ELEMENT, line)
    constants = b"".join(b"constant Int k%d = k%d; " % (i, i - 1) for i in range(1, 64))
    accepted(bench, "64 constants of each other", b"element A { constant Int k0 = 7; " + constants + b"Int(k2) x; Void behave() { } }")
    path = b".".join([b"x"] * 99_000)
    text = element(path + b" = 1;")
    refused(bench, "a path of 99,000 names", text, text.index(path) + 3, 31, b"unknown name")
    arguments = b", ".join([b"1"] * 99_000)
    text = element(b"x = f(" + arguments + b");")
    refused(bench, "99,000 arguments", text, text.index(b"f(1") + 1, 53, b"wrong number of arguments")


def many_files(bench: Bench) -> None:
    """As many files as there can be, of nearly a mebibyte each."""
    for count in range(MOST_FILES):
        functions = b"".join(b"Void f%d() { " % i + b"x = x * 3 + 1; " * 400 + b"}\n" for i in range(60))
        text = b"element E%d { Int x;\n" % count + functions + b"Void behave() { f0(); } }\n"
        bench.make(f"f{count}", [text, b" " * (ELEMENT_LIMIT - len(text))])
    words = ["check", *(f"f{count}" for count in range(MOST_FILES if bench.long else 16))]
    answer = bench.call(words, seconds=300)
    due = b"".join(b"element E%d %d 32\nmember x Int(32) 0 32\n" % (count, count + 1) for count in range(len(words) - 1))
    bench.expect(f"{len(words) - 1} files of a mebibyte", answer, DONE, due)
    bench.note(f"{len(words) - 1} files of a mebibyte: {answer.seconds:.1f} s, {answer.memory >> 20} MiB")


def empty_layout(quark: bytes, count: int) -> bytes:
    """The layout of a quark and of so many elements without bits."""
    return b"quark " + quark + b" 0\n" + b"".join(b"element E%d %d 0\n" % (k, k + 1) for k in range(count))


def repeated(bench: Bench) -> None:
    """One function of a quark, as long as code may be, in the codes of many elements."""
    count = 255 if bench.long else 16
    swaps = 21_844
    bench.write("q", b"quark Q { EventWindow ew; Void f() { " + b"ew.swap(0,4);" * swaps + b" } }")
    bench.write("e", b"".join(b"element E%d { Q q; Void behave() { q.f(); } }\n" % k for k in range(count)))
    answer = bench.call(["check", "q", "e"], seconds=300)
    bench.expect(f"{count} elements with one long function", answer, DONE, empty_layout(b"Q", count))
    bench.note(f"{count} codes of 65,536 instructions from 0.3 MB: {answer.seconds:.1f} s, {answer.memory >> 20} MiB")
    heirs = b"quark B { EventWindow ew; Void f() { " + b"ew.swap(0,4);" * swaps + b" } }\n"
    bench.write("q", heirs)
    few = 64 if bench.long else 8
    bench.write("e", b"".join(b"element E%d : B { Void behave() { f(); } }\n" % k for k in range(few)))
    answer = bench.call(["check", "q", "e"], seconds=300)
    bench.expect(f"{few} heirs of one long function", answer, DONE, empty_layout(b"B", few))
    bench.note(f"{few} heirs of a function of 65,536 instructions: {answer.seconds:.1f} s, {answer.memory >> 20} MiB")


def statements(count: int) -> bytes:
    return b"".join(b"x = x * 3 + %d; if (b) c = c ^ c; while (x < 1) x++; " % i for i in range(count))


# Texts that grow: for each size a file whose length goes with it.
GROWING: dict[str, Callable[[int], bytes]] = {
    "statements": lambda n: element(statements(n)),
    "empty statements": lambda n: element(b";" * (30 * n)),
    "blocks": lambda n: element(b"{ ; }" * (10 * n)),
    "comments": lambda n: element(b"/* a * b / c */ " * (6 * n)),
    "functions": lambda n: b"element A { Int x; " + b"".join(
        b"Void f%d() { " % i + b"x = x + 1; " * (n // 12) + b"} " for i in range(60)) + b"Void behave() { } }",
    "uses": lambda n: b"use Random;" * (5 * n) + element(b""),
    "versions": lambda n: b"ulam 5;" * (5 * n) + element(b""),
    "spaces": lambda n: element(b" \n" * (40 * n)),
    "long names": lambda n: element(b"Int " + b"n" * 250 + b"; " + (b"n" * 250 + b" = " + b"n" * 250 + b" + 1; ") * (3 * n // 4)),
    "locals": lambda n: b"element A { Int x; " + b"".join(
        b"Void f%d() { " % i + b"".join(b"Int l%d = x; " % j for j in range(64)) + b"x = l0 + l63; " * (n // 12) + b"} " for i in range(60))
    + b"Void behave() { } }",
}


def growing(bench: Bench) -> None:
    """Twice the text takes about twice the time."""
    size = 2000 if bench.long else 1000
    for name, form in GROWING.items():
        seconds = []
        lengths = []
        for count in (size // 4, size):
            text = form(count)
            lengths.append(len(text))
            bench.write("e", text)
            best = min((bench.call(["check", "e"]) for _ in range(3)), key=lambda answer: answer.seconds)
            bench.expect(f"{name}, {count}", best, DONE, None)
            seconds.append(best.seconds)
        rate = (seconds[1] + 0.01) / (seconds[0] + 0.01)
        grown = lengths[1] / lengths[0]
        bench.say(rate <= 2.5 * grown, f"{name}: time goes with size", f"{seconds} s for {lengths} bytes")
