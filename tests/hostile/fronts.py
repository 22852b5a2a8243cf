"""Cut texts and changed ones: every front of worlds, reports and code files, and texts with a change.

What is expected comes from the laws on cuts, and from the readers of `reading.py` and `reading_reports.py`,
which share nothing with the program.
"""
from __future__ import annotations

import random
import re
import sys
from typing import Optional

from bench import BAD_CODE, BAD_ELEMENT, BAD_JOURNAL, BAD_WORLD, DONE, Bench, main_of
from jobs import PACKED, TWO_TILES, WALKER, ZEROS
from reading import Fault, read_world, refusal, world_fault
from reading_reports import report_fault

NAMES = [b"Walker"]
STATE = b"7" + b"f" * 17

# Worlds as they are printed: of each kind of plan, of order and of first line.
WORLDS = {
    "nothing": b"feast 1\ntiles 1 1\nsize 8 8\n",
    "written": TWO_TILES,
    "drawn": b"feast 1\ntiles 3 2\nsize 8 9\nseed 7\nattempts 3\natom 0 0 Walker " + STATE + b"\norder seed 9\n",
    "in order": b"feast 1\ntiles 2 2\nsize 8 8\ntry 0 7 7 " + ZEROS + b"\ntry 3 8 8 " + ZEROS
    + b"\natom 7 7 Walker " + b"0" * 18 + b"\natom 8 8 Walker " + STATE + b"\norder 0 3 0 3 1 2\n",
    "some off": b"feast 2\ntiles 3 1\nsize 8 8\noff 0\noff 2\nseed 18446744073709551615\nattempts 4\natom 8 0 Walker "
    + STATE + b"\norder 1 1 1\n",
    "no attempts": b"feast 1\ntiles 1 8\nsize 64 8\natom 63 63 Walker " + b"0" * 18 + b"\n",
}


def first_lines(text: bytes, count: int) -> bytes:
    """The first lines of a text."""
    return b"".join(line + b"\n" for line in text.split(b"\n")[:count])


def cut_law(text: bytes, count: int) -> Optional[Fault]:
    """What is due to the first lines of a printed world: a fault, or None."""
    last = text.split(b"\n")[count - 1] if count > 0 else b""
    if count == 0:
        return Fault(70, 1)
    if count in (1, 2) or last.startswith(b"seed "):
        return Fault(76, count + 1)
    return None


def world_answer(bench: Bench, name: str, text: bytes, fault: Optional[Fault]) -> None:
    """A world with this fault, or none."""
    bench.write("w", text)
    answer = bench.call(["step", "w", "e"])
    if fault is None:
        bench.expect(name, answer, DONE, None)
    else:
        bench.expect(name, answer, BAD_WORLD, refusal("w", fault))


def world_fronts(bench: Bench) -> int:
    """Each world cut behind each line, by the law; and behind each byte, by the reader."""
    tried = 0
    for kind, text in WORLDS.items():
        for count in range(text.count(b"\n") + 1):
            front = first_lines(text, count)
            fault = cut_law(text, count)
            bench.say(world_fault(front, NAMES) == fault, f"{kind}: the law at line {count}", f"{fault}")
            world_answer(bench, f"{kind}: its first {count} lines", front, fault)
            tried += 1
        for count in range(len(text)):
            front = text[:count]
            world_answer(bench, f"{kind}: its first {count} bytes", front, world_fault(front, NAMES))
            tried += 1
    return tried


def report_of(bench: Bench, text: bytes) -> bytes:
    """The report of the stepped run of a world."""
    bench.write("w", text)
    answer = bench.call(["step", "w", "e"])
    bench.say(answer.status == DONE, "a world that is whole", answer.shown())
    return answer.out


# The words of the forms that read a report.
REPORT_FORMS = [["replay", "w", "j", "e"], ["audit", "w", "j", "e"], ["rewind", "w", "j", "0", "e"]]


def report_answer(bench: Bench, name: str, words: list[str], text: bytes, fault: Optional[Fault]) -> None:
    """A report with this fault, or none."""
    bench.write("j", text)
    answer = bench.call(words)
    if fault is None:
        bench.expect(name, answer, DONE, None)
    else:
        bench.expect(name, answer, BAD_JOURNAL, refusal("j", fault))


def report_fronts(bench: Bench) -> int:
    """Each report of those worlds cut behind each line, by the law; and behind each byte."""
    tried = 0
    for kind, text in WORLDS.items():
        report = report_of(bench, text)
        world = read_world(text, NAMES)
        for words in REPORT_FORMS:
            for count in range(report.count(b"\n")):
                fault = Fault(80, count + 1)
                front = first_lines(report, count)
                bench.say(report_fault(front, world) == fault, f"{kind}: the law at line {count}", f"{fault}")
                report_answer(bench, f"{words[0]}, {kind}: its first {count} lines", words, front, fault)
                tried += 1
            report_answer(bench, f"{words[0]}, {kind}: whole", words, report, None)
        for count in range(len(report)):
            front = report[:count]
            name = f"{kind}: its first {count} bytes"
            report_answer(bench, name, REPORT_FORMS[0], front, report_fault(front, world))
            tried += 1
    return tried


CODE_REFUSAL = re.compile(rb"c:1:\d+: E6[1-4] (not a code file|bad code file|code is not valid|name used twice)\n\Z")


def code_fronts(bench: Bench) -> int:
    """A code file cut behind each byte, and with one byte more."""
    bench.write("w", TWO_TILES)
    for count in range(len(PACKED)):
        bench.write("c", PACKED[:count])
        line = b"c:1:1: E61 not a code file\n" if count < 8 else b"c:1:%d: E62 bad code file\n" % (count + 1)
        bench.expect(f"a code file's first {count} bytes", bench.call(["steppack", "w", "c"]), BAD_CODE, line)
    bench.write("c", PACKED + b"\0")
    bench.expect("a further byte", bench.call(["steppack", "w", "c"]), BAD_CODE, b"c:1:69: E62 bad code file\n")
    return len(PACKED)


def changed_codes(bench: Bench) -> int:
    """A code file with each byte changed."""
    bench.write("w", TWO_TILES)
    tried = 0
    for at in range(len(PACKED)):
        for byte in range(0, 256, 1 if bench.long else 37):
            bench.write("c", PACKED[:at] + bytes([byte]) + PACKED[at + 1:])
            answer = bench.call(["steppack", "w", "c"])
            is_refused = answer.status == BAD_CODE and CODE_REFUSAL.match(answer.out) is not None
            bench.say(is_refused or answer.status in (DONE, BAD_WORLD), f"byte {at + 1} is {byte}", answer.shown())
            tried += 1
    return tried


HARD = [
    b"", b" ", b"\0", b"\r", b"\n", b"\t", b"#", b"-1", b"+1", b"00", b"01", b"1 ", b" 1", b"0x1", b"1.0", b"1e3", b"\xff",
    b"7", b"8", b"9", b"63", b"64", b"65", b"255", b"256", b"999999", b"1000000", b"1000001", b"4294967295", b"4294967296",
    b"18446744073709551615", b"18446744073709551616", b"99999999999999999999", b"100000000000000000000", b"9" * 300,
    b"seed", b"order", b"off", b"feast", b"Walker", b"walker", b"Empty", b"W" * 255, b"W" * 256, ZEROS, b"0" * 17, b"F" * 16,
    b"8" + b"0" * 17, b"0" * 18, b"f" * 18, b"feast 2", b"off 0", b"\r\n", b"\n\n", b"\xc3\xa9",
]


def changed(text: bytes, draw: random.Random) -> bytes:
    """A text with a change: a field, a line or a byte."""
    kind = draw.randrange(9)
    lines = text.split(b"\n")
    at = draw.randrange(len(lines))
    other = draw.randrange(len(lines))
    if kind < 4:
        fields = lines[at].split(b" ")
        fields[draw.randrange(len(fields))] = draw.choice(HARD)
        lines[at] = b" ".join(fields)
    elif kind == 4:
        lines[at], lines[other] = lines[other], lines[at]
    elif kind == 5:
        lines.insert(at, lines[other])
    elif kind == 6:
        del lines[at]
    elif kind == 7:
        place = draw.randrange(len(text))
        return text[:place] + bytes([draw.randrange(256)]) + text[place + draw.randrange(2):]
    else:
        lines[at] = lines[at] + draw.choice([b"\r", b" ", b"\0", b" 0", b" x"])
    return b"\n".join(lines)


def often(text: bytes, draw: random.Random) -> bytes:
    """A text with one to three changes."""
    for _ in range(draw.choice([1, 1, 1, 2, 3])):
        text = changed(text, draw) or b"\n"
    return text


def changed_worlds(bench: Bench, draw: random.Random) -> int:
    """Worlds with changes, by the reader."""
    tried = 10_000 if bench.long else 600
    refused = 0
    for _ in range(tried):
        text = often(draw.choice(list(WORLDS.values())), draw)
        fault = world_fault(text, NAMES)
        refused += fault is not None
        world_answer(bench, f"a changed world {text!r}", text, fault)
    bench.note(f"{tried} changed worlds, {refused} of them refused")
    return tried


def changed_reports(bench: Bench, draw: random.Random) -> int:
    """Reports with changes, by the reader."""
    texts = list(WORLDS.values())
    reports = [report_of(bench, text) for text in texts]
    worlds = [read_world(text, NAMES) for text in texts]
    tried = 10_000 if bench.long else 600
    refused = 0
    for _ in range(tried):
        at = draw.randrange(len(texts))
        bench.write("w", texts[at])
        text = often(reports[at], draw)
        fault = report_fault(text, worlds[at])
        refused += fault is not None
        report_answer(bench, f"a changed report {text!r}", ["replay", "w", "j", "e"], text, fault)
    bench.note(f"{tried} changed reports, {refused} of them refused")
    return tried


SOUP = (
    "element quark ulam use typedef constant if else while for return break continue is as self true false instanceof "
    "virtual A B Int Unsigned Bits Bool Unary Atom Void EventWindow Random Empty behave x y n ew random swap 0 1 2u 71 255 "
    "0x7 0b1 4294967295 { } ( ) [ ] ; : , . = == != < <= > >= + - * / % & | ^ ~ ! && || << >> ++ -- += -= *= /= %= &= |= "
    "^= <<= >>= Int(3) (Int(4)) ew[0] ew.swap(0,1);"
).split(" ")

ELEMENT = (
    b"ulam 5; use EventWindow; quark Tally { Unsigned(5) count; virtual Void bump() { count += 1; } }\n"
    b"element Counter : Tally { EventWindow ew; Random random; Bool met; Unsigned(2) a[3]; typedef Int(4) Four; constant Four k = -3;\n"
    b"Int(7) f(Int m, Atom z) { for (Int i = 0; i < m; i++) { if (z is Empty) continue; if (i == 3) break; } return k; }\n"
    b"Void behave() { Unsigned i = random.create(4) + 1; Atom other = ew[i]; if (other as Counter) { if (other.met) met = true; }\n"
    b"else if (other is Empty && !met) ew.swap(0, i); else { a[i - 1] = 3u; bump(); Int q = (Int(3)) f(2, self); while (q > 0) q--; } } }\n"
)


def changed_element(draw: random.Random) -> bytes:
    """An element file with changes of its tokens."""
    tokens = re.findall(rb"\w+|[^\w\s]|\s+", ELEMENT)
    for _ in range(draw.choice([1, 1, 2, 4])):
        at = draw.randrange(len(tokens))
        kind = draw.randrange(5)
        if kind == 0:
            tokens[at] = draw.choice(SOUP).encode()
        elif kind == 1:
            tokens.insert(at, draw.choice(SOUP).encode() + b" ")
        elif kind == 2:
            del tokens[at]
        elif kind == 3:
            other = draw.randrange(len(tokens))
            tokens[at], tokens[other] = tokens[other], tokens[at]
        else:
            tokens[at] = bytes([draw.randrange(256)])
    return b"".join(tokens)


def soup(draw: random.Random) -> bytes:
    """Tokens in no order."""
    return " ".join(draw.choice(SOUP) for _ in range(draw.randrange(1, 60))).encode()


REFUSAL = re.compile(rb"e:[1-9]\d*:[1-9]\d*: E(1[0-3]|2[01]|3\d|4[01]|5[0-6]|60) [^\n]+\n\Z")


def changed_elements(bench: Bench, draw: random.Random) -> int:
    """Element files with changes: accepted, or refused by one line."""
    tried = 8_000 if bench.long else 500
    refused = 0
    bench.write("e", ELEMENT)
    bench.expect("the element before it is changed", bench.call(["code", "e"]), DONE, None)
    for number in range(tried):
        text = changed_element(draw) if number % 4 else soup(draw)
        bench.write("e", text)
        answer = bench.call(["code", "e"], seconds=20)
        refused += answer.status == BAD_ELEMENT
        is_refused = answer.status == BAD_ELEMENT and REFUSAL.match(answer.out) is not None
        bench.say(is_refused or answer.status == DONE, f"a changed element {text!r}", answer.shown())
    bench.note(f"{tried} changed element files, {refused} of them refused")
    bench.write("e", WALKER)
    return tried


def fronts(bench: Bench) -> None:
    """The table."""
    bench.write("e", WALKER)
    draw = random.Random(30)
    tried = world_fronts(bench) + report_fronts(bench) + code_fronts(bench) + changed_codes(bench)
    tried += changed_worlds(bench, draw) + changed_reports(bench, draw) + changed_elements(bench, draw)
    bench.note(f"{tried} texts in all")


if __name__ == "__main__":
    sys.exit(main_of(fronts))
