"""Elements that never end, ended by their turns or their depth, and the slowest events."""
from __future__ import annotations

from bench import Bench
from element_texts import element, survives
from feast_lab.lab.base.limits import MOST_CALLS, MOST_TURNS


def without_end(bench: Bench) -> None:
    """What never ends is ended by its turns or its depth."""
    down = b"element D { Unsigned(7) n; Void down(Unsigned(7) k) { if (k > 1) down(k - 1); } Void behave() { down(n); } }"
    for deep, stays in ((1, True), (MOST_CALLS, True), (MOST_CALLS + 1, False), (127, False)):
        survives(bench, f"calls {deep} deep", down, b"D", stays, b"%018x" % (deep << 64))
    rows = [
        ("while", b"while (true) { }", False),
        ("while without a body", b"while (true) ;", False),
        ("for", b"for (;;) { }", False),
        ("for that counts down", b"for (Int i = 0; i < 1; i--) { }", False),
        ("continue", b"while (true) continue;", False),
        ("loops in loops", b"while (true) while (true) while (true) ;", False),
        ("a call of itself", b"g();", False),
        ("two calls of each other", b"h();", False),
        ("calls in a loop", b"while (true) k();", False),
        ("all turns", b"for (Unsigned i = 0; i < %d; i++) { }" % MOST_TURNS, True),
        ("one turn more", b"for (Unsigned i = 0; i < %d; i++) { }" % (MOST_TURNS + 1), False),
        ("31 by 31 turns", b"for (Int i = 0; i < 31; i++) for (Int j = 0; j < 31; j++) ;", True),
        ("32 by 32 turns", b"for (Int i = 0; i < 32; i++) for (Int j = 0; j < 32; j++) ;", False),
        ("a loop left at once", b"while (true) break;", True),
        ("a loop that returns", b"while (true) return;", True),
        ("a call for each turn", b"k();" * MOST_TURNS, True),
        ("one call more", b"k();" * (MOST_TURNS + 1), False),
    ]
    functions = b"Void g() { g(); } Void h() { m(); } Void m() { h(); } Void k() { }"
    for name, body, stays in rows:
        survives(bench, name, element(body, functions), b"A", stays)
    slowest(bench)


def slowest(bench: Bench) -> None:
    """The slowest events: as many instructions as there can be, each as often as there are turns."""
    seconds = []
    for count in (3_250, 13_000):
        body = b"while (true) { " + b"x = x + 1; " * count + b"}"
        answer = survives(bench, f"an event of {5 * count},000 steps", element(body), b"A", False)
        seconds.append(answer.seconds)
    bench.say(seconds[1] <= 10 * seconds[0] + 0.1, "four times the steps take four times the time", f"{seconds}")
    bench.note(f"an event of 65 million instructions takes {seconds[1]:.2f} s")
