"""How much address space calls need, against a stated formula.

A call has all its memory when it writes its answer: a pipe that is full keeps it there, and the system tells the most
address space that it has had. That must be what the formula says, to a tenth, so room that is asked for twice is seen.
In a tenth more than the formula says the call ends well, and in a quarter less it ends for want of memory and has
put nothing. Runs of several tiles are left out, since each of their threads has a stack; and all of this is done on
one processor, where no threads print a report.

The report that threads print on several processors has a formula of its own, with their stacks.
"""
from __future__ import annotations

import os
import pathlib
import re
import subprocess
import time
from typing import Iterator, Mapping, NamedTuple, Optional

from bench import DONE, MEMORY, Bench, Limits
from jobs import PACKED, WALKER

KIB = 1024
# In how much address space the program begins, in kibibytes.
BEGIN = 3252
# How many attempts the worlds have, over all tiles; the second one is for the long run.
FEW, MANY = 20_000, 1_000_000
# What a run of one tile takes, in kibibytes.
ONE = 450
# What planes of 64 tiles of 8 by 8 sites take that are run with tiles, in kibibytes.
TILES = 21_700
# What the map of 64 tiles takes, most of it for what an event needs in each zone, in kibibytes.
MAP = 900
# What a generated world takes, in kibibytes.
GENERATED = 5_684
# A report of more events than this is printed by as many threads as there are processors, up to so many.
LONG_REPORT, MOST_PRINTING = 20_000, 8
# What its lines have room in then, and what a thread's stack takes that is limited, in kibibytes.
LINES, STACK = 8_192, 128


class Room(NamedTuple):
    """A call by its words, how much it needs beyond the beginning, in kibibytes, how many bytes for each thing that it
    has, and how many things these are."""

    words: list[str]
    fixed: int
    each: float
    things: int

    def due(self) -> float:
        """The address space that it needs, in kibibytes."""
        return BEGIN + self.fixed + self.each * self.things / KIB


def full_pipe() -> tuple[int, int]:
    """A pipe that takes nothing more: its two ends."""
    end, out = os.pipe()
    os.set_blocking(out, False)
    try:
        while os.write(out, bytes(4096)):
            pass
    except BlockingIOError:
        os.set_blocking(out, True)
    return end, out


def is_writing(process: int) -> bool:
    """Whether a process waits in a write to its standard output."""
    try:
        return pathlib.Path(f"/proc/{process}/syscall").read_text().startswith("1 0x1 ")
    except OSError:
        return False


def most_space(
    bench: Bench, words: list[str], seconds: float, limits: Limits = Limits(), env: Optional[Mapping[str, str]] = None
) -> Optional[int]:
    """The most address space that a call has had when it writes, in kibibytes; None if it writes nothing."""
    end, out = full_pipe()
    child = subprocess.Popen([bench.program, *words], cwd=bench.folder, stdin=subprocess.DEVNULL, stdout=out,
                             preexec_fn=limits.set, env=env)
    os.close(out)
    last = time.monotonic() + seconds
    while not is_writing(child.pid) and child.poll() is None and time.monotonic() < last:
        time.sleep(0.005)
    status = pathlib.Path(f"/proc/{child.pid}/status").read_text() if child.poll() is None else ""
    child.kill()
    child.wait()
    os.close(end)
    found = re.search(r"VmPeak:\s+(\d+) kB", status)
    return int(found[1]) if found else None


def has_room(bench: Bench, room: Room) -> None:
    """A call needs what its formula says, and has enough in a little more, and too little in less."""
    name, due = " ".join(room.words), room.due()
    most = most_space(bench, room.words, 600)
    bench.say(most is not None and abs(most - due) <= due / 10, f"{name}: address space", f"{most} KiB, not {due:.0f}")
    for part, status in ((1.1, DONE), (0.75, MEMORY)):
        answer = bench.call(room.words, Limits(space=int(due * part) * KIB), seconds=600)
        out = b"" if status == MEMORY else None
        bench.expect(f"{name} in {part} of its space", answer, status, out)
    bench.note(f"{name}: {most} KiB of address space, by the formula {due:.0f}")


def heirs(count: int, swaps: int) -> bytes:
    """Elements that have a long `behave` of their base."""
    body = b"quark B { EventWindow ew; Void behave() { " + b"ew.swap(0, 4); " * swaps + b"} }\n"
    return body + b"".join(b"element E%d : B { }\n" % k for k in range(count))


def rooms_of(attempts: int) -> Iterator[Room]:
    """The calls over worlds with so many attempts, on one tile and on 64, and their reports; nine of ten attempts of
    the last of these are abandoned."""
    whole, parts = attempts, attempts // 64 * 64
    yield Room(["run", "one", "e"], ONE, 33, whole)
    yield Room(["runpack", "one", "c"], ONE, 33, whole)
    yield Room(["step", "one", "e"], 0, 72, whole)
    yield Room(["steppack", "one", "c"], 0, 72, whole)
    yield Room(["step", "many", "e"], TILES, 72, parts)
    for world, fixed, count in (("one", 0, whole), ("many", MAP, parts), ("torn", MAP, parts)):
        yield Room(["audit", world, f"{world}.report", "e"], fixed, 140, count)
        yield Room(["replay", world, f"{world}.report", "e"], fixed, 94, count)
    for world, fixed, count in (("one", 0, whole), ("many", MAP, parts)):
        yield Room(["rewind", world, f"{world}.report", "10", "e"], fixed, 569, count)


def printing(bench: Bench) -> None:
    """How much room a report takes that threads print: all of them share the room for lines."""
    processors = min(len(os.sched_getaffinity(0)), MOST_PRINTING)
    if processors < 2:
        bench.leave_out("there is one processor", "a report that threads print")
        return
    # (the C library would set 64 MiB aside for what each thread allocates, which is nothing)
    env = dict(os.environ, MALLOC_ARENA_MAX="1")
    most = most_space(bench, ["step", "printed", "e"], 600, Limits(stack=STACK * KIB), env)
    due = Room([], LINES + (processors - 1) * STACK, 72, LONG_REPORT + 1).due()
    held = most is not None and abs(most - due) <= due / 10
    bench.say(held, "a report that threads print: address space", f"{most} KiB, not {due:.0f}")
    bench.note(f"a report that threads print: {most} KiB of address space, by the formula {due:.0f}")


def rooms(bench: Bench) -> None:
    """The rooms of calls, on one processor, and of printing on all of them."""
    bench.write("e", WALKER)
    bench.write("printed", f"feast 1\ntiles 1 1\nsize 8 8\nseed 1\nattempts {LONG_REPORT + 1}\n".encode())
    printing(bench)
    processors = os.sched_getaffinity(0)
    os.sched_setaffinity(0, {min(processors)})
    try:
        rooms_here(bench)
    finally:
        os.sched_setaffinity(0, processors)


def rooms_here(bench: Bench) -> None:
    """Each of these calls, and those that write code."""
    bench.write("c", PACKED)
    bench.write("long", heirs(10, 2000))
    attempts = MANY if bench.long else FEW
    for name, tiles, own, order in (("one", "1 1", attempts, ""), ("many", "8 8", attempts // 64, ""),
                                    ("torn", "8 8", attempts // 64, "order seed 9\n")):
        bench.write(name, f"feast 1\ntiles {tiles}\nsize 8 8\nseed 1\nattempts {own}\n{order}".encode())
        bench.call(["step", name, "e"], seconds=600)
        bench.output.rename(bench.at(f"{name}.report"))
    for room in rooms_of(attempts):
        has_room(bench, room)
    for verb in ("check", "code", "pack"):
        has_room(bench, Room([verb, "long"], 0, 1268, 20_000))
    has_room(bench, Room(["gen", "5"], GENERATED, 0, 0))
