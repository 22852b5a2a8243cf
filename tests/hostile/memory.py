"""Memory refused: each request in turn, and an address space that is too small.

Requests are refused by a few lines of C that are loaded before the program (`refuse.c`), built by the
compiler of the kit; an address space is limited by the system itself. A call then ends with status 8
and has put nothing, or does not need what was refused and writes what it always writes.
"""
from __future__ import annotations

import os
import pathlib
import subprocess
import sys
from typing import Iterator, Optional, Sequence

from bench import DONE, MEMORY, NO_FORM, Answer, Bench, Limits, main_of, tool
from feast_lab.lab.base.limits import ELEMENT_LIMIT
from fronts import ELEMENT
from jobs import STATE, WALKER, ZEROS, Job, element, jobs_of, lay, world
from rooms import KIB, LONG_REPORT, MOST_PRINTING, rooms

HERE = pathlib.Path(__file__).resolve().parent
# the number of a request that no call comes to
NEVER = 1 << 40


def compilers() -> Iterator[list[str]]:
    """The commands that may build what refuses requests: the kit's own, and the system's."""
    kit = subprocess.run(["rt", "doc"], capture_output=True, text=True, check=False) if tool("rt") else None
    if kit is not None and kit.returncode == 0:
        folder = pathlib.Path(kit.stdout.strip()).parent / "toolchain" / "bin"
        yield [str(folder / "clang"), f"-fuse-ld={folder / 'ld.lld'}", "-nostdlib"]
    yield ["cc"]


def build(bench: Bench, name: str) -> Optional[pathlib.Path]:
    """The path of what is loaded before the program, `refuse` or `threads`; None where nothing builds it."""
    made = bench.at(f"{name}.so")
    for command in compilers():
        words = [*command, "-w", "-O1", "-fPIC", "-fno-builtin", "-shared", "-o", str(made), str(HERE / f"{name}.c")]
        try:
            if subprocess.run(words, capture_output=True, check=False).returncode == 0:
                return made
        except OSError:
            continue
    return None


def settings(refuser: pathlib.Path, first: int, last: int, count: Optional[pathlib.Path] = None) -> dict[str, str]:
    """The environment in which requests from `first` to `last` are refused, and the number of all is left
    in a file."""
    found = dict(os.environ, LD_PRELOAD=str(refuser), REFUSE_FIRST=str(first), REFUSE_LAST=str(last))
    if count is not None:
        found["REFUSE_COUNT"] = str(count)
    return found


def requests_of(bench: Bench, job: Job, refuser: pathlib.Path) -> int:
    """How many requests a job makes."""
    count = bench.at("requests")
    bench.call(job.words, env=settings(refuser, 0, 0, count))
    return int(count.read_text())


def chosen(most: int, all_of_them: bool) -> Sequence[int]:
    """All numbers up to one, or the first and the last of them and some between."""
    if all_of_them or most <= 120:
        return range(1, most + 1)
    between = range(31, most - 19, max(1, (most - 50) // 70))
    return sorted({*range(1, 31), *between, *range(most - 19, most + 1)})


def is_whole_or_nothing(answer: Answer, out: bytes) -> bool:
    """Whether a call wrote what it always writes, or ended for want of memory and wrote nothing."""
    return (answer.status, answer.out) in ((MEMORY, b""), (DONE, out))


def refused(bench: Bench, job: Job, refuser: pathlib.Path) -> int:
    """Each request of a job is refused alone, and with all behind it."""
    most = requests_of(bench, job, refuser)
    wanted = tried = 0
    for number in chosen(most, bench.long):
        for last in (number, NEVER):
            answer = bench.call(job.words, env=settings(refuser, number, last))
            tried += 1
            wanted += answer.status == MEMORY
            name = f"{job.name}: request {number} to {last} of {most} refused"
            bench.say(is_whole_or_nothing(answer, job.out), name, answer.shown())
    bench.note(f"{job.name}: {most} requests, {tried} calls with refused ones, {wanted} ended for want of memory")
    return tried


def least_space(bench: Bench, words: list[str], status: int) -> int:
    """The least address space, in kibibytes, in which a call ends with a status, to 16 KiB."""
    low, high = 512, 1 << 23
    while high - low > 16:
        middle = (low + high) // 2
        if bench.call(words, Limits(space=middle * KIB)).status == status:
            high = middle
        else:
            low = middle
    return high


def spaces(bench: Bench, job: Job) -> int:
    """Address spaces from that in which the program begins at all up to one that suffices."""
    begins = least_space(bench, [], NO_FORM)
    enough = least_space(bench, job.words, DONE)
    step = 4 if bench.long else max(4, (enough - begins) // 24)
    tried = 0
    for space in [*range(begins + 16, enough, step), enough + 16]:
        answer = bench.call(job.words, Limits(space=space * KIB))
        tried += 1
        bench.say(is_whole_or_nothing(answer, job.out), f"{job.name}: {space} KiB", answer.shown())
    bench.expect(f"{job.name}: ample space", bench.call(job.words, Limits(space=2 * enough * KIB)), DONE, job.out)
    bench.note(f"{job.name}: begins in {begins} KiB, needs {enough} KiB, {tried} spaces tried")
    return tried


def large(bench: Bench) -> None:
    """A run of many attempts and a file of the greatest length, in spaces from little to enough."""
    bench.make("w", [b"feast 1\ntiles 8 8\nsize 16 16\nseed 7\nattempts 2000\n"])
    bench.write("e", WALKER)
    bench.make("long", [WALKER, b" " * (ELEMENT_LIMIT - len(WALKER))])
    bench.make("text", [b"feast 1\ntiles 1 1\nsize 8 8\n", (b"try 0 0 0 " + ZEROS + b"\n") * 100_000])
    for words in (["check", "long"], ["run", "text", "e"], ["step", "text", "e"], ["step", "w", "e"]):
        in_spaces(bench, words, True)
    in_spaces(bench, ["run", "w", "e"], False)
    in_spaces(bench, ["gen", "1"], True)


def in_spaces(bench: Bench, words: list[str], is_same: bool) -> None:
    """A call in spaces from little to enough, and whether it writes the same each time that it ends well."""
    enough = least_space(bench, words, DONE)
    begins = least_space(bench, [], NO_FORM)
    whole = bench.call(words)
    steps = 200 if bench.long else 20
    for space in range(begins + 16, enough + 1024, max(16, (enough - begins) // steps)):
        answer = bench.call(words, Limits(space=space * KIB))
        held = is_whole_or_nothing(answer, whole.out if is_same else answer.out)
        bench.say(held, f"{words} in {space} KiB", answer.shown())
    for limits in (Limits(space=2 * enough * KIB), Limits()):
        answer = bench.call(words, limits)
        is_whole = not is_same or (answer.out, answer.size) == (whole.out, whole.size)
        bench.say(answer.status == DONE and is_whole, f"{words} in ample space", answer.shown())
    bench.note(f"{' '.join(words)}: needs {enough} KiB of address space")


def amplified(bench: Bench) -> None:
    """Texts whose classes would take far more memory than the text, in a space that they pass."""
    body = b" { EventWindow ew; Void f() { " + b"ew.swap(0,4);" * 20_000 + b" } }"
    heirs = b"".join(b"quark B%d:A{}" % k for k in range(255))
    users = b"".join(b"element E%d { Q q; Void behave() { q.f(); } }" % k for k in range(255))
    for name, text in (
        ("a long function in many heirs", b"quark A" + body + heirs),
        ("long codes of many elements", b"quark Q" + body + users),
    ):
        bench.write("e", text)
        for space in (64, 128, 256):
            answer = bench.call(["check", "e"], Limits(space=space << 20))
            bench.expect(f"{name} in {space} MiB", answer, MEMORY, b"")


def ordinary(bench: Bench) -> Iterator[Job]:
    """Jobs with an element file of every form of the language, one of them with a report that threads print, and with
    what they write."""
    file = element(ELEMENT)
    plane = world(b"feast 1\ntiles 2 2\nsize 8 8\nseed 7\nattempts 4\natom 7 7 Counter " + STATE + b"\norder seed 9\n")
    many = world(b"feast 1\ntiles 1 1\nsize 8 8\nseed 7\nattempts 20001\n")
    for name, words, files in (
        ("check of", ["check", "e"], [file]),
        ("code of", ["code", "e"], [file]),
        ("step of", ["step", "w", "e"], [plane, file]),
        ("many events of", ["step", "w", "e"], [many, file]),
    ):
        job = Job(f"{name} an ordinary file", words, files, None)
        lay(bench, job)
        answer = bench.call(job.words)
        bench.expect(job.name, answer, DONE, None)
        job.due = answer.out
        yield job


def started(bench: Bench, counter: pathlib.Path, attempts: int) -> int:
    """How many threads a stepped run of one tile with so many attempts starts."""
    bench.write("w", b"feast 1\ntiles 1 1\nsize 8 8\nseed 1\nattempts %d\n" % attempts)
    count = bench.at("threads")
    count.write_bytes(b"")
    answer = bench.call(["step", "w", "e"], env=dict(os.environ, LD_PRELOAD=str(counter), THREADS_COUNT=str(count)))
    bench.expect(f"a run of {attempts} events", answer, DONE, None)
    return count.stat().st_size


def threads(bench: Bench) -> None:
    """A report of more than 20,000 events is printed by as many threads as there are processors, up to eight, of which
    one is that of the call; a shorter one by that alone."""
    counter = build(bench, "threads")
    if counter is None:
        bench.leave_out("there is no C compiler", "the threads that print a report")
        return
    bench.write("e", WALKER)
    printing = min(len(os.sched_getaffinity(0)), MOST_PRINTING)
    for attempts, due in ((LONG_REPORT, 0), (LONG_REPORT + 1, printing - 1), (10 * LONG_REPORT, printing - 1)):
        found = started(bench, counter, attempts)
        # (a long report is printed in rounds, and its threads are started in each)
        held = found == due if attempts < 2 * LONG_REPORT else found >= due
        bench.say(held, f"threads that print {attempts} events", f"{found} were started, not {due}")


def memory(bench: Bench) -> None:
    """The table."""
    refuser = build(bench, "refuse")
    if refuser is None:
        bench.leave_out("there is no C compiler", "requests that are refused one by one")
    jobs = [*jobs_of(bench), *ordinary(bench)]
    tried = shut = 0
    for job in jobs:
        lay(bench, job)
        if refuser is not None:
            tried += refused(bench, job, refuser)
        shut += spaces(bench, job)
    bench.note(f"{tried} calls with refused requests, {shut} in small address spaces")
    large(bench)
    amplified(bench)
    threads(bench)
    rooms(bench)


if __name__ == "__main__":
    sys.exit(main_of(memory))
