"""Hostile use of chains: the edge between legs, memory that ends in a leg, and more legs than anybody waits for.

The report of each leg is written whole before the next leg is made. So a call that ends in a leg, because its output
takes nothing more or memory is short, has written the reports of the legs before it, and only if the output failed a
part of this leg's.
"""
from __future__ import annotations

import os
import select
import sys
import threading
import time
from typing import Iterator, NamedTuple

from bench import BAD_JOURNAL, BAD_WORLD, DONE, MEMORY, SINK, Answer, Bench, Limits, main_of
from chain_writes import traced_writes
from edge import first_missing, outputs, pipes, replaced
from edge_faults import may_trace, read_faults
from jobs import PACKED, WALKER, File, Job, code, element, lay, report, world
from memory import NEVER, build, chosen, refused, requests_of, settings

# Three legs: the second has more attempts than the first, so that it needs more memory.
ONE = (b"chain 1\ntiles 1 1\nsize 8 8\nseed 5\nattempts 3\nlegs 3\nevery 1 put 0 3 1 1 Walker\nact 2 attempts 9\n"
       b"act 3 erase 0.5 0 0 8 8\natom 3 4 Walker\n")
TWO = (b"chain 1\ntiles 2 1\nsize 8 8\nseed 5\nattempts 3\nlegs 3\nevery 1 flip 0.25 0 0 16 8\nact 2 attempts 9\n"
       b"act 3 clear 8 0 8 8\natom 3 4 Walker\natom 7 4 Walker\n")
SHORT = TWO.replace(b"every", b"journal short\nevery", 1)
COUNTS = TWO.replace(b"every", b"journal none\nevery", 1)
# The same where the report of each leg is put in several pieces.
LONG = TWO.replace(b"attempts 3", b"attempts 150").replace(b"attempts 9", b"attempts 300")
# Its second leg takes a while, and so does its third.
HALTED = (b"chain 1\ntiles 1 1\nsize 64 64\nseed 5\nattempts 1\nlegs 3\nact 2 attempts 1000000\nact 3 attempts 1000000\n"
          b"atom 3 4 Walker\n")
# How many legs, without attempts, many are.
MANY = 100_000
# By how much the memory of a long chain may be greater than that of a short one, in bytes.
SLACK = 1 << 20
# How many times as many legs with acts over all are compared. (The memory of the first legs, up to some five, still grows:
# what one gives back isn't taken again at once.)
FEWER = 5


class Chained(NamedTuple):
    """A job over a chain that writes the reports of legs: its reports, one for each leg."""

    job: Job
    reports: list[bytes]


def split(text: bytes) -> list[bytes]:
    """The reports of the legs in what a call wrote."""
    return [b"feast " + part for part in text.split(b"feast ")[1:]]


def runs(bench: Bench) -> Iterator[Chained]:
    """The jobs that make legs whose reports are always the same, with their inputs."""
    for name, words, chain, elements in (
        ("run of a chain", ["run", "w", "e"], ONE, element(WALKER)),
        ("step of a chain", ["step", "w", "e"], TWO, element(WALKER)),
        ("step of a chain with short reports", ["step", "w", "e"], SHORT, element(WALKER)),
        ("step of a chain without journals", ["step", "w", "e"], COUNTS, element(WALKER)),
        ("steppack of a chain", ["steppack", "w", "c"], TWO, code(PACKED)),
    ):
        job = Job(name, words, [world(chain), elements], None)
        answer = begun(bench, job)
        if bench.say(len(split(answer.out)) == 3, f"{name}: three reports", answer.shown()):
            yield Chained(job, split(answer.out))


def begun(bench: Bench, job: Job) -> Answer:
    """The first call of a job, from which on it is known what it writes."""
    lay(bench, job)
    answer = bench.call(job.words)
    bench.expect(f"{job.name}: as it is", answer, DONE, job.due)
    job.due = answer.out
    return answer


def readers(bench: Bench, made: Chained) -> Iterator[Job]:
    """The jobs that read the report of a job."""
    chain = made.job.files[0]
    files: list[File] = [chain, element(WALKER), report(b"".join(made.reports))]
    last = made.reports[-1].split(b"\njournal ")[0].split(b"\n", 1)[1] + b"\n"
    for name, words, due in (
        ("audit", ["audit", "w", "j", "e"], b"yes\n"),
        ("replay", ["replay", "w", "j", "e"], b"feast 1\n" + last),
        ("rewind", ["rewind", "w", "j", "4", "e"], None),
    ):
        job = Job(f"{name} of {made.job.name}", words, files, due)
        begun(bench, job)
        yield job


def may_be_read(made: Chained) -> bool:
    """Whether the reports of a job have a journal."""
    return not made.reports[0].startswith(b"feast 3")


def every_byte(bench: Bench, made: Chained, step: int) -> None:
    """Output that takes so many bytes, for each number up to the whole, or for one in so many."""
    out = b"".join(made.reports)
    for count in range(0, len(out), step):
        answer = bench.call(made.job.words, Limits(written=count))
        bench.expect(f"{made.job.name}: output of at most {count} bytes", answer, SINK, out[:count])
    bench.expect(f"{made.job.name}: output of just enough", bench.call(made.job.words, Limits(written=len(out))), DONE, out)


def loads(bench: Bench, job: Job) -> None:
    """Each input of a job in each way in which it can't be loaded."""
    lay(bench, job)
    for file in job.files:
        replaced(bench, job, file)
    pipes(bench, job)
    first_missing(bench, job)
    if may_trace():
        read_faults(bench, job)


def cut_reports(bench: Bench, made: Chained, step: int) -> None:
    """The reports of a job, cut behind each of their bytes, or behind one in so many: the line that is cut or lacking is refused,
    by the number that it has in the file, and no leg is judged."""
    lay(bench, made.job)
    bench.write("e", WALKER)
    whole = b"".join(made.reports)
    for count in range(0, len(whole), step):
        bench.write("j", whole[:count])
        line = whole[:count].count(b"\n") + 1
        answer = bench.call(["audit", "w", "j", "e"])
        bench.expect(f"{made.job.name}: its reports cut behind byte {count}", answer, BAD_JOURNAL, b"j:%d:1: E80 bad line\n" % line)


def is_after_whole_legs(answer: Answer, reports: list[bytes]) -> bool:
    """Whether a call wrote all reports, or those of some legs and ended for want of memory."""
    if answer.status == DONE:
        return answer.out == b"".join(reports)
    fronts = [b"".join(reports[:count]) for count in range(len(reports))]
    return answer.status == MEMORY and answer.out in fronts


def refused_in_legs(bench: Bench, made: Chained, is_all: bool) -> None:
    """Each request for memory of a run is refused, or some of them, alone and with all behind it: the reports of some first
    legs are there, and nothing else."""
    refuser = build(bench, "refuse")
    if refuser is None:
        bench.leave_out("there is no C compiler", f"{made.job.name}: requests that are refused one by one")
        return
    lay(bench, made.job)
    most = requests_of(bench, made.job, refuser)
    ended = [0] * len(made.reports)
    for number in chosen(most, is_all):
        for last in (number, NEVER):
            answer = bench.call(made.job.words, env=settings(refuser, number, last))
            held = bench.say(is_after_whole_legs(answer, made.reports), f"{made.job.name}: request {number} to {last} refused",
                             answer.shown())
            if held and answer.status == MEMORY:
                ended[len(split(answer.out))] += 1
    bench.note(f"{made.job.name}: {most} requests; refused ones ended {ended} calls in the first, second and third leg")


def readers_refused(bench: Bench, job: Job) -> None:
    """Each request of a call that reads a report is refused: it writes all, or nothing."""
    refuser = build(bench, "refuse")
    if refuser is not None:
        lay(bench, job)
        refused(bench, job, refuser)


class FirstLeg(threading.Thread):
    """Reads from a pipe what the report of a first leg has, looks whether there is more already, and closes it."""

    def __init__(self, end: int, size: int) -> None:
        super().__init__()
        self.end, self.size = end, size
        self.taken = b""
        self.is_more = False

    def run(self) -> None:
        """Reads."""
        while len(self.taken) < self.size:
            piece = os.read(self.end, self.size - len(self.taken))
            if not piece:
                break
            self.taken += piece
        self.is_more = bool(select.select([self.end], [], [], 0)[0])
        os.close(self.end)


def closed_between_legs(bench: Bench) -> None:
    """A pipe with a name, whose reader takes the report of the first leg and goes: the report is there while the second
    leg is still to come, and the call ends by its status."""
    bench.write("w", HALTED)
    bench.write("e", WALKER)
    bench.write("first", HALTED.replace(b"legs 3", b"legs 1"))
    first = bench.call(["run", "first", "e"]).out
    ahead = False
    for quiet in (True, False, True):
        os.mkfifo(bench.at("pipe"))
        reader = os.open(bench.at("pipe"), os.O_RDONLY | os.O_NONBLOCK)
        writer = os.open(bench.at("pipe"), os.O_WRONLY)
        os.set_blocking(reader, True)
        bench.at("pipe").unlink()
        thread = FirstLeg(reader, len(first))
        thread.start()
        answer = bench.call(["run", "w", "e"], Limits(quiet=quiet), out=writer)
        os.close(writer)
        thread.join()
        bench.say(thread.taken == first, "the first leg's report through a pipe", f"{thread.taken[:200]!r}")
        bench.expect(f"a pipe that is closed between legs{'' if quiet else ', by its signal'}", answer, SINK, None)
        ahead = ahead or not thread.is_more
    # (on a busy machine the reader may come late, once)
    bench.say(ahead, "the first leg's report is there before the second one's", "it came with it each time")


def legs_alone(legs: int, rest: str, journal: str = "none") -> bytes:
    """A chain of so many legs of one small tile."""
    last = "\nprint 1000000" if journal == "none" else ""
    return f"chain 1\ntiles 1 1\nsize 8 8\nseed 5\nattempts 0\nlegs {legs}\njournal {journal}{last}\n{rest}atom 3 4 Walker\n".encode()


def many_legs(bench: Bench, legs: int) -> None:
    """A great many legs without attempts take their number of times as long as a tenth of them, and no more memory."""
    bench.write("e", WALKER)
    flat = b"feast 3\natoms 1\n3 4 Walker " + b"0" * 18 + b"\njournal 0\nabandoned 0\n"
    for name, rest in (("nothing between", ""), ("an act between", "every 1 put 3 4 1 1 Walker\n")):
        answers = []
        for count in (legs // 10, legs):
            bench.write("w", legs_alone(count, rest))
            answers.append(bench.call(["run", "w", "e"], seconds=600))
            bench.expect(f"{count} legs, {name}", answers[-1], DONE, flat)
        few, many = answers
        bench.say(many.memory <= few.memory + SLACK, f"the memory of {legs} legs, {name}", f"{many.memory} bytes, {few.memory} of a tenth")
        bench.say(many.seconds <= 15 * few.seconds + 0.5, f"the time of {legs} legs, {name}", f"{many.seconds:.2f} s, {few.seconds:.2f} s of a tenth")
        bench.note(f"{legs} legs without attempts, {name}: {many.seconds:.2f} s, {many.memory >> 10} KiB")
    bench.write("w", legs_alone(legs, "", "short"))
    made = bench.call(["run", "w", "e"], seconds=600)
    leg = b"feast 2" + flat[7:]
    bench.say(made.status == DONE and bench.same([leg] * legs), f"short reports of {legs} legs", made.shown())
    bench.output.rename(bench.at("j"))
    answer = bench.call(["audit", "w", "j", "e"], seconds=600)
    bench.expect(f"the audit of {legs} legs", answer, DONE, b"yes\n")
    bench.note(f"the audit of {legs} legs without attempts: {answer.seconds:.2f} s, {answer.memory >> 10} KiB")


def flat_memory(bench: Bench, few: int, many: int) -> None:
    """Many legs with attempts take the memory of a few."""
    bench.write("e", WALKER)
    for tiles in ("1 1", "2 2"):
        found = []
        for legs in (few, many):
            text = legs_alone(legs, "every 1 put 0 0 1 8 Walker\n").replace(b"tiles 1 1", b"tiles " + tiles.encode())
            bench.write("w", text.replace(b"attempts 0", b"attempts 1000"))
            answer = bench.call(["step", "w", "e"], seconds=600)
            bench.expect(f"{legs} legs on {tiles} tiles", answer, DONE, None)
            found.append(answer.memory)
        bench.say(found[1] <= found[0] + SLACK, f"the memory of {many} legs on {tiles} tiles", f"{found[1]} bytes, {found[0]} of {few}")


def acts_over_all(bench: Bench, legs: int) -> None:
    """Acts over the whole of the largest plane before every leg: each leg takes as long as any other, in the same memory."""
    bench.write("e", WALKER)
    act = "every 1 flip 0.0001 0 0 512 512\nevery 1 erase 0.0001 0 0 512 512\nevery 1 put 0 0 512 1 Walker\nevery 1 clear 0 511 512 1\n"
    answers = []
    for count in (legs // FEWER, legs):
        text = legs_alone(count, act).replace(b"tiles 1 1\nsize 8 8", b"tiles 8 8\nsize 64 64")
        bench.write("w", text)
        answers.append(bench.call(["run", "w", "e"], seconds=600))
        bench.expect(f"{count} legs with acts over all", answers[-1], DONE, None)
    few, many = answers
    bench.say(many.memory <= few.memory + SLACK, "the memory of acts over all", f"{many.memory} bytes, {few.memory} of a fifth")
    bench.say(many.seconds <= 1.4 * FEWER * few.seconds + 0.5, "the time of acts over all", f"{many.seconds:.2f} s, {few.seconds:.2f} s of a fifth")
    bench.note(f"{legs} legs with four acts over 262,144 sites: {many.seconds:.2f} s, {many.memory >> 10} KiB")


def between_legs(bench: Bench) -> None:
    """The edge and the memory of legs."""
    made = list(runs(bench))
    for place, chained in enumerate(made):
        is_all = bench.long or place == 1
        lay(bench, chained.job)
        every_byte(bench, chained, 1 if is_all else 13)
        outputs(bench, chained.job)
        refused_in_legs(bench, chained, is_all)
    for chained in made if bench.long else made[1:2]:
        loads(bench, chained.job)
        if may_be_read(chained):
            cut_reports(bench, chained, 1 if bench.long else 3)
        for job in readers(bench, chained) if may_be_read(chained) else ():
            outputs(bench, job)
            readers_refused(bench, job)
            loads(bench, job)


def takes_chains(bench: Bench) -> bool:
    """Whether the program takes chains."""
    bench.write("w", b"chain 1\n")
    bench.write("e", WALKER)
    answer = bench.call(["step", "w", "e"])
    return (answer.status, answer.out) == (BAD_WORLD, b"w:2:1: E76 missing line\n")


def chains(bench: Bench) -> None:
    """The table."""
    if not takes_chains(bench):
        bench.leave_out("the program takes no chains yet", "chains")
        return
    begin = time.monotonic()
    between_legs(bench)
    bench.note(f"the edge and the memory of legs, in {time.monotonic() - begin:.0f} s")
    closed_between_legs(bench)
    traced_writes(bench, LONG)
    many_legs(bench, MANY if bench.long else MANY // 10)
    flat_memory(bench, 10, 1000 if bench.long else 100)
    acts_over_all(bench, 100 if bench.long else 50)


if __name__ == "__main__":
    sys.exit(main_of(chains))
