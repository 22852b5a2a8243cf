"""The lines of bench/run: each a work of the program, what it takes, and what stands beside it."""

import dataclasses
import pathlib
import shutil
from typing import Callable, Iterator

from calls import Failed, Used, Words, at_once, in_turn, made
from check import CLASSES, FILES, source_files
from reports import events_of, placed, start_of
from worlds import ATTEMPTS, HORDE, LIFE, SIDE, SORTERS, WALKER, WANDERERS, Mix, lines_of_tries, world

ORDER = "order seed 9\n"


# the digits that a figure is shown with, behind the point
DIGITS = 2


@dataclasses.dataclass(frozen=True)
class Aim:
    """What a figure is to be: at most this, or at least."""

    bound: float
    at_most: bool = True

    def shown(self, figure: float) -> str:
        """The aim, and whether the figure reaches it as it is shown."""
        figure = round(figure, DIGITS)
        reached = figure <= self.bound if self.at_most else figure >= self.bound
        return f"{'at most' if self.at_most else 'at least'} {self.bound:g}: {'reached' if reached else 'missed'}"


def at_least(bound: float) -> Aim:
    return Aim(bound, at_most=False)


@dataclasses.dataclass(frozen=True)
class Line:
    """A line of the table: the work and what it takes; what stands beside it; a figure, its unit and its aim."""

    work: str
    used: str
    beside: str = ""
    figure: float | None = None
    unit: str = ""
    aim: Aim | None = None

    def shown(self) -> str:
        """The line as a row of a table."""
        figure = "" if self.figure is None else f"{self.figure:.{DIGITS}f} {self.unit}"
        aim = "" if self.aim is None or self.figure is None else self.aim.shown(self.figure)
        return f"| {self.work} | {self.used} | {self.beside} | {figure} | {aim} |"


@dataclasses.dataclass(frozen=True)
class Bench:
    """The programs, and the folder of the files; how many attempts a run has, and how many runs a line."""

    program: pathlib.Path
    flat: pathlib.Path
    plain: pathlib.Path
    folder: pathlib.Path
    attempts: int
    rounds: int
    processors: tuple[int, ...]

    def file(self, name: str, text: str) -> pathlib.Path:
        """Makes a file."""
        path = self.folder / name
        path.write_text(text)
        return path

    def world(self, tiles: int, mix: Mix = WANDERERS, scripted: bool = False, side: int = SIDE) -> pathlib.Path:
        """The world of so many tiles each way."""
        order = "" if scripted or tiles == 1 else ORDER
        return self.file(f"world-{tiles}", world(tiles, self.attempts, scripted, side, mix) + order)

    def idle_world(self, tiles: int) -> pathlib.Path:
        """The same plane and atoms with one attempt a tile."""
        return self.file(f"idle-world-{tiles}", world(tiles, tiles**2) + ORDER)

    def elements(self, mix: Mix = WANDERERS) -> pathlib.Path:
        """The elements of worlds."""
        return self.file("elements", mix.text)

    def absolute(self, bound: float) -> Aim | None:
        """What seconds or megabytes are to be at most; only where all attempts are made can that be judged."""
        return Aim(bound) if self.attempts == ATTEMPTS else None

    def text(self, words: Words) -> bytes:
        """What a call writes."""
        made(words, self.folder / "text")
        return (self.folder / "text").read_bytes()

    def same(self, ours: Words, theirs: Words) -> None:
        """Fails unless both programs write the same report."""
        if self.text(ours) != self.text(theirs):
            raise Failed(f"the reports of {ours[0]} and {theirs[0]} differ")

    def wrote(self, words: Words, wanted: bytes) -> None:
        """Fails unless a call writes this text."""
        if (text := self.text(words)) != wanted:
            raise Failed(f"{shown(words)} writes {text[:60]!r}.., {len(text)} bytes, and not {wanted[:60]!r}.., {len(wanted)} bytes")

    def audited(self, words: Words, elements: pathlib.Path) -> pathlib.Path:
        """The report that a call makes of a world, its third word. Fails unless it audits to `yes`."""
        report = self.folder / "report"
        made(words, report)
        said = self.text([self.program, "audit", words[2], report, elements])
        if said != b"yes\n":
            raise Failed(f"the audit of what {shown(words)} writes says {said[:200].decode(errors='replace').strip()}")
        return report


def shown(words: Words) -> str:
    """A call as it is told: the program and the form."""
    return " ".join(map(str, words[:2]))


def beside(name: str, used: Used) -> str:
    """Another program, or the same one on other work, and what it takes."""
    return f"{name} {used.shown()}"


def one_tile(bench: Bench) -> Iterator[Line]:
    """Runs of one tile, drawn and written out, beside the plain program of one tile."""
    elements = bench.elements()
    for work, scripted, aim in (("run, one tile", False, Aim(1.1)), ("run, one tile, `try` lines", True, None)):
        where = bench.world(1, scripted=scripted)
        calls: dict[str, Words] = {"ours": [bench.program, "run", where, elements], "flat": [bench.flat, where]}
        bench.same(calls["ours"], calls["flat"])
        used = in_turn(calls, bench.rounds)
        ratio = used["ours"].seconds / used["flat"].seconds
        yield Line(work, used["ours"].shown(), beside("flat.rs", used["flat"]), ratio, "times its time", aim)


@dataclasses.dataclass(frozen=True)
class Aims:
    """What a threaded run is to come to: its time beside the plain program's, its rate beside one tile's, its megabytes."""

    price: Aim
    rate: Aim
    memory: Aim | None = None


def compared(bench: Bench, tiles: int, mix: Mix, work: str, aims: Aims) -> Iterator[Line]:
    """A threaded run beside the plain program with tiles, and beside one tile of ours with as many attempts."""
    elements, alone, many = bench.elements(mix), bench.world(1, mix), bench.world(tiles, mix)
    calls: dict[str, Words] = {
        "ours": [bench.program, "run", many, elements],
        "plain": [bench.plain, "run", many],
        "alone": [bench.program, "run", alone, elements],
    }
    bench.same(calls["alone"], [bench.plain, "run", alone])
    for name in ("ours", "plain"):
        bench.audited(calls[name], elements)
    used = in_turn(calls, bench.rounds)
    ours = used["ours"]
    yield Line(work, ours.shown(), beside("plain.rs", used["plain"]), ours.seconds / used["plain"].seconds, "times its time", aims.price)
    yield Line(work, ours.shown(), beside("one tile of ours", used["alone"]), used["alone"].seconds / ours.seconds, "times its rate", aims.rate)
    yield Line(f"{work}, memory", f"{ours.megabytes:.0f} MB", f"plain.rs {used['plain'].megabytes:.0f} MB", ours.megabytes, "MB", aims.memory)


def many_tiles(bench: Bench) -> Iterator[Line]:
    """Threaded runs with one site in four taken."""
    for tiles, aims in ((2, Aims(Aim(1.1), at_least(1.5))), (8, Aims(Aim(1.1), at_least(1.2), bench.absolute(60)))):
        yield from compared(bench, tiles, WANDERERS, f"run, {tiles} by {tiles} tiles", aims)


def small_tiles(bench: Bench) -> Iterator[Line]:
    """A threaded run of smaller tiles, beside the plain program with tiles."""
    elements, where = bench.elements(), bench.world(4, side=16)
    calls: dict[str, Words] = {"ours": [bench.program, "run", where, elements], "plain": [bench.plain, "run", where]}
    for words in calls.values():
        bench.audited(words, elements)
    used = in_turn(calls, bench.rounds)
    ratio = used["ours"].seconds / used["plain"].seconds
    work = "run, 4 by 4 tiles of 16 by 16 sites"
    yield Line(work, used["ours"].shown(), beside("plain.rs", used["plain"]), ratio, "times its time", Aim(1.3))


def examples(bench: Bench) -> Iterator[Line]:
    """Threaded runs of examples on four tiles of 32 by 32 sites, beside the same plane on one tile."""
    for example in (HORDE, LIFE):
        elements = bench.file("elements", example.text)
        many = bench.file("world-2", example.repeated(2, 32, bench.attempts))
        alone = bench.file("world-1", example.repeated(1, 64, bench.attempts))
        calls: dict[str, Words] = {"ours": [bench.program, "run", many, elements], "alone": [bench.program, "run", alone, elements]}
        for words in calls.values():
            bench.audited(words, elements)
        used = in_turn(calls, bench.rounds)
        rate = used["alone"].seconds / used["ours"].seconds
        work = f"run, {example.name}, 2 by 2 tiles of 32 by 32 sites"
        yield Line(work, used["ours"].shown(), beside("one tile of ours", used["alone"]), rate, "times its rate", at_least(3))


def sorters(bench: Bench) -> Iterator[Line]:
    """A threaded run of an element that has more to do."""
    yield from compared(bench, 8, SORTERS, "run, 8 by 8 tiles, sorters", Aims(Aim(1.3), at_least(2)))


def taskset() -> str:
    """The program that holds others to some processors."""
    found = shutil.which("taskset")
    if not found:
        raise Failed("there is no taskset")
    return found


def machine(bench: Bench) -> Iterator[Line]:
    """How much all processors do together beside one of them: calls that have nothing to do with each other, one on each."""
    elements = bench.file("elements", LIFE.text)
    works: dict[str, Words] = {
        "flat.rs, one tile": [bench.flat, bench.world(1)],
        "run, life, one tile": [bench.program, "run", bench.file("life", LIFE.repeated(1, 64, bench.attempts)), elements],
    }
    for work, words in works.items():
        each: list[Words] = [[taskset(), "-c", str(processor), *words] for processor in bench.processors]
        alone = min(made(call).seconds for _ in range(bench.rounds) for call in each)
        together = min(at_once(each) for _ in range(bench.rounds))
        figure = len(each) * alone / together
        yield Line(f"{work}, on {len(each)} processors at once", f"{together:.3f} s", f"one alone {alone:.3f} s", figure, "times its rate")


def workers(bench: Bench) -> Iterator[Line]:
    """What a threaded run takes more than one of the same plane with one attempt a tile, on all processors and on one."""
    elements = bench.elements()
    for tiles in (2, 8):
        busy: Words = [bench.program, "run", bench.world(tiles), elements]
        idle: Words = [bench.program, "run", bench.idle_world(tiles), elements]
        for words in (busy, idle):
            bench.audited(words, elements)
        on_one: Words = [taskset(), "-c", str(bench.processors[0])]
        calls = {"busy": busy, "idle": idle, "busy on one": [*on_one, *busy], "idle on one": [*on_one, *idle]}
        used = in_turn(calls, bench.rounds)
        yield added(f"workers alone, {tiles} by {tiles} tiles", used)


def added(work: str, used: dict[str, Used]) -> Line:
    """The line of what attempts add; without a figure if runs are so short that this is lost in other differences."""
    many = used["busy"].seconds - used["idle"].seconds
    one = used["busy on one"].seconds - used["idle on one"].seconds
    figure = one / many if min(one, many) > 0 else None
    return Line(work, f"{many:.3f} s", f"on one processor {one:.3f} s", figure, "times its rate", at_least(3.3))


def stepped(bench: Bench) -> Iterator[Line]:
    """Stepped runs, beside those of the plain program with tiles."""
    elements = bench.elements()
    for tiles, aim in ((2, None), (8, Aim(1.2))):
        where = bench.world(tiles)
        calls: dict[str, Words] = {"ours": [bench.program, "step", where, elements], "plain": [bench.plain, "step", where]}
        bench.same(calls["ours"], calls["plain"])
        used = in_turn(calls, bench.rounds)
        work, ours, plain = f"step, {tiles} by {tiles} tiles", used["ours"], used["plain"]
        yield Line(work, ours.shown(), beside("plain.rs", plain), ours.seconds / plain.seconds, "times its time", aim)


def audits(bench: Bench) -> Iterator[Line]:
    """An audit of 64 tiles of 8 by 8 sites without atoms, whose tiles made their attempts one after another."""
    where, elements = bench.file("tries", lines_of_tries(8, attempts=bench.attempts)), bench.file("walker", WALKER)
    report = bench.audited([bench.program, "step", where, elements], elements)
    used = in_turn({"audit": [bench.program, "audit", where, report, elements]}, bench.rounds)["audit"]
    yield Line("audit, 64 tiles", used.shown(), "", used.seconds, "s", bench.absolute(0.6))


def rewinds(bench: Bench) -> Iterator[Line]:
    """A rewind of a report of four tiles to its start, and to its first 1,000 records."""
    where, elements = bench.world(2), bench.elements()
    report = bench.audited([bench.program, "step", where, elements], elements)
    begun = bench.folder / "begun"
    begun.write_bytes(events_of(report.read_bytes(), 1000))
    wanted = {"0": start_of(where.read_text()), "1000": bench.text([bench.program, "replay", where, begun, elements])}
    calls: dict[str, Words] = {
        f"rewind to record {count}": [bench.program, "rewind", where, report, count, elements] for count in wanted
    }
    for words, text in zip(calls.values(), wanted.values()):
        bench.wrote(words, text)
    for work, used in in_turn(calls, bench.rounds).items():
        aims = (bench.absolute(0.5), bench.absolute(150)) if work == "rewind to record 0" else (None, None)
        yield Line(work, used.shown(), "", used.seconds, "s", aims[0])
        yield Line(f"{work}, memory", used.shown(), "", used.megabytes, "MB", aims[1])


def others(bench: Bench) -> Iterator[Line]:
    """Element files of 1 MB, and a report that is read again, of four tiles stepped."""
    files = source_files(bench.folder)
    calls: dict[str, Words] = {f"{form}, 1 MB in {len(files)} files": [bench.program, form, *files] for form in ("check", "code")}
    for words in calls.values():
        told = bench.text(words).splitlines()
        if sum(line.startswith(b"element ") for line in told) != FILES * CLASSES:
            raise Failed(f"{shown(words)} doesn't tell of {FILES * CLASSES} elements")
    where, elements = bench.world(2), bench.elements()
    report = bench.audited([bench.program, "step", where, elements], elements)
    bench.wrote([bench.program, "replay", where, report, elements], placed(report.read_bytes()))
    calls |= {
        "replay": [bench.program, "replay", where, report, elements],
        "audit, four tiles": [bench.program, "audit", where, report, elements],
    }
    for work, used in in_turn(calls, bench.rounds).items():
        yield Line(work, used.shown())


PARTS: dict[str, Callable[[Bench], Iterator[Line]]] = {
    "one": one_tile,
    "many": many_tiles,
    "small": small_tiles,
    "sorters": sorters,
    "examples": examples,
    "machine": machine,
    "workers": workers,
    "step": stepped,
    "audit": audits,
    "rewind": rewinds,
    "others": others,
}
