"""The real edge: files that can't be loaded, standard output that takes nothing or a part.

What can't be had by plain means (a read that fails in the middle of a file, a write of no byte) is put
into the system's answers by `strace` (edge_faults.py), where the system has it.
"""
from __future__ import annotations

import os
import pathlib
import signal
import socket
import sys
import threading
import time
from typing import Callable, NamedTuple, Optional, Sequence

from bench import (
    BAD_ELEMENT, BAD_WORLD, DONE, NO_FORM, SINK, UNREADABLE, USAGE, Bench, Limits, is_root, main_of,
)
from edge_faults import growing, may_trace, read_faults, write_faults
from edge_texts import LONG_REPORT, LONG_WORLD, too_long, unreadable
from feast_lab.lab.base.limits import MOST_FILES
from jobs import ONE_TILE, WALKER, File, Job, clear, jobs_of, lay


def feed(path: pathlib.Path, pieces: Sequence[bytes], pause: float, done: threading.Event) -> None:
    """Writes pieces into a pipe with a name, one after another, once it is opened for reading."""
    while not done.is_set():
        try:
            end = os.open(path, os.O_WRONLY | os.O_NONBLOCK)
            break
        except OSError:
            time.sleep(0.002)
    else:
        return
    os.set_blocking(end, True)
    try:
        for piece in pieces:
            os.write(end, piece)
            time.sleep(pause)
    except BrokenPipeError:
        pass
    finally:
        os.close(end)


class Pipe:
    """A pipe that stands in place of an input, fed by a thread."""

    def __init__(self, path: pathlib.Path, pieces: Sequence[bytes], pause: float) -> None:
        clear(path)
        os.mkfifo(path)
        self.done = threading.Event()
        self.thread = threading.Thread(target=feed, args=(path, pieces, pause, self.done))

    def __enter__(self) -> None:
        self.thread.start()

    def __exit__(self, *_: object) -> None:
        self.done.set()
        self.thread.join()


def make_socket(path: pathlib.Path) -> None:
    """A socket with a name, which can't be opened as a file."""
    with socket.socket(socket.AF_UNIX) as end:
        end.bind(str(path))


def make_closed(path: pathlib.Path, text: bytes) -> None:
    """A file that nobody may read."""
    path.write_bytes(text)
    path.chmod(0)


def make_link(bench: Bench, path: pathlib.Path, text: bytes) -> None:
    """A link to a file elsewhere."""
    bench.at("elsewhere").write_bytes(text)
    path.symlink_to("elsewhere")


def replaced(bench: Bench, job: Job, file: File) -> None:
    """Each thing that can't be loaded in place of an input, and what is answered."""
    path = bench.at(file.name)
    refusal = unreadable(file.name)

    def row(what: str, make: Callable[[], object], status: int = UNREADABLE, out: bytes = refusal) -> None:
        clear(path)
        make()
        bench.expect(f"{job.name}: {file.name} is {what}", bench.call(job.words), status, out)
        clear(path)

    row("missing", lambda: None)
    row("a folder", path.mkdir)
    row("a link to nothing", lambda: path.symlink_to("nothing"))
    row("a link to itself", lambda: path.symlink_to(file.name))
    row("a file whose first read fails", lambda: path.symlink_to("/proc/self/mem"))
    row("a socket", lambda: make_socket(path))
    row("without an end", lambda: path.symlink_to("/dev/zero"), UNREADABLE, too_long(file))
    if not is_root():
        row("closed to the user", lambda: make_closed(path, file.text))
    row("a link to the file", lambda: make_link(bench, path, file.text), DONE, job.out)
    lay(bench, job)


def pipes(bench: Bench, job: Job) -> None:
    """Each input as a pipe, by single bytes and in two pieces."""
    for file in job.files:
        half = len(file.text) // 2
        for what, pieces, pause in (
            ("in two pieces", [file.text[:half], file.text[half:]], 0.02),
            ("by single bytes", [bytes([byte]) for byte in file.text], 0.0),
        ):
            with Pipe(bench.at(file.name), pieces, pause):
                answer = bench.call(job.words, seconds=20)
            bench.expect(f"{job.name}: {file.name} comes through a pipe {what}", answer, DONE, job.out)
        lay(bench, job)


def first_missing(bench: Bench, job: Job) -> None:
    """Where several inputs are missing, the first that is loaded is told."""
    for file in job.files:
        clear(bench.at(file.name))
    bench.expect(f"{job.name}: nothing is there", bench.call(job.words), UNREADABLE, unreadable(job.files[0].name))
    lay(bench, job)


def close_ends() -> None:
    """Closes standard input and standard error."""
    os.close(0)
    os.close(2)


def outputs(bench: Bench, job: Job) -> None:
    """Standard output that takes nothing, or a part."""
    with open("/dev/full", "wb") as device:
        bench.expect(f"{job.name}: full device", bench.call(job.words, out=device), SINK, None)
    with open("/dev/null", "rb") as device:
        bench.expect(f"{job.name}: output for reading alone", bench.call(job.words, out=device), SINK, None)
    closed = Limits(then=lambda: os.close(1))
    bench.expect(f"{job.name}: closed output", bench.call(job.words, closed), SINK, b"")
    reader, writer = os.pipe()
    os.close(reader)
    bench.expect(f"{job.name}: pipe without a reader", bench.call(job.words, out=writer), SINK, None)
    os.close(writer)
    for count in sorted({0, 1, len(job.out) // 2, len(job.out) - 1}):
        answer = bench.call(job.words, Limits(written=count))
        bench.expect(f"{job.name}: output of at most {count} bytes", answer, SINK, job.out[:count])
    answer = bench.call(job.words, Limits(written=len(job.out)))
    bench.expect(f"{job.name}: output of just enough bytes", answer, DONE, job.out)
    ends = Limits(then=close_ends)
    bench.expect(f"{job.name}: closed input and errors", bench.call(job.words, ends), DONE, job.out)


class Refusal(NamedTuple):
    """The words of a call that is refused, its status, and its line (None: the usage)."""

    words: list[str]
    status: int
    line: Optional[bytes]


REFUSALS = [
    Refusal([], NO_FORM, None),
    Refusal(["check", "missing"], UNREADABLE, unreadable("missing")),
    Refusal(["check", "bad"], BAD_ELEMENT, b"bad:1:1: E10 bad byte\n"),
    Refusal(["run", "bad", "bad"], BAD_WORLD, b"bad:1:1: E70 bad header\n"),
]


def refusal_outputs(bench: Bench) -> None:
    """A refusal is written like any text."""
    bench.write("bad", b"@")
    for words, status, line in REFUSALS:
        answer = bench.call(words)
        bench.expect(f"refusal of {words}", answer, status, line)
        for count in (0, 1, len(answer.out) - 1):
            cut = bench.call(words, Limits(written=count))
            bench.expect(f"refusal of {words} into {count} bytes", cut, SINK, answer.out[:count])
        with open("/dev/full", "wb") as device:
            bench.expect(f"refusal of {words}: full device", bench.call(words, out=device), SINK, None)


def pieces(bench: Bench) -> None:
    """A report of two pieces whose second is not taken whole."""
    bench.write("w", LONG_WORLD)
    bench.write("e", WALKER)
    words = ["run", "w", "e"]
    bench.expect("a report of two pieces", bench.call(words), DONE, LONG_REPORT)
    for count in (0, 1, 4095, 4096, 4097, len(LONG_REPORT) - 1):
        answer = bench.call(words, Limits(written=count))
        bench.expect(f"two pieces into {count} bytes", answer, SINK, LONG_REPORT[:count])
    reader, writer = os.pipe()
    os.set_blocking(writer, False)
    os.write(writer, b" " * (65536 - 5000))
    answer = bench.call(words, out=writer)
    os.close(writer)
    with os.fdopen(reader, "rb") as end:
        taken = end.read()[65536 - 5000:]
    held = answer.status == SINK and taken == LONG_REPORT[:4096]
    bench.say(held, "a pipe that is full behind the first piece", f"{answer.shown()}, {len(taken)} bytes taken")


def names(bench: Bench) -> None:
    """Names of files are words as they are given."""
    bench.write("a b", WALKER)
    bench.write("-", WALKER)
    for name in (b"a b", b"-", b"./-", b"/proc/self/cwd/-", b".//./-"):
        bench.expect(f"a file named {name!r}", bench.call([b"check", name]), DONE, b"element Walker 1 0\n")
    for name in (b"", b"a\nb", b"n" * 255, b"n" * 5000, b"d/" * 2000, b"\x01", "é".encode(), b"--help"):
        answer = bench.call([b"check", name])
        bench.expect(f"no file {name[:12]!r}", answer, UNREADABLE, name + b": E01 unreadable\n")


def many_files(bench: Bench) -> None:
    """Files are closed as soon as they are loaded, and there are so many at most."""
    for count in range(MOST_FILES):
        bench.write(f"e{count}", b"element E%d { Void behave() { } }" % count)
    words = ["check", *(f"e{count}" for count in range(MOST_FILES))]
    layout = b"".join(b"element E%d %d 0\n" % (count, count + 1) for count in range(MOST_FILES))
    bench.expect(f"{MOST_FILES} files, one open at a time", bench.call(words, Limits(files=4)), DONE, layout)
    bench.expect("one file more", bench.call([*words, "e0"]), NO_FORM, USAGE)
    bench.expect("100,000 words", bench.call(["check"] + ["e0"] * 100_000), NO_FORM, USAGE)
    bench.expect("a word of 100,000 bytes", bench.call(["w" * 100_000]), NO_FORM, USAGE)


def signals(bench: Bench) -> None:
    """Output that can't be taken, where its signals are not ignored beforehand: a pipe without a reader
    ends a call by its status, since the program ignores SIGPIPE; a limit on files ends it by its signal,
    as it ends any program."""
    bench.write("w", ONE_TILE)
    bench.write("e", WALKER)
    reader, writer = os.pipe()
    os.close(reader)
    answer = bench.call(["run", "w", "e"], Limits(quiet=False), out=writer)
    os.close(writer)
    bench.expect("a pipe without a reader, by its signal", answer, SINK, None)
    answer = bench.call(["run", "w", "e"], Limits(written=10, quiet=False))
    bench.say(answer.status in (SINK, -signal.SIGXFSZ), "a limit on files, by its signal", answer.shown())


def edge(bench: Bench) -> None:
    """The table."""
    for job in jobs_of(bench):
        for file in job.files:
            replaced(bench, job, file)
        if job.files:
            pipes(bench, job)
            first_missing(bench, job)
        outputs(bench, job)
        if may_trace():
            read_faults(bench, job)
    refusal_outputs(bench)
    pieces(bench)
    names(bench)
    many_files(bench)
    signals(bench)
    growing(bench)
    if may_trace():
        write_faults(bench)
    else:
        bench.leave_out("strace is not on this machine", "faults of single reads and writes")


if __name__ == "__main__":
    sys.exit(main_of(edge))
