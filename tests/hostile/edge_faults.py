"""Faults of single reads and writes, put into the system's answers by `strace`."""
from __future__ import annotations

import os
import pathlib
import subprocess
import threading
import time
from dataclasses import dataclass
from typing import Union

from bench import DONE, MEMORY, SINK, UNREADABLE, Answer, Bench, tool
from edge_texts import LONG_REPORT, LONG_WORLD, unreadable
from feast_lab.lab.base.limits import ELEMENT_LIMIT
from jobs import WALKER, File, Job, lay


@dataclass(frozen=True)
class Fault:
    """What `strace` puts into the answers of the system at calls on one path."""

    path: Union[str, pathlib.Path]
    call: bytes
    answer: bytes

    @property
    def before(self) -> tuple[bytes, ...]:
        """The words that are put before the program's name."""
        return (
            b"strace", b"-f", b"-o", b"/dev/null", b"-P", os.fsencode(self.path),
            b"-e", b"trace=" + self.call, b"-e", b"inject=" + self.call + b":" + self.answer,
        )


def may_trace() -> bool:
    """Whether `strace` is there and may trace."""
    if tool("strace") is None:
        return False
    asked = ["strace", "-o", "/dev/null", "-e", "inject=getppid:error=EPERM", "true"]
    return subprocess.run(asked, stderr=subprocess.DEVNULL, check=False).returncode == 0


def longer(file: File) -> bytes:
    """The text of an input with spaces behind it, so that it takes several reads."""
    if file.name == "e":
        return file.text + b" " * 9000
    if file.name == "w":
        return file.text + b"#" + b" " * 9000 + b"\n"
    return file.text


def failing_reads(bench: Bench, job: Job, file: File) -> None:
    """Each read of an input fails or is interrupted in turn, the others take what is there."""
    text = longer(file)
    bench.write(file.name, text)
    path = bench.at(file.name)
    reads = -(-len(text) // 4096) + 1
    for number in range(1, reads + 1):
        for code, status, out in ((b"EIO", UNREADABLE, unreadable(file.name)), (b"EINTR", DONE, job.out)):
            fault = Fault(path, b"read", b"error=%s:when=%d" % (code, number))
            answer = bench.call(job.words, before=fault.before)
            bench.expect(f"{job.name}: read {number} of {file.name} ends by {code.decode()}", answer, status, out)
    fault = Fault(path, b"read", b"error=EIO:when=%d" % (reads + 1))
    answer = bench.call(job.words, before=fault.before)
    bench.expect(f"{job.name}: {file.name} takes {reads} reads", answer, DONE, job.out)


def failing_opens(bench: Bench, job: Job, file: File) -> None:
    """An input can't be opened, or not at once."""
    def opened(answer: bytes) -> Answer:
        return bench.call(job.words, before=Fault(file.name, b"openat,open", b"error=" + answer).before)

    refusal = unreadable(file.name)
    for code in (b"EACCES", b"EMFILE", b"EIO"):
        bench.expect(f"{job.name}: {file.name} can't be opened by {code!r}", opened(code), UNREADABLE, refusal)
    answer = opened(b"ENOMEM")
    held = (answer.status, answer.out) in ((UNREADABLE, refusal), (MEMORY, b""))
    bench.say(held, f"{job.name}: {file.name} can't be opened for want of memory", answer.shown())
    bench.expect(f"{job.name}: opening {file.name} is interrupted", opened(b"EINTR:when=1"), DONE, job.out)


def read_faults(bench: Bench, job: Job) -> None:
    """Each read and each opening of each input fails in turn."""
    for file in job.files:
        failing_reads(bench, job, file)
        failing_opens(bench, job, file)
        lay(bench, job)


def write_faults(bench: Bench) -> None:
    """Each write of a report of two pieces fails in turn, is interrupted, or takes nothing."""
    bench.write("w", LONG_WORLD)
    bench.write("e", WALKER)
    words = ["run", "w", "e"]
    for number in (1, 2):
        for told in (b"error=ENOSPC", b"error=EIO", b"error=EPIPE", b"retval=0"):
            fault = Fault(bench.output, b"write,writev", told + b":when=%d" % number)
            answer = bench.call(words, before=fault.before)
            bench.expect(f"write {number} ends by {told.decode()}", answer, SINK, LONG_REPORT[: 4096 * (number - 1)])
        fault = Fault(bench.output, b"write,writev", b"error=EINTR:when=%d" % number)
        bench.expect(f"write {number} is interrupted", bench.call(words, before=fault.before), DONE, LONG_REPORT)


def growing(bench: Bench) -> None:
    """A file that grows while it is read is what the reads took of it, or too long."""
    bench.write("e", WALKER + b" " * 20_000)
    stop = threading.Event()

    def grow() -> None:
        with open(bench.at("e"), "ab", buffering=0) as file:
            while not stop.is_set():
                file.write(b" " * 8192)
                time.sleep(0.001)

    slow = Fault(bench.at("e"), b"read", b"delay_exit=2000")
    for _ in range(3):
        thread = threading.Thread(target=grow)
        thread.start()
        answer = bench.call(["check", "e"], before=slow.before if may_trace() else (), seconds=60)
        stop.set()
        thread.join()
        stop.clear()
        held = (answer.status, answer.out) in (
            (DONE, b"element Walker 1 0\n"),
            (UNREADABLE, b"e: E02 longer than %d bytes\n" % ELEMENT_LIMIT),
        )
        bench.say(held, "a file grows while it is read", answer.shown())
