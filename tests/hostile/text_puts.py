"""Texts of more than 16 MiB that are put at once, at a file, through a pipe, and to a slow reader.

What `check` writes can't be as long: 256 classes of 64 members with names of 255 bytes are below 9 million bytes.
"""
from __future__ import annotations

import hashlib
import os
import threading
import time
from typing import Callable, Iterable, Iterator, NamedTuple

from bench import DONE, Answer, Bench
from text_pieces import FULL_NAMES, full_report, full_world

# More bytes than this are to be put at once.
MUCH = 16 << 20
# How many swaps, of three instructions each, an element has that is about as long as it may be, and how many such
# elements.
SWAPS, ELEMENTS = 21_844, 45
# How many instructions it has, with a call, and the ends of two functions.
LENGTH = 3 * SWAPS + 3
# The longest names of members, and how many members of one bit a quark may have.
MEMBERS = [b"m" * 253 + b"%02d" % k for k in range(32)]
HEIRS = 254


class Put(NamedTuple):
    """A text: its name here, the words of the call, its pieces, and whether it is longer than 16 MiB."""

    name: str
    words: list[str]
    pieces: Callable[[], Iterable[bytes]]
    is_much: bool


class Seen(NamedTuple):
    """How many bytes a text has, and what stands for them."""

    size: int
    digest: bytes


def seen(pieces: Iterable[bytes]) -> Seen:
    """The bytes of these pieces."""
    size, digest = 0, hashlib.sha256()
    for piece in pieces:
        size += len(piece)
        digest.update(piece)
    return Seen(size, digest.digest())


class Reader(threading.Thread):
    """Reads a pipe to its end, so many bytes at a time, with a pause behind each read."""

    def __init__(self, end: int, length: int, pause: float) -> None:
        super().__init__()
        self.end, self.length, self.pause = end, length, pause
        self.seen = Seen(0, b"")

    def blocks(self) -> Iterator[bytes]:
        """What it reads."""
        with open(self.end, "rb", buffering=0) as file:
            while block := file.read(self.length):
                yield block
                time.sleep(self.pause)

    def run(self) -> None:
        """Reads."""
        self.seen = seen(self.blocks())


def file_pieces(bench: Bench) -> Iterator[bytes]:
    """What the last call wrote at a file."""
    with open(bench.output, "rb") as file:
        while block := file.read(1 << 20):
            yield block


def through_pipe(bench: Bench, words: list[str], length: int, pause: float) -> tuple[Answer, Seen]:
    """A call whose output is read from a pipe."""
    end, out = os.pipe()
    reader = Reader(end, length, pause)
    reader.start()
    try:
        answer = bench.call(words, seconds=600, out=out)
    finally:
        os.close(out)
    reader.join()
    return answer, reader.seen


def put_whole(bench: Bench, put: Put) -> None:
    """A text at a file, through a pipe, and to a slow reader, each time whole."""
    due = seen(put.pieces())
    bench.say(due.size > MUCH or not put.is_much, f"{put.name}: long", f"{due.size} bytes")
    answer = bench.call(put.words, seconds=600)
    found = seen(file_pieces(bench))
    bench.say(answer.status == DONE and found == due, f"{put.name}: at a file", f"{answer.shown()}, not {due.size} bytes")
    for reader, length, pause in (("through a pipe", 1 << 16, 0.0), ("to a slow reader", 1 << 12, 0.0002)):
        answer, found = through_pipe(bench, put.words, length, pause)
        told = f"status {answer.status}, {found.size} bytes, not {due.size}"
        bench.say(answer.status == DONE and found == due, f"{put.name}: {reader}", told)
    bench.note(f"{put.name}: {due.size / 1e6:.0f} MB at once, at a file, a pipe and a slow reader")


def swappers() -> bytes:
    """Elements that call a function of a quark that swaps two sites, over and over."""
    quark = b"quark Q { EventWindow ew; Void f() { " + b"ew.swap(0, 4); " * SWAPS + b"} }\n"
    return quark + b"".join(b"element E%d { Q q; Void behave() { q.f(); } }\n" % k for k in range(ELEMENTS))


def swapping_code() -> Iterator[bytes]:
    """Their code as text."""
    front = b"function 0 behave 0 0\n0 Call 1\n1 ReturnVoid\nfunction 1 f 0 0\n"
    places = range(2, LENGTH - 1, 3)
    body = b"".join(b"%d PushNum 0\n%d PushNum 4\n%d Swap\n" % (at, at + 1, at + 2) for at in places)
    for k in range(ELEMENTS):
        yield b"element E%d %d %d\n" % (k, k + 1, LENGTH) + front + body + b"%d ReturnVoid\n" % (LENGTH - 1)


def swapping_file() -> Iterator[bytes]:
    """Their code as a file."""
    functions = b"\0\0\0\2" + b"\0\0\0\6behave" + bytes(8) + b"\0\0\0\1f" + bytes(4) + b"\2" + bytes(3)
    swaps = (b"\0" + bytes(9) + b"\0" + bytes(8) + b"\4\x0c") * SWAPS
    instructions = b"\x2e\0\0\0\1" + b"\x30" + swaps + b"\x30"
    yield b"FEASTC\1\0" + ELEMENTS.to_bytes(2, "big")
    for k in range(ELEMENTS):
        name = b"E%d" % k
        yield len(name).to_bytes(4, "big") + name + functions + LENGTH.to_bytes(4, "big") + instructions


def heirs() -> bytes:
    """A quark with members of the longest names, and its heirs."""
    members = b"".join(b"Bool %s; " % name for name in MEMBERS)
    rest = b"".join(b"element E%d : B { Void behave() { } }\n" % k for k in range(HEIRS))
    return b"quark B { " + members + b"}\n" + rest


def heirs_checked() -> Iterator[bytes]:
    """Their layout."""
    members = b"".join(b"member %s Bool %d 1\n" % (name, bit) for bit, name in enumerate(MEMBERS))
    yield b"quark B 32\n" + members
    for k in range(HEIRS):
        yield b"element E%d %d 32\n" % (k, k + 1) + members


def replayed() -> Iterator[bytes]:
    """The atoms of a full plane."""
    for piece in full_report():
        if not piece.startswith(b"journal"):
            yield piece


def long_puts(bench: Bench) -> None:
    """Each of these texts."""
    bench.write("e", swappers())
    bench.write("h", heirs())
    bench.write("f", b"".join(b"element %s { Void behave() { } }\n" % name for name in FULL_NAMES))
    bench.make("w", full_world())
    bench.make("j", full_report())
    for put in (
        Put("code of long elements", ["code", "e"], swapping_code, True),
        Put("code file of long elements", ["pack", "e"], swapping_file, True),
        Put("layout of many heirs", ["check", "h"], heirs_checked, False),
        Put("atoms of a full plane", ["replay", "w", "j", "f"], replayed, True),
    ):
        put_whole(bench, put)
