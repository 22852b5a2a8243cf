"""The program under test, and calls of it: what the tests share that only want its status and what it writes.

The tests of hostile use call it in their own way (tests/hostile/bench.py), with limits and by the signals that end it.
"""
from __future__ import annotations

import subprocess
import tempfile
from pathlib import Path
from typing import IO, Mapping, Sequence, Union

File = Union[str, bytes]
Word = Union[str, bytes, Path]
# How long a call may take, in seconds; most take a hundredth of one, and a busy machine may be a hundred times slower.
PATIENCE = 300


def bytes_of(file: File) -> bytes:
    """The bytes of a file or of an output."""
    return file if isinstance(file, bytes) else file.encode()


def call(
    program: Union[str, Path], words: Sequence[Word], folder: Union[str, Path, None] = None,
    stdout: Union[int, IO[bytes]] = subprocess.PIPE,
) -> subprocess.CompletedProcess[bytes]:
    """A call of the program in a folder, without input. TimeoutExpired if it takes much too long."""
    return subprocess.run([program, *words], cwd=folder, stdin=subprocess.DEVNULL, stdout=stdout,
                          stderr=subprocess.DEVNULL, timeout=PATIENCE, check=False)


def called(program: Union[str, Path], words: Sequence[Word], files: Mapping[str, File]) -> tuple[int, bytes]:
    """The status of a call in a new folder that has these files alone, and what it writes."""
    with tempfile.TemporaryDirectory() as folder:
        for name, content in files.items():
            (Path(folder) / name).write_bytes(bytes_of(content))
        done = call(program, words, folder)
    return done.returncode, done.stdout


def written(program: Union[str, Path], *words: Word) -> str:
    """What a call writes that is to end well; CalledProcessError if it doesn't."""
    done = call(program, words)
    done.check_returncode()
    return done.stdout.decode()
