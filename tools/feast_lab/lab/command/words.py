"""Words of a verb: where they may stand, and files among them that can be read once only."""
import argparse
import os
import stat
from collections.abc import Sequence
from pathlib import Path
from typing import Any

from ..base.files import read_bytes, write_new

# The options that name files to write.
WRITTEN = ("output", "table", "svg")


def take_words_anywhere(parser: argparse.ArgumentParser) -> None:
    """Lets options stand between the words of a list, which argparse does only by this other function."""
    plain = parser.parse_known_args

    def parse(args: Sequence[str], namespace: argparse.Namespace | None) -> tuple[argparse.Namespace, list[str]]:
        setattr(parser, "parse_known_args", plain)
        return parser.parse_known_intermixed_args(args, namespace)

    setattr(parser, "parse_known_args", parse)


def settle(arguments: argparse.Namespace, room: Path) -> None:
    """Copies what can be read once only, such as `<(..)` of a shell, into a folder, and names the copies in its place.

    The lab reads a file several times, and has the program read it, which doesn't get the lab's own open files.
    """
    for name, value in vars(arguments).items():
        if name not in WRITTEN:
            setattr(arguments, name, settled(value, room))


def settled(value: Any, room: Path) -> Any:
    """A word, or a list of words, with copies in the place of pipes."""
    if isinstance(value, list):
        return [settled(word, room) for word in value]
    if not isinstance(value, (str, Path)) or not is_pipe(value):
        return value
    copy = room / f"{len(list(room.iterdir()))}-{Path(value).name}"
    write_new(copy, read_bytes(Path(value)))
    return type(value)(copy) if isinstance(value, str) else copy


def is_pipe(word: str | Path) -> bool:
    """Whether a word names a pipe."""
    try:
        return stat.S_ISFIFO(os.stat(word).st_mode)
    except (OSError, ValueError):
        return False
