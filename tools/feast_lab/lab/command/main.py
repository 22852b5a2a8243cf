"""The words of the lab."""
import argparse
import errno
import importlib
import os
import signal
import sys
import tempfile
from collections.abc import Iterator
from contextlib import contextmanager, redirect_stdout
from pathlib import Path
from types import FrameType, ModuleType
from typing import Any, NoReturn, TextIO, cast

from ..base.errors import LabError
from ..base.files import cause
from .version import Version
from .words import settle

VERBS = ("check", "explain", "chain", "live", "film", "sweep", "rates", "events", "failures", "trace", "atoms", "paint", "scatter",
         "unpack", "recheck")
EPILOG = """Bad input gets one line on standard error and status 2. Files are written whole or not at all.
The lab calls the program that ./feast has built; the variable FEAST_PROGRAM names another one."""


def verbs(words: list[str]) -> dict[str, ModuleType]:
    """The module of the verb that the words begin with, or else of each verb.

    Its doc string is the verb's help, and the first line of that its summary.
    """
    wanted = [verb for verb in VERBS if words[:1] == [verb]] or VERBS
    return {verb: importlib.import_module(f".{verb}", __package__) for verb in wanted}


class WordParser(argparse.ArgumentParser):
    """Reads words, and refuses those that it can't read in one line."""

    def error(self, message: str) -> NoReturn:
        self.exit(2, f"lab: {message}; see {self.prog} --help\n")


def parser(modules: dict[str, ModuleType]) -> WordParser:
    """What reads the words."""
    form = argparse.RawDescriptionHelpFormatter
    top = WordParser(prog="./lab", formatter_class=form, epilog=EPILOG,
                     description="Long runs, a live window, films, sweeps, rates, atoms and checks, beside the program.")
    top.add_argument("--version", action=Version, nargs=0, help="the version, the program's SHA-256 and the kit that proved it")
    choice = top.add_subparsers(metavar="VERB", required=True)
    for verb, module in modules.items():
        text = module.__doc__ or ""
        below = choice.add_parser(verb, help=text.partition("\n")[0], description=text, formatter_class=form)
        module.add_arguments(below)
        below.set_defaults(run=module.run)
    return top


class Output:
    """Standard output, if it is open, which notes whether it has failed: the system's word for that has no name of a file."""

    def __init__(self, out: TextIO | None) -> None:
        self.out = out
        self.has_failed = False

    def write(self, text: str) -> int:
        """Writes a text."""
        with self.noting() as out:
            return out.write(text)

    def flush(self) -> None:
        """Has what was written come out."""
        if self.out is not None:
            with self.noting() as out:
                out.flush()

    @contextmanager
    def noting(self) -> Iterator[TextIO]:
        """Gives what is written to, and notes a failure."""
        try:
            if self.out is None:
                raise OSError(errno.EBADF, os.strerror(errno.EBADF))
            yield self.out
        except OSError:
            self.has_failed = True
            raise

    def drop(self) -> None:
        """Drops what could not be written, which would else be tried again at the end."""
        if self.out is not None:
            os.dup2(os.open(os.devnull, os.O_WRONLY), self.out.fileno())

    def __getattr__(self, name: str) -> Any:
        return getattr(self.out, name)


def stop(number: int, _frame: FrameType | None) -> NoReturn:
    """Ends at a signal, as an interrupt from the keyboard does, so that calls of the program end too."""
    raise SystemExit(128 + number)


def main(words: list[str]) -> int:
    """Does what the words say, and gives back the status."""
    signal.signal(signal.SIGTERM, stop)
    output = Output(sys.stdout)
    with redirect_stdout(cast(TextIO, output)):
        return ended(words, output)


def ended(words: list[str], output: Output) -> int:
    """The status of a call, which tells in one line what goes wrong."""
    try:
        arguments = parser(verbs(words)).parse_args(words)
        with tempfile.TemporaryDirectory() as room:
            if getattr(arguments, "takes_pipes", True):
                settle(arguments, Path(room))
            status: int = arguments.run(arguments)
        sys.stdout.flush()
        return status
    except LabError as error:
        print(f"lab: {error}", file=sys.stderr)
        return 2
    except KeyboardInterrupt:
        print("lab: interrupted", file=sys.stderr)
        return 128 + signal.SIGINT
    except BrokenPipeError:
        output.drop()
        return 1
    except OSError as error:
        name = error.filename or ("standard output" if output.has_failed else None)
        if output.has_failed:
            output.drop()
        print(f"lab: {cause(error)}" if name is None else f"lab: {name}: {cause(error)}", file=sys.stderr)
        return 2
