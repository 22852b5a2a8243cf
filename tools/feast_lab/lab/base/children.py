"""Processes of Python in which a function of this package runs."""
import sys
from pathlib import Path

from .program import PACKAGE

# Such a process has nothing of the folder that it is called in, and so is told where the package lies.
CALL = ("import importlib, sys; folder, module, function, *words = sys.argv[1:]; sys.path.insert(0, folder); "
        "sys.exit(getattr(importlib.import_module(module), function)(words))")


def words_of(module: str, function: str, python: str | Path = sys.executable) -> list[str]:
    """The words of a call of a function of a module, named from the package on. The function takes the words behind these,
    and gives the status."""
    return [str(python), "-I", "-B", "-c", CALL, str(PACKAGE.parent), f"{PACKAGE.name}.{module}", function]
