"""Options that stand alone: beside one of them the words that a verb else needs may be missing."""
import argparse
from collections.abc import Sequence
from typing import Any


class Alone(argparse.Action):
    """An option that asks for something else than the verb does without it."""

    needless: Sequence[argparse.Action] = ()

    def __call__(self, _parser: argparse.ArgumentParser, space: argparse.Namespace, values: Any,
                 _option: str | None = None) -> None:
        setattr(space, self.dest, values)
        for action in self.needless:
            action.required = False
