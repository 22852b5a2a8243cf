"""A warning of an element file."""
from dataclasses import dataclass

from ..ulam.tokens import Token


@dataclass(frozen=True)
class Warned:
    """A warning: its name, its place, what is said, and other places with a label each."""

    name: str
    token: Token
    text: str
    also: tuple[tuple[Token, str], ...] = ()
