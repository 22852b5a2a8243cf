"""Standard error, line by line."""
import sys
from contextlib import suppress


def tell(text: str) -> None:
    """Writes lines, if anybody is still there to read them."""
    with suppress(OSError, ValueError):
        sys.stderr.write(text)
        sys.stderr.flush()


def say(text: str) -> None:
    """Writes a line of the launcher's own."""
    tell(f"feast: {text}\n")
