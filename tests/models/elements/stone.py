"""The element of examples/stone.ulam."""
from window import Elements, Window


def still(_window: Window) -> None:
    """Does nothing."""


ELEMENTS: Elements = {"Stone": still}
