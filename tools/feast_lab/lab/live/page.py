"""The page of a chain at work: the frame that it shares with a film, and the parts that it asks for."""
from collections.abc import Callable
from html import escape

from ..film.page import filled, part

SCRIPTS = ("live.js", "atoms.js", "looks.js", "tints.js", "plane.js", "camera.js", "chart.js", "failures.js", "page.js", "hands.js",
           "live_page.js")


def page(title: str) -> str:
    """The page; its style and its script are files of their own, since its policy allows none within it."""
    return filled(part("frame.html"), {
        "TITLE": escape(title),
        "STYLE": '<link rel="icon" href="data:,">\n<link rel="stylesheet" href="page.css">',
        "CONTROLS": part("live_controls.html"),
        "KEYS": part("live_keys.html"),
        "CURVES": "",
        "HANDS": part("hands.html"),
        "DATA": "",
        "SCRIPT": '<script src="page.js"></script>',
    })


PARTS: dict[str, Callable[[], str]] = {
    "page.css": lambda: part("page.css"),
    "page.js": lambda: "".join(part(name) for name in SCRIPTS),
}
