"""The page of a film: one file of HTML that has all of it, and asks nothing of a network."""
import base64
import hashlib
import json
import re
from collections.abc import Mapping, Sequence
from html import escape
from pathlib import Path

from ..formats.layout import Layout
from ..formats.world import World
from ..measure.drift import MIXED, warning
from ..pictures.marks import Mark
from .data import Packer

PAGE = Path(__file__).resolve().parent / "page"
SCRIPTS = ("film.js", "atoms.js", "looks.js", "tints.js", "plane.js", "camera.js", "chart.js", "measures.js", "failures.js", "page.js",
           "film_page.js")
# The page runs its own script and no other, and asks for nothing.
POLICY = ("default-src 'none'; script-src 'sha256-{script}'; style-src 'sha256-{style}'; img-src data:; base-uri 'none'; "
          "form-action 'none'")
CURVES = "Click into the curves to go to that moment."


def page(title: str, world: World, layout: Layout, marks: Sequence[Mark], packer: Packer,
         acts: Sequence[tuple[int, str]], drift: float, more: Mapping[str, object]) -> str:
    """The page. `acts` are what was done to the atoms of a chain, each with its moment, in events.

    `drift` is how far tiles were apart at the worst moment, which the page tells if it is much; `more` are further parts
    of the head.
    """
    told: dict[str, object] = {
        **head(world, layout, marks),
        "events": packer.events,
        "abandoned": packer.abandoned,
        "failed": packer.failed,
        "acts": [{"events": moment, "text": text} for moment, text in acts],
        "mixed": f"{warning(drift).capitalize()}." if drift > MIXED else "",
        **more,
    }
    data = json.dumps(told, separators=(",", ":")).replace("<", "\\u003c")
    scripts = "\n" + "".join(part(name) for name in SCRIPTS)
    style = "\n" + part("page.css")
    policy = POLICY.format(script=digest(scripts), style=digest(style))
    return filled(part("frame.html"), {
        "TITLE": escape(title),
        "STYLE": f'<meta http-equiv="Content-Security-Policy" content="{policy}">\n<style>{style}</style>',
        "CONTROLS": part("film_controls.html"),
        "KEYS": part("film_keys.html"),
        "CURVES": CURVES,
        "HANDS": "",
        "DATA": f'<script type="application/json" id="head">{data}</script>\n'
                f'<script type="text/plain" id="frames">{packer.packed()}</script>',
        "SCRIPT": f"<script>{scripts}</script>",
    })


def digest(text: str) -> str:
    """The digest by which a policy names a script or a style."""
    return base64.b64encode(hashlib.sha256(text.encode()).digest()).decode()


def part(name: str) -> str:
    """A file of the page."""
    return (PAGE / name).read_text()


def head(world: World, layout: Layout, marks: Sequence[Mark]) -> dict[str, object]:
    """What the page needs of the plane and the elements."""
    return {
        "tiles": [world.tiles_x, world.tiles_y],
        "size": [world.width, world.height],
        "off": world.off,
        "liveSites": world.sites,
        "elements": [element(layout, mark) for mark in marks],
        "colorBy": [{"element": mark.name, "member": mark.color_by} for mark in marks if mark.color_by],
    }


def element(layout: Layout, mark: Mark) -> dict[str, object]:
    """What the page needs of an element; least and greatest values are texts, since they may have 71 bits."""
    members = [{"name": it.name, "kind": it.kind, "first": it.first, "width": it.width,
                "least": str(it.least), "greatest": str(it.greatest)} for it in layout.numbers(mark.name)]
    return {"name": mark.name, "color": mark.color, "symbol": mark.symbol, "members": members}


def filled(frame: str, parts: Mapping[str, str]) -> str:
    """A text with each @NAME@ replaced by its part."""
    return re.sub(r"@([A-Z]+)@", lambda found: parts[found[1]], frame)
