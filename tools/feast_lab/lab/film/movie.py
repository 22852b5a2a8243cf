"""A film as one SVG that moves by itself, for a page or a talk: pictures laid over one another, each shown in its turn.

The times are those of CSS, which browsers follow in a picture of a page too, where no script runs. Readers who want
less motion, and viewers that know no animations, get the last picture.
"""
from collections.abc import Iterable, Sequence

from ..formats.world import World
from ..pictures import svg
from ..pictures.marks import Mark, ink
from .frames import Frame

LETTERS_FROM = 12  # the least size of a site that has room for letters
HOLD = 10  # for how many pictures' time the last one stays


def movie(world: World, title: str, films: Iterable[Frame], marks: Sequence[Mark], seconds: float) -> str:
    """The SVG of a film, which takes so many seconds and then begins anew."""
    size = svg.side(world)
    pictures = list(drawn(world, films, marks, size))
    step = 100 / (len(pictures) - 1 + HOLD)
    groups = [f'<g class="f" style="animation-delay:{svg.number(seconds * step * number / 100)}s">\n{picture}\n</g>'
              for number, picture in enumerate(pictures[:-1])]
    groups.append(f'<g class="f l">\n{pictures[-1]}\n</g>')
    wide, high = world.columns * size, world.rows * size
    parts = [style(seconds, step, 100 - HOLD * step), *(defined(mark, size) for mark in marks),
             svg.placed(svg.MARGIN, svg.MARGIN, [*groups, *svg.borders(world, size)])]
    about = f"{len(pictures)} pictures of a plane of {world.columns} by {world.rows} sites, one after another."
    return svg.figure(title, about, wide + 2 * svg.MARGIN, high + 2 * svg.MARGIN + 2 * svg.LINE, parts)


def style(seconds: float, step: float, last: float) -> str:
    """When each picture is shown: for a step, in percent of the whole time, from its delay on; the last one to the end."""
    return (f"<style>.f{{visibility:hidden;animation:f {svg.number(seconds)}s step-end infinite}}"
            f".l{{visibility:visible;animation-name:l}}"
            f"@keyframes f{{0%{{visibility:visible}}{step:.4f}%,100%{{visibility:hidden}}}}"
            f"@keyframes l{{0%{{visibility:hidden}}{last:.4f}%,100%{{visibility:visible}}}}"
            "@media (prefers-reduced-motion:reduce){.f{animation:none}}</style>")


def defined(mark: Mark, size: int) -> str:
    """An atom of an element, as often as it is drawn: its colour, and its letters if there is room for them."""
    letters = ""
    if size >= LETTERS_FROM:
        high = size * (0.6 if len(mark.symbol) == 1 else 0.46)
        shown = f' fill="{ink(mark.color)}" font-size="{svg.number(high)}" font-weight="600" text-anchor="middle"'
        letters = svg.text(size / 2, size / 2 + 0.36 * high, mark.symbol, shown)
    return f'<defs><g id="{mark.name}">{svg.rectangle(0, 0, size, size, f"""fill="{mark.color}" """)}{letters}</g></defs>'


def drawn(world: World, films: Iterable[Frame], marks: Sequence[Mark], size: int) -> Iterable[str]:
    """The picture of each frame: its atoms, and below the plane the events so far and how many atoms there are."""
    cells: dict[int, str] = {}
    for frame in films:
        cells |= {site: atom.partition(" ")[0] for site, atom in frame.changes.items()}
        atoms = [f'<use href="#{name}" x="{site % world.columns * size}" y="{site // world.columns * size}"/>'
                 for site, name in sorted(cells.items()) if name]
        names = list(cells.values())
        told = [f"{frame.events:,} events", *(f"{mark.name} {names.count(mark.name):,}" for mark in marks)]
        yield "\n".join([*atoms, svg.text(0, world.rows * size + svg.LINE, ", ".join(told))])
