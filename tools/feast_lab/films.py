"""Films that a notebook shows."""
from dataclasses import dataclass
from html import escape
from pathlib import Path

from .lab.base.files import write_whole


@dataclass(frozen=True, repr=False)
class Film:
    """A film as one page of HTML."""

    html: str
    title: str = ""

    def __repr__(self) -> str:
        return f"<Film of {self.title or 'a run'}, a page of {len(self.html):,} letters>"

    def save(self, path: str | Path) -> None:
        """Writes the page to a file, whole or not at all."""
        write_whole(Path(path), self.html)

    def _repr_html_(self) -> str:
        """The page in a frame of its own, so that its styles and scripts don't touch those of the notebook, nor can."""
        return (f'<iframe sandbox="allow-scripts" srcdoc="{escape(self.html)}" style="width: 100%; height: 900px; border: 0" '
                'title="A film of a run"></iframe>')
