"""Element files beside those of a call."""
import re
from collections.abc import Sequence
from pathlib import Path

from .tokens import Source

MOST_BESIDE = 200


def has_class(name: str, sources: Sequence[Source]) -> str:
    """Which file in a folder of the files declares a class, as the end of a sentence; empty if none does."""
    declares = re.compile(rf"\b(?:element|quark)\s+{name}\b".encode())
    folders = dict.fromkeys(Path(source.name).parent for source in sources)
    paths = [path for folder in folders for path in sorted(folder.glob("*.ulam"))[:MOST_BESIDE] if path.is_file()]
    given = [Path(source.name) for source in sources]
    found = (path for path in paths if path not in given and declares.search(text_of(path)))
    return "".join(f"; {path} has it" for path in list(found)[:1])


def text_of(path: Path) -> bytes:
    """The text of a file; empty if it can't be read."""
    try:
        return path.read_bytes()
    except OSError:
        return b""
