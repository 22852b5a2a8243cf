"""How long a check of 1 MB of source takes.

    python3 bench/check.py            seconds, the least of five runs

See README.md beside this file.
"""

from __future__ import annotations

import argparse
import pathlib
import sys
import tempfile

sys.path.insert(0, str(pathlib.Path(__file__).resolve().parent))
sys.dont_write_bytecode = True
from whole import CRATE, PROGRAM, build, timed  # noqa: E402

FILES = 4
CLASSES = 64
BYTES = 1_000_000


def function(number: int) -> str:
    """A function of one class: a loop, conditions, arithmetic and a call."""
    begin = f"turn{number - 1}(start, limit)" if number else "start"
    return f"""
  // adds what the sites near by hold, up to a limit
  Unsigned turn{number}(Unsigned start, Unsigned limit) {{
    Unsigned total = {begin};
    for (Unsigned site = 0; site < 41; site++) {{
      if (!window.isEmpty(site) && total < limit) {{
        total = total + site * {number + 1} % 7;
        counts[site % 4] += 1;
      }} else if (random.oneIn(8)) {{
        total -= start / 3;
      }}
    }}
    return total;
  }}
"""


def element(name: str, size: int) -> str:
    """An element of about so many bytes."""
    text = [f"element {name} {{\n  EventWindow window;\n  Random random;\n  Unsigned(8) counts[4];\n"]
    number = 0
    while sum(map(len, text)) < size:
        text.append(function(number))
        number += 1
    text.append(f"  Void behave() {{ counts[0] = turn{number - 1}(1, 100); }}\n}}\n")
    return "".join(text)


def source_files(folder: pathlib.Path) -> list[pathlib.Path]:
    """Makes the files, and returns their paths."""
    paths = []
    for file in range(FILES):
        path = folder / f"{file}.ulam"
        path.write_text("".join(element(f"E{file}x{i}", BYTES // FILES // CLASSES - 300) for i in range(CLASSES)))
        paths.append(path)
    return paths


def main() -> None:
    """The command."""
    argparse.ArgumentParser(description=__doc__, formatter_class=argparse.RawDescriptionHelpFormatter).parse_args()
    build(CRATE)
    with tempfile.TemporaryDirectory() as name:
        paths = source_files(pathlib.Path(name))
        size = sum(path.stat().st_size for path in paths)
        least = min(timed([PROGRAM, "check", *paths]) for _ in range(5))
        print(f"{size} bytes, {FILES * CLASSES} elements: {least:.2f} s")


if __name__ == "__main__":
    main()
