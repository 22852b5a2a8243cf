"""The number of the version, and whether the pages that name it agree."""
from __future__ import annotations

import re
from pathlib import Path

from releasing.tree import ReleaseError

NUMBER = re.compile(r"(0|[1-9]\d*)\.(0|[1-9]\d*)\.(0|[1-9]\d*)")


def version_of(top: Path) -> str:
    """The number in VERSION. ReleaseError if it is none, or CHANGELOG.md or CITATION.cff is about another."""
    version = (top / "VERSION").read_text().strip()
    if not NUMBER.fullmatch(version):
        raise ReleaseError(f"VERSION: `{version}` is no number of a version, such as 0.1.0")
    if not re.search(rf"(?m)^## {re.escape(version)} \(\d{{4}}-\d\d-\d\d\)$", (top / "CHANGELOG.md").read_text()):
        raise ReleaseError(f"CHANGELOG.md: it has no heading `## {version} (YEAR-MONTH-DAY)`")
    if f"\nversion: {version}\n" not in (top / "CITATION.cff").read_text():
        raise ReleaseError(f"CITATION.cff: it has no line `version: {version}`")
    return version
