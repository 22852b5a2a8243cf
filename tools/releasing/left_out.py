"""What a run of the tests may leave out for a release to follow, by reason."""
from __future__ import annotations

from releasing.tree import ReleaseError

SCHEDULER = "which tool spreads a sweep over machines is the user's choice, and the words that it is given are tried without it"
# The reasons as the tests say them, each with why it is no hindrance.
MAY = {
    "it writes no report": "a case that is refused, or does something else than a run, has no report to audit",
    "the second reader takes long for it": "a case with long files or many attempts, to whose answer the program is held by another part",
    "parallel is not on this machine": SCHEDULER,
    "snakemake is not on this machine": SCHEDULER,
    "slurmctld is not on this machine": SCHEDULER,
    "munged is not on this machine": SCHEDULER,
    "Slurm's nodes take root": SCHEDULER,
}


def check(left_out: dict[str, int]) -> None:
    """ReleaseError if something was left out for a reason that isn't on the list."""
    lacks = [f"{reason} ({count})" for reason, count in sorted(left_out.items()) if reason not in MAY]
    if lacks:
        raise ReleaseError(f"./test all left out what a release asks for: {'; '.join(lacks)}")
