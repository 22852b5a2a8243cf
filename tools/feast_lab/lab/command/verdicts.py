"""What a verb ends with that judges: its status, and what it writes."""
import sys
from collections.abc import Callable

from ..machine.windows import Disagreement


def verdict(fault: str | None) -> int:
    """Writes `yes`, or `no` with what is at fault, and gives back 0 or 1."""
    print("yes" if fault is None else f"no {fault}", flush=True)
    return 0 if fault is None else 1


def status_of(work: Callable[[], None]) -> int:
    """Does some work, and gives back its status: 1 if the lab and the program disagree about an event."""
    try:
        work()
    except Disagreement as disagreement:
        print(f"lab: {disagreement}", file=sys.stderr)
        return 1
    return 0
