"""What a run came to, from the first and the counting lines of its report."""
from collections.abc import Iterable, Sequence
from dataclasses import dataclass

JOURNAL = b"\njournal "
ABANDONED = b"\nabandoned "


@dataclass(frozen=True)
class Outcome:
    """The atoms at the end, as `replay` writes them, and how many attempts became what."""

    atoms: str
    events: int
    abandoned: int

    @staticmethod
    def of(report: bytes) -> "Outcome":
        """What the program's report of a run says."""
        journal = report.index(JOURNAL)
        abandoned = report.rindex(ABANDONED)
        return Outcome(report[:journal + 1].decode(), count_at(report, journal + len(JOURNAL)),
                       count_at(report, abandoned + len(ABANDONED)))


def count_at(report: bytes, at: int) -> int:
    """The number that begins at a byte and goes on to the end of the line."""
    return int(report[at:report.index(b"\n", at)])


def atom_lines(atoms: str) -> list[str]:
    """The lines `X Y NAME STATE` of what `replay` writes."""
    return atoms.splitlines()[2:]


def atoms_of(lines: Sequence[str]) -> str:
    """What `replay` writes of atoms, from their lines."""
    return "".join(f"{line}\n" for line in ["feast 1", f"atoms {len(lines)}", *lines])


def counts(atoms: str, elements: Iterable[str]) -> list[int]:
    """How many atoms each of the elements has."""
    return [atoms.count(f" {element} ") for element in elements]


def journal_lines(report: bytes) -> list[str]:
    """The lines of the events of a report."""
    return report[report.index(JOURNAL) + 1:report.rindex(ABANDONED)].decode().splitlines()[1:]
