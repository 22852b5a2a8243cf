"""Runs whose events are all made again by the lab's own machine, for the tests."""
import re
import tempfile
from collections import Counter
from collections.abc import Iterator, Sequence
from dataclasses import dataclass, field
from pathlib import Path

from calls import EXAMPLES

from feast_lab.lab.base.program import Program
from feast_lab.lab.base.progress import Progress
from feast_lab.lab.film.recording import Recording
from feast_lab.lab.trace.retraced import Retraced

# The element files of the worlds for which they aren't one file of the same name.
FILES = {"swapline": ["swapline", "stone"], "horde": ["horde", "regulator"], "garden": ["sower", "stone"],
         "walk": ["walker"], "border": ["walker"], "pacer": ["tutorial/pacer", "stone"]}


@dataclass
class Tally:
    """How many events there were, how many had an atom at their centre, and how many failed of which cause."""

    events: int = 0
    acted: int = 0
    failed: Counter[int] = field(default_factory=Counter)

    def add(self, program: Program, form: str, world: Path, files: Sequence[Path]) -> None:
        """Makes all events of a run again. Raises Disagreement if a window isn't the one of the program's replay."""
        with tempfile.TemporaryDirectory() as folder:
            room = Path(folder)
            report = room / "report"
            report.write_bytes(program.call([form, world, *files]).output)
            recording = Recording.of(program, [world, report, *files])
            for made in Retraced(program, recording, room, Progress()).events():
                self.acted += 1
                self.failed[made.ending.cause] += 1
            self.events += recording.ends[-1]

    def text(self) -> str:
        """The numbers in words."""
        causes = ", ".join(f"{self.failed[cause]} of cause {cause}" for cause in sorted(self.failed) if cause)
        return f"{self.events} events made again, {self.acted} with an atom at their centre; failed: {causes or 'none'}"


def example_runs() -> Iterator[tuple[str, Path, list[Path]]]:
    """The runs of all examples: of a world of several tiles stepped, of the others as they are."""
    for world in sorted([*EXAMPLES.glob("*.world"), *EXAMPLES.glob("tutorial/*.world")]):
        form = "run" if re.search("^tiles 1 1$", world.read_text(), re.MULTILINE) else "step"
        name = re.sub("-(tiles|damaged)$", "", world.stem)
        beside = str(world.with_name(name).relative_to(EXAMPLES))
        yield form, world, [EXAMPLES / f"{it}.ulam" for it in FILES.get(name, [beside])]


def shortened(world: Path, attempts: int, to: Path) -> Path:
    """A world with fewer attempts."""
    to.write_text(re.sub(r"^attempts \d+$", f"attempts {attempts}", world.read_text(), flags=re.M))
    return to
