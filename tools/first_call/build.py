"""A build: the crates proved side by side, each once those below it are, and followed until all are."""
import re
import time
from datetime import timedelta
from pathlib import Path

from feast_lab.proved.found import BUILT
from feast_lab.proved.record import LAUNCHER, Record, digest_of
from feast_lab.proved.sources import digest

from first_call.crates import Crate, chains, crates_of_program
from first_call.machine import Child, lanes_here
from first_call.teller import say
from first_call.toolchain import Toolchain

# Lines of the toolchain that say what went well.
WELL = re.compile(r".*: proved|logic /.*|statements \w+: .*")


class Refused(Exception):
    """The toolchain could not prove or build something; what it said."""


class Work(Child):
    """A crate that is proved by so many processors, and the file to which the command writes that does it."""

    def __init__(self, crate: Crate, jobs: int, command: list[str], log: Path) -> None:
        self.crate, self.jobs, self.log = crate, jobs, log
        with open(log, "wb") as out:
            super().__init__(command, crate.folder, out)

    def faults(self) -> str:
        """The lines that say why the crate could not be proved or built."""
        lines = [line for line in self.log.read_text(errors="replace").splitlines() if not WELL.fullmatch(line)]
        # (a shell adds 128 to the signal that ended its command)
        number = -self.returncode if self.returncode < 0 else self.returncode - 128
        if number > 0:
            lines.append(f"the toolchain was ended by signal {number}, most likely for want of memory")
        return "".join(f"{line}\n" for line in [f"== {self.crate.name}", *lines])


class Build:
    """A build of the program in a clone."""

    def __init__(self, top: Path) -> None:
        self.top, self.sources, self.start = top, digest(top), time.monotonic()
        self.logs = (top / BUILT.program).with_name("first-call")
        self.logs.mkdir(exist_ok=True)
        self.toolchain = Toolchain(self.logs.with_name("rlib"))
        self.lanes = lanes_here()
        self.crates = crates_of_program(top)
        self.sums = self.toolchain.sums(self.crates)
        stand = self.toolchain.stand(self.sums)
        self.done = {crate.name for crate in self.crates if stand.issuperset([*crate.below, crate.name])}
        self.weights = {crate.name: crate.weight for crate in self.crates}
        chain = chains(self.crates, self.weights)
        self.waiting = sorted((it for it in self.crates if it.name not in self.done), key=lambda it: -chain[it.name])
        self.works: list[Work] = []

    def plan(self) -> str:
        """What is to be done."""
        left = f"{len(self.waiting)} of its {len(self.crates)} crates"
        return f"the program is still to be built: {left} are to be proved first, {self.lanes} at a time"

    def tell(self) -> None:
        """Says how far it is."""
        share = sum(self.weights[name] for name in self.done) / sum(self.weights.values())
        now = ", ".join(work.crate.name for work in self.works)
        say(f"{len(self.done)} of {len(self.crates)} crates are proved, {share:.0%} of the work, in {self.gone()}; now {now}")

    def gone(self) -> timedelta:
        """How long it has taken so far, in whole seconds."""
        return timedelta(seconds=round(time.monotonic() - self.start))

    def begin_ready(self) -> bool:
        """Begins crates that wait for no other, first those on which the heaviest chains of others stand, and shares the free
        processors among them. False if all is done."""
        ready = [crate for crate in self.waiting if self.done.issuperset(crate.below)]
        free = self.lanes - sum(work.jobs for work in self.works)
        jobs = max(free // max(len(ready), 1), 1)
        for crate in ready[:free]:
            self.waiting.remove(crate)
            self.toolchain.note(crate.name).unlink(missing_ok=True)
            self.works.append(Work(crate, jobs, self.toolchain.command(crate, jobs), self.logs / f"{crate.name}.log"))
        if ready[:free]:
            self.tell()
        return bool(self.works)

    def look(self) -> None:
        """Takes in which crates are done. Refused if one could not be proved or built."""
        for work in [work for work in self.works if work.poll() == 0]:
            name = work.crate.name
            self.works.remove(work)
            self.done.add(name)
            # (a library of sources that changed meanwhile isn't kept)
            if self.toolchain.library(name).is_dir() and self.toolchain.sums(self.crates)[name] == self.sums[name]:
                self.toolchain.note(name).write_text(self.sums[name])
        if faults := "".join(work.faults() for work in self.works if work.returncode):
            raise Refused(faults)

    def finish(self) -> bool:
        """Puts the record of the proof beside the program. False if a source was changed since the build began: what it made
        then is no program of the sources, and has no record."""
        if digest(self.top) != self.sources:
            return False
        program = self.top / BUILT.program
        Record(self.toolchain.name, LAUNCHER, digest_of(program) or "", self.sources).write(self.top / BUILT.record)
        say(f"proved and built in {self.gone()}; the program by itself is {program}")
        return True
