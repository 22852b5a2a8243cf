"""Reports of chains: those of legs in the three kinds, and how a whole report is read, by the rules in docs/chains.md."""
from dataclasses import dataclass, field
from typing import NamedTuple

from chain import Chain
from chain_text import refuse
from draws import drawn_attempts
from plane import EMPTY, Atom, Attempt, Plane
from report_lines import ReportLines


class Event(NamedTuple):
    """The line of an event, with its attempt (None where a tile has no attempt of that number)."""

    stamp: int
    tile: int
    number: int
    attempt: Attempt | None


class Loss(NamedTuple):
    """The line of an abandoned attempt, likewise."""

    tile: int
    number: int
    attempt: Attempt | None
    edge: int
    holder: int
    holder_number: int


@dataclass
class LegReport:
    """What the report of a leg says: the number of the line before it, and its lines."""

    before: int = 0
    atoms: list[bytes] = field(default_factory=list)
    events: list[Event] = field(default_factory=list)
    losses: list[Loss] = field(default_factory=list)

    def text(self) -> bytes:
        """The report as that of a world."""
        rows = [b"%s\n" % line for line in self.atoms]
        events = [f"{it.stamp} {it.tile} {it.number} {site_of(it.attempt)} {seed_of(it.attempt):016x}\n" for it in self.events]
        losses = [f"{it.tile} {it.number} {site_of(it.attempt)} {it.edge} {it.holder} {it.holder_number}\n" for it in self.losses]
        return (b"feast 1\natoms %d\n" % len(rows) + b"".join(rows) + f"journal {len(events)}\n{''.join(events)}".encode()
                + f"abandoned {len(losses)}\n{''.join(losses)}".encode())

    def short(self) -> bytes:
        """The same as a short report."""
        rows = [b"%s\n" % line for line in self.atoms]
        events = [f"{it.stamp} {it.tile} {it.number}\n" for it in self.events]
        losses = [f"{it.tile} {it.number} {it.edge} {it.holder} {it.holder_number}\n" for it in self.losses]
        return (b"feast 2\natoms %d\n" % len(rows) + b"".join(rows) + f"journal {len(events)}\n{''.join(events)}".encode()
                + f"abandoned {len(losses)}\n{''.join(losses)}".encode())

    def counts(self, events: int, losses: int) -> bytes:
        """The same as a report of counts."""
        rows = [b"%s\n" % line for line in self.atoms]
        return b"feast 3\natoms %d\n" % len(rows) + b"".join(rows) + b"journal %d\nabandoned %d\n" % (events, losses)


def site_of(attempt: Attempt | None) -> str:
    """The site of an attempt as the fields of a line; any one where there is no such attempt."""
    return f"{attempt.x} {attempt.y}" if attempt else "0 0"


def seed_of(attempt: Attempt | None) -> int:
    """The seed of its event, or any one."""
    return attempt.seed if attempt else 0


class Plan:
    """What the tiles draw in a leg."""

    def __init__(self, chain: Chain, leg: int) -> None:
        self.chain, self.leg = chain, leg
        self.known: dict[int, list[Attempt]] = {}

    def corner(self, tile: int) -> tuple[int, int]:
        """The site in the north-west of a tile."""
        return tile % self.chain.tiles[0] * self.chain.size[0], tile // self.chain.tiles[0] * self.chain.size[1]

    def owns(self, tile: int, x: int, y: int) -> bool:
        """Whether a tile has a site, be it on or off."""
        left, top = self.corner(tile)
        return left <= x < left + self.chain.size[0] and top <= y < top + self.chain.size[1]

    def of_tile(self, tile: int) -> list[Attempt]:
        """The attempts of a tile."""
        if tile not in self.known:
            width, height = self.chain.size
            left, top = self.corner(tile)
            count = 0 if tile in self.chain.off else self.chain.attempts_of(self.leg)
            drawn = drawn_attempts(self.chain.leg_seed(self.leg) + tile, width * height, count)
            self.known[tile] = [Attempt(left + place % width, top + place // width, seed) for place, seed in drawn]
        return self.known[tile]

    def find(self, tile: int, number: int) -> Attempt | None:
        """An attempt, or None if there is no such tile, or it has none of that number."""
        attempts = self.of_tile(tile) if tile < self.chain.count else []
        return attempts[number] if number < len(attempts) else None


class LegReader:
    """Reads the report of one leg."""

    def __init__(self, lines: ReportLines, chain: Chain, leg: int) -> None:
        self.lines, self.chain = lines, chain
        self.is_short = chain.journal == "short"
        self.plan = Plan(chain, leg)
        self.report = LegReport(lines.at)
        self.last = (0, -1)
        self.last_line = 0
        self.last_of: dict[int, tuple[int, int]] = {}

    def event(self) -> None:
        """Takes the line of an event."""
        stamp, tile, number, *rest = self.lines.event(self.is_short)
        line, shown = self.lines.at, Attempt(*rest) if rest else None
        if stamp == 0 or (stamp, tile) <= self.last:
            refuse(81, line, self.last_line)
        if tile in self.last_of and number <= self.last_of[tile][0]:
            refuse(81, line, self.last_of[tile][1])
        if tile >= self.chain.count or shown and not self.plan.owns(tile, shown.x, shown.y):
            refuse(82, line)
        attempt = self.plan.find(tile, number)
        if attempt is None or shown and shown != attempt:
            refuse(83, line)
        self.last, self.last_line = (stamp, tile), line
        self.last_of[tile] = (number, line)
        self.report.events.append(Event(stamp, tile, number, attempt))

    def loss(self) -> None:
        """Takes the line of an abandoned attempt, which is looked at for its form alone."""
        tile, number, *site, edge, holder, holder_number = self.lines.loss(self.is_short)
        attempt = Attempt(site[0], site[1], 0) if site else self.plan.find(tile, number)  # no seed is shown
        self.report.losses.append(Loss(tile, number, attempt, edge, holder, holder_number))

    def read(self) -> LegReport:
        """Takes all lines of the leg's report."""
        self.lines.head(b"2" if self.is_short else b"1")
        for _ in range(self.lines.count(b"atoms")):
            self.report.atoms.append(self.lines.atom())
        for _ in range(self.lines.count(b"journal")):
            self.event()
        for _ in range(self.lines.count(b"abandoned")):
            self.loss()
        return self.report


def read_legs(text: bytes, chain: Chain) -> list[LegReport]:
    """The reports of all legs of a chain; Refused where a line can't be read."""
    if chain.journal == "none":
        refuse(80, 1)
    lines = ReportLines(text, refuse)
    found = [LegReader(lines, chain, leg).read() for leg in chain.numbers]
    lines.end()
    return found


def plane_of(chain: Chain, lines: list[bytes]) -> Plane:
    """The plane that lines of atoms show."""
    width, height = chain.tiles[0] * chain.size[0], chain.tiles[1] * chain.size[1]
    plane = Plane(width, height, [EMPTY] * (width * height))
    for line in lines:
        x, y, kind, state = line.split(b" ")
        plane.put(int(x), int(y), Atom(kind.decode(), int(state, 16)))
    return plane
