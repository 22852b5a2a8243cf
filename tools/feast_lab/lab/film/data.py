"""A film as bytes, packed: what the page's script reads again (`Film` of page/film.js).

Numbers are written seven bits a byte, the lowest first, each byte but the last with its top bit set. The bytes
are: the atoms that come up, each its kind and nine bytes of state; the number of all changes; for each frame how
many changes it has, their sites, and their atoms (numbered from 1 in the order above, 0 for none); for each frame
how many sites have abandoned attempts, these sites, and how many at each; and the same of failed events, if the film has
these. A site is told by its distance from the one before.
"""
import base64
import gzip
from collections.abc import Mapping, Sequence

from .frames import Frame

LEVEL = 6  # of gzip: the greatest takes three times as long, and saves three parts in a hundred


class Packer:
    """Takes the frames of a film one after another."""

    def __init__(self, elements: Sequence[str], has_failures: bool = False) -> None:
        self.kinds = {name: kind for kind, name in enumerate(elements, 1)}
        self.atoms = {"": 0}
        self.atom_bytes = bytearray()
        self.changes = 0
        self.frame_bytes = bytearray()
        self.place_bytes = bytearray()
        self.failure_bytes = bytearray()
        self.failed: list[int] | None = [] if has_failures else None
        self.events: list[int] = []
        self.abandoned: list[int] = []

    def add(self, frame: Frame) -> None:
        """Takes the next frame."""
        self.events.append(frame.events)
        self.abandoned.append(frame.abandoned)
        sites = sorted(frame.changes)
        self.changes += len(sites)
        put_sites(self.frame_bytes, sites)
        for site in sites:
            put(self.frame_bytes, self.atom(frame.changes[site]))
        put_counts(self.place_bytes, frame.places)
        if self.failed is not None:
            self.failed.append(frame.failed.total())
            put_counts(self.failure_bytes, frame.failed)

    def atom(self, text: str) -> int:
        """The number of an atom; one that comes up for the first time is noted."""
        number = self.atoms.get(text)
        if number is None:
            number = self.atoms[text] = len(self.atoms)
            name, state = text.split(" ")
            put(self.atom_bytes, self.kinds[name])
            self.atom_bytes += bytes.fromhex(state)
        return number

    def packed(self) -> str:
        """All frames, packed by gzip and written in letters."""
        whole = bytearray()
        put(whole, len(self.atoms) - 1)
        whole += self.atom_bytes
        put(whole, self.changes)
        whole += self.frame_bytes + self.place_bytes + self.failure_bytes
        return base64.b64encode(gzip.compress(whole, LEVEL, mtime=0)).decode()


def put_counts(to: bytearray, counts: Mapping[int, int]) -> None:
    """Writes how many sites there are, the sites, and the number of each."""
    sites = sorted(counts)
    put_sites(to, sites)
    for site in sites:
        put(to, counts[site])


def put_sites(to: bytearray, sites: Sequence[int]) -> None:
    """Writes how many sites there are, and the sites, which rise."""
    put(to, len(sites))
    before = -1
    for site in sites:
        put(to, site - before - 1)
        before = site


def put(to: bytearray, number: int) -> None:
    """Writes a number."""
    while number > 127:
        to.append(number & 127 | 128)
        number >>= 7
    to.append(number)
