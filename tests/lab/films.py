"""Reads the page of a film again, for the tests: not by the page's script, but from its bytes."""
import base64
import gzip
import json
import re
from collections import Counter
from collections.abc import Iterable, Iterator
from dataclasses import dataclass
from typing import Any

Site = tuple[int, int]
Plane = dict[Site, str]


@dataclass
class Shot:
    """A frame: how many events lie before it, its atoms, and the attempts given up and the events failed since the last."""

    events: int
    atoms: Plane
    abandoned: Counter[Site]
    failed: Counter[Site]


def plane_of(lines: Iterable[str]) -> Plane:
    """The atoms of a report's lines by their sites, each as `NAME STATE`."""
    places = [line.split(" ", 2) for line in lines]
    return {(int(x), int(y)): atom for x, y, atom in places}


def part(html: str, name: str) -> str:
    """What stands in a script of the page."""
    found = re.search(rf'<script [^>]*id="{name}">([^<]*)</script>', html)
    assert found is not None
    return found[1]


def head(html: str) -> Any:
    """What the page says of the film as a whole."""
    return json.loads(part(html, "head"))


def numbers(data: bytes) -> Iterator[int]:
    """The bytes of a film as numbers; a caller that wants bytes takes them one by one from `data`."""
    value = shift = 0
    for byte in data:
        value |= (byte & 127) << shift
        shift += 7
        if byte < 128:
            yield value
            value = shift = 0


def shots(html: str) -> list[Shot]:
    """The frames of a film."""
    told = head(html)
    data = gzip.decompress(base64.b64decode(part(html, "frames")))
    names = [element["name"] for element in told["elements"]]
    columns = told["tiles"][0] * told["size"][0]
    atoms, at = atoms_of(data, names)
    stream = numbers(data[at:])
    next(stream)  # how many changes there are in all

    def sites() -> list[int]:
        found, site = [], -1
        for _ in range(next(stream)):
            site += next(stream) + 1
            found.append(site)
        return found

    plane: dict[int, str] = {}
    frames = []
    for events in told["events"]:
        plane |= {site: atoms[next(stream)] for site in sites()}
        frames.append(Shot(events, {(site % columns, site // columns): atom for site, atom in plane.items() if atom}, Counter(), Counter()))
    for frame in frames:
        frame.abandoned.update({(site % columns, site // columns): next(stream) for site in sites()})
    for frame in frames if told["failed"] is not None else []:
        frame.failed.update({(site % columns, site // columns): next(stream) for site in sites()})
    assert next(stream, None) is None
    return frames


def atoms_of(data: bytes, names: list[str]) -> tuple[list[str], int]:
    """The atoms that come up in a film, by their numbers, and where what follows them begins."""
    count, at = number_at(data, 0)
    atoms = [""]
    for _ in range(count):
        kind, at = number_at(data, at)
        atoms.append(f"{names[kind - 1]} {data[at:at + 9].hex()}")
        at += 9
    return atoms, at


def number_at(data: bytes, at: int) -> tuple[int, int]:
    """The number that begins at a byte, and where it ends."""
    end = at
    while data[end] > 127:
        end += 1
    return next(numbers(data[at:end + 1])), end + 1
