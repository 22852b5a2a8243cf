"""Clusters of atoms on a plane, by SciPy where it is installed."""
import importlib
from typing import Any

import numpy

from .arrays import Array, masked

AROUND = ((0, 1), (1, 0), (0, -1), (-1, 0))
DIAGONALS = ((1, 1), (1, -1), (-1, 1), (-1, -1))


def clusters(where: Array, diagonal: bool = False) -> Array:
    """The sizes of the clusters of a plane, from the greatest to the smallest; see `labels`."""
    sizes = numpy.bincount(labels(where, diagonal).ravel())[1:]
    found: Array = numpy.sort(sizes)[::-1].astype("i8")
    return found


def labels(where: Array, diagonal: bool = False) -> Array:
    """A number for each site of a plane: that of its cluster, from 1 on row by row, and 0 of sites that aren't meant.

    `where` is a grid, whose sites that aren't masked are meant, or an array of truth values by row and column. Two sites
    belong together if they have an edge in common; with `diagonal` a corner will do.
    """
    meant = ~masked.getmaskarray(where) if isinstance(where, masked.MaskedArray) else numpy.array(where, "?")
    images = scipy_images()
    if images is None:
        return numbered(meant, AROUND + (DIAGONALS if diagonal else ()))
    found: Array = images.label(meant, numpy.ones((3, 3)) if diagonal else None)[0].astype("i8")
    return found


def scipy_images() -> Any:
    """SciPy's module for images, if it is installed."""
    try:
        return importlib.import_module("scipy.ndimage")
    except ImportError:
        return None


def numbered(meant: Array, steps: tuple[tuple[int, int], ...]) -> Array:
    """The same without SciPy."""
    found = numpy.zeros(meant.shape, "i8")
    number = 0
    for start in zip(*numpy.nonzero(meant)):
        if not found[start]:
            number += 1
            spread(found, meant, start, number, steps)
    return found


def spread(found: Array, meant: Array, start: tuple[int, ...], number: int, steps: tuple[tuple[int, int], ...]) -> None:
    """Numbers all sites of the cluster of a site."""
    rows, columns = meant.shape
    found[start] = number
    edge = [start]
    while edge:
        y, x = edge.pop()
        near = [(y + down, x + across) for down, across in steps if 0 <= y + down < rows and 0 <= x + across < columns]
        fresh = [site for site in near if meant[site] and not found[site]]
        for site in fresh:
            found[site] = number
        edge += fresh
