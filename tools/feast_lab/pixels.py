"""Planes as pictures of pixels, for notebooks."""
import struct
import zlib
from collections.abc import Sequence

import numpy

from .arrays import Array

SIGNATURE = b"\x89PNG\r\n\x1a\n"
RGB = 2  # the kind of a picture that has three bytes for each pixel
WHITE = "#ffffff"
WIDE = 640  # about so many pixels across


def colors_of(codes: Array, colors: Sequence[str]) -> Array:
    """Red, green and blue of each site: of the elements by their codes, and white where no atom is."""
    rgb = numpy.array([[int(color[at:at + 2], 16) for at in (1, 3, 5)] for color in (WHITE, *colors)], "u1")
    found: Array = rgb[codes]
    return found


def png(codes: Array, colors: Sequence[str]) -> bytes:
    """A picture with a square of pixels for each site, as the bytes of a file."""
    side = max(1, WIDE // max(codes.shape))
    rgb = colors_of(codes, colors).repeat(side, axis=0).repeat(side, axis=1)
    high, wide, _ = rgb.shape
    rows = numpy.zeros((high, 1 + 3 * wide), "u1")  # a row begins with the number of its filter, which is none
    rows[:, 1:] = rgb.reshape(high, -1)
    head = struct.pack(">IIBBBBB", wide, high, 8, RGB, 0, 0, 0)
    return SIGNATURE + chunk(b"IHDR", head) + chunk(b"IDAT", zlib.compress(rows.tobytes(), 9)) + chunk(b"IEND", b"")


def chunk(name: bytes, data: bytes) -> bytes:
    """A part of the file: its length, its name, its bytes and their sum."""
    return struct.pack(">I", len(data)) + name + data + struct.pack(">I", zlib.crc32(name + data))
