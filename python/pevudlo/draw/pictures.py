"""Heat pictures: a PNG with one pixel a processor, dark for the least value and bright for the greatest.

Unselected processors have the same brightness in grey. Nothing but the standard library makes them.
"""

from __future__ import annotations

import base64
import struct
import zlib
from collections.abc import Sequence, Set
from dataclasses import dataclass
from functools import cache, lru_cache

from pevudlo.draw.arrays import STEPS, levels_of
from pevudlo.draw.shapes import Sheet, near_square, sheets_of

LARGEST_TILE = 256
"""A sheet that is longer than this in a direction is cut, and its parts stand beside each other."""

GAP = 255
"""The place in the palette of the transparent lines between sheets."""

_GLOW = ((20, 18, 22), (92, 14, 22), (196, 34, 28), (250, 130, 44), (255, 240, 200))
_GREY = ((20, 18, 22), (56, 56, 62), (98, 98, 106), (146, 146, 152), (206, 206, 212))


@dataclass(frozen=True)
class Picture:
    """A picture as a data address, with its size in pixels."""

    address: str
    width: int
    height: int


def picture_of(axes: tuple[int, ...], values: Sequence[int], unselected: Set[int] = frozenset()) -> Picture:
    """The heat picture of one value a processor, by the axes of their set."""
    return _mosaic(axes, levels_of(values, unselected))


@lru_cache(64)
def _mosaic(axes: tuple[int, ...], levels: bytes) -> Picture:
    """All sheets in one picture, cut into tiles where they are long."""
    tiles = [tile for sheet in sheets_of(axes) for tile in _tiles_of(sheet)]
    width, height = len(tiles[0][0]), len(tiles[0])
    side = max(1, min(len(tiles), near_square(len(tiles)) * height // width or 1)) if len(tiles) > 1 else 1
    rows: list[bytes] = []
    for start in range(0, len(tiles), side):
        if rows:
            rows.append(bytes([GAP]) * (side * (width + 1) - 1))
        rows += _band(tiles[start : start + side], side, levels)
    return Picture(_address(rows), len(rows[0]), len(rows))


def _tiles_of(sheet: Sheet) -> list[list[range]]:
    """The parts of a sheet: each a list of lines of processors."""
    width = len(sheet.lines[0])
    parts = []
    for down in range(0, len(sheet.lines), LARGEST_TILE):
        for across in range(0, width, LARGEST_TILE):
            lines = sheet.lines[down : down + LARGEST_TILE]
            parts.append([line[across : across + LARGEST_TILE] for line in lines])
    return parts


def _band(tiles: list[list[range]], side: int, levels: bytes) -> list[bytes]:
    """Tiles side by side, with a transparent pixel between each two; `side` of them at least."""
    if len(tiles) == side == 1:
        return [levels[line.start : line.stop] for line in tiles[0]]
    width, height = len(tiles[0][0]), len(tiles[0])
    blank = bytes([GAP]) * width
    rows = []
    for line in range(height):
        parts = [levels[tile[line].start : tile[line].stop] for tile in tiles]
        rows.append(bytes([GAP]).join(parts + [blank] * (side - len(tiles))))
    return rows


def _address(rows: list[bytes]) -> str:
    """The rows of places in the palette as a PNG, as a data address."""
    size = struct.pack(">IIBBBBB", len(rows[0]), len(rows), 8, 3, 0, 0, 0)
    body = _packed(rows)
    parts = [_chunk(b"IHDR", size), _chunk(b"PLTE", _palette()), _chunk(b"tRNS", b"\xff" * GAP + b"\0")]
    png = b"\x89PNG\r\n\x1a\n" + b"".join(parts) + _chunk(b"IDAT", body) + _chunk(b"IEND", b"")
    return "data:image/png;base64," + base64.b64encode(png).decode("ascii")


def _packed(rows: list[bytes]) -> bytes:
    """The rows of a PNG, compressed. A row that is as the one above it is told by its differences, which are zeros."""
    packer = zlib.compressobj(strategy=zlib.Z_RLE)
    told = [b"\0" + rows[0]]
    for above, row in zip(rows, rows[1:]):
        told.append(b"\2" + bytes(len(row)) if row == above else b"\0" + row)
    return packer.compress(b"".join(told)) + packer.flush()


def _chunk(kind: bytes, data: bytes) -> bytes:
    """One chunk of a PNG with its length and check sum."""
    return struct.pack(">I", len(data)) + kind + data + struct.pack(">I", zlib.crc32(kind + data))


@cache
def _palette() -> bytes:
    """256 colours: the glow, the same in grey, and black for the rest."""
    colours = [_between(stops, step) for stops in (_GLOW, _GREY) for step in range(STEPS)]
    return b"".join(map(bytes, colours)).ljust(256 * 3, b"\0")


def _between(stops: tuple[tuple[int, int, int], ...], step: int) -> tuple[int, int, int]:
    """The colour of a step, between the two stops round it."""
    place = step * (len(stops) - 1) / (STEPS - 1)
    first = min(int(place), len(stops) - 2)
    part = place - first
    red, green, blue = (round(a + (b - a) * part) for a, b in zip(stops[first], stops[first + 1]))
    return red, green, blue
