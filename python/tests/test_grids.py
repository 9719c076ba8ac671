"""Grids as text, as HTML and as pictures; expected layouts are written by hand or computed from the axes."""

from __future__ import annotations

import base64
import re
import struct
import zlib
from html.parser import HTMLParser

import pytest

from pevudlo.draw.arrays import STEPS, differing
from pevudlo.draw.grids import Grid, html_of, style, summary_of, text_of
from pevudlo.draw.pictures import GAP, picture_of
from pevudlo.draw.shapes import sheets_of
from pevudlo.draw.units import Unit, spelled


def indices_of(address: str) -> list[list[int]]:
    """The places in the palette of a PNG with filters 0 and 2, line by line."""
    data = base64.b64decode(address.removeprefix("data:image/png;base64,"))
    assert data[:8] == b"\x89PNG\r\n\x1a\n"
    place, body = 8, b""
    size: tuple[int, ...] = (0, 0)
    while place < len(data):
        length, kind = struct.unpack(">I4s", data[place : place + 8])
        chunk = data[place + 8 : place + 8 + length]
        assert struct.unpack(">I", data[place + 8 + length : place + 12 + length])[0] == zlib.crc32(kind + chunk)
        if kind == b"IHDR":
            size = struct.unpack(">II", chunk[:8])
            assert chunk[8:] == bytes([8, 3, 0, 0, 0])
        if kind == b"IDAT":
            body += chunk
        place += 12 + length
    raw, (width, height) = zlib.decompress(body), size
    assert len(raw) == height * (width + 1)
    lines, above = [], [0] * width
    for start in range(0, len(raw), width + 1):
        kind_of_filter, told = raw[start], raw[start + 1 : start + 1 + width]
        assert kind_of_filter in (0, 2)
        above = [(byte + kind_of_filter // 2 * over) % 256 for byte, over in zip(told, above)]
        lines.append(above)
    return lines


class Cells(HTMLParser):
    """The tables of a grid: each a list of lines of (tag, class, text)."""

    def __init__(self) -> None:
        super().__init__()
        self.tables: list[list[list[tuple[str, str, str]]]] = []
        self.captions: list[str] = []
        self._open = ""

    def handle_starttag(self, tag: str, attrs: list[tuple[str, str | None]]) -> None:
        if tag == "table":
            self.tables.append([])
            self.captions.append("")
        if tag == "tr":
            self.tables[-1].append([])
        if tag in ("td", "th"):
            self.tables[-1][-1].append((tag, dict(attrs).get("class") or "", ""))
        if tag in ("td", "th", "caption"):
            self._open = tag

    def handle_endtag(self, tag: str) -> None:
        if tag == self._open:
            self._open = ""

    def handle_data(self, data: str) -> None:
        if self._open == "caption":
            self.captions[-1] += data
        elif self._open:
            tag, kind, text = self.tables[-1][-1][-1]
            self.tables[-1][-1][-1] = (tag, kind, text + data)


def tables_of(grid: Grid, unit: Unit = Unit.UNSIGNED) -> Cells:
    cells = Cells()
    cells.feed(html_of(grid, unit))
    return cells


@pytest.mark.parametrize(
    ("value", "width", "texts"),
    [
        (250, 8, ("250", "-6", "fa", "11111010")),
        (5, 4, ("5", "5", "5", "0101")),
        (1, 1, ("1", "1", "1", "1")),
        (128, 8, ("128", "-128", "80", "10000000")),
        (2**64 - 1, 64, ("18446744073709551615", "-1", "f" * 16, "1" * 64)),
        (3, 9, ("3", "3", "003", "000000011")),
    ],
)
def test_units(value: int, width: int, texts: tuple[str, ...]) -> None:
    assert tuple(spelled(value, width, unit) for unit in Unit) == texts


def test_text_of_one_axis() -> None:
    assert text_of(Grid("c", (4,), 8, (11, 22, 33, 4))) == "11 22 33  4"
    assert text_of(Grid("c", (4,), 8, (11, 22, 33, 250)), Unit.SIGNED) == "11 22 33 -6"
    assert text_of(Grid("c", (4,), 4, (1, 2, 3, 15)), Unit.HEX) == "1 2 3 f"


def test_text_of_two_axes_has_axis_0_across() -> None:
    assert text_of(Grid("c", (4, 2), 8, range(8))) == "0 1 2 3\n4 5 6 7"


def test_text_of_three_axes_has_sheets() -> None:
    text = text_of(Grid("c", (2, 2, 2), 8, range(8)))
    assert text == "axis 2 at 0:\n0 1\n2 3\naxis 2 at 1:\n4 5\n6 7"


def test_text_of_a_long_axis_is_cut_into_lines() -> None:
    lines = text_of(Grid("c", (64,), 8, range(64))).split("\n")
    assert [line.split(": ")[0].strip() for line in lines] == ["0", "32"]
    assert [int(word) for line in lines for word in line.split(": ")[1].split()] == list(range(64))


def test_text_has_signs_for_marks() -> None:
    grid = Grid("c", (4,), 8, (1, 2, 3, 4), frozenset({1}), unselected=frozenset({3}))
    assert re.sub(" +", " ", text_of(grid)).strip() == "1 2 * 3 (4)"


def test_sheets_name_their_coordinates() -> None:
    sheets = sheets_of((2, 4, 2, 2))
    assert [sheet.title for sheet in sheets][2] == "axis 2 at 0, axis 3 at 1"
    for processor in range(32):
        x, y, z, w = processor % 2, processor // 2 % 4, processor // 8 % 2, processor // 16
        assert sheets[z + 2 * w].lines[y][x] == processor


def test_html_has_heads_captions_and_marks() -> None:
    grid = Grid("c", (4, 2), 8, range(8), frozenset({1}), frozenset({2}), frozenset({0, 5}))
    cells = tables_of(grid)
    table = cells.tables[0]
    assert [text for tag, _, text in table[0] if tag == "th"] == ["0", "1", "2", "3"]
    assert [line[0][0] for line in table[1:]] == ["th", "th"]
    assert [line[0][2] for line in table[1:]] == ["0", "1"]
    found = [(kind, text) for line in table[1:] for tag, kind, text in line if tag == "td"]
    assert found == [
        ("u z", "0, unselected"),
        ("n", "1, changed"),
        ("o", "2, other than before"),
        ("", "3"),
        ("", "4"),
        ("u", "5, unselected"),
        ("", "6"),
        ("", "7"),
    ]
    assert cells.captions[0].startswith("c 8 bits")
    assert html_of(grid).count('scope="col"') == 4 and html_of(grid).count('scope="row"') == 2


def test_html_escapes_what_it_is_given() -> None:
    text = html_of(Grid('<b>"', (2,), 8, (1, 2), place="<script>"))
    assert "<script>" not in text and '<b>"' not in text and "&lt;script&gt;" in text


def test_1024_processors_are_cells_and_more_are_a_picture() -> None:
    assert "<td" in html_of(Grid("c", (1024,), 16, range(1024)))
    large = html_of(Grid("c", (2048,), 16, range(2048)))
    assert "<td" not in large and "<img" in large and "alt=" in large
    assert "2,048 numbers, least 0, greatest 2047" in large


def test_picture_has_a_pixel_a_processor() -> None:
    values = [(x * 7 + y * 3) % 11 for y in range(32) for x in range(64)]
    unselected = frozenset({5, 64, 2047})
    picture = picture_of((64, 32), values, unselected)
    assert (picture.width, picture.height) == (64, 32)
    pixels = [pixel for line in indices_of(picture.address) for pixel in line]
    levels = [value * (STEPS - 1) // 10 for value in values]
    assert pixels == [level + (STEPS if place in unselected else 0) for place, level in enumerate(levels)]


def test_picture_of_long_sets_is_cut_into_tiles() -> None:
    picture = picture_of((4, 16384), [place % 7 for place in range(65536)])
    assert max(picture.width, picture.height) < 1024
    pixels = [pixel for line in indices_of(picture.address) for pixel in line if pixel != GAP]
    assert sorted(pixels) == sorted(place % 7 * (STEPS - 1) // 6 for place in range(65536))


def test_picture_of_sheets_has_gaps_between_them() -> None:
    picture = picture_of((16, 16, 16), [1 + place // 256 for place in range(4096)])
    lines = indices_of(picture.address)
    assert (picture.width, picture.height) == (4 * 17 - 1, 4 * 17 - 1)
    for number in range(16):
        x, y = number % 4 * 17, number // 4 * 17
        assert {pixel for line in lines[y : y + 16] for pixel in line[x : x + 16]} == {number * (STEPS - 1) // 15}


def test_a_picture_of_equal_numbers_tells_zeros_from_others() -> None:
    dark, bright = picture_of((4,), (0, 0, 0, 0)), picture_of((4,), (9, 9, 9, 9))
    assert indices_of(dark.address) == [[0] * 4] and indices_of(bright.address) == [[STEPS * 5 // 8] * 4]


def test_large_text_is_shades() -> None:
    values = [0] * 4096
    values[4095] = 9
    lines = text_of(Grid("c", (64, 64), 8, values)).split("\n")
    assert lines[0] == "4,096 numbers, least 0, greatest 9" and len(lines) == 33
    assert lines[-1] == " " * 63 + "@" and not "".join(lines[1:-1]).strip()


def test_summary_counts_marks() -> None:
    grid = Grid("c", (4,), 8, (3, 1, 2, 9), frozenset({0, 1}), unselected=frozenset({3}))
    assert summary_of(grid) == "4 numbers, least 1, greatest 9, 2 changed, 1 unselected"


def test_differing() -> None:
    assert set(differing((1, 2, 3), (1, 0, 4))) == {1, 2}


def test_all_rules_of_the_style_are_scoped() -> None:
    rules = [part.split("{")[0] for part in style().split("}") if "{" in part]
    assert rules and all(name.strip().startswith(".pv-") for rule in rules for name in rule.split(","))
