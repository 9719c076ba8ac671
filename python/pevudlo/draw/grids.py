"""Values of a key as a grid in the shape of their set, as text and as HTML.

Axis 0 runs across, axis 1 down, further axes are sheets; a long set of one axis stands in several lines. A set of more
than 1,024 processors is a heat picture instead. Marks are signs and words too, and never colours alone: a changed
number has a corner and a star, an unselected processor is hatched and in brackets.
"""

from __future__ import annotations

from collections.abc import Sequence, Set
from dataclasses import dataclass, replace
from functools import cache
from html import escape
from importlib.resources import files

from pevudlo.draw.arrays import extent, highest
from pevudlo.draw.marks import bits_of
from pevudlo.draw.pictures import picture_of
from pevudlo.draw.shapes import Sheet, processors_of, sheets_of
from pevudlo.draw.units import Unit, spelled

MOST_CELLS = 1024
"""A set of more processors is a picture and no table."""

MOST_ROOMY = 64
"""The cells of a larger set are small."""

_SHADES = " .:-=+*#%@"
_NOTHING: frozenset[int] = frozenset()


@dataclass(frozen=True)
class Grid:
    """The values of a key, one a processor, all below `2^width`.

    `changed` has the processors whose number isn't what it was before the row, `other` those whose number isn't what
    an earlier run of the row left, `unselected` those of context 0. `place` says where the key was looked at.
    """

    key: str
    axes: tuple[int, ...]
    width: int
    values: Sequence[int]
    changed: Set[int] = _NOTHING
    other: Set[int] = _NOTHING
    unselected: Set[int] = _NOTHING
    place: str = ""

    @property
    def is_picture(self) -> bool:
        """Whether the set is too large for a table."""
        return len(self.values) > MOST_CELLS


def style() -> str:
    """The style sheet that HTML grids need, once a page. All its rules begin with `.pv-`."""
    return read_static("grids.css")


@cache
def read_static(name: str) -> str:
    """A text of the folder `static`."""
    return files("pevudlo").joinpath("static", name).read_text(encoding="utf-8")


# Text


def text_of(grid: Grid, unit: Unit = Unit.UNSIGNED, columns: int | None = None) -> str:
    """The grid as lines of text, no end of line behind the last: `*` behind what changed, `(7)` where unselected.

    Where `columns` is said, lines are at most so long, as far as a line has more than one number.
    """
    if grid.is_picture:
        return _text_picture(grid)
    longest = None if columns is None else _most_side_by_side(grid, unit, columns)
    parts = []
    for sheet in sheets_of(grid.axes, longest):
        for piece in _pieces_of(sheet, longest or len(sheet.across)):
            parts += [f"{piece.title}:"] if piece.title else []
            parts += _text_lines(grid, piece, unit)
    return "\n".join(parts)


def _most_side_by_side(grid: Grid, unit: Unit, columns: int) -> int:
    """How many numbers stand side by side in so many columns: a power of two."""
    wide = 1 + max(len(_text_cell(grid, place, unit)) for place in range(len(grid.values)))
    room = columns + 1 - (len(f"{len(grid.values)}: ") if len(grid.axes) == 1 else 0)
    return 1 << max(0, (room // wide).bit_length() - 1)


def _pieces_of(sheet: Sheet, longest: int) -> list[Sheet]:
    """A sheet, or pieces of it whose lines have at most so many numbers. Each says where on axis 0 it is."""
    if len(sheet.across) <= longest:
        return [sheet]
    pieces = []
    for at in range(0, len(sheet.across), longest):
        last = min(at + longest, len(sheet.across)) - 1
        title = ", ".join(part for part in (sheet.title, f"axis 0 at {at} to {last}") if part)
        lines = tuple(line[at : last + 1] for line in sheet.lines)
        pieces.append(replace(sheet, title=title, across=sheet.across[at : last + 1], lines=lines))
    return pieces


def _text_lines(grid: Grid, sheet: Sheet, unit: Unit) -> list[str]:
    """One sheet: its numbers in columns, with the first processor before each line where a long line is cut."""
    cells = [[_text_cell(grid, place, unit) for place in line] for line in sheet.lines]
    wide = max(len(cell) for line in cells for cell in line)
    cut = len(grid.axes) == 1 and len(sheet.lines) > 1
    heads = [head.rjust(len(sheet.down[-1])) + ": " if cut else "" for head in sheet.down]
    return [(head + " ".join(cell.rjust(wide) for cell in line)).rstrip() for head, line in zip(heads, cells)]


def _text_cell(grid: Grid, place: int, unit: Unit) -> str:
    """One number with its marks. Where a grid has marks, a number without one has a space in their place."""
    text = spelled(grid.values[place], grid.width, unit)
    star = "*" if place in grid.changed else " " if grid.changed else ""
    if place in grid.unselected:
        return f"({text}){star}"
    return f" {text} {star}" if grid.unselected else f"{text}{star}"


def _text_picture(grid: Grid) -> str:
    """A large set as shades, at most 64 across and 32 down: the greatest number of each block."""
    least, greatest = extent(grid.values)
    parts = [summary_of(grid)]
    for sheet in sheets_of(grid.axes)[:8]:
        across, down = -(-len(sheet.lines[0]) // 64), -(-len(sheet.lines) // 32)
        parts += [f"{sheet.title}:"] if sheet.title else []
        for tops in highest(grid.values, sheet.lines, down, across):
            shades = (_SHADES[(top - least) * (len(_SHADES) - 1) // max(1, greatest - least)] for top in tops)
            parts.append("".join(shades).rstrip())
    return "\n".join(parts)


def summary_of(grid: Grid) -> str:
    """What a picture can't say: how many numbers there are, the least and the greatest, and how many carry marks."""
    least, greatest = extent(grid.values)
    parts = [f"{len(grid.values):,} numbers, least {least}, greatest {greatest}"]
    for marked, word in ((grid.changed, "changed"), (grid.other, "other than before"), (grid.unselected, "unselected")):
        if marked:
            parts.append(f"{len(marked):,} {word}")
    return ", ".join(parts)


# HTML


def html_of(grid: Grid, unit: Unit = Unit.UNSIGNED) -> str:
    """The grid as a `figure`: tables with heads, or a heat picture with its summary."""
    body = _html_picture(grid) if grid.is_picture else _html_tables(grid, unit)
    kind = "pv-heat" if grid.is_picture else "pv-bit" if grid.width == 1 else "pv-numbers"
    kind += " pv-dense" if MOST_ROOMY < len(grid.values) and not grid.is_picture else ""
    key = escape(grid.key, quote=True)
    shape = f'data-axes="{"x".join(map(str, grid.axes))}" data-bits="{grid.width}"'
    return f'<figure class="pv-grid {kind}" data-key="{key}" {shape}>{body}</figure>'


def _caption_of(grid: Grid) -> str:
    """The key's name, its width, and where it was looked at."""
    bits = "1 bit" if grid.width == 1 else f"{grid.width} bits"
    place = f" <span>{escape(grid.place)}</span>" if grid.place else ""
    return f"<b>{escape(grid.key)}</b> <span>{bits}</span>{place}"


def _html_tables(grid: Grid, unit: Unit) -> str:
    """A table a sheet."""
    tables = []
    for sheet in sheets_of(grid.axes):
        title = f' <span class="pv-sheet">{escape(sheet.title)}</span>' if sheet.title else ""
        heads = "".join(f'<th scope="col">{head}</th>' for head in sheet.across)
        lines = []
        for head, places in zip(sheet.down, sheet.lines):
            first = f'<th scope="row">{head}</th>' if head else '<td class="pv-corner"></td>'
            lines.append(f"<tr>{first}{''.join(_html_cell(grid, place, unit) for place in places)}</tr>")
        tables.append(
            f"<table><caption>{_caption_of(grid)}{title}</caption><thead><tr>"
            f'<td class="pv-corner"></td>{heads}</tr></thead><tbody>{"".join(lines)}</tbody></table>'
        )
    return "".join(tables)


def _html_cell(grid: Grid, place: int, unit: Unit) -> str:
    """One number, with its marks as classes and as words for who doesn't see them."""
    value = grid.values[place]
    marks = []
    if place in grid.changed:
        marks.append(("n", "changed"))
    if place in grid.other:
        marks.append(("o", "other than before"))
    if place in grid.unselected:
        marks.append(("u", "unselected"))
    classes = [mark for mark, _ in marks] + (["z"] if value == 0 else [])
    words = f"<i>, {', '.join(word for _, word in marks)}</i>" if marks else ""
    named = f' class="{" ".join(classes)}"' if classes else ""
    return f"<td{named}>{spelled(value, grid.width, unit)}{words}</td>"


def _html_picture(grid: Grid) -> str:
    """The numbers as a picture; beside it where they changed and which processors aren't selected, if just some are."""
    count = len(grid.values)
    parts = [_image(grid, grid.values, f"{grid.key}: {summary_of(grid)}", grid.unselected, "")]
    for marked, word in ((grid.changed, "changed"), (grid.other, "other than before"), (grid.unselected, "unselected")):
        if 0 < len(marked) < count:
            bits = bits_of(marked, count)
            parts.append(_image(grid, bits, f"{grid.key}: bright where {word}", _NOTHING, word))
    return f"<figcaption>{_caption_of(grid)} <em>{summary_of(grid)}</em></figcaption><div>{''.join(parts)}</div>"


def _image(grid: Grid, values: Sequence[int], words: str, unselected: Set[int], label: str) -> str:
    """One picture, enlarged by a whole number; one with a label takes half the room."""
    picture = picture_of(grid.axes, values, unselected)
    longest = max(picture.width, picture.height)
    scale = max(1, 256 // longest) / (2 if label else 1)
    size = f'width="{round(picture.width * scale)}" height="{round(picture.height * scale)}"'
    if not label and picture.width * picture.height == len(values):
        size += f' data-across="{picture.width}"'
    name = f"<small>{escape(label)}</small>" if label else ""
    return (
        f'<span class="pv-picture"><img src="{picture.address}" {size} alt="{escape(words, quote=True)}">{name}</span>'
    )


def shape_text(axes: tuple[int, ...]) -> str:
    """The axes as a script has them, where they are more than one, and the processors: `4x2, 8 processors`."""
    count = processors_of(axes)
    shape = f"{'x'.join(map(str, axes))}, " if len(axes) > 1 else ""
    return f"{shape}{count:,} processor{'' if count == 1 else 's'}"
