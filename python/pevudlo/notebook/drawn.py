"""A piece as a notebook shows it: its lines, and beside each what it gives; looks are grids."""

from __future__ import annotations

from collections.abc import Sequence
from html import escape
from typing import NamedTuple

from pevudlo.document.document import Document
from pevudlo.document.marks import headline
from pevudlo.document.states import Mark, State
from pevudlo.document.update import Update
from pevudlo.draw.grids import Grid, html_of, style, text_of
from pevudlo.draw.visible import visible
from pevudlo.lang.keys import axes_of, width_of
from pevudlo.record.numbers import Numbers

STYLE = """.pv-piece { border-collapse: collapse }
.pv-piece caption { text-align: left; padding: 2px 8px; opacity: .7; white-space: nowrap }
.pv-piece td.pv-line { text-align: left; vertical-align: top; padding: 1px 8px; white-space: pre }
.pv-piece td.pv-said { text-align: left; vertical-align: top; padding: 1px 8px; white-space: pre-wrap }
.pv-piece .pv-wrong { color: #b5201c }"""
WRONG = (State.REFUSED, State.FAULT)


class Line(NamedTuple):
    """A line, what stands beside it, and the key and the numbers of a look."""

    text: str
    mark: Mark
    key: str
    numbers: Numbers | None


class Drawn:
    """A piece behind an update, in HTML and in text. `is_asked`: it is the one that was put in."""

    def __init__(self, name: str, is_asked: bool, lines: Sequence[Line], document: Document, done: Update) -> None:
        self.name = name
        said = headline(document, done)
        self.head = f"{name}: {said}" if is_asked else f"{name}, drawn anew: {said}"
        self._lines = [line for line in lines if line.mark.state is not State.NONE]
        board = document.book.board
        self._grids = [
            None
            if line.numbers is None
            else Grid(line.key, axes_of(board, line.key), width_of(board, line.key), line.numbers)
            for line in self._lines
        ]

    def __repr__(self) -> str:
        """The piece in text."""
        parts = [self.head]
        for line, grid in zip(self._lines, self._grids):
            said = f"{line.mark.state.value} {line.mark.text}".strip() if grid is None else ""
            parts.append(f"  {visible(line.text)}" + (f"   {visible(said)}" if said else ""))
            parts += [f"      {each}" for each in text_of(grid).split("\n")] if grid is not None else []
        return "\n".join(parts)

    def _repr_html_(self) -> str:
        """The piece as a table."""
        lines = "".join(
            f'<tr><td class="pv-line"><code>{escape(visible(line.text))}</code></td>{said_html(line.mark, grid)}</tr>'
            for line, grid in zip(self._lines, self._grids)
        )
        styles = f"<style>{style()}\n{STYLE}</style>"
        return f'{styles}<table class="pv-piece"><caption>{escape(visible(self.head))}</caption>{lines}</table>'


def said_html(mark: Mark, grid: Grid | None) -> str:
    """What stands beside a line."""
    kind = "pv-said pv-wrong" if mark.state in WRONG else "pv-said"
    said = html_of(grid) if grid is not None else escape(visible(f"{mark.state.value} {mark.text}".strip()))
    return f'<td class="{kind}">{said}</td>'
