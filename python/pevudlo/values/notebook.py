"""HTML for notebooks: values as grids, and rows with their states."""

from __future__ import annotations

from collections.abc import Collection, Sequence
from html import escape

from pevudlo.draw.grids import Grid, html_of, style
from pevudlo.lang.replies import Row, Status

SIGNS = {Status.WAITING: "&hellip; waiting", Status.OUT: "&rarr; out", Status.SETTLED: "&check; settled"}
REFUSED = "&cross; refused for its data"


def grid_html(grid: Grid) -> str:
    """A grid with the style that it needs."""
    return f"<style>{style()}</style>{html_of(grid)}"


def rows_html(rows: Sequence[Row], refused: Collection[int] = ()) -> str:
    """Rows as a table: id, edition, state and instruction, a line for each. `refused` has the ids of refused rows."""
    heads = "".join(f'<th scope="col">{word}</th>' for word in ("row", "edition", "state", "instruction"))
    lines = [
        f'<tr><th scope="row">{row.row}</th><td>{row.edition}</td>'
        f"<td>{REFUSED if row.row in refused else SIGNS[row.status]}</td>"
        f'<td style="text-align: left"><code>{escape(row.text)}</code></td></tr>'
        for row in rows
    ]
    count = "1 row" if len(rows) == 1 else f"{len(rows)} rows"
    return f"<table><caption>{count}</caption><thead><tr>{heads}</tr></thead><tbody>{''.join(lines)}</tbody></table>"
