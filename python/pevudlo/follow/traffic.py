"""What goes between processors, by lines of Python: how many messages, to which processor most, and how far."""

from __future__ import annotations

from collections.abc import Iterable, Iterator
from dataclasses import dataclass, field
from html import escape
from typing import Any

import numpy

from pevudlo.draw.grids import Grid, html_of, style
from pevudlo.follow.looks import settled, source_of
from pevudlo.follow.numbers import Numbers
from pevudlo.follow.refusals import Line
from pevudlo.follow.state import State
from pevudlo.lang.instructions import Operand, read

ADDRESS_BITS = 16

STYLE = """body { font: 15px/1.4 sans-serif; margin: 1.5em; max-width: 60em }
.pv-traffic { border-collapse: collapse }
.pv-traffic th, .pv-traffic td { text-align: right; vertical-align: top; padding: 2px 10px }
.pv-traffic tr { border-bottom: 1px solid #ccc }
.pv-traffic th:first-child, .pv-traffic td:first-child { text-align: left }
.pv-traffic code { white-space: pre-wrap }"""

HEADS = ("line of Python", "instruction", "rows", "messages", "most", "at processor", "bits that differ")


@dataclass
class Traffic:
    """What the rows of a line send between processors: how many messages, the most to or from one, and how far.

    `distance` is the mean of how many bits of the two addresses differ, as on a cube. Scans and spreads have none.
    `counts` are the messages to or from each processor, of all rows of the line by address.
    """

    line: Line
    instruction: str
    rows: int = 0
    messages: int = 0
    most: int = 0
    distance: float = 0.0
    processor: int | None = None
    counts: Numbers | None = field(default=None, repr=False)
    _bits: int = field(default=0, repr=False)

    @property
    def source(self) -> str:
        """The text of the line of Python."""
        return source_of(self.line)

    def __str__(self) -> str:
        rows = "1 row" if self.rows == 1 else f"{self.rows} rows"
        hot = "" if self.processor is None else f", the most {self.most:,} at processor {self.processor}"
        return f"{self.line}: {self.instruction}, {rows}, {self.messages:,} messages{hot}    {self.source}".rstrip()

    def add(self, places: Numbers) -> None:
        """Adds what one row sends to these places, or asks of them: one for each processor."""
        size = len(places)
        inside = (places >= 0) & (places < size)
        counts = numpy.bincount(places[inside], minlength=size)
        self.counts = counts if self.counts is None else self.counts + counts
        if int(counts.max()) > self.most:
            self.most, self.processor = int(counts.max()), int(counts.argmax())
        differing = numpy.arange(size)[inside] ^ places[inside]
        self._bits += sum(int(numpy.count_nonzero(differing >> bit & 1)) for bit in range(ADDRESS_BITS))
        self.distance = self._bits / (self.rows * size)


class Traffics(tuple[Traffic, ...]):
    """What goes between processors, the line with most messages first. A notebook shows it with pictures."""

    axes: tuple[int, ...] = ()

    @classmethod
    def of(cls, entries: Iterable[Traffic], axes: tuple[int, ...]) -> Traffics:
        """These, on a set of such axes."""
        made = cls(sorted(entries, key=lambda entry: -entry.messages))
        made.axes = axes
        return made

    def __repr__(self) -> str:
        return "\n".join(map(str, self)) or "nothing goes between processors"

    __str__ = __repr__

    def _repr_html_(self) -> str:
        """The table, and a picture of each line that sends or gets by address."""
        return f"<style>{style()}\n{STYLE}</style>{self._table()}{''.join(self._pictures())}"

    def page(self) -> str:
        """The same as a page of HTML, which needs no network."""
        head = '<!doctype html><html lang="en"><meta charset="utf-8"><title>What goes between processors</title>'
        return f"{head}<h1>What goes between processors</h1>{self._repr_html_()}</html>\n"

    def _table(self) -> str:
        """The table."""
        heads = "".join(f"<th>{head}</th>" for head in HEADS)
        return f'<table class="pv-traffic"><tr>{heads}</tr>{"".join(map(row_of, self))}</table>'

    def _pictures(self) -> Iterator[str]:
        """A grid for each line by address, with the messages of each processor."""
        for entry in self:
            if entry.counts is not None:
                counts = entry.counts.tolist()
                grid = Grid("messages", self.axes, max(1, max(counts).bit_length()), counts)
                head = f"{entry.line}, {entry.instruction}: messages of each processor, in {entry.rows} rows"
                yield f"<h2>{escape(head)}</h2><p><code>{escape(entry.source)}</code></p>{html_of(grid)}"


def row_of(entry: Traffic) -> str:
    """A row of the table."""
    line = f"{escape(str(entry.line))}<br><code>{escape(entry.source)}</code>"
    hot = ("", "", "") if entry.processor is None else (f"{entry.most:,}", entry.processor, f"{entry.distance:.1f}")
    cells = (line, entry.instruction, entry.rows, f"{entry.messages:,}", *hot)
    return f"<tr>{''.join(f'<td>{cell}</td>' for cell in cells)}</tr>"


def traffic_of(state: State) -> Traffics:
    """What goes between processors, by lines and instructions."""
    found = dict[tuple[Line, str], Traffic]()
    before = 0
    for (row, text), node in state.pairs():
        instruction, named = read(text)
        name = instruction.name
        if instruction.is_by_address or name.startswith(("get-from-news", "scan", "spread")):
            entry = found.setdefault((node.line, name), Traffic(node.line, name))
            entry.rows += 1
            entry.messages += state.session.size
            if instruction.is_by_address:
                entry.add(places_of(state, named, before))
        before = row
    axes = tuple(reversed(state.made.shape)) or (1,)
    return Traffics.of(found.values(), axes)


def places_of(state: State, named: Any, before: int) -> Numbers:
    """The places that a row sends to, or asks. One that has no room in 64 bits is outside."""
    raw = settled(state, named[Operand.B], before)
    if raw.dtype == object:
        raw = numpy.minimum(raw, state.session.size)
    return raw.astype(numpy.int64)
