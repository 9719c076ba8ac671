"""Fields and rows for what a trace returns."""

from __future__ import annotations

import re
from collections.abc import Iterable, Sequence
from dataclasses import dataclass, field
from itertools import chain, islice

from pevudlo.follow.expressions import WIDTHS, Node, room
from pevudlo.follow.refusals import Line, TooMuch, most_of
from pevudlo.follow.rows import SET, STORING_EVERYWHERE, texts_of
from pevudlo.lang.instructions import spell

MOST_FIELDS, MOST_ROWS = 64, 4_096
SPARE = 4
"""So many fields are left undeclared while others are free."""

NEAR = 8
"""Among so many fields that are free one is looked for whose old value needs no end."""

FIELD_NAME = re.compile(r"(?!none$|v[0-9]+$)[A-Za-z][A-Za-z0-9_]{0,15}")


@dataclass
class Layout:
    """What a program has: its fields with their widths, those of arguments, and where each expression's value stands.

    `kept` are the fields of expressions by their numbers. `places` are the field of each expression, and how many rows
    of `texts` are before its value. `nodes` are the expressions of the texts.
    """

    widths: dict[str, int] = field(default_factory=dict)
    arguments: dict[tuple[str, int], str] = field(default_factory=dict)
    kept: dict[int, str] = field(default_factory=dict)
    texts: list[str] = field(default_factory=list)
    nodes: list[Node] = field(default_factory=list)
    places: dict[int, tuple[str, int]] = field(default_factory=dict)


def in_order(roots: Iterable[Node]) -> list[Node]:
    """Expressions with all that they stand on, operands first."""
    order, seen = list[Node](), set[int]()
    for root in roots:
        stack = [root]
        while stack:
            node = stack[-1]
            waits = [] if node.number in seen else [each for each in node.operands if each.number not in seen]
            if waits:
                stack.extend(reversed(waits))
                continue
            stack.pop()
            if node.number not in seen:
                seen.add(node.number)
                order.append(node)
    return order


class Placing:
    """Finds fields for expressions in their order, beside those that a layout before had. `is_tight`: few fields."""

    def __init__(self, before: Layout, order: Sequence[Node], is_tight: bool) -> None:
        self.before, self.order, self.is_tight = before, order, is_tight
        self.layout = Layout(dict(before.widths), dict(before.arguments))
        self.present = {node.number for node in order}
        self.last = dict[int, int]()
        self.held = dict[str, Node]()
        # The free fields of each width: nothing wants them; or they are of what is there still; or they were used here.
        self.clean, self.kept, self.used = ({width: dict[str, None]() for width in WIDTHS} for _ in range(3))
        self.ending = dict[int, list[str]]()
        wanted = {name: number for number, name in before.kept.items()}
        taken = set(before.arguments.values())
        for name, width in before.widths.items():
            if name not in taken:
                free = self.kept if wanted.get(name) in self.present else self.clean
                free[width][name] = None

    def made(self) -> Layout:
        """The layout. Raises TooMuch."""
        for node in self.order:
            if node.operation == "argument":
                self.place_argument(node)
        others = [node for node in self.order if node.operation != "argument"]
        self.last = {operand.number: at for at, node in enumerate(others) for operand in node.operands}
        for at, node in enumerate(others):
            self.place(at, node)
        if len(self.layout.texts) > MOST_ROWS:
            line, count = most_of(node.line for node in self.layout.nodes)
            raise TooMuch(
                f"a program has {MOST_ROWS:,} rows, and these are {len(self.layout.texts):,}: {line} makes {count:,} "
                "of them. Fewer turns of a loop, or fewer bits to sort by, make fewer"
            )
        self.layout.kept = {number: name for number, (name, _) in self.layout.places.items()}
        return self.layout

    def place_argument(self, node: Node) -> None:
        """Gives an argument its field."""
        key = (str(node.detail[0]), room(node.kind.bits))
        name = self.layout.arguments.get(key)
        if name is None:
            name = self.declared(key[1], self.free_name(key[0]), node)
            self.layout.arguments[key] = name
        self.layout.places[node.number] = name, 0

    def free_name(self, wanted: str) -> str:
        """A field's name for an argument of this name."""
        is_free = FIELD_NAME.fullmatch(wanted) and wanted != SET and wanted not in self.layout.widths
        return wanted if is_free else f"v{len(self.layout.widths)}"

    def place(self, at: int, node: Node) -> None:
        """Gives an expression a field and its rows."""
        name = self.field_for(at, node)
        places = self.layout.places
        texts = texts_of(node, name, [places[operand.number][0] for operand in node.operands])
        fence = self.fence(name, node)
        if fence is not None:
            texts.insert(0, fence)
        self.held[name] = node
        self.layout.texts += texts
        self.layout.nodes += [node] * len(texts)
        places[node.number] = name, len(self.layout.texts)

    def fence(self, name: str, node: Node) -> str | None:
        """A row that ends a field's old value, where that stands on an argument on which the new one doesn't."""
        old = self.held.get(name)
        if old is None or node.operation in STORING_EVERYWHERE or not old.inputs & ~node.inputs:
            return None
        width = self.layout.widths[name]
        source = next((operand for operand in node.operands if room(operand.kind.bits) == width), None)
        return spell("u-move-always-1L", name, self.layout.places[source.number][0], width) if source else None

    def field_for(self, at: int, node: Node) -> str:
        """A field for an expression: that of the trace before where it is free, else one that disturbs least.

        A field is free behind the last reader of what it holds, and not at it: several rows make some expressions.
        """
        width = room(node.kind.bits)
        for name in self.ending.pop(at - 1, ()):
            self.used[self.layout.widths[name]][name] = None
        clean, used, kept = self.clean[width], self.used[width], self.kept[width]
        name = self.before.kept.get(node.number, "")
        if name not in clean and name not in used and name not in kept:
            name = self.another(width, node)
        for free in (clean, used, kept):
            free.pop(name, None)
        self.ending.setdefault(max(at, self.last.get(node.number, -1)), []).append(name)
        return name

    def another(self, width: int, node: Node) -> str:
        """A field that the expression didn't have in the trace before: a clean one, a new one, or a used one."""
        clean, used, kept = self.clean[width], self.used[width], self.kept[width]
        if clean:
            return next(iter(clean))
        if not (used or kept) or not (self.is_tight or len(self.layout.widths) >= MOST_FIELDS - SPARE):
            return self.declared(width, f"v{len(self.layout.widths)}", node)
        # One whose old value stands on no other argument wants no row that ends it. It is among the last ones.
        for name in islice(reversed(used), NEAR):
            if not self.held[name].inputs & ~node.inputs:
                return name
        return next(chain(used, kept))

    def declared(self, width: int, name: str, node: Node) -> str:
        """A new field. Raises TooMuch where there are as many as a program may have."""
        if len(self.layout.widths) >= MOST_FIELDS:
            live = [held.line for held in self.held.values()] or [node.line]
            line, count = most_of(live)
            raise TooMuch(
                f"{MOST_FIELDS} fields are live at once at {node.line}, as many as a program has: {line} keeps {count} "
                "of them. Use values soon after they are made, or make them again"
            )
        self.layout.widths[name] = width
        return name


def laid_out(before: Layout, roots: Sequence[Node]) -> tuple[Layout, bool]:
    """A layout of what these expressions stand on, and whether it goes on from the one before. Raises TooMuch.

    Where that one leaves no room it is made anew, of as few fields as there may be.
    """
    order = in_order(roots)
    for is_tight in (False, True):
        try:
            return Placing(before, order, is_tight).made(), True
        except TooMuch:
            pass
    return Placing(Layout(), order, True).made(), False


def lines_of(nodes: Iterable[Node]) -> list[Line]:
    """The lines of expressions, each once, in their order."""
    return list(dict.fromkeys(node.line for node in nodes))
