"""The instructions of each operation, as texts."""

from __future__ import annotations

from collections.abc import Callable, Sequence
from typing import Any

from pevudlo.follow.expressions import Node, room
from pevudlo.lang.instructions import spell

SET = "S"
"""The name of the one set."""

Writer = Callable[[str, Sequence[str], Node, Any], list[str]]
"""Gives the texts of an operation: by the destination, the fields of the operands, the expression and its detail."""

COMBINERS = {"add": "u-add", "or": "logior", "and": "logand", "xor": "logxor", "max": "u-max", "min": "u-min"}
"""The instructions' combiners, by what a function calls them."""

STORING_EVERYWHERE = {"where", "copy", "scatter"}
"""The operations whose first row stores all bits everywhere, and reads no old destination."""


def of_two(unsigned: str, signed: str | None = None) -> Writer:
    """An instruction with two sources."""

    def write(to: str, at: Sequence[str], node: Node, _: Any) -> list[str]:
        name = signed if signed and node.kind.signed else unsigned
        return [spell(f"{name}-3-1L", to, at[0], at[1], node.kind.bits)]

    return write


def of_one(name: str) -> Writer:
    """An instruction with one source."""
    return lambda to, at, node, _: [spell(f"{name}-2-1L", to, at[0], node.kind.bits)]


def divided(name: str) -> Writer:
    """A quotient or a remainder. Where the divisor is 0 the destination is kept, so it is 0 first."""

    def write(to: str, at: Sequence[str], node: Node, _: Any) -> list[str]:
        bits = node.kind.bits
        return [spell("u-move-constant-1L", to, 0, bits), spell(f"{name}-3-1L", to, at[0], at[1], bits)]

    return write


def compared(to: str, at: Sequence[str], node: Node, detail: Any) -> list[str]:
    """A comparison, whose test flag is stored."""
    relation, bits = detail
    return [spell(f"{relation}-1L", at[0], at[1], bits), spell("store-test", to)]


def chosen(to: str, at: Sequence[str], node: Node, _: Any) -> list[str]:
    """The second operand where the first one is 1, else the third one."""
    return [
        spell("u-move-always-1L", to, at[2], room(node.kind.bits)),
        spell("load-context", at[0]),
        spell("u-move-1L", to, at[1], node.kind.bits),
        spell("set-context", SET),
    ]


def rolled(to: str, at: Sequence[str], node: Node, detail: Any) -> list[str]:
    """Steps to the neighbour, one after another."""
    axis, direction, count = detail
    return [
        spell("get-from-news-1L", to, at[0] if step == 0 else to, axis, direction, node.kind.bits)
        for step in range(count)
    ]


def scanned(to: str, at: Sequence[str], node: Node, detail: Any) -> list[str]:
    """A scan along an axis, of segments where there is a second operand."""
    combiner, axis, direction, inclusion = detail
    segments = at[1] if len(at) > 1 else "none"
    words = [axis, node.kind.bits, direction] + ([] if combiner == "copy" else [inclusion]) + [segments]
    return [spell(f"scan-with-{combiner}-1L", to, at[0], *words)]


def spread(to: str, at: Sequence[str], node: Node, detail: Any) -> list[str]:
    """What all of each line combine to, along one axis after another."""
    combiner, *axes = detail
    return [
        spell(f"spread-with-{combiner}-1L", to, at[0] if turn == 0 else to, axis, node.kind.bits)
        for turn, axis in enumerate(axes)
    ]


def picked(to: str, at: Sequence[str], node: Node, detail: Any) -> list[str]:
    """The number at a coordinate of each line, along one axis after another."""
    return [
        spell("spread-with-copy-1L", to, at[0] if turn == 0 else to, axis, node.kind.bits, coordinate)
        for turn, (axis, coordinate) in enumerate(detail)
    ]


def scattered(to: str, at: Sequence[str], node: Node, detail: Any) -> list[str]:
    """Numbers sent to addresses, onto a copy of the first operand."""
    (combiner,) = detail
    name = f"send-with-{combiner}-1L" if combiner else "send-1L"
    return [
        spell("u-move-always-1L", to, at[0], room(node.kind.bits)),
        spell(name, to, at[1], at[2], node.kind.bits, "none"),
    ]


def moved(to: str, at: Sequence[str], node: Node, detail: Any) -> list[str]:
    """A move to another length."""
    bits, is_signed = detail
    return [spell("s-move-2L" if is_signed else "u-move-2L", to, at[0], node.kind.bits, bits)]


WRITERS: dict[str, Writer] = {
    "constant": lambda to, at, node, detail: [spell("u-move-constant-1L", to, detail[0], node.kind.bits)],
    "add": of_two("u-add", "s-add"),
    "subtract": of_two("u-subtract", "s-subtract"),
    "multiply": of_two("u-multiply", "s-multiply"),
    "maximum": of_two("u-max", "s-max"),
    "minimum": of_two("u-min", "s-min"),
    "bitwise_and": of_two("logand"),
    "bitwise_or": of_two("logior"),
    "bitwise_xor": of_two("logxor"),
    "floor_divide": divided("u-truncate"),
    "remainder": divided("u-rem"),
    "invert": of_one("lognot"),
    "negative": of_one("s-negate"),
    "compare": compared,
    "where": chosen,
    "copy": lambda to, at, node, _: [spell("u-move-always-1L", to, at[0], room(node.kind.bits))],
    "cast": moved,
    "roll": rolled,
    "scan": scanned,
    "spread": spread,
    "pick": picked,
    "take": lambda to, at, node, _: [spell("get-1L", to, at[1], at[0], node.kind.bits)],
    "scatter": scattered,
    "coordinate": lambda to, _, node, detail: [spell("my-news-coordinate-1L", to, detail[0], node.kind.bits)],
    "address": lambda to, _, node, detail: [spell("my-send-address-1L", to, node.kind.bits)],
}


def texts_of(node: Node, to: str, at: Sequence[str]) -> list[str]:
    """The instructions of an expression, with its destination and the fields of its operands."""
    return WRITERS[node.operation](to, at, node, node.detail)
