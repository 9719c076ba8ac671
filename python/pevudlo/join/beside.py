"""What stands beside lines whose values a server tells: short values, and why a line gives none."""

from __future__ import annotations

from collections.abc import Mapping, Sequence
from math import prod
from typing import Any

from pevudlo.document.marks import MOST, short

WAITS = "○"
"""What stands beside a row that has to run first."""

STORES_NOTHING = "! it stores nothing"
Told = Mapping[str, Any]


def label(told: Told) -> str:
    """The short values of a line, as those of a file's own. Why one is refused is told elsewhere."""
    match told.get("s"):
        case "row" | "look":
            return "  ".join(short_value(value, told["s"] == "look") for value in told["v"])
        case "wait":
            return WAITS
        case "fault":
            return STORES_NOTHING
        case "gone":
            return f"- {told['t']}"
        case _:
            return ""


def short_value(value: Sequence[Any], is_look: bool) -> str:
    """A key with its first numbers. Of a row a flag's set isn't said."""
    key, width, axes, words = value
    numbers = list(map(int, words.split()))
    name, total = key if is_look else key.partition(".")[2] or key, prod(axes)
    if len(numbers) == total:
        return f"{name} {short(numbers, None, width)}"
    return f"{name} {words[:MOST].rpartition(' ')[0]} … {total:,}"


def whole(told: Told) -> str:
    """All that is told of a line, in lines: up to 64 numbers of each key, or why it gives none."""
    if told.get("s") == "wait":
        return "it has to run first"
    if "v" not in told:
        return str(told.get("t", ""))
    return "\n".join(f"{key} {words}{more(axes, words)}" for key, _, axes, words in told["v"])


def more(axes: Sequence[int], words: str) -> str:
    """How many numbers a key has, where not all are told."""
    return "" if len(words.split()) == prod(axes) else f" … {prod(axes):,}"
