"""What becomes of a line, for who looks at it."""

from __future__ import annotations

from dataclasses import dataclass
from enum import Enum


class State(Enum):
    """What became of a line, with its sign."""

    NEW = "▶"
    SAME = "="
    KEPT = " "
    REFUSED = "✗"
    FAULT = "!"
    GONE = "-"
    LOOK = "→"
    PASSED = "·"
    NOTE = "i"
    NONE = ""


@dataclass(frozen=True)
class Mark:
    """What stands beside a line."""

    state: State
    text: str
