"""What an update of a document did."""

from __future__ import annotations

from dataclasses import dataclass, field


@dataclass
class Update:
    """What an update did: the commands that were told, how many rows ran, and how many there are.

    `touched` are the ids of the rows that it touched: those that ran, and those that weren't run, since they would have
    computed again what they computed last. `fresh` says why a new book was begun, where one was. `held` are the lines
    that keep the row that they were.
    """

    sent: list[str] = field(default_factory=list)
    count: int = 0
    rows: int = 0
    touched: frozenset[int] = frozenset()
    fresh: str = ""
    held: tuple[int, ...] = ()
