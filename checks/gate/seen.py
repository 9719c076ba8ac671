"""The record of what was seen: checks/seen, with a checksum of all that decided it, a line each, in their order.

A line says that a must-fail edit was refused, or that the tests of a crate were proved, at just these sources (keys.py). It names neither, so
a line that holds on one branch holds on another one too, and git merges two of these files by union. A line of sources that are gone says
nothing of those that are here.
"""

from collections.abc import Iterable
from pathlib import Path

from kit import ROOT

RECORD = ROOT / "checks" / "seen"


def read_seen(record: Path = RECORD) -> set[str]:
    return set(record.read_text().split()) if record.exists() else set()


def write_seen(sums: Iterable[str], record: Path = RECORD) -> None:
    record.write_text("".join(f"{it}\n" for it in sorted(sums)))


def add_seen(sums: Iterable[str]) -> None:
    """Adds lines to the record."""
    write_seen(read_seen().union(sums))
