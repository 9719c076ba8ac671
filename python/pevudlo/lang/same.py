"""What is said of rows that are cut off: settled with their last results, and not run."""

from __future__ import annotations


def same_words(count: int) -> str:
    """What is said of so many rows whose instructions and inputs are those of their last results."""
    return "computes the same again, not run" if count == 1 else "compute the same again, not run"
