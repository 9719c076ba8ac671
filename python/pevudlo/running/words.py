"""What is said of rows that run by themselves."""

from __future__ import annotations

from pevudlo.lang.replies import Word
from pevudlo.running.crew import Progress

WHY = {
    Word.STALE: "the row was changed meanwhile",
    Word.GONE: "the row was deleted meanwhile",
    Word.FOREIGN: "it is of another program",
    Word.REPEATED: "the row is settled",
}
"""Why a late result is thrown away."""


def settled_words(progress: Progress) -> str:
    """How many rows are settled."""
    if progress.settled == progress.rows:
        return "all rows are settled" if progress.rows else "there are no rows"
    return f"{progress.settled:,} of {progress.rows:,} rows are settled"
