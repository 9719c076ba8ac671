"""What came of checks, in words."""

from __future__ import annotations

from collections.abc import Sequence

from pevudlo.exercise.looks import Outcome, Verdict

MOST_NUMBERS = 12
"""So many numbers of a look are said."""


def listed(numbers: Sequence[int]) -> str:
    """The first numbers of a look."""
    more = f" .. ({len(numbers):,} numbers)" if len(numbers) > MOST_NUMBERS else ""
    return " ".join(map(str, numbers[:MOST_NUMBERS])) + more


def processors(count: int) -> str:
    """So many processors."""
    return f"{count:,} processor{'s' * (count != 1)}"


def difference(verdict: Verdict) -> str:
    """How what a look gives is other than what is wanted."""
    if verdict.outcome is not Outcome.WRONG:
        return ""
    if verdict.processor < 0:
        return f"it has {processors(verdict.got)}, and {verdict.wanted:,} are wanted"
    more = f", and so are {verdict.others - 1:,} more" if verdict.others > 2 else ""
    more = ", and so is one more" if verdict.others == 2 else more
    return f"processor {verdict.processor} has {verdict.got} where {verdict.wanted} is wanted{more}"


def counted(right: int, all_of: int) -> str:
    """How many looks give what is wanted."""
    if right == all_of:
        named = {1: "the look gives", 2: "both looks give"}.get(all_of, f"all {all_of} looks give")
        return f"{named} what is wanted"
    return f"{right} of {all_of} looks give{'s' * (right == 1)} what is wanted"
