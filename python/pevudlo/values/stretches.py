"""What the numbers of a value come to in stretches of its processors, as the library tells it in words."""

from __future__ import annotations

from collections.abc import Sequence
from dataclasses import dataclass

from pevudlo.lang.profiles import WORD

STRETCH_WORDS = 8
"""How many words a stretch has: two each for the least number and the greatest, three for the sum, one for a count."""


@dataclass(frozen=True)
class Stretch:
    """What the numbers of a stretch come to: the least, the greatest, their sum, and how many are other than 0."""

    least: int
    greatest: int
    sum: int
    others: int


def stretches_of(words: Sequence[int]) -> list[Stretch]:
    """What each stretch comes to, by its words."""
    return [stretch_of(*words[at : at + STRETCH_WORDS]) for at in range(0, len(words), STRETCH_WORDS)]


def stretch_of(
    least: int, least_high: int, most: int, most_high: int, low: int, middle: int, high: int, others: int
) -> Stretch:
    """What a stretch comes to, by its words, the low ones first."""
    total = low | middle << WORD | high << 2 * WORD
    return Stretch(least | least_high << WORD, most | most_high << WORD, total, others)
