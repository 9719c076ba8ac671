"""The idioms of docs/IDIOMS.md: their titles, and the text of each section where the page is at hand."""

from __future__ import annotations

import re
from enum import Enum
from functools import cache
from pathlib import Path

PAGE = "IDIOMS.md"
PACKAGE = Path(__file__).resolve().parents[1]
PLACES = (PACKAGE / "pages" / "docs", PACKAGE.parents[1] / "docs")
"""Where pages stand: among the data of a package that was installed with them, or in the repository."""


class Idiom(Enum):
    """An idiom, by the title of its section."""

    CONSTANT = "A constant as an operand"
    BRANCHES = "If and else"
    SHIFT = "Shift by k along an axis"
    BITS = "Shift bits"
    REVERSE = "Reverse"
    SWAP = "Swap two fields"
    BROADCAST = "One value for all"
    COUNT = "Count and sum for all"
    GREATEST = "Where the greatest is"
    GREATER = "The greater, and what belongs to it"
    PACK = "Pack"
    RANK = "Sort by rank"
    QUOTIENT = "A signed quotient"
    LOOP = "Until nothing changes"
    CHAIN = "End a chain of flags"


TITLES = tuple(idiom.value for idiom in Idiom)


def page() -> str | None:
    """The text of the page, from the first place that has it. None where it isn't at hand."""
    for place in PLACES:
        path = place / PAGE
        if path.is_file():
            return path.read_text(encoding="utf-8")
    return None


@cache
def sections() -> dict[str, str]:
    """The text of each section of the page by its title, without the heading. Empty where the page isn't at hand."""
    parts = re.split(r"^## (.*)\n", page() or "", flags=re.M)
    return {title: text.strip("\n") for title, text in zip(parts[1::2], parts[2::2])}


def find(words: str) -> str | None:
    """The title that these words are, or all begin: in any case. None where they are of none, or of several."""
    wanted = words.lower()
    found = [title for title in TITLES if title.lower() == wanted] or [
        title for title in TITLES if wanted and title.lower().startswith(wanted)
    ]
    return found[0] if len(found) == 1 else None
