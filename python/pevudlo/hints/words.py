"""Words beside others: the nearest known one, and lists of them."""

from __future__ import annotations

from difflib import get_close_matches


def nearest(word: str, known: list[str], alike: float = 0.6) -> str | None:
    """The known word that is most like a word: one that it begins, or one with few other letters. None if none is.

    `alike` says how few: the part of their letters that is shared.
    """
    lower = {each.lower(): each for each in reversed(known)}
    if word.lower() in lower:
        return lower[word.lower()]
    if len(word) > 1 and (begun := [each for each in known if each.lower().startswith(word.lower())]):
        return min(begun, key=len)
    close = get_close_matches(word.lower(), list(lower), n=1, cutoff=alike)
    return lower[close[0]] if close else None


def listed(words: list[str], last: str = "or") -> str:
    """Words with commas, and a word before the last one."""
    return f" {last} ".join([", ".join(words[:-1]), words[-1]] if len(words) > 1 else words)
