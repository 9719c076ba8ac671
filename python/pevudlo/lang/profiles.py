"""The profiles: which of them a script has by its first command, and what is as wide as can be there."""

from __future__ import annotations

USUAL = 1
"""The profile of a script that says none."""

PROFILES = {1: 64, 2: 128}
"""The greatest width of a field, and so of an operand, in bits, by the profile's number."""

WORD = 64
"""The bits of a word. Numbers of wider keys are Python's own: they are no words of the library's or of numpy's."""

WIDEST = max(PROFILES.values())
"""The greatest width in any profile."""


def check_profile(profile: int) -> int:
    """The profile. Raises ValueError where there is none of this number."""
    if profile not in PROFILES:
        raise ValueError(f"a profile is 1 or 2, and not {profile!r}")
    return profile
