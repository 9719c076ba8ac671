"""Which build of the program and of the library runs here: the one for x86-64-v2, or the one for x86-64-v3.

What Linux says of the processor decides, or the variable PEVUDLO_CPU, as it does for `./paris`.
"""

from __future__ import annotations

import os
from enum import Enum
from pathlib import Path

BUILD_VARIABLE = "PEVUDLO_CPU"
# What x86-64-v3 adds to x86-64-v2, as Linux calls it: abm is LZCNT.
ADDED = ("avx", "avx2", "bmi1", "bmi2", "f16c", "fma", "abm", "movbe")


class Build(Enum):
    """What the program and the library are compiled for."""

    V2 = "x86-64-v2"
    V3 = "x86-64-v3"

    def below(self, folder: Path) -> Path:
        """Where its files stand: those for x86-64-v3 in a folder of this name beside the others."""
        return folder if self is Build.V2 else folder / str(self.value)


def cpuinfo() -> Path:
    """Where Linux says what a processor has. A test has a text of its own."""
    return Path(os.environ.get("PEVUDLO_CPUINFO") or "/proc/cpuinfo")


def flags() -> frozenset[str]:
    """What the first processor has, or nothing where that isn't said."""
    try:
        with cpuinfo().open(encoding="ascii", errors="replace") as file:
            said = next((line for line in file if line.startswith("flags")), "")
    except OSError:
        return frozenset()
    return frozenset(said.partition(":")[2].split())


def allowed() -> tuple[Build, ...]:
    """The builds that may run here, the better one first.

    Raises ValueError, with a line that says why, where the variable is wrong.
    """
    asked, known = os.environ.get(BUILD_VARIABLE, ""), [build.value for build in Build]
    if asked not in ("", *known):
        raise ValueError(f"{BUILD_VARIABLE} may be {' or '.join(known)}, and is {asked!r}")
    if asked == Build.V2.value:
        return (Build.V2,)
    has = flags()
    lacks = [flag for flag in ADDED if flag not in has]
    if asked and lacks:
        wanted = " ".join(lacks)
        raise ValueError(f"{BUILD_VARIABLE}={asked} takes a processor with {wanted}, which {cpuinfo()} doesn't name")
    return (Build.V3,) if asked else (Build.V2,) if lacks else (Build.V3, Build.V2)
