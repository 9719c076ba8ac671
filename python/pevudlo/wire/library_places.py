"""Finds the library libparis.so."""

from __future__ import annotations

import os
import subprocess
from functools import cache
from pathlib import Path

from pevudlo.wire.builds import BUILD_VARIABLE
from pevudlo.wire.program import ROOT, NotFound, Sought, files_of_builds, is_program

LIBRARY_VARIABLE = "PARIS_LIBRARY"
LIBRARY = "libparis.so"
SOUGHT = Sought(LIBRARY, "file", LIBRARY_VARIABLE, Path.is_file)


def library_of_repository(looked: list[str]) -> Path | None:
    """The repository's library: that of dist/ where it is of the sources there, else what bindings/c/build made."""
    unpack, made = ROOT / "bindings" / "c" / "unpack", ROOT / "bindings" / "c" / "out"
    trouble = trouble_of(unpack) if is_program(unpack) else f"{ROOT} is no repository of it"
    found = next(filter(Path.is_file, files_of_builds(made, LIBRARY)), None)
    if found is None:
        looked.append(trouble or f"dist/lib has none for {os.environ.get(BUILD_VARIABLE)}")
    return found


@cache
def trouble_of(unpack: Path) -> str:
    """What keeps bindings/c/unpack from its work, or nothing. It is run once, since it reads all sources."""
    ran = subprocess.run(
        [unpack], stdout=subprocess.DEVNULL, stderr=subprocess.PIPE, stdin=subprocess.DEVNULL, text=True
    )
    return ran.stderr.strip() or f"{unpack} failed" if ran.returncode else ""


def find_library(library: str | os.PathLike[str] | None = None) -> Path:
    """The library that is named, or that of the variable PARIS_LIBRARY, of this package, or of the repository.

    Raises NotFound where none of these is there, or where the one that is named isn't.
    """
    return SOUGHT.found(library, library_of_repository)


def find_library_or_none() -> Path | None:
    """The library that is found, or None where there is none. Raises NotFound where the variable is wrong."""
    try:
        return find_library()
    except NotFound:
        if os.environ.get(LIBRARY_VARIABLE, ""):
            raise
        return None
