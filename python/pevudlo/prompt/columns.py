"""How wide the prompt's terminal is, and lines that fit it."""

from __future__ import annotations

import os
import sys
import textwrap

LEAST_COLUMNS = 20
"""A narrower terminal is left to break lines itself."""


def terminal_columns() -> int | None:
    """How many columns the terminal of standard output has now. None where it is none, or says nothing of use."""
    try:
        columns = os.get_terminal_size(sys.stdout.fileno()).columns
    except OSError:
        return None
    return columns if columns >= LEAST_COLUMNS else None


def fitting(line: str, columns: int) -> list[str]:
    """A line in parts of at most so many columns, broken between words. Further parts stand in by two more spaces."""
    if len(line) <= columns:
        return [line]
    indent = " " * (len(line) - len(line.lstrip(" ")) + 2)
    return textwrap.wrap(
        line,
        columns,
        subsequent_indent=indent,
        break_long_words=False,
        break_on_hyphens=False,
        expand_tabs=False,
        replace_whitespace=False,
    )
