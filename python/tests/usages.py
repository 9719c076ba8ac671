"""What is written of wrong words."""

from __future__ import annotations


def is_usage_of(command: str, said: str) -> bool:
    """Whether a text is the usage of a command, and below it a line that says what is wrong."""
    *usage, error = said.removesuffix("\n").split("\n")
    return (
        said.startswith(f"usage: paris {command} ") and len(usage) > 0 and error.startswith(f"paris {command}: error: ")
    )
