"""Text from a script as it may stand on a terminal: no byte of it is a command to the terminal."""

from __future__ import annotations


def visible(text: str) -> str:
    """The text with all that isn't printable as an escape, such as `\\t` or `\\xff`."""
    return "".join(map(visible_letter, text))


def visible_letter(letter: str) -> str:
    """One letter, or its escape."""
    if letter.isprintable():
        return letter
    code = ord(letter)
    if 0xDC80 <= code <= 0xDCFF:
        # A byte that isn't UTF-8.
        return f"\\x{code - 0xDC00:02x}"
    return letter.encode("unicode_escape").decode("ascii")


def caret_lines(line: str, column: int, most: int = 100) -> tuple[str, str]:
    """The line, cut round the column where it is long, and a caret below it. The column counts bytes from 1.

    What stands before the column of a refusal are right words, each letter of which takes one cell of a terminal.
    """
    before = line.encode("utf-8", "surrogateescape")[: column - 1].decode("utf-8", "surrogateescape")
    at = min(len(before), len(line))
    start = max(0, at - most * 2 // 3) if len(line) > most else 0
    end = min(len(line), start + most)
    left = ("..." if start else "") + visible(line[start:at])
    right = visible(line[at:end]) + ("..." if end < len(line) else "")
    return left + right, " " * len(left) + "^"
