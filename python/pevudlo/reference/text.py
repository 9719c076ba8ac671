"""The reference as plain text: scripts to paste, in which comments say what is answered, and help."""

from __future__ import annotations

import textwrap

from pevudlo.reference.entry import Entry, Example, Kind, Step
from pevudlo.reference.table import explained_words

WIDTH = 100


def step_lines(step: Step) -> list[str]:
    """A command, and behind it as comments the reply, where it says more than that the line was accepted.

    Lines that are many and alike are one comment.
    """
    if step.times > 1:
        first, last = step.line.replace("{n}", "1"), step.line.replace("{n}", str(step.times))
        return [f"# {step.times:,} lines: {first}" + (f" to {last}" if first != last else "")]
    return [step.line, *(f"# {line}" for line in step.reply if step.is_told)]


def script_lines(example: Example) -> list[str]:
    """An example as a script, with the replies as comments."""
    return [line for step in example.steps for line in step_lines(step)]


def is_whole(example: Example) -> bool:
    """Whether `script_lines` has every line of the example."""
    return all(step.times == 1 for step in example.steps)


def wrapped(text: str, indent: str = "", width: int = WIDTH) -> list[str]:
    """A text in lines of at most `width`, the further ones indented."""
    return textwrap.wrap(text, width, subsequent_indent=indent, break_long_words=False, break_on_hyphens=False)


def head_of(entry: Entry) -> str:
    """The first line of an entry: its spelling, or of a fault its reply and its name."""
    return f"{entry.spelling}   (fault {entry.name})" if entry.kind is Kind.FAULT else entry.spelling


def help_lines(entry: Entry, width: int = WIDTH) -> list[str]:
    """All that an entry says, in lines for a terminal. Texts are wrapped at `width`, and stand in by two."""
    lines = [head_of(entry), *(f"  {line}" for line in wrapped(entry.does, width=width))]
    if entry.flags:
        lines += [f"  {line}" for line in wrapped(f"Flags: {entry.flags}", "  ", width)]
    lines += [f"    {word.ljust(5)}{meaning}" for word, meaning in explained_words(entry).items()]
    if entry.example is None:
        return [*lines, "  No script shows it."]
    return [*lines, "  An example to paste, with what is answered as comments:", *script_lines(entry.example)]
