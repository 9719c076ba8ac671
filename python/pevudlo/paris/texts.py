"""What functions of instructions say of themselves, by the reference, and what is said of a name that isn't there."""

from __future__ import annotations

import re
from collections.abc import Callable, Iterable

from pevudlo.hints.explanation import explained
from pevudlo.lang.board import Board
from pevudlo.lang.instructions import BY_FUNCTION, INSTRUCTIONS
from pevudlo.lang.replies import Refused
from pevudlo.reference.entry import Kind
from pevudlo.reference.table import of_kind
from pevudlo.reference.text import help_lines

WIDTH = 88
SYNTAX = 20
BEFORE = "insert end "
OFFER = re.compile(r"[;.]? *here could stand .*", re.IGNORECASE)
"""What a hint offers to any word in the place of an instruction."""


def describe(functions: Iterable[Callable[..., str]]) -> None:
    """Gives each function the text of its instruction in the reference, with the example."""
    entries = {entry.name: entry for entry in of_kind(Kind.INSTRUCTION)}
    for function in functions:
        name = BY_FUNCTION[function.__name__].name
        function.__doc__ = "\n".join(help_lines(entries[name], WIDTH))


def unknown(name: str) -> AttributeError:
    """What is raised for a name that is no function: with a hint at the instruction that is meant."""
    text = f"module 'pevudlo.paris' has no function {name!r}"
    if not name.startswith("_"):
        text += f": {hint_at(name)}"
    # With a name and no object Python adds no guess of its own, which would be the nearest by letters.
    return AttributeError(text, name=name)


def hint_at(name: str) -> str:
    """The hint that a script gets for an instruction of this name, and the functions of those that it names."""
    line = BEFORE + name.replace("_", "-")
    hint = OFFER.sub("", explained(line, Refused(SYNTAX, len(BEFORE) + 1), Board()).hint)
    named = dict.fromkeys(word for word in re.findall(r"`([a-z0-9-]+L?)", hint) if word in INSTRUCTIONS)
    functions = ", ".join(f"paris.{INSTRUCTIONS[word].function}" for word in named) or "dir(paris) lists them"
    return f"{hint} ({functions})" if hint else functions
