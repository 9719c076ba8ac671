"""What the key Tab offers: words that may stand where the cursor is, and names that are declared."""

from __future__ import annotations

import glob
import os

from pevudlo.hints.offers import of_grammar
from pevudlo.lang.board import Board
from pevudlo.prompt.help import OWN, known_names
from pevudlo.prompt.show import WAYS

FILE_WORDS = ("load", "save")


def paths(begin: str) -> list[str]:
    """Files and folders whose path begins so."""
    found = sorted(glob.glob(glob.escape(os.path.expanduser(begin)) + "*"))
    home = os.path.expanduser("~")
    shown = [f"~{path.removeprefix(home)}" if begin.startswith("~") else path for path in found]
    return [f"{name}/" if os.path.isdir(path) else name for name, path in zip(shown, found)]


def offers(line: str, board: Board) -> list[str]:
    """What may stand in the place of the last word of a line, which goes up to the cursor."""
    *words, begin = line.split(" ")
    if not words:
        # `help` and the ways to show have a meaning alone too; the others want a word more.
        own = [f"{name} " if name in FILE_WORDS else name for name in OWN]
        known = [*of_grammar([], board), *own]
    elif words == ["help"]:
        known = known_names()
    elif words[0] in FILE_WORDS and len(words) == 1:
        return paths(begin)
    elif words[0] in WAYS:
        known = of_grammar(["show", *words[1:]], board)
        if len(words) == 1:
            known = [word.rstrip() for word in known]
    else:
        known = of_grammar(words, board)
    return [word for word in known if word.startswith(begin)]
