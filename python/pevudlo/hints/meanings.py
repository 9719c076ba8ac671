"""Words of other languages and tools, and what does here what they mean."""

from __future__ import annotations

from enum import Enum

from pevudlo.hints.mnemonics import instruction_meant, of_parts, spelled
from pevudlo.hints.terms import DIRECTIONS, MEANT
from pevudlo.lang.grammar import commands
from pevudlo.lang.instructions import INSTRUCTIONS


class Where(Enum):
    """Where a line was given: some words mean another thing there."""

    SCRIPT = "script"
    PROMPT = "prompt"
    LIVE = "live"
    FILE = "file"


_UNDO = "there is no undo: `delete ROW` takes a row out, `replace ROW INSTR` and `input` give what was there before"
_EVERYWHERE = {
    **dict.fromkeys(("print", "echo", "display", "write", "output"), "`show KEY end` shows a key"),
    **dict.fromkeys(("run", "go", "execute"), "`settle` runs the rows that are unsettled"),
    **dict.fromkeys(("append", "push"), "`insert end INSTR` adds a row"),
    **dict.fromkeys(("remove", "erase", "drop"), "`delete ROW` takes a row out"),
    **dict.fromkeys(("change", "modify", "update", "edit"), "`replace ROW INSTR` gives a row another instruction"),
    "let": "`input KEY FROM VALUE ..` gives a key its values",
}
_COMMANDS = "the commands are " + ", ".join(commands(is_first=False))
_THERE = {
    Where.SCRIPT: {
        **dict.fromkeys(("quit", "exit"), "the run ends with the end of the script"),
        "help": _COMMANDS,
        "undo": _UNDO,
        "save": "a script is the file that it stands in; in `./paris prompt` `save FILE` saves the accepted commands",
        "load": "a script is handed over whole; in `./paris prompt` `load FILE` tells the lines of one",
    },
    Where.PROMPT: {
        **dict.fromkeys(("quit", "exit"), "`quit` stands alone, and ends the prompt"),
        "undo": f"{_UNDO}. What `save FILE` saved before, `new` and then `load FILE` give back",
    },
    Where.LIVE: {
        **dict.fromkeys(("quit", "exit"), "Ctrl-C ends the page, where `./paris live` was started"),
        "help": f"{_COMMANDS}. Enter edits a row or a number, ? shows keys; `./paris prompt` explains words by `help`",
        "undo": "Ctrl-Z and the button Undo take the last edit back",
        "save": "the link below the line for commands gives the accepted commands as a script",
        "load": "`./paris live FILE` begins with a script",
    },
    Where.FILE: {
        **dict.fromkeys(("quit", "exit"), "Ctrl-C ends `./paris watch`, and the file stays as it is"),
        "help": _COMMANDS,
        "undo": "take the line out of the file, or undo in the editor",
        **dict.fromkeys(("save", "load"), "the file itself is what is held in step"),
        **dict.fromkeys(("run", "go", "execute"), "rows run by themselves when the file changes"),
    },
}


def begun_with(word: str, where: Where) -> str | None:
    """What serves for a word with which a line begins, and which is no command; or None."""
    return _THERE[where].get(word.lower()) or _EVERYWHERE.get(word.lower())


def meaning_of(word: str) -> str | None:
    """What is said of a word by its meaning in other languages, or by its parts: the instruction, or what serves where
    there is none. None where the word means nothing; its letters aren't asked.
    """
    if term := MEANT.get(word.lower()):
        return term.hint
    if name := instruction_meant(word):
        return spelled(name)
    return of_parts(word)


def names_instruction(said: str) -> bool:
    """Whether a text names an instruction, so a line may be made of it."""
    return any(f"`{name} " in said for name in INSTRUCTIONS)


def direction_meant(word: str, axis: str) -> str | None:
    """Which direction a word for one on the page is, on a line that names this axis; or None."""
    if word.lower() not in DIRECTIONS:
        return None
    number, direction = DIRECTIONS[word.lower()]
    said = f"{word} is `{direction}` on axis {number}, as grids are drawn"
    return said if number == axis else f"{said}, and this line names axis {axis}"
