"""What may stand at the cursor."""

from __future__ import annotations

from typing import Any

from pevudlo.document.pieces import BARE
from pevudlo.hints.offers import of_grammar
from pevudlo.lang.board import Board
from pevudlo.lang.grammar import COMMANDS, commands
from pevudlo.lang.instructions import INSTRUCTIONS
from pevudlo.lsp.opened import Opened

FUNCTION, FIELD, CLASS, VALUE, KEYWORD = 3, 5, 7, 12, 14


def completion(file: Opened, params: dict[str, Any]) -> dict[str, Any]:
    """The words that may stand in the place of the one that the cursor is at."""
    number, at = file.place(params["position"])
    *words, begun = file.line(number)[:at].split(" ")
    board = file.document.board_above(number)
    where = file.span(number, at - len(begun), at)
    found = [word for word in offers(words, board) if word.startswith(begun)]
    return {"isIncomplete": False, "items": [item(word, board, where) for word in found]}


def offers(words: list[str], board: Board) -> list[str]:
    """What may stand behind these words. An instruction may stand alone."""
    if not words:
        return [*commands(not board.is_begun), *INSTRUCTIONS]
    told = [*BARE.split(), *words] if words[0] in INSTRUCTIONS else words
    return [word.rstrip() for word in of_grammar(told, board)]


def item(word: str, board: Board, where: dict[str, Any]) -> dict[str, Any]:
    """A word that is offered, with what it is."""
    kind, detail = VALUE, ""
    if word in INSTRUCTIONS:
        kind, detail = FUNCTION, INSTRUCTIONS[word].spelling
    elif board.set_of(word) is not None:
        kind, detail = FIELD, f"{board.width_of(word)} bits in {board.set_of(word)}"
    elif word in board.sets:
        kind, detail = CLASS, "x".join(map(str, board.sets[word]))
    elif word in COMMANDS:
        kind = KEYWORD
    return {"label": word, "kind": kind, "detail": detail, "textEdit": {"range": where, "newText": word}}
