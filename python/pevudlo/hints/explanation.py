"""A refusal in words: the fault, the place in the line, and a hint. Refusal is the same as an exception."""

from __future__ import annotations

from dataclasses import dataclass

from pevudlo.draw.visible import caret_lines, visible
from pevudlo.hints.board import board_hint
from pevudlo.hints.grammar import grammar_hint
from pevudlo.hints.meanings import Where
from pevudlo.lang.board import Board
from pevudlo.lang.faults import FAULTS
from pevudlo.lang.replies import Refused

SYNTAX = 20
MOST_SHOWN = 100


@dataclass(frozen=True)
class Explanation:
    """Why a line was refused.

    `number` and `name` are the fault's, `text` is the fault in words, `detail` is the fault's own number where it has
    one, and `column`, of fault 20 alone, is the byte of the line, from 1, where it leaves the grammar.
    """

    number: int
    name: str
    text: str
    line: str
    detail: int | None
    column: int | None
    hint: str

    def lines(self, most: int = MOST_SHOWN) -> list[str]:
        """The line that was refused, with a caret below where there is a column, and the hint: all for a terminal.

        Of the line at most so many letters are shown.
        """
        shown = [visible(self.line if len(self.line) <= most else self.line[: most - 3] + "...")]
        if self.column is not None:
            shown = list(caret_lines(self.line, self.column, most))
        return shown + ([self.hint] if self.hint else [])

    def in_one_line(self) -> str:
        """The hint first, for where room is narrow, and then the reply with the fault in words."""
        detail = "" if self.detail is None else f" {self.detail}"
        said = f"refused {self.number}{detail}: {self.text}"
        return f"{self.hint} ({said})" if self.hint else said


class Refusal(Exception):
    """The program refused a command, and nothing has changed. What it has is that of its Explanation."""

    def __init__(self, explanation: Explanation) -> None:
        self.explanation = explanation
        self.number = explanation.number
        self.name = explanation.name
        self.text = explanation.text
        self.line = explanation.line
        self.column = explanation.column
        self.hint = explanation.hint
        head = f"refused {self.number}, {self.name}: {self.text}"
        super().__init__("\n    ".join([head, *explanation.lines()]))


def explained(line: str, refused: Refused, board: Board, where: Where = Where.SCRIPT) -> Explanation:
    """Why a line that was given somewhere was refused, by the board as it stood when it was."""
    fault = FAULTS[refused.number]
    is_syntax = refused.number == SYNTAX and refused.detail is not None
    column = refused.detail if is_syntax else None
    if column is not None:
        hint = grammar_hint(line, column, where, not board.is_begun)
    else:
        hint = board_hint(refused.number, refused.detail, line, board)
    return Explanation(refused.number, fault.name, fault.words(refused.detail), line, refused.detail, column, hint)
