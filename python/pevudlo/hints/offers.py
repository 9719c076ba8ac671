"""Words that may stand behind others in a command: those of the grammar, and names that are declared."""

from __future__ import annotations

from collections.abc import Iterator

from pevudlo.lang.board import Board, Declared
from pevudlo.lang.grammar import OPERANDS, Kind, Slot, may_end, next_slots
from pevudlo.lang.instructions import INSTRUCTIONS, NONE, Operand

BITS = [OPERANDS[operand] for operand in (Operand.BIT, Operand.SEGMENTS, Operand.NOTIFY)]


def operands_of(words: list[str], board: Board) -> list[Declared]:
    """The fields that stand behind the instruction in these words."""
    at = next((at + 1 for at in (2, 3) if len(words) > at and words[at] in INSTRUCTIONS), len(words))
    return [board.fields[word] for word in words[at:] if word in board.fields]


def declared_fields(words: list[str], slot: Slot, board: Board) -> Iterator[str]:
    """The fields that may stand in a slot: of the set of the fields before it, and of one bit where that is wanted."""
    sets = [field.set for field in operands_of(words, board)]
    for name, field in board.fields.items():
        if (not sets or field.set == sets[0]) and (slot not in BITS or field.width == 1):
            yield name


def numbers(words: list[str], slot: Slot, board: Board) -> list[str]:
    """The numbers that are worth an offer: ids of rows, orders, axes, and lengths as the operands have them."""
    fields = operands_of(words, board)
    if slot.role == "a row's id":
        return [str(row) for row in board.rows]
    if slot.role == "an order's number":
        return [str(order) for order in range(1, board.orders + 1)]
    if slot == OPERANDS[Operand.AXIS] and fields:
        return [str(axis) for axis in range(len(board.sets[fields[0].set]))]
    if slot == OPERANDS[Operand.LENGTH] and fields:
        return [str(min(field.width for field in fields))]
    return []


def words_for(words: list[str], slot: Slot, board: Board) -> list[str]:
    """What may stand in a slot behind these words."""
    match slot.kind:
        case Kind.WORD:
            return [slot.word]
        case Kind.INSTRUCTION:
            return list(INSTRUCTIONS)
        case Kind.KEY:
            return board.keys()
        case Kind.DIRECTION | Kind.INCLUSION | Kind.PROFILE:
            return str(slot.kind.value).split(" or ")
        case Kind.NUM:
            return numbers(words, slot, board)
        case Kind.OPTIONAL_NAME:
            return [*declared_fields(words, slot, board), NONE]
        case Kind.NAME if slot == OPERANDS[Operand.SET] or slot.role == "its set":
            return list(board.sets)
        case Kind.NAME if not slot.role.startswith("the new"):
            return list(declared_fields(words, slot, board))
    return []


def of_grammar(words: list[str], board: Board) -> list[str]:
    """Words of a command behind these words. One that more has to follow has a space behind it."""
    is_first = not board.is_begun
    found = [word for slot in next_slots(words, is_first) for word in words_for(words, slot, board)]
    return [word if may_end([*words, word], is_first) else f"{word} " for word in dict.fromkeys(found)]
