"""Hints for a line that is no command: what is wrong with the first wrong word, and what could stand there."""

from __future__ import annotations

import re

from pevudlo.draw.visible import visible
from pevudlo.hints.meanings import Where, begun_with, direction_meant, meaning_of, names_instruction
from pevudlo.hints.mnemonics import instruction_meant, nearest_instruction, spelled
from pevudlo.hints.odd import ASSIGNED, EQUALS, odd_bytes, odd_constant, odd_equals, odd_word
from pevudlo.hints.words import listed, nearest
from pevudlo.lang.grammar import (
    ADDRESSES,
    COMMANDS,
    MOST_BYTES,
    OPERANDS,
    PROFILE_COMMAND,
    Kind,
    Slot,
    commands,
    may_end,
    next_slots,
    operand_slots,
    words_before,
)
from pevudlo.lang.instructions import INSTRUCTIONS, Instruction, Operand

ADDING = ("add", "append", "push", "row")
"""Words that would put in a row elsewhere."""

FIRST_PLACES = ("first", "top", "begin", "beginning", "front")
"""What the start is called elsewhere."""

SOURCES = (OPERANDS[Operand.A], OPERANDS[Operand.B], ADDRESSES)


def slot_words(slot: Slot) -> str:
    """What may stand in a slot."""
    if slot.kind is Kind.WORD:
        return f"`{slot.word}`"
    if slot.kind is Kind.INSTRUCTION:
        return "an instruction, such as `u-add-3-1L D A B L`"
    if slot.kind is Kind.DIRECTION:
        return "the direction: upward to greater coordinates, or downward to lesser ones"
    if slot.kind in (Kind.INCLUSION, Kind.PROFILE):
        return f"{slot.role}, {slot.kind.value}"
    if slot.kind in (Kind.NUM, Kind.VAL):
        return f"{slot.role} (a number)"
    return slot.role


def meant(word: str, slots: tuple[Slot, ...]) -> str | None:
    """The word that was perhaps meant by its letters, of the words that may stand there, or None."""
    known = [slot.word for slot in slots if slot.kind is Kind.WORD]
    for slot in slots:
        if slot.kind in (Kind.DIRECTION, Kind.INCLUSION):
            known += slot.kind.value.split(" or ")
    return nearest(word, known)


def late_hint(where: Where) -> str:
    """The hint for the command that chooses a profile where it isn't the first one."""
    said = "`paris` is the first command or none: above it stand empty lines and comments alone"
    return f"{said}. `new` begins anew" if where is Where.PROMPT else said


def row_hint(text: str) -> str:
    """How an instruction becomes a row."""
    return f"an instruction becomes a row by insert: `insert end {visible(text)}`"


def row_behind(line: str) -> str | None:
    """The part of a line from its first instruction on, or None."""
    words = line.split(" ")
    at = next((at for at, word in enumerate(words) if word in INSTRUCTIONS), None)
    return None if at is None else " ".join(words[at:])


def begin_hint(line: str, where: Where, is_first: bool) -> str:
    """The hint for a line whose first word is no command. `is_first`: no command stands above it."""
    word, _, rest = line.partition(" ")
    if word == PROFILE_COMMAND:
        return late_hint(where)
    if word.lower() == "help" and (said := meaning_of(rest.strip()) or begun_with(rest.strip(), where)):
        return said
    if word in INSTRUCTIONS or (word.lower() in ADDING and row_behind(line)):
        return row_hint(row_behind(line) or line)
    if said := begun_with(word, where):
        return said
    if assigned := ASSIGNED.match(line):
        return odd_equals(assigned[1])
    if name := instruction_meant(word):
        return named_hint(name, rest, where)
    if said := meaning_of(word):
        return said if where is Where.FILE or not names_instruction(said) else f"{said}; {row_hint('INSTR')}"
    if "-" not in word and (near := nearest(word, list(commands(is_first)))):
        return f"did you mean `{near}`?"
    if near := nearest_instruction(word):
        return named_hint(near, rest, where)
    return "a line begins with one of " + listed([f"`{c}`" for c in commands(is_first)])


def named_hint(name: str, rest: str, where: Where) -> str:
    """The hint for a line that begins with the name of an instruction in another way."""
    said = f"did you mean `{name}`?"
    said_row = row_hint(f"{name} {rest}".rstrip(" "))
    return said if where is Where.FILE else f"{said} {said_row[0].upper()}{said_row[1:]}"


def end_hint(words: list[str], word: str) -> str:
    """The hint for a word behind a whole command."""
    if words[0] == "set":
        return (
            f"the line could end before it; a set of two axes is written as `set {words[1]} {words[2]}x{visible(word)}`"
        )
    if words[0] == "field" and word in EQUALS:
        return (
            f"the line could end before it: a field begins as 0, and `input {words[1]} FROM VALUE ..` gives it values"
        )
    return "the line could end before it: nothing more belongs there"


def instruction_of(words: list[str]) -> tuple[Instruction, int] | None:
    """The instruction that these words of a line name, and how many of its operands they have; or None."""
    at = 3 if words[:2] == ["insert", "after"] else 2
    if words[:1] not in (["insert"], ["replace"]) or len(words) <= at or words[at] not in INSTRUCTIONS:
        return None
    return INSTRUCTIONS[words[at]], len(words) - at - 1


def spelling_of(words: list[str]) -> str:
    """A sentence with the spelling of the instruction that these words of a line name, or nothing."""
    found = instruction_of(words)
    return f". The spelling is `{found[0].spelling}`" if found else ""


def wanted_hint(words: list[str], slots: tuple[Slot, ...]) -> str:
    """The hint for a line that ends too soon."""
    wanted = listed([slot_words(slot) for slot in slots])
    found = instruction_of(words)
    missing = len(operand_slots(found[0])) - found[1] if found else 1
    more = "" if missing == 1 else f", and {missing - 1} more"
    return f"the line ends too soon: here comes {wanted}{more}{spelling_of(words)}"


def insert_hint(line: str, word: str) -> str | None:
    """The hint for a word behind `insert` that is no place, or None."""
    row, number = row_behind(line), re.match(r"insert (?:at |row )?([0-9]+)(?: |$)", line)
    if word == "before":
        return (
            "a row is put before another one by `insert after ROW INSTR`, with the row above it, or by `insert start`"
        )
    if number:
        return f"a row is put behind another one by `insert after {number[1]} INSTR`"
    if row:
        place = "start" if word in FIRST_PLACES else "end"
        return f"say where: `insert {place} {visible(row)}`"
    said = meaning_of(word)
    return said and f"say where, as in `insert end INSTR`. {said[0].upper()}{said[1:]}"


def number_hint(line: str, words: list[str], word: str, slots: tuple[Slot, ...]) -> str | None:
    """The hint for a number where a source is wanted, or None. Where the line ends with it, it may be the length."""
    found = instruction_of(words)
    if found is None or slots[0] not in SOURCES or not (said := odd_constant(word)):
        return None
    is_last = len(line.split(" ")) == len(words) + 1
    is_short = found[1] + 1 < len(found[0].operands)
    return f"a field is missing before `{visible(word)}`" if is_last and is_short else said


def meaning_hint(words: list[str], word: str, slots: tuple[Slot, ...]) -> str | None:
    """The hint for a word that means an instruction or a direction elsewhere, where such a one may stand, or None."""
    kinds = {slot.kind for slot in slots}
    if Kind.INSTRUCTION in kinds:
        if word in COMMANDS:
            return f"`{word}` is a command of its own, and begins a line"
        if said := meaning_of(word):
            return said
        near = nearest_instruction(word)
        return spelled(near) if near else None
    found = instruction_of(words)
    if Kind.DIRECTION not in kinds or found is None:
        return None
    named = dict(zip(found[0].operands, words[-found[1] :]))
    said = direction_meant(word, named[Operand.AXIS])
    return said and f"{said}; here could stand {listed([slot_words(slot) for slot in slots])}"


def grammar_hint(line: str, column: int, where: Where = Where.SCRIPT, is_first: bool = False) -> str:
    """Why a line leaves the grammar at a column, which counts bytes from 1, and what could stand there.

    `is_first` says that no command stands above it.
    """
    if column > MOST_BYTES:
        return "a line has at most 65,536 bytes: cut it, as several `input` lines with a first processor each"
    words, word = words_before(line, column)
    slots = next_slots(words, is_first)
    if word is None:
        return wanted_hint(words, slots)
    said = odd_bytes(word)
    if said is None and not words:
        return begin_hint(line, where, is_first)
    if said is None and not slots:
        return (end_hint(words, word) if may_end(words, is_first) else "no command goes on so") + spelling_of(words)
    could = "here could stand " + listed([slot_words(slot) for slot in slots]) if slots else ""
    if said is None and words == ["insert"]:
        said = insert_hint(line, word)
    if said is None and words[0] == "input" and word in EQUALS:
        said = f"no `{word}` stands before values: `input {words[1]} 0 VALUE ..` gives them from processor 0 on"
    if said is None and slots:
        said = number_hint(line, words, word, slots)
    if said is None and (meaning := meaning_hint(words, word, slots)):
        return meaning
    if said is None and (near := meant(word, slots)):
        return f"did you mean `{near}`? {could[0].upper()}{could[1:]}{spelling_of(words)}"
    said = said or odd_word(word, slots)
    return "; ".join(part for part in (said, could) if part) + spelling_of(words)
