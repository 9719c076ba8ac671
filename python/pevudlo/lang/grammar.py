"""The grammar of commands: which words may stand where.

It refuses nothing: that is the program's part. It says what could have stood where the program found a wrong word, and
what may come next in a line that isn't whole yet.
"""

from __future__ import annotations

import re
from dataclasses import dataclass
from enum import Enum
from typing import Iterator, Sequence

from pevudlo.lang.instructions import FLAGS, INSTRUCTIONS, NONE, Instruction, Operand
from pevudlo.lang.profiles import PROFILES

MOST_BYTES = 65_536
NAME = re.compile(r"[A-Za-z][A-Za-z0-9_-]{0,15}")
NUMBER = re.compile(r"0|[1-9][0-9]*")


class Kind(Enum):
    """The kinds of words, with what they are called."""

    WORD = "the word"
    INSTRUCTION = "an instruction's name"
    NUM = "a number below 2^64"
    VAL = "a number below 2^128"
    NAME = "a name"
    KEY = "a key"
    AXES = "lengths joined by x"
    DIRECTION = "upward or downward"
    INCLUSION = "inclusive or exclusive"
    OPTIONAL_NAME = "a name or none"
    PROFILE = "1 or 2"


@dataclass(frozen=True)
class Slot:
    """A place for a word: its kind, what it is for, and the word itself where only one may stand there."""

    kind: Kind
    role: str = ""
    word: str = ""

    def takes(self, word: str) -> bool:
        """Whether the word may stand here."""
        return word == self.word if self.kind is Kind.WORD else is_of_kind(self.kind, word)


def is_number(word: str, bits: int) -> bool:
    """Whether a word is a number below 2^bits, in its one spelling."""
    return len(word) < 40 and NUMBER.fullmatch(word) is not None and int(word) < 1 << bits


def is_name(word: str) -> bool:
    """Whether a word may be a set's or a field's name."""
    return word != NONE and NAME.fullmatch(word) is not None


def is_key(word: str) -> bool:
    """Whether a word may be a key: a name, or a name with a flag behind a dot."""
    name, dot, flag = word.partition(".")
    return is_name(name) and (not dot or flag in FLAGS)


def is_of_kind(kind: Kind, word: str) -> bool:
    """Whether a word is of a kind."""
    match kind:
        case Kind.NUM:
            return is_number(word, 64)
        case Kind.VAL:
            return is_number(word, 128)
        case Kind.NAME:
            return is_name(word)
        case Kind.KEY:
            return is_key(word)
        case Kind.AXES:
            return all(is_number(part, 64) for part in word.split("x"))
        case Kind.OPTIONAL_NAME:
            return word == NONE or is_name(word)
        case Kind.INSTRUCTION:
            return word in INSTRUCTIONS
        case Kind.PROFILE:
            return word in map(str, PROFILES)
        case Kind.DIRECTION | Kind.INCLUSION:
            return word in kind.value.split(" or ")
        case Kind.WORD:
            return False


OPERANDS = {
    Operand.DESTINATION: Slot(Kind.NAME, "the destination, a field"),
    Operand.A: Slot(Kind.NAME, "a source, a field"),
    Operand.B: Slot(Kind.NAME, "a source, a field"),
    Operand.SET: Slot(Kind.NAME, "a set"),
    Operand.BIT: Slot(Kind.NAME, "a field of one bit"),
    Operand.AXIS: Slot(Kind.NUM, "an axis, counted from 0"),
    Operand.LENGTH: Slot(Kind.NUM, "the length in bits"),
    Operand.SOURCE_LENGTH: Slot(Kind.NUM, "the source's length in bits"),
    Operand.COORDINATE: Slot(Kind.NUM, "a coordinate on the axis"),
    Operand.CONSTANT: Slot(Kind.VAL, "the constant"),
    Operand.DIRECTION: Slot(Kind.DIRECTION, "the direction"),
    Operand.INCLUSION: Slot(Kind.INCLUSION, "whether a processor's own value counts"),
    Operand.SEGMENTS: Slot(Kind.OPTIONAL_NAME, "a field of one bit that begins segments, or none"),
    Operand.NOTIFY: Slot(Kind.OPTIONAL_NAME, "a field of one bit that is notified, or none"),
}
ADDRESSES = Slot(Kind.NAME, "the addresses, a field")
INSTRUCTION = Slot(Kind.INSTRUCTION, "an instruction")

_ROW = Slot(Kind.NUM, "a row's id")
_KEY = Slot(Kind.KEY, "a field, or a set with .context, .test, .carry or .overflow")
_VALUE = Slot(Kind.VAL, "a value")


def _form(*parts: str | Slot) -> tuple[Slot, ...]:
    """A command: words and slots."""
    return tuple(Slot(Kind.WORD, word=part) if isinstance(part, str) else part for part in parts)


# The command that may be a script's first one, and no other.
FIRST = _form("paris", Slot(Kind.PROFILE, "the profile"))
# Each command. Where the last slot is an instruction, its operands follow. Behind the value of `input` may stand more.
FORMS = (
    FIRST,
    _form("set", Slot(Kind.NAME, "the new set's name"), Slot(Kind.AXES, "the axes' lengths joined by x, as 4 or 2x2")),
    _form("field", Slot(Kind.NAME, "the new field's name"), Slot(Kind.NAME, "its set"), Slot(Kind.NUM, "its width")),
    _form("input", _KEY, Slot(Kind.NUM, "the first processor"), _VALUE),
    _form("insert", "start", INSTRUCTION),
    _form("insert", "after", _ROW, INSTRUCTION),
    _form("insert", "end", INSTRUCTION),
    _form("delete", _ROW),
    _form("replace", _ROW, INSTRUCTION),
    _form("take"),
    _form("bring", Slot(Kind.NUM, "an order's number")),
    _form("release"),
    _form("show", _KEY, "start"),
    _form("show", _KEY, "after", _ROW),
    _form("show", _KEY, "end"),
    _form("list"),
    _form("faults"),
    _form("settle"),
)
LATER = tuple(form for form in FORMS if form is not FIRST)
COMMANDS = tuple(dict.fromkeys(form[0].word for form in FORMS))
PROFILE_COMMAND = FIRST[0].word


def operand_slots(instruction: Instruction) -> tuple[Slot, ...]:
    """The slots of an instruction's operands."""
    slots = [OPERANDS[operand] for operand in instruction.operands]
    if instruction.is_by_address:
        slots[1] = ADDRESSES
    return tuple(slots)


def whole_form(form: tuple[Slot, ...], words: Sequence[str]) -> tuple[Slot, ...]:
    """The form as long as the words want it: with the operands of their instruction, or with more values."""
    if len(words) >= len(form):
        if form[-1] is INSTRUCTION and words[len(form) - 1] in INSTRUCTIONS:
            return form + operand_slots(INSTRUCTIONS[words[len(form) - 1]])
        if form[-1] is _VALUE:
            return form + (_VALUE,) * (len(words) + 1 - len(form))
    return form


def forms(is_first: bool) -> tuple[tuple[Slot, ...], ...]:
    """The commands that a script may have in a place: in that of its first command, or in another one."""
    return FORMS if is_first else LATER


def commands(is_first: bool) -> tuple[str, ...]:
    """The words with which a command begins in such a place."""
    return tuple(dict.fromkeys(form[0].word for form in forms(is_first)))


def fitting(words: Sequence[str], is_first: bool = False) -> Iterator[tuple[Slot, ...]]:
    """The forms that begin with these words. `is_first` says here and below that they are a script's first command."""
    for form in forms(is_first):
        whole = whole_form(form, words)
        if len(words) <= len(whole) and all(slot.takes(word) for slot, word in zip(whole, words)):
            yield whole


def next_slots(words: Sequence[str], is_first: bool = False) -> tuple[Slot, ...]:
    """What may stand behind these words, each once. None where no command goes on behind them."""
    return tuple(dict.fromkeys(form[len(words)] for form in fitting(words, is_first) if len(form) > len(words)))


def may_end(words: Sequence[str], is_first: bool = False) -> bool:
    """Whether these words are a whole command."""
    found = fitting(words, is_first)
    return any(len(form) == len(words) or (form[-1] is _VALUE and len(words) >= 4) for form in found)


def words_before(line: str, column: int) -> tuple[list[str], str | None]:
    """The words before a column, which counts bytes from 1, and the word that begins there: None at the line's end."""
    before = line.encode("utf-8", "surrogateescape")[: column - 1].decode("utf-8", "surrogateescape")
    if len(before) == len(line) and not line.endswith(" "):
        return line.split(" "), None
    return before.split(" ")[:-1], line[len(before) :].split(" ", 1)[0]


def wrong_column(line: str, is_first: bool = False) -> int | None:
    """The column where a line leaves the grammar, which is that of fault 20, or None where it is a command."""
    if len(line.encode("utf-8", "surrogateescape")) > MOST_BYTES:
        return MOST_BYTES + 1
    words = line.split(" ")
    right = max(count_right(whole_form(form, words), words) for form in forms(is_first))
    if right < len(words):
        return len(" ".join([*words[:right], ""]).encode("utf-8", "surrogateescape")) + 1
    return None if may_end(words, is_first) else len(line.encode("utf-8", "surrogateescape")) + 1


def count_right(form: tuple[Slot, ...], words: Sequence[str]) -> int:
    """How many words from the first on stand where the form takes them."""
    for count, (slot, word) in enumerate(zip(form, words)):
        if not slot.takes(word):
            return count
    return min(len(form), len(words))
