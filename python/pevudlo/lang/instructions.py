"""All instructions, in one table: the spelling, the operands, and the flags that each one writes.

A function's name is the instruction's with underscores, without what says how many operands and lengths there are:
`-3-1L`, `-2-1L` and `-1L` are dropped. `-2L`, two lengths, stays as `_2l`, so that `u-move-1L` and `u-move-2L` keep
apart.
"""

from __future__ import annotations

from dataclasses import dataclass
from enum import Enum
from typing import Iterable, Iterator, Sequence

NONE = "none"
FLAGS = ("context", "test", "carry", "overflow")
FLAGS_READ = {"logand-context-with-test": "test", "store-test": "test", "u-add-carry-3-1L": "carry"}
"""The flags, beside the context, that an instruction reads and needn't write."""

COMBINERS = ("u-add", "logior", "logand", "logxor", "u-max", "u-min")


class Operand(Enum):
    """An operand, by the letters that the documents give it."""

    DESTINATION = "D"
    A = "A"
    B = "B"
    SET = "S"
    BIT = "F"
    AXIS = "X"
    LENGTH = "L"
    SOURCE_LENGTH = "M"
    COORDINATE = "C"
    CONSTANT = "K"
    DIRECTION = "DIR"
    INCLUSION = "INCL"
    SEGMENTS = "G"
    NOTIFY = "N"


FIELDS = (
    Operand.DESTINATION,
    Operand.A,
    Operand.B,
    Operand.BIT,
    Operand.SEGMENTS,
    Operand.NOTIFY,
)
# Operands that may be the word `none`.
OPTIONAL = (Operand.SEGMENTS, Operand.NOTIFY)


@dataclass(frozen=True)
class Instruction:
    """An instruction: its name, its operands in order, and the flags that it writes.

    `is_conditional`: it acts where the context is 1. `stores_bit`: its F is written and not read.
    """

    name: str
    operands: tuple[Operand, ...]
    flags: tuple[str, ...] = ()
    is_conditional: bool = True
    stores_bit: bool = False

    @property
    def spelling(self) -> str:
        """The name with the operands' letters, as the documents have it."""
        return " ".join([self.name, *(operand.value for operand in self.operands)])

    @property
    def function(self) -> str:
        """The name of the Python function."""
        for suffix in ("-3-1L", "-2-1L", "-1L"):
            if self.name.endswith(suffix):
                return self.name.removesuffix(suffix).replace("-", "_")
        return self.name.lower().replace("-", "_")

    @property
    def is_by_address(self) -> bool:
        """Whether B holds send addresses, which are read at their whole width."""
        return self.operands[:3] == (Operand.DESTINATION, Operand.B, Operand.A)

    def named(self, words: Sequence[str]) -> dict[Operand, str]:
        """The words of an instruction's text by operand. Raises ValueError where they are more or fewer."""
        if len(words) != len(self.operands) + 1 or words[0] != self.name:
            raise ValueError(f"no {self.spelling}: {' '.join(words)}")
        return dict(zip(self.operands, words[1:]))

    def fields_written(self, words: Sequence[str]) -> tuple[str, ...]:
        """The names of the fields that an instruction of these words writes, each once."""
        named = self.named(words)
        stored = [Operand.DESTINATION, Operand.NOTIFY] + [Operand.BIT] * self.stores_bit
        written = [named[operand] for operand in stored if operand in named]
        return tuple(dict.fromkeys(name for name in written if name != NONE))


def letters(text: str) -> tuple[Operand, ...]:
    """The operands of a line of letters."""
    return tuple(Operand(letter) for letter in text.split())


def family(names: str, operands: str, flags: str = "", is_conditional: bool = True) -> Iterator[Instruction]:
    """Instructions that share operands and flags."""
    for name in names.split():
        yield Instruction(name, letters(operands), tuple(flags.split()), is_conditional, name.startswith("store-"))


def combined(form: str, operands: str, sets_overflow: bool) -> Iterator[Instruction]:
    """The six instructions of a form with a combiner in it. Sums along lines write overflow."""
    for combiner in COMBINERS:
        flags = ("overflow",) if sets_overflow and combiner == "u-add" else ()
        yield Instruction(form.replace("OP", combiner), letters(operands), flags)


def elementwise() -> Iterator[Instruction]:
    """What each processor does by itself."""
    yield from family("u-add-3-1L u-add-carry-3-1L u-subtract-3-1L", "D A B L", "carry overflow")
    yield from family("s-add-3-1L s-subtract-3-1L", "D A B L", "carry overflow")
    yield from family("u-multiply-3-1L s-multiply-3-1L u-truncate-3-1L u-rem-3-1L", "D A B L", "overflow")
    yield from family("u-max-3-1L u-min-3-1L s-max-3-1L s-min-3-1L", "D A B L")
    yield from family("logand-3-1L logior-3-1L logxor-3-1L", "D A B L")
    yield from family("s-negate-2-1L", "D A L", "overflow")
    yield from family("lognot-2-1L u-move-1L", "D A L")
    yield from family("u-move-always-1L", "D A L", is_conditional=False)
    yield from family("u-move-constant-1L", "D K L")
    yield from family("u-move-2L s-move-2L", "D A L M", "overflow")
    yield from family("u-eq-1L u-ne-1L u-lt-1L u-le-1L u-gt-1L u-ge-1L", "A B L", "test")
    yield from family("s-lt-1L s-le-1L s-gt-1L s-ge-1L", "A B L", "test")
    yield from family("my-news-coordinate-1L", "D X L")
    yield from family("my-send-address-1L", "D L")
    yield from family("set-test clear-test", "S", "test")
    yield from family("load-test", "F", "test")
    yield from family("store-test", "F")
    yield from family("set-context clear-context invert-context", "S", "context", False)
    yield from family("logand-context-with-test", "S", "context", False)
    yield from family("load-context logand-context logior-context", "F", "context", False)
    yield from family("store-context", "F", is_conditional=False)


def communication() -> Iterator[Instruction]:
    """What goes between processors: to neighbours, along lines, and by address."""
    yield from family("get-from-news-1L send-to-news-1L", "D A X DIR L")
    yield from combined("scan-with-OP-1L", "D A X L DIR INCL G", True)
    yield from family("scan-with-copy-1L", "D A X L DIR G")
    yield from combined("spread-with-OP-1L", "D A X L", True)
    yield from family("spread-with-copy-1L", "D A X L C")
    yield from combined("reduce-with-OP-1L", "D A X L C", True)
    yield from family("get-1L", "D B A L")
    yield from family("send-1L", "D B A L N")
    yield from combined("send-with-OP-1L", "D B A L N", False)


ELEMENTWISE = tuple(elementwise())
COMMUNICATION = tuple(communication())
INSTRUCTIONS: dict[str, Instruction] = {each.name: each for each in ELEMENTWISE + COMMUNICATION}
BY_FUNCTION: dict[str, Instruction] = {each.function: each for each in INSTRUCTIONS.values()}


BY_ADDRESS = frozenset(each.name for each in INSTRUCTIONS.values() if each.is_by_address)


def may_be_refused(text: str) -> bool:
    """Whether a row of this text may be refused for its data when it runs: a get, or a send."""
    return text.split(" ", 1)[0] in BY_ADDRESS


def read(text: str) -> tuple[Instruction, dict[Operand, str]]:
    """The instruction of a text in its spelling, and its words by operand. Raises ValueError for another text."""
    words = text.split(" ")
    instruction = INSTRUCTIONS.get(words[0])
    if instruction is None:
        raise ValueError(f"no instruction has the name {words[0]!r}")
    return instruction, instruction.named(words)


def spell(name: str, *operands: str | int) -> str:
    """The text of an instruction: its name and its operands, a space between each two."""
    return " ".join([name, *map(str, operands)])


def names(instructions: Iterable[Instruction]) -> list[str]:
    """The names of instructions."""
    return [each.name for each in instructions]
