"""What is wrong with a word that may not stand where it stands."""

from __future__ import annotations

import re

from pevudlo.hints.terms import Term
from pevudlo.hints.words import listed, nearest
from pevudlo.lang.grammar import ADDRESSES, OPERANDS, Kind, Slot, is_key, is_name
from pevudlo.lang.instructions import FLAGS, Operand
from pevudlo.reference.idioms import Idiom

OPERAND_SLOTS = (*OPERANDS.values(), ADDRESSES)
FIELDS_OF_FLAGS = {
    "context": "`store-context F` makes a field of it",
    "test": "`store-test F` makes a field of it",
    "carry": "`u-add-carry-3-1L D A B L` of fields of zeros makes a field of it",
    "overflow": "no instruction reads it, and `show` shows it",
}
EQUALS = ("=", ":=", "<-", "+=", "-=", "*=", "/=")
"""Signs that give something a value elsewhere."""

ASSIGNED = re.compile(r"([A-Za-z][A-Za-z0-9_.-]*?)(?:\[.*\])? ?(?::=|<-|[-+*/]?=)")
"""The beginning of a line that gives a name a value by such a sign."""

MOST_DIGITS = 40
"""A longer number isn't told in another way."""

MOST_KEYS = 4
"""So many keys of a list are named."""

BASES = re.compile(r"0[xXbBoO][0-9a-fA-F]+")


def odd_equals(name: str) -> str:
    """What serves for a line that would give a name a value."""
    key = name if is_key(name) else "KEY"
    return (
        f"no sign gives a value: `input {key} FROM VALUE ..` does at the start; in a row `u-move-constant-1L D K L` "
        "stores a constant, and `u-move-1L D A L` copies a field"
    )


def odd_bytes(word: str) -> str | None:
    """What is wrong with a word that no rule allows anywhere, or None."""
    if word == "":
        return "an empty word stands here: between two words is one space, and none at the end of a line"
    if not re.fullmatch(r"[\t -~]*\r?", word):
        return "words are made of ASCII letters, digits and signs"
    if word.endswith("\r"):
        return "a carriage return stands here: lines end with a line feed alone, so save the file with such line ends"
    if "\t" in word:
        return "a tab stands here: between two words is one space"
    if word.startswith(("#", "//", ";")):
        return "a comment has a line of its own, which begins with #"
    return None


def odd_number(word: str, slot: Slot) -> str | None:
    """What is wrong with a word where a number is wanted, or None where it is nothing like a number."""
    if re.fullmatch(r"-\d+", word):
        return "numbers have no sign: a negative number of a field is written as 2^width minus its amount"
    if re.fullmatch(r"0\d+", word):
        return "a number has no leading zeros"
    if re.fullmatch(r"\d+", word):
        return f"the number is too great: here is room for {slot.kind.value}"
    if re.fullmatch(r"\d+(,\d*)+", word):
        return "between two numbers is a space, and no comma"
    if BASES.fullmatch(word):
        value = value_of(word)
        return "numbers are decimal" + ("" if value is None else f": {word} is {value}")
    if slot == OPERANDS[Operand.CONSTANT] and is_name(word):
        return "a constant is a number: `u-move-1L D A L` copies a field"
    if slot.role == "its width" and (typed := re.fullmatch(r"[A-Za-z]+([0-9]{1,3})(?:_t)?", word)):
        return f"a width is how many bits there are: {typed[1]}"
    if re.fullmatch(r"\d*\.\d+|\d+\.\d*|\d+[eE]\d+|\d[\d_]+", word):
        return "numbers are whole and decimal, digits alone"
    return None


def value_of(word: str) -> int | None:
    """The number that a word is in another base, or None where its digits are none, or too many."""
    try:
        return int(word, 0) if len(word) <= MOST_DIGITS else None
    except ValueError:
        return None


def odd_constant(word: str) -> str | None:
    """What is said of a number where a source is wanted, or None where it is none."""
    number = re.fullmatch(r"(-?)([0-9]{1,40})", word)
    value = value_of(word) if BASES.fullmatch(word) else int(number[2]) if number else None
    if value is None:
        return None
    amount = "K" if number and number[1] else str(value)
    sign = ", where K is 2^L minus the amount" if amount == "K" else ""
    said = (
        f"no operand is a constant: `u-move-constant-1L D {amount} L` stores it in a field, which is the operand{sign}"
    )
    return Term("", said, (Idiom.CONSTANT,)).hint


def odd_name(word: str, slot: Slot) -> str:
    """What is wrong with a word where a name or a key is wanted."""
    name, dot, flag = word.partition(".")
    if slot.kind is Kind.KEY and "," in word:
        keys = [f"`{key}`" for key in word.split(",")[:MOST_KEYS] if is_key(key)]
        return "one key stands here" + (f": {listed(keys, 'and')} have a line each" if len(keys) > 1 else "")
    if word == "none":
        return "`none` is no name"
    if len(name) > 16:
        return f"a name has at most 16 letters, and this one has {len(name)}"
    if name and not (name[0].isalpha()):
        return "a name begins with a letter"
    if dot and slot.kind is not Kind.KEY:
        return odd_operand(word, slot) if is_key(word) and slot in OPERAND_SLOTS else "a name has no dot"
    if dot:
        near = nearest(flag, list(FLAGS))
        return "behind a set's name and a dot stands context, test, carry or overflow" + (
            f": did you mean `{name}.{near}`?" if near and near != flag else ""
        )
    return "a name has letters, digits, `-` and `_` alone"


def odd_operand(word: str, slot: Slot) -> str:
    """What is wrong with a flag as an operand."""
    name, _, flag = word.partition(".")
    if slot == OPERANDS[Operand.SET]:
        return f"a flag is no operand: a set is named alone, `{name}`"
    return f"a flag is no operand; {FIELDS_OF_FLAGS[flag]}"


def odd_word(word: str, slots: tuple[Slot, ...]) -> str | None:
    """What is wrong with a word where these slots could stand, or None."""
    kinds = {slot.kind: slot for slot in slots}
    for kind in (Kind.NUM, Kind.VAL):
        if kind in kinds and (said := odd_number(word, kinds[kind])):
            return said
    if Kind.AXES in kinds:
        return "an axis has a number as its length, and between two lengths stands x, as in `4x4`"
    for kind in (Kind.KEY, Kind.NAME, Kind.OPTIONAL_NAME):
        if kind in kinds:
            return odd_name(word, kinds[kind])
    return None
