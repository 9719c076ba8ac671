"""The reference: one table with an entry for each command, each instruction and each fault.

The prompt's help, docs/INSTRUCTIONS.md and the syntax file for editors are made from it. Each entry has a spelling,
words, and an example to paste with the result that it shows.
"""

from __future__ import annotations

from dataclasses import dataclass

from pevudlo.reference import arithmetic, commands, faults, flags, lines, mail
from pevudlo.reference.entry import Entry, Kind


@dataclass(frozen=True)
class Family:
    """Entries that belong together, with a title."""

    title: str
    entries: tuple[Entry, ...]


FAMILIES: tuple[Family, ...] = (
    Family("Commands", commands.ENTRIES),
    Family("Sums and differences", arithmetic.SUMS),
    Family("Products and quotients", arithmetic.PRODUCTS),
    Family("The greater and the lesser", arithmetic.CHOICES),
    Family("Bits", arithmetic.OF_BITS),
    Family("Comparisons", arithmetic.COMPARISONS),
    Family("Moves", arithmetic.OF_MOVES),
    Family("Coordinates and addresses", arithmetic.PLACES),
    Family("The test flag", flags.OF_TEST),
    Family("The context flag", flags.OF_CONTEXT),
    Family("Neighbours", lines.NEIGHBOURS),
    Family("Scans", lines.SCANS),
    Family("Spreads", lines.SPREADS),
    Family("Reduces", lines.REDUCES),
    Family("By address", mail.ENTRIES),
    Family("Faults", faults.ENTRIES),
)

ENTRIES: tuple[Entry, ...] = tuple(entry for family in FAMILIES for entry in family.entries)

LETTERS = {
    "D": "the destination, a field",
    "A": "a source, a field",
    "B": "a source, a field; of gets and sends it holds send addresses",
    "S": "a set",
    "F": "a field of one bit",
    "X": "an axis, counted from 0",
    "L": "a length in bits: what is stored, read or compared are the low L bits",
    "M": "the length of A in bits",
    "C": "a coordinate on the axis, counted from 0",
    "K": "a constant, a number",
    "DIR": "`upward` or `downward`",
    "INCL": "`inclusive` or `exclusive`",
    "G": "a field of one bit that begins segments, or `none`",
    "N": "a field of one bit that is notified, or `none`",
}
"""What the letters of a spelling stand for."""

WORDS = {
    "NAME": "1 to 16 letters, digits, `-` and `_`, the first one a letter; not `none`",
    "AXES": "lengths with an x between each two: `4`, `2x2`, `8x4x2`",
    "KEY": "a field's name, or a set's with `.context`, `.test`, `.carry` or `.overflow`",
    "NUM": "a whole number below 2^64, without leading zeros",
    "VAL": "a whole number below 2^128, without leading zeros",
    "INSTR": "an instruction in its one spelling",
}
"""What the words of a command's spelling stand for."""


def of_kind(kind: Kind) -> tuple[Entry, ...]:
    """All entries of a kind, in the order of the documents."""
    return tuple(entry for entry in ENTRIES if entry.kind is kind)


def find(word: str) -> list[Entry]:
    """The entries that a word names, by name in any case, and a fault by its number too. Empty where it names none."""
    wanted = word.lower()
    return [
        entry for entry in ENTRIES if wanted == entry.name.lower() or (entry.number and wanted == str(entry.number))
    ]


def explained_words(entry: Entry) -> dict[str, str]:
    """The letters and words of an entry's spelling, with what they stand for."""
    meanings = LETTERS if entry.kind is Kind.INSTRUCTION else WORDS if entry.kind is Kind.COMMAND else {}
    found = dict.fromkeys(entry.spelling.replace(",", " ").split())
    return {word: meanings[word] for word in found if word in meanings}
