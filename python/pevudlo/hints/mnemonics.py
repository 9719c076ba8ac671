"""Names of instructions, read by their parts: the type of the numbers, what is done, and how many operands it takes."""

from __future__ import annotations

import re
from collections.abc import Iterable
from dataclasses import dataclass
from difflib import SequenceMatcher

from pevudlo.hints.terms import DIRECTIONS, MEANT, Term
from pevudlo.hints.words import nearest
from pevudlo.lang.instructions import COMBINERS, INSTRUCTIONS
from pevudlo.reference.idioms import Idiom

_COUNTED = re.compile(r"(-\d?l?)*$")
_TYPED = re.compile(r"([usfc])-(.+)")
_MOST_LETTERS = 64
"""A longer word is no name, and nothing is looked for in it."""

_ALIKE = 0.7
"""How alike two words for an operation are at least."""


@dataclass(frozen=True)
class Mnemonic:
    """A name such as `u-add-3-1L`: u, s or another letter for the type, or none; and the operation behind it."""

    type: str
    operation: str

    @property
    def root(self) -> str:
        """Both, without what is counted."""
        return f"{self.type}-{self.operation}" if self.type else self.operation

    @property
    def words(self) -> list[str]:
        """The words of the operation."""
        return self.operation.split("-")


def plain(word: str) -> str:
    """A word as a name of an instruction: in small letters, without what stands before and in it in C and in Lisp."""
    lower = word.lower() if len(word) <= _MOST_LETTERS else ""
    if lower.startswith(("cm:", "cm_")):
        return lower[3:].replace("_", "-")
    return lower


def read(word: str) -> Mnemonic:
    """The parts of a name."""
    root = _COUNTED.sub("", plain(word))
    typed = _TYPED.fullmatch(root)
    return Mnemonic(typed[1], typed[2]) if typed else Mnemonic("", root)


def shortened(word: str) -> set[str]:
    """A word, and all that it is without one of its letters."""
    return {word, *(word[:at] + word[at + 1 :] for at in range(len(word)))}


def grouped(pairs: Iterable[tuple[str, str]]) -> dict[str, list[str]]:
    """The second ones of pairs, by the first."""
    found: dict[str, list[str]] = {}
    for first, second in pairs:
        found.setdefault(first, []).append(second)
    return found


ROOTS = grouped((read(name).root, name) for name in INSTRUCTIONS)
"""The instructions of each root."""
_SHORTENED = grouped((form, name) for name in INSTRUCTIONS for form in shortened(name.lower()))
"""The instructions whose names are so, with a letter taken out or not."""

_SYNONYMS = {
    "add": "plus",
    "subtract": "sub minus difference",
    "multiply": "mul mult times product",
    "truncate": "div divide quotient floor",
    "rem": "mod modulo remainder",
    "negate": "neg",
    "max": "maximum",
    "min": "minimum",
    "eq": "equal equals",
    "ne": "neq unequal not-equal",
    "lt": "less less-than",
    "le": "leq lte less-equal less-or-equal",
    "gt": "greater greater-than",
    "ge": "geq gte greater-equal greater-or-equal",
    "move": "mov copy assign",
    "move-constant": "const constant set-constant load-constant",
    "logand": "and bitand",
    "logior": "or ior bitor logor",
    "logxor": "xor bitxor eor",
    "lognot": "not complement",
}
OPERATIONS = {word: operation for operation, words in _SYNONYMS.items() for word in words.split()}
"""What a word for an operation is called here."""

_COMBINED = {"add": "u-add", "sum": "u-add", "plus": "u-add", "or": "logior", "ior": "logior", "and": "logand"}
_COMBINED |= {"logor": "logior", "xor": "logxor", "max": "u-max", "min": "u-min"}
_WITH = re.compile(r"(scan|spread|reduce|send)-(?:with-)?([a-z-]+?)(-1l)?")
_GLOBAL = re.compile(r"global-([a-z-]+)")
_NOT_COMBINED = {"mul", "mult", "multiply", "times", "product", "u-multiply", "s-multiply", "div", "divide", "mod"}
_NOT_COMBINED |= {"sub", "subtract", "u-subtract", "s-subtract", "s-add", "s-max", "s-min", "not", "lognot"}
_STEPS = "neighbours are combined step by step by `get-from-news-1L D A X DIR L` and an instruction behind it"
_SERVES = dict.fromkeys(("scan", "spread", "reduce"), _STEPS)
_SERVES["send"] = "`get-1L D B A L` gets a value that any instruction can combine"

_SIGNS = "and `s-lt-1L A B L` finds the signs"
_NO_QUOTIENT = Term(
    "", f"there is no signed quotient: `u-truncate-3-1L D A B L` divides amounts, {_SIGNS}", (Idiom.QUOTIENT,)
)
_NO_REMAINDER = Term(
    "", f"there is no signed remainder: `u-rem-3-1L D A B L` gives that of amounts, {_SIGNS}", (Idiom.QUOTIENT,)
)


def combined(word: str) -> str | None:
    """The instruction that a name like `scan-with-add` means, or None."""
    found = _WITH.fullmatch(plain(word))
    name = f"{found[1]}-with-{_COMBINED.get(found[2], found[2])}-1L" if found else ""
    return name if name in INSTRUCTIONS else None


def absent(name: Mnemonic) -> Term | None:
    """What is said of a name whose type or operation isn't there at all, or None."""
    if name.type in ("f", "c") or not {"f", "float", "double"}.isdisjoint(name.words):
        return MEANT["float"]
    if name.type == "s":
        return {"truncate": _NO_QUOTIENT, "rem": _NO_REMAINDER}.get(OPERATIONS.get(name.operation, name.operation))
    return None


def likeness(word: str, name: str) -> tuple[bool, bool, float]:
    """How like a name is to a word: whether it has the same letters, whether it is unsigned, and how many it shares."""
    letters, other = plain(word), name.lower()
    shared = SequenceMatcher(None, letters, other).ratio()
    return sorted(letters) == sorted(other), not other.startswith("s-"), shared


def slip_of(word: str) -> str | None:
    """The instruction from whose name a word differs by one letter, or None. It is None too where two are as like."""
    found = {name for form in shortened(plain(word)) for name in _SHORTENED.get(form, ())}
    most = max((likeness(word, name) for name in found), default=None)
    best = [name for name in found if likeness(word, name) == most]
    return best[0] if len(best) == 1 else None


def by_operation(word: str, name: Mnemonic) -> str | None:
    """The instruction of a name's operation, by this or another word for it; or None. Its type may be another."""
    operation = OPERATIONS.get(name.operation, name.operation)
    for letter in (name.type, "u", "s", "") if "-" in word or "_" in word else (name.type,):
        if names := ROOTS.get(Mnemonic(letter, operation).root):
            return max(names, key=lambda name: likeness(word, name))
    return None


def instruction_meant(word: str) -> str | None:
    """The instruction that a name means by its parts, or None.

    It has another count of operands, another word for the operation, a type that makes no difference to it, or one
    letter that is wrong.
    """
    name = read(word)
    if word in INSTRUCTIONS or word.lower() in MEANT or absent(name):
        return None
    if found := combined(word) or by_operation(word, name):
        return found
    return None if of_operation(word) else slip_of(word)


def spelled(name: str) -> str:
    """A question for an instruction, and its spelling."""
    return f"did you mean `{name}`? Its spelling is `{INSTRUCTIONS[name].spelling}`"


def of_combining(word: str) -> str | None:
    """What is said of a name that combines over all, or that combines by what doesn't; or None."""
    lower = _COUNTED.sub("", plain(word))
    if found := _GLOBAL.fullmatch(lower):
        combiner = _COMBINED.get(found[1], found[1])
        combiner = combiner if combiner in COMBINERS else "u-add"
        return (
            f"`spread-with-{combiner}-1L D A X L` gives it to all processors of a line, and "
            f"`reduce-with-{combiner}-1L D A X L C` to the one at C"
        )
    found = _WITH.fullmatch(lower)
    if found is None or found[2] not in _NOT_COMBINED:
        return None
    known = ", ".join(COMBINERS) + (" and copy" if found[1] in ("scan", "spread") else "")
    return f"there is none: what combines is {known}; {_SERVES[found[1]]}"


def of_constants(name: Mnemonic) -> str | None:
    """What is said of a name that would take a constant, or None."""
    if "constant" not in name.words:
        return None
    other = instruction_meant("-".join(part for part in name.root.split("-") if part != "constant"))
    takes = f", which `{INSTRUCTIONS[other].spelling}` takes" if other else ""
    return Term(
        "", f"no operand is a constant: `u-move-constant-1L D K L` stores one in a field{takes}", (Idiom.CONSTANT,)
    ).hint


def of_operation(word: str) -> str | None:
    """What is said of a name's type and operation as a whole, or None."""
    name = read(word)
    if term := absent(name) or MEANT.get(name.root) or MEANT.get(name.operation):
        return term.hint
    return of_combining(word) or of_constants(name)


def of_parts(word: str) -> str | None:
    """What is said of a name where no instruction is meant: by its operation, or by a word of it; or None."""
    if said := of_operation(word):
        return said
    known = [part for part in read(word).words if part in MEANT]
    first = min(known, key=lambda part: (part != "always", part in DIRECTIONS), default=None)
    return MEANT[first].hint if first else None


def nearest_instruction(word: str) -> str | None:
    """The instruction whose operation has letters most like those of a word, or None. It is asked last."""
    name = read(word)
    operation = nearest(name.operation, [*(read(root).operation for root in ROOTS), *ROOTS, *OPERATIONS], _ALIKE)
    return by_operation(word, Mnemonic(name.type, operation)) if operation else None
