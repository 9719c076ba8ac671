"""The reference: what each processor computes by itself. Arithmetic, comparisons, bits, moves, coordinates."""

from __future__ import annotations

from pevudlo.lang.instructions import INSTRUCTIONS
from pevudlo.reference.entry import Entry, Example, Kind, worked

PAIRS = """
set S 8
field a S 8
field b S 8
input a 0 7 250 3 100 128 9 200 200
input b 0 3 10 7 156 255 0 200 255
input S.context 7 0
"""
"""Pairs of numbers: small ones, a sum above 255, a difference below 0, a signed difference above 127, two negative
numbers, a zero, two equal ones, and a pair in a processor that isn't selected."""

NUMBERS = f"""{PAIRS}field c S 8
input c 0 99 99 99 99 99 99 99 99
"""

BITS = """
set S 4
field a S 4
field b S 4
field c S 4
input a 0 12 10 15 5
input b 0 10 5 9 6
input S.context 3 0
"""

MOVES = """
set S 4
field a S 8
field c S 8
input a 0 3 15 16 255
input c 0 240 240 240 240
input S.context 3 0
"""

LENGTHS = """
set S 8
field a S 8
field c S 8
field d S 8
input a 0 7 8 15 100 128 200 248 255
input S.context 7 0
"""

GRID = """
set G 4x2
field c G 8
field d G 8
input G.context 7 0
"""

SIGNED = "Signed numbers of L bits are kept in two's complement: with 8 bits 250 stands for -6, and 128 for -128."


def instruction(name: str, does: str, flags: str, example: Example) -> Entry:
    """The entry of an instruction. Its spelling is that of the table of instructions."""
    return Entry(Kind.INSTRUCTION, name, INSTRUCTIONS[name].spelling, does, flags, example)


def on_numbers(name: str, does: str, flags: str, **shows: str) -> Entry:
    """An instruction on `NUMBERS`. Flags are named without their set."""
    looks = {key if key == "c" else f"S.{key}": values for key, values in shows.items()}
    row = f"{name} c a 8" if name == "s-negate-2-1L" else f"{name} c a b 8"
    return instruction(name, does, flags, worked(NUMBERS, row, looks))


def compared(kind: str, relation: str, words: str, test: str) -> Entry:
    """A comparison on `PAIRS`, which writes the test flag."""
    name = f"{kind}-{relation}-1L"
    numbers = "unsigned" if kind == "u" else "signed"
    does = f"Compares A and B as {numbers} numbers." + (f" {SIGNED}" if kind == "s" else "")
    flags = f"test: 1 where A {words} B, else 0"
    # What the processor that isn't selected keeps is what the comparison wouldn't give.
    kept = "" if relation in ("ne", "lt", "le") else "input S.test 7 1\n"
    return instruction(name, does, flags, worked(PAIRS + kept, f"{name} a b 8", {"S.test": test}))


SUMS = (
    instruction(
        "u-add-3-1L",
        "Stores the sum A + B in D. What is above L bits is dropped. The old carry doesn't count.",
        "carry and overflow: 1 where the sum is at least 2^L, else 0",
        worked(
            NUMBERS + "input S.carry 0 1\n",
            "u-add-3-1L c a b 8",
            {"c": "10 4 10 0 127 9 144 99", "S.carry": "0 1 0 1 1 0 1 0", "S.overflow": "0 1 0 1 1 0 1 0"},
        ),
    ),
    instruction(
        "u-add-carry-3-1L",
        "Stores A + B + carry in D, with the carry flag as it was before. So long numbers are added part by part.",
        "carry and overflow: 1 where the sum is at least 2^L, else 0",
        worked(
            NUMBERS + "input S.carry 0 1 0 1 0 1 0 1 1\n",
            "u-add-carry-3-1L c a b 8",
            {"c": "11 4 11 0 128 9 145 99", "S.carry": "0 1 0 1 1 0 1 1", "S.overflow": "0 1 0 1 1 0 1 0"},
        ),
    ),
    on_numbers(
        "u-subtract-3-1L",
        "Stores the difference A - B in D. Below 0 it wraps round: 3 - 7 is 252 with 8 bits.",
        "carry (the borrow) and overflow: 1 where A is below B, else 0",
        c="4 240 252 200 129 9 0 99",
        carry="0 0 1 1 1 0 0 0",
        overflow="0 0 1 1 1 0 0 0",
    ),
    on_numbers(
        "s-add-3-1L",
        f"Stores the sum A + B in D. {SIGNED}",
        "carry: 1 where the unsigned sum is at least 2^L, else 0. "
        "overflow: 1 where the signed sum is outside -2^(L-1) to 2^(L-1) - 1, else 0",
        c="10 4 10 0 127 9 144 99",
        carry="0 1 0 1 1 0 1 0",
        overflow="0 0 0 0 1 0 0 0",
    ),
    on_numbers(
        "s-subtract-3-1L",
        f"Stores the difference A - B in D. {SIGNED}",
        "carry: 1 where A is below B as unsigned numbers, else 0. "
        "overflow: 1 where the signed difference is outside -2^(L-1) to 2^(L-1) - 1, else 0",
        c="4 240 252 200 129 9 0 99",
        carry="0 0 1 1 1 0 0 0",
        overflow="0 0 0 1 0 0 0 0",
    ),
    on_numbers(
        "s-negate-2-1L",
        f"Stores -A in D. {SIGNED}",
        "overflow: 1 where A is the least signed number, -2^(L-1), else 0",
        c="249 6 253 156 128 247 56 99",
        overflow="0 0 0 0 1 0 0 0",
    ),
)

PRODUCTS = (
    on_numbers(
        "u-multiply-3-1L",
        "Stores the product A * B in D. What is above L bits is dropped.",
        "overflow: 1 where the product is at least 2^L, else 0",
        c="21 196 21 240 128 0 64 99",
        overflow="0 1 0 1 1 0 1 0",
    ),
    on_numbers(
        "s-multiply-3-1L",
        f"Stores the product A * B of signed numbers in D. {SIGNED}",
        "overflow: 1 where the product is outside -2^(L-1) to 2^(L-1) - 1, else 0",
        c="21 196 21 240 128 0 64 99",
        overflow="0 0 0 1 1 0 1 0",
    ),
    on_numbers(
        "u-truncate-3-1L",
        "Stores the quotient A / B in D, rounded down. Where B is 0, D stays as it was.",
        "overflow: 1 where B is 0, else 0",
        c="2 25 0 0 0 99 1 99",
        overflow="0 0 0 0 0 1 0 0",
    ),
    on_numbers(
        "u-rem-3-1L",
        "Stores the remainder of A / B in D. Where B is 0, D stays as it was.",
        "overflow: 1 where B is 0, else 0",
        c="1 0 3 100 128 99 0 99",
        overflow="0 0 0 0 0 1 0 0",
    ),
)

CHOICES = (
    on_numbers(
        "u-max-3-1L", "Stores the greater of A and B in D, as unsigned numbers.", "", c="7 250 7 156 255 9 200 99"
    ),
    on_numbers(
        "u-min-3-1L", "Stores the lesser of A and B in D, as unsigned numbers.", "", c="3 10 3 100 128 0 200 99"
    ),
    on_numbers(
        "s-max-3-1L",
        f"Stores the greater of A and B in D, as signed numbers. {SIGNED}",
        "",
        c="7 10 7 100 255 9 200 99",
    ),
    on_numbers(
        "s-min-3-1L",
        f"Stores the lesser of A and B in D, as signed numbers. {SIGNED}",
        "",
        c="3 250 3 156 128 0 200 99",
    ),
)

OF_BITS = (
    instruction(
        "logand-3-1L",
        "Stores the bits that both A and B have in D.",
        "",
        worked(BITS, "logand-3-1L c a b 4", {"c": "8 0 9 0"}),
    ),
    instruction(
        "logior-3-1L",
        "Stores the bits that A or B or both have in D.",
        "",
        worked(BITS, "logior-3-1L c a b 4", {"c": "14 15 15 0"}),
    ),
    instruction(
        "logxor-3-1L",
        "Stores the bits that just one of A and B has in D.",
        "",
        worked(BITS, "logxor-3-1L c a b 4", {"c": "6 15 6 0"}),
    ),
    instruction(
        "lognot-2-1L",
        "Stores A with each of its L bits turned in D.",
        "",
        worked(BITS, "lognot-2-1L c a 4", {"c": "3 5 0 0"}),
    ),
)

COMPARISONS = (
    compared("u", "eq", "is equal to", "0 0 0 0 0 0 1 1"),
    compared("u", "ne", "isn't equal to", "1 1 1 1 1 1 0 0"),
    compared("u", "lt", "is below", "0 0 1 1 1 0 0 0"),
    compared("u", "le", "is at most", "0 0 1 1 1 0 1 0"),
    compared("u", "gt", "is above", "1 1 0 0 0 1 0 1"),
    compared("u", "ge", "is at least", "1 1 0 0 0 1 1 1"),
    compared("s", "lt", "is below", "0 1 1 0 1 0 0 0"),
    compared("s", "le", "is at most", "0 1 1 0 1 0 1 0"),
    compared("s", "gt", "is above", "1 0 0 1 0 1 0 1"),
    compared("s", "ge", "is at least", "1 0 0 1 0 1 1 1"),
)

OF_MOVES = (
    instruction(
        "u-move-1L",
        "Copies the low L bits of A to D. The bits of D from L upward stay: with L = 4, as here, 240 keeps its high "
        "half.",
        "",
        worked(MOVES, "u-move-1L c a 4", {"c": "243 255 240 240"}),
    ),
    instruction(
        "u-move-always-1L",
        "Copies the low L bits of A to D in every processor, whatever its context. The bits of D from L upward stay.",
        "",
        worked(MOVES, "u-move-always-1L c a 4", {"c": "243 255 240 255"}),
    ),
    instruction(
        "u-move-constant-1L",
        "Stores the constant K, which is below 2^L, in D.",
        "",
        worked(MOVES, "u-move-constant-1L c 7 8", {"c": "7 7 7 240"}),
    ),
    instruction(
        "u-move-2L",
        "Stores the low M bits of A in L bits of D, as an unsigned number. So numbers become wider, by zeros, or "
        "narrower.",
        "overflow: 1 where the number is at least 2^L, else 0",
        worked(
            LENGTHS,
            "u-move-2L c a 8 4 ; u-move-2L d a 4 8",
            {"c": "7 8 15 4 0 8 8 0", "d": "7 8 15 4 0 8 8 0", "S.overflow": "0 0 0 1 1 1 1 0"},
        ),
    ),
    instruction(
        "s-move-2L",
        "Stores the low M bits of A in L bits of D, as a signed number. So numbers become wider, by their sign, or "
        "narrower.",
        "overflow: 1 where the number is outside -2^(L-1) to 2^(L-1) - 1, else 0",
        worked(
            LENGTHS,
            "s-move-2L c a 8 4 ; s-move-2L d a 4 8",
            {"c": "7 248 255 4 0 248 248 0", "d": "7 8 15 4 0 8 8 0", "S.overflow": "0 1 1 1 1 1 0 0"},
        ),
    ),
)

PLACES = (
    instruction(
        "my-news-coordinate-1L",
        "Stores each processor's coordinate on axis X in D. Processors are counted along axis 0 first.",
        "",
        worked(
            GRID,
            "my-news-coordinate-1L c 0 8 ; my-news-coordinate-1L d 1 8",
            {"c": "0 1 2 3 0 1 2 0", "d": "0 0 0 0 1 1 1 0"},
        ),
    ),
    instruction(
        "my-send-address-1L",
        "Stores each processor's send address, which is its number, in D.",
        "",
        worked(GRID, "my-send-address-1L c 8", {"c": "0 1 2 3 4 5 6 0"}),
    ),
)
