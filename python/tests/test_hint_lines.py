"""First lines of people who come from elsewhere: the hint names what they mean, and no other instruction."""

from __future__ import annotations

import re
import time

import pytest

from pevudlo.hints.explanation import explained
from pevudlo.hints.grammar import grammar_hint
from pevudlo.hints.meanings import Where
from pevudlo.hints.mnemonics import instruction_meant, nearest_instruction
from pevudlo.lang.board import Board
from pevudlo.lang.instructions import INSTRUCTIONS
from pevudlo.lang.replies import Refused, parse
from pevudlo.wire.pipe import Pipe
from pevudlo.wire.program import find

DECLARED = (
    "set S 8",
    "set G 4x4",
    "field a S 8",
    "field b S 8",
    "field c S 8",
    "field f S 1",
    "field g G 8",
)

# A line behind them, the instructions that serve there, and what else the hint says. The generic one of
# "such as `u-add-3-1L D A B L`" serves nobody.
NO_FLOATS = "no floating numbers"
NO_CONSTANT = "no operand is a constant"
NO_QUOTIENT = "no signed quotient"
NO_REMAINDER = "no signed remainder"
LINES: list[tuple[str, str, list[str]]] = [
    ("insert end u-divide-3-1L c a b 8", "u-truncate-3-1L", []),
    ("insert end u-mul-3-1L c a b 8", "u-multiply-3-1L", []),
    ("insert end s-div-3-1L c a b 8", "u-truncate-3-1L s-lt-1L", [NO_QUOTIENT]),
    ("insert end u-mod-3-1L c a b 8", "u-rem-3-1L", []),
    ("insert end u-less-1L a b 8", "u-lt-1L", []),
    ("insert end u-greater-1L a b 8", "u-gt-1L", []),
    ("insert end u-equal-1L a b 8", "u-eq-1L", []),
    (
        "insert end u-shift-3-1L c a b 8",
        "u-multiply-3-1L u-truncate-3-1L get-from-news-1L",
        ["there is none", "Shift bits", "Shift by k along an axis"],
    ),
    ("insert end shift-left c a 2 8", "u-multiply-3-1L u-truncate-3-1L get-from-news-1L", ["there is none"]),
    ("insert end u-sum-1L c a 0 8", "spread-with-u-add-1L reduce-with-u-add-1L", []),
    ("insert end u-inc-1L c 8", "u-move-constant-1L u-add-3-1L", ["there is none"]),
    ("insert end u-copy-1L c a 8", "u-move-1L", []),
    ("insert end logxnor-3-1L c a b 8", "logxor-3-1L lognot-2-1L", ["there is none"]),
    ("insert end lognand-3-1L c a b 8", "logand-3-1L lognot-2-1L", ["there is none"]),
    ("insert end f-add-3-1L c a b 8", "", [NO_FLOATS]),
    ("insert end u-float-2-2L c a 23 8", "", [NO_FLOATS]),
    ("insert end u-add-constant-3-1L c a 5 8", "u-move-constant-1L u-add-3-1L", [NO_CONSTANT]),
    ("insert end u-add-2-1L c a 8", "u-add-3-1L", []),
    ("insert end u-negate-2-1L c a 8", "s-negate-2-1L", []),
    ("insert end s-truncate-3-1L c a b 8", "u-truncate-3-1L s-lt-1L", [NO_QUOTIENT]),
    ("insert end s-rem-3-1L c a b 8", "u-rem-3-1L s-lt-1L", [NO_REMAINDER]),
    ("insert end s-abs-2-1L c a 8", "s-negate-2-1L s-max-3-1L", ["there is none"]),
    ("insert end u-random-1L c 8", "", ["there is none", "`input KEY FROM VALUE ..`"]),
    (
        "insert end scan-with-s-max-1L c a 0 8 upward inclusive none",
        "get-from-news-1L",
        ["there is none", "u-add, logior, logand, logxor, u-max, u-min and copy"],
    ),
    (
        "insert end scan-with-u-add-1L c a 0 8 upward yes none",
        "scan-with-u-add-1L",
        ["inclusive or exclusive", "D A X L DIR INCL G"],
    ),
    (
        "insert end scan-with-u-add-1L c a 0 8 inclusive upward none",
        "scan-with-u-add-1L",
        ["the direction", "D A X L DIR INCL G"],
    ),
    ("insert end scan-with-u-add-1L c a upward inclusive", "scan-with-u-add-1L", ["an axis"]),
    ("insert end get-from-news-1L c a 1 upward 8", "", ["no axis 1", "`S` has one axis"]),
    ("insert end get-from-power-two-1L c a 0 2 upward 8", "get-from-news-1L get-1L", ["there is none", "Shift by k"]),
    ("insert end send-1L c a b 8", "send-1L", ["ends too soon", "notified, or none"]),
    ("insert end send-to-news-1L c a 0 8 upward", "send-to-news-1L", ["the direction", "D A X DIR L"]),
    ("insert end u-eq-1L a 0 8", "u-move-constant-1L u-eq-1L", [NO_CONSTANT, "`u-move-constant-1L D 0 L`"]),
    ("insert end u-add-3-1L c a 5 8", "u-move-constant-1L u-add-3-1L", [NO_CONSTANT, "`u-move-constant-1L D 5 L`"]),
    ("insert end u-add-3-1L c 5 a 8", "u-move-constant-1L u-add-3-1L", [NO_CONSTANT, "`u-move-constant-1L D 5 L`"]),
    ("insert end u-move-constant-1L c 0x1F 8", "u-move-constant-1L", ["0x1F is 31"]),
    ("insert end u-move-constant-1L c f 8", "u-move-1L u-move-constant-1L", ["a constant is a number"]),
    ("insert end u-move-1L c a b 8", "u-move-1L", ["the length in bits"]),
    ("insert end u-add-3-1L c a b", "u-add-3-1L", ["ends too soon", "the length in bits"]),
    ("insert end load-context a", "", ["`a` has 8 bits", "as `f`"]),
    ("insert end store-context S", "", ["`S` is a set, and a field is wanted"]),
    ("insert end set-context a", "", ["`a` is a field, and a set is wanted"]),
    ("insert end logand-context-with-test", "logand-context-with-test", ["ends too soon", "a set"]),
    ("insert end u-add-3-1L c a g 8", "", ["`g` belongs to `G`"]),
    ("insert end global-u-add-1L c a 8", "spread-with-u-add-1L reduce-with-u-add-1L", []),
    ("insert end reduce-with-u-add-1L c a 0 8", "reduce-with-u-add-1L", ["ends too soon", "a coordinate"]),
    ("insert end rank-2L c a 8 8", "send-1L", ["there is none", "Sort by rank"]),
    ("insert end u-from-float c a", "", [NO_FLOATS]),
    ("insert at end u-add-3-1L c a b 8", "u-add-3-1L", ["`insert end u-add-3-1L c a b 8`"]),
    ("insert row u-add-3-1L c a b 8", "u-add-3-1L", ["`insert end u-add-3-1L c a b 8`"]),
    ("add u-add-3-1L c a b 8", "u-add-3-1L", ["`insert end u-add-3-1L c a b 8`"]),
    ("append u-add-3-1L c a b 8", "u-add-3-1L", ["`insert end u-add-3-1L c a b 8`"]),
    ("remove 1", "", ["`delete ROW`"]),
    ("change 1 set-test S", "", ["`replace ROW INSTR`"]),
    ("set a 5", "", ["`a` is a field", "`input a FROM VALUE ..`"]),
    ("a = 5", "u-move-constant-1L u-move-1L", ["`input a FROM VALUE ..`"]),
    ("input a = 1 2 3", "", ["no `=`", "`input a 0 VALUE ..`"]),
    ("input a 1 2 3 4 5 6 7 8", "", []),
    ("input a 0 1 2 3 4 5 6 7 8", "", []),
    ("show a", "", ["ends too soon", "`start`, `after` or `end`"]),
    ("print a end", "", ["`show KEY end`"]),
    ("show a,b end", "", ["`a` and `b` have a line each"]),
    ("while", "", ["there is no loop", "Until nothing changes"]),
    ("for i in 1", "", ["there is no loop", "Until nothing changes"]),
    ("include x", "", ["there is none", "one file"]),
    ("import x", "", ["there is none", "one file"]),
    ("field a S u8", "", ["how many bits there are: 8"]),
    ("field x S 8 = 5", "", ["`input x FROM VALUE ..`"]),
    ("var x S 8", "", ["`field NAME SET WIDTH` declares"]),
]
ACCEPTED = ("input a 1 2 3 4 5 6 7 8", "input a 0 1 2 3 4 5 6 7 8")

# Words of instructions of the machine's own manuals and of other languages, and the instructions that serve.
NAMES: list[tuple[str, str, list[str]]] = [
    ("CM:u-add-3-1L", "u-add-3-1L", []),
    ("CM_u_add_3_1L", "u-add-3-1L", []),
    ("CM_u_floor_3_1L", "u-truncate-3-1L", []),
    ("s-floor-3-1L", "u-truncate-3-1L s-lt-1L", [NO_QUOTIENT]),
    ("s-divide-3-1L", "u-truncate-3-1L s-lt-1L", [NO_QUOTIENT]),
    ("s-mod-3-1L", "u-rem-3-1L s-lt-1L", [NO_REMAINDER]),
    ("u-quotient", "u-truncate-3-1L", []),
    ("s-mul", "s-multiply-3-1L", []),
    ("s-sub-3-1L", "s-subtract-3-1L", []),
    ("s-less-1L", "s-lt-1L", []),
    ("s-eq-1L", "u-eq-1L", []),
    ("s-ne-1L", "u-ne-1L", []),
    ("u-less-or-equal-1L", "u-le-1L", []),
    ("u-gt-constant-1L", "u-move-constant-1L u-gt-1L", [NO_CONSTANT]),
    ("s-multiply-constant-3-1L", "u-move-constant-1L s-multiply-3-1L", [NO_CONSTANT]),
    ("s-move-constant-1L", "u-move-constant-1L", []),
    ("u-load-constant", "u-move-constant-1L", []),
    ("f-move-constant-1L", "", [NO_FLOATS]),
    ("f-gt-1L", "", [NO_FLOATS]),
    ("c-add-3-1L", "", [NO_FLOATS]),
    ("scan-with-f-add-1L", "", [NO_FLOATS]),
    ("u-isqrt-1-1L", "", ["there is none"]),
    ("logior-constant-3-1L", "u-move-constant-1L logior-3-1L", [NO_CONSTANT]),
    ("logandc1-3-1L", "lognot-2-1L logand-3-1L", ["there is none"]),
    ("lognor-3-1L", "logior-3-1L lognot-2-1L", ["there is none"]),
    ("logeqv-3-1L", "logxor-3-1L lognot-2-1L", ["there is none"]),
    ("u-and-3-1L", "logand-3-1L", []),
    ("u-xor-3-1L", "logxor-3-1L", []),
    ("u-logcount-2-2L", "", ["there is none"]),
    ("swap-2-1L", "u-move-1L", ["Swap two fields"]),
    ("u-add-always-3-1L", "u-move-always-1L set-context", []),
    ("enumerate-1L", "scan-with-u-add-1L", ["Pack"]),
    ("global-count-1L", "spread-with-u-add-1L reduce-with-u-add-1L", []),
    ("global-u-max-1L", "spread-with-u-max-1L reduce-with-u-max-1L", []),
    ("global-logior-1L", "spread-with-logior-1L reduce-with-logior-1L", []),
    ("scan-add", "scan-with-u-add-1L", []),
    ("reduce-with-max", "reduce-with-u-max-1L", []),
    ("send-with-s-add-1L", "get-1L", ["there is none"]),
    ("aref-2L", "get-1L", ["there is none"]),
    ("u-read-from-processor-1L", "", ["`show KEY end`"]),
    ("u-write-to-processor-1L", "", ["`input KEY FROM VALUE ..`"]),
    ("allocate-heap-field", "", ["`field NAME SET WIDTH`"]),
    ("set-vp-set", "", ["`set NAME AXES`"]),
    ("send-to-power-two-1L", "get-from-news-1L get-1L", ["there is none"]),
    ("get-left", "get-from-news-1L send-to-news-1L", ["left is `downward` on axis 0"]),
    ("left-shift", "u-multiply-3-1L u-truncate-3-1L get-from-news-1L", ["there is none"]),
    ("argmax", "spread-with-u-max-1L u-eq-1L", ["Where the greatest is"]),
    ("reverse", "get-1L", ["Reverse"]),
    ("else", "invert-context", ["If and else"]),
    ("select", "u-move-1L", ["If and else"]),
    # Slips of the pen: here letters count.
    ("u-ad-3-1L", "u-add-3-1L", []),
    ("u-add-3-1", "u-add-3-1L", []),
    ("u-add-3-", "u-add-3-1L", []),
    ("u-add-31L", "u-add-3-1L", []),
    ("u-multipy-3-1L", "u-multiply-3-1L", []),
    ("u-lss-1L", "u-lt-1L", []),
    ("logad-3-1L", "logand-3-1L", []),
    ("scan-with-u-ad-1L", "scan-with-u-add-1L", []),
    ("get-from-new-1L", "get-from-news-1L", []),
    ("my-send-adress-1L", "my-send-address-1L", []),
    ("logand-context-with-tst", "logand-context-with-test", []),
]


def hint_of(line: str, where: Where = Where.SCRIPT) -> str | None:
    """The hint for a line behind the declarations, or None where it is accepted."""
    board = Board()
    with Pipe(find()) as pipe:
        for each in DECLARED:
            board.note(each, pipe.ask(each)[0])
        reply = parse(pipe.ask(line))
    return explained(line, reply, board, where).hint if isinstance(reply, Refused) else None


def named(text: str) -> set[str]:
    """The instructions that a text names between backticks."""
    words = [word for part in re.findall("`([^`]+)`", text) for word in part.split(" ")]
    return {word for word in words if word in INSTRUCTIONS}


@pytest.mark.parametrize("line, instructions, phrases", LINES, ids=[line for line, _, _ in LINES])
def test_a_hint_names_what_is_meant_and_no_other(line: str, instructions: str, phrases: list[str]) -> None:
    hint = hint_of(line)
    assert (hint is None) == (line in ACCEPTED)
    if hint is not None:
        assert named(hint) == set(instructions.split())
        for phrase in phrases:
            assert phrase in hint


@pytest.mark.parametrize("name, instructions, phrases", NAMES, ids=[name for name, _, _ in NAMES])
def test_a_name_is_read_by_its_parts(name: str, instructions: str, phrases: list[str]) -> None:
    hint = hint_of(f"insert end {name} c a b 8") or ""
    assert named(hint) == set(instructions.split())
    for phrase in phrases:
        assert phrase in hint


def test_a_name_is_read_by_its_parts_where_a_line_begins_with_it() -> None:
    row = "an instruction becomes a row by insert: "
    said = f"did you mean `u-multiply-3-1L`? {row[0].upper()}{row[1:]}`insert end u-multiply-3-1L c a b 8`"
    assert hint_of("u-mul-3-1L c a b 8") == said
    assert hint_of("u-mul-3-1L c a b 8", Where.FILE) == "did you mean `u-multiply-3-1L`?"
    assert named(hint_of("s-rem-3-1L c a b 8") or "") == {"u-rem-3-1L", "s-lt-1L"}


@pytest.mark.parametrize(
    "line, phrase",
    [
        ("insert before 3 set-test S", "`insert after ROW INSTR`"),
        ("insert first set-test S", "`insert start set-test S`"),
        ("insert at 3 set-test S", "`insert after 3 INSTR`"),
        ("insert end u-add-3-1L c a 8", "a field is missing before `8`"),
        ("insert end u-add-3-1L c a -1 8", "K is 2^L minus the amount"),
        ("insert end u-add-3-1L c a 0x10 8", "`u-move-constant-1L D 16 L`"),
        ("a[0] = 5", "`input a FROM VALUE ..`"),
        ("a+=b", "`input a FROM VALUE ..`"),
        ("help shift", "Shift bits"),
        ("help if", "If and else"),
        ("get c a b 8", "`insert end get-1L c a b 8`"),
        ("insert end settle", "`settle` is a command of its own, and begins a line"),
        ("insert end show a end", "`show` is a command of its own, and begins a line"),
    ],
)
def test_a_hint_says_how_it_is_written(line: str, phrase: str) -> None:
    assert phrase in (hint_of(line) or "")


def test_two_letters_in_the_other_order_are_a_slip_of_the_pen() -> None:
    for name in INSTRUCTIONS:
        for at in range(len(name) - 1):
            word = name[:at] + name[at + 1] + name[at] + name[at + 2 :]
            # (as in other languages: greater than or equal)
            if word not in (name, "gte-1L"):
                meant = instruction_meant(word) or nearest_instruction(word)
                assert meant == name, word


@pytest.mark.parametrize("word", ["x", "-", "u-", "-1L", "u-add", "a,", "0x1", "9", "cm_"])
@pytest.mark.parametrize(
    "begin", ["", "insert ", "insert end ", "insert end u-add-3-1L a ", "show ", "input a 0 ", "help "]
)
def test_a_word_of_a_whole_line_takes_no_time(begin: str, word: str) -> None:
    line = begin + word * (60_000 // len(word))
    start = time.monotonic()
    assert grammar_hint(line, len(begin) + 1 if begin != "help " else 1)
    assert time.monotonic() - start < 2


def test_letters_of_no_word_name_nothing() -> None:
    for word in ("x", "frobnicate", "qqq-3-1L", "u-zzz-3-1L"):
        assert named((hint_of(f"insert end {word} c a b 8") or "").replace("such as `u-add-3-1L D A B L`", "")) == set()
