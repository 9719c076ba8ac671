"""Words of other languages for what there is here, or isn't: one table, which hints and `help` read."""

from __future__ import annotations

from dataclasses import dataclass

from pevudlo.lang.instructions import COMBINERS
from pevudlo.reference.idioms import Idiom


@dataclass(frozen=True)
class Term:
    """Words for one thing, and what does here what they mean; with the idioms that show how."""

    words: str
    said: str
    idioms: tuple[Idiom, ...] = ()

    @property
    def hint(self) -> str:
        """What is said, with where it is shown."""
        if not self.idioms:
            return self.said
        titles = " and ".join(f'"{idiom.value}"' for idiom in self.idioms)
        return f"{self.said}; see {titles} in IDIOMS"


_COMPARES = "where it is so, test becomes 1"
_ALSO = "; others are with " + ", ".join(COMBINERS[1:])
# Directions on the page, where axis 0 is drawn across and axis 1 down.
_TOWARD = (
    ("right east", "0", "upward"),
    ("left west", "0", "downward"),
    ("down south", "1", "upward"),
    ("up north", "1", "downward"),
)
_ARITHMETIC = (
    Term("add plus +", "`u-add-3-1L D A B L` adds, and `s-add-3-1L D A B L` adds signed numbers"),
    Term(
        "sub subtract minus difference -",
        "`u-subtract-3-1L D A B L` subtracts, and `s-subtract-3-1L D A B L` subtracts signed numbers",
    ),
    Term(
        "mul mult multiply times product *",
        "`u-multiply-3-1L D A B L` multiplies, and `s-multiply-3-1L D A B L` multiplies signed numbers",
    ),
    Term("div divide quotient floor /", "`u-truncate-3-1L D A B L` divides unsigned numbers, and rounds down"),
    Term("ceiling ceil round", "there is none: `u-truncate-3-1L D A B L` divides, and rounds down"),
    Term("mod modulo rem remainder %", "`u-rem-3-1L D A B L` gives the remainder of unsigned numbers"),
    Term("neg negate", "`s-negate-2-1L D A L` negates"),
    Term(
        "abs absolute magnitude",
        "there is none: `s-negate-2-1L D A L` negates, and `s-max-3-1L D A B L` takes the greater of both",
        (Idiom.QUOTIENT,),
    ),
    Term(
        "inc incr increment succ ++",
        "there is none: `u-move-constant-1L D 1 L` stores 1 in a field, and `u-add-3-1L D A B L` adds that",
        (Idiom.CONSTANT,),
    ),
    Term(
        "dec decr decrement pred --",
        "there is none: `u-move-constant-1L D 1 L` stores 1 in a field, and `u-subtract-3-1L D A B L` takes that away",
        (Idiom.CONSTANT,),
    ),
    Term("max maximum", "`u-max-3-1L D A B L` is the greater one, `s-max-3-1L D A B L` of signed numbers"),
    Term("min minimum", "`u-min-3-1L D A B L` is the lesser one, `s-min-3-1L D A B L` of signed numbers"),
    Term(
        "float double real fixed",
        "there are no floating numbers: fields hold whole numbers, and a fraction is kept as a number of parts, as "
        "256ths",
    ),
    Term(
        "sqrt isqrt pow expt exp log ln sin cos tan atan",
        "there is none: fields hold whole numbers, and have sums, products, quotients and remainders",
    ),
    Term("random rand", "there is none: `input KEY FROM VALUE ..` gives numbers"),
)
_BITS = (
    Term("and bitand &", "`logand-3-1L D A B L` is and, bit by bit"),
    Term("or bitor ior |", "`logior-3-1L D A B L` is or, bit by bit"),
    Term("xor bitxor eor ^", "`logxor-3-1L D A B L` is exclusive or, bit by bit"),
    Term("not invert complement ~ !", "`lognot-2-1L D A L` turns each bit; `invert-context S` turns the context"),
    Term("nand lognand", "there is none: `logand-3-1L D A B L`, and `lognot-2-1L D A L` behind it"),
    Term("nor lognor", "there is none: `logior-3-1L D A B L`, and `lognot-2-1L D A L` behind it"),
    Term("xnor logxnor eqv logeqv", "there is none: `logxor-3-1L D A B L`, and `lognot-2-1L D A L` behind it"),
    Term("andnot logandc1 logandc2", "there is none: `lognot-2-1L D A L`, and `logand-3-1L D A B L` behind it"),
    Term("ornot logorc1 logorc2", "there is none: `lognot-2-1L D A L`, and `logior-3-1L D A B L` behind it"),
    Term("logcount popcount integer-length clz ctz", "there is none: no instruction counts the bits of one number"),
    Term(
        "shift shl shr lsl lsr asl asr sll srl << >> rotate rol ror",
        "there is none: `u-multiply-3-1L D A B L` by a power of two moves bits up, and `u-truncate-3-1L D A B L` moves "
        "them down; `get-from-news-1L D A X DIR L` moves values between processors",
        (Idiom.BITS, Idiom.SHIFT),
    ),
)
_CHOICES = (
    Term("eq equal equals == =", f"`u-eq-1L A B L` compares: {_COMPARES}"),
    Term("ne neq unequal != <>", f"`u-ne-1L A B L` compares: {_COMPARES}"),
    Term("less lt <", f"`u-lt-1L A B L` compares, `s-lt-1L A B L` compares signed numbers: {_COMPARES}"),
    Term("le <=", f"`u-le-1L A B L` compares, `s-le-1L A B L` compares signed numbers: {_COMPARES}"),
    Term("greater gt >", f"`u-gt-1L A B L` compares, `s-gt-1L A B L` compares signed numbers: {_COMPARES}"),
    Term("ge >=", f"`u-ge-1L A B L` compares, `s-ge-1L A B L` compares signed numbers: {_COMPARES}"),
    Term("compare cmp", f"`u-lt-1L A B L`, `u-eq-1L A B L` and their like compare: {_COMPARES}"),
    Term(
        "if where when unless",
        "`logand-context-with-test S` selects the processors where test is 1, and `set-context S` all again",
        (Idiom.BRANCHES,),
    ),
    Term(
        "else elif otherwise",
        "there is none: `invert-context S` selects the other processors",
        (Idiom.BRANCHES,),
    ),
    Term("endif fi", "`set-context S` selects all processors again", (Idiom.BRANCHES,)),
    Term(
        "select choose merge ternary ?:",
        "there is none: `u-move-1L D A L` stores one number in all, and then the other one in those that are selected",
        (Idiom.BRANCHES,),
    ),
    Term(
        "always unconditional",
        "`u-move-always-1L D A L` alone stores whatever the context is; `set-context S` selects all before another one",
    ),
    Term(
        "while for foreach loop repeat until do",
        "there is no loop: rows run once each, from above to below, and what hands lines over repeats them",
        (Idiom.LOOP,),
    ),
    Term("goto jump jmp branch", "there is no jump: each row runs in those that are selected", (Idiom.BRANCHES,)),
)
_MOVES = (
    Term(
        "mov move copy assign ld st",
        "`u-move-1L D A L` copies a field, and `u-move-constant-1L D K L` stores a constant",
    ),
    Term("const constant fill", "`u-move-constant-1L D K L` stores a constant", (Idiom.CONSTANT,)),
    Term(
        "zero clear reset",
        "`u-move-constant-1L D 0 L` stores 0 in a field; `clear-test S` and `clear-context S` are of flags",
    ),
    Term(
        "load fetch",
        "`load-context F` and `load-test F` make a flag of a field; `u-move-1L D A L` copies a field",
    ),
    Term("store", "`store-context F` and `store-test F` make a field of a flag; `u-move-1L D A L` copies a field"),
    Term(
        "extend widen narrow convert cast zero-extend sign-extend",
        "`u-move-2L D A L M` stores M bits in L, with zeros before them, and `s-move-2L D A L M` with their sign",
    ),
    Term(
        "swap exchange xchg",
        "there is none: `u-move-1L D A L` three times, by way of a third field",
        (Idiom.SWAP,),
    ),
)
_LINES = (
    Term(
        "sum total",
        "`spread-with-u-add-1L D A X L` sums each line of an axis, `reduce-with-u-add-1L D A X L C` at C alone",
        (Idiom.COUNT,),
    ),
    Term("count", "`spread-with-u-add-1L D A X L` of a field of ones counts those that are selected", (Idiom.COUNT,)),
    Term(
        "mean average avg",
        "there is none: `spread-with-u-add-1L D A X L` sums, and `u-truncate-3-1L D A B L` divides by the count",
        (Idiom.COUNT,),
    ),
    Term(
        "scan prefix cumsum accumulate",
        f"`scan-with-u-add-1L D A X L DIR INCL G` adds up along an axis{_ALSO} and copy",
    ),
    Term("spread", f"`spread-with-u-add-1L D A X L` gives all processors of a line its sum{_ALSO} and copy"),
    Term("reduce fold", f"`reduce-with-u-add-1L D A X L C` gives the processor at C the sum of its line{_ALSO}"),
    Term(
        "broadcast",
        "`spread-with-copy-1L D A X L C` copies one value to its line of an axis",
        (Idiom.BROADCAST,),
    ),
    Term(
        "argmax argmin",
        "there is none: `spread-with-u-max-1L D A X L` gives all the greatest, and `u-eq-1L A B L` says where it is",
        (Idiom.GREATEST,),
    ),
    Term(
        "enumerate",
        "there is none: `scan-with-u-add-1L D A X L DIR INCL G` of a field of ones counts those that are selected",
        (Idiom.PACK,),
    ),
)
_PLACES = (
    Term("gather", "`get-1L D B A L` gets the value at the address that B holds"),
    Term(
        "scatter",
        "`send-1L D B A L N` sends to the address that B holds, `send-with-u-add-1L D B A L N` adds what meets",
    ),
    Term(
        "iota index arange",
        "`my-send-address-1L D L` stores each processor's number, `my-news-coordinate-1L D X L` its coordinate",
    ),
    Term(
        "pack compress compact filter",
        "there is none: `scan-with-u-add-1L D A X L DIR INCL G` counts the places, and `send-1L D B A L N` sends there",
        (Idiom.PACK,),
    ),
    Term(
        "rank sort argsort",
        "there is none: how many numbers are less is a number's place, and `send-1L D B A L N` sends it there",
        (Idiom.RANK,),
    ),
    Term(
        "reverse flip mirror transpose permute",
        "there is none: `get-1L D B A L` gets the value at any address that B holds",
        (Idiom.REVERSE,),
    ),
    Term(
        "roll cshift eoshift get-from-power-two send-to-power-two",
        "there is none: `get-from-news-1L D A X DIR L` goes one step, and `get-1L D B A L` any way at once",
        (Idiom.SHIFT,),
    ),
    Term(
        "news neighbour neighbor",
        "`get-from-news-1L D A X DIR L` gets a neighbour's value, and `send-to-news-1L D A X DIR L` sends it one",
    ),
    *(
        Term(
            words,
            f"{words.split()[0]} is `{way}` on axis {axis}: `get-from-news-1L D A {axis} {way} L` gets the value of "
            f"the neighbour there, and `send-to-news-1L D A {axis} {way} L` sends it one",
        )
        for words, axis, way in _TOWARD
    ),
    Term(
        "aref aset aref32 aset32 array subscript",
        "there is none: a field holds one number in each processor, and `get-1L D B A L` gets that of another one",
    ),
    Term("barrier sync wait fence", "there is none: a row is through in all processors before the next one begins"),
)
_FRONT_END = (
    Term("read-from-processor peek", "`show KEY end` shows what the processors hold"),
    Term("write-to-processor poke", "`input KEY FROM VALUE ..` gives processors their numbers"),
    Term(
        "var int uint char bool declare dim allocate allocate-heap-field allocate-stack-field",
        "`field NAME SET WIDTH` declares a field",
    ),
    Term(
        "allocate-vp-set create-vp-set set-vp-set geometry",
        "`set NAME AXES` declares a set, and an instruction works on that of its operands",
    ),
    Term(
        "def define function proc procedure call macro subroutine return",
        "there is none: what hands lines over writes the rows out, as a program in Python does",
    ),
    Term("include import require using", "there is none: a script is one file, and `cat` puts several together"),
)
TERMS: tuple[Term, ...] = (*_ARITHMETIC, *_BITS, *_CHOICES, *_MOVES, *_LINES, *_PLACES, *_FRONT_END)
MEANT: dict[str, Term] = {word: term for term in TERMS for word in term.words.split()}
"""The term of each word."""

DIRECTIONS = {word: (axis, way) for words, axis, way in _TOWARD for word in words.split()}
"""What a direction on the page is called: the axis, and the direction on it."""
