"""The reference: what goes to neighbours and along lines. NEWS, scans, spreads, reduces."""

from __future__ import annotations

from pevudlo.reference.arithmetic import instruction
from pevudlo.reference.entry import Entry, worked

NEWS = """
set G 4x2
field v G 8
field d G 8
field e G 8
input v 0 10 11 12 13 20 21 22 23
input G.context 3 0
"""

COMBINES_TO = {
    "u-add": "the sum",
    "logior": "the or of bits",
    "logand": "the and of bits",
    "logxor": "the exclusive or of bits",
    "u-max": "the greatest",
    "u-min": "the least",
}
"""What each combiner makes of numbers."""

UNITS = {"u-add": "0", "logior": "0", "logand": "2^L - 1", "logxor": "0", "u-max": "0", "u-min": "2^L - 1"}
"""The number that a combiner begins with: the first one of an exclusive scan gets it."""

SUM_OVERFLOW = "overflow: 1 where the exact sum is at least 2^L, else 0, in each processor that stores"


NUMBERS = "3 1 4 1 5 9 2 6"


def line_data(combiner: str) -> str:
    """A line of eight processors, of which one isn't selected, and two segments."""
    numbers = "15 14 12 13 15 0 7 6" if combiner == "logand" else NUMBERS
    return f"""
set S 8
field v S 4
field d S 4
field e S 4
field g S 1
input v 0 {numbers}
input g 0 0 0 0 1 0 0 0 0
input S.context 5 0
"""


def grid_data(combiner: str) -> str:
    """A grid of two lines of four processors, of which one isn't selected."""
    numbers = "15 14 4 13 15 7 14 5" if combiner == "logand" else NUMBERS
    return f"""
set G 4x2
field v G 4
field d G 4
input v 0 {numbers}
input G.context 2 0
"""


def scan(combiner: str, upward: str, downward: str, overflow: str = "") -> Entry:
    """A scan upward over the whole line into d, and one downward that begins anew at each segment, into e."""
    name = f"scan-with-{combiner}-1L"
    does = (
        f"Stores in D of each selected processor {COMBINES_TO[combiner]} of the values of A of the selected processors "
        "from the start of its segment to itself, along axis X in the direction. `inclusive` counts its own value, "
        f"`exclusive` doesn't: the first one of a segment gets {UNITS[combiner]} then. A segment begins where G is 1, "
        "whatever the context there; with `none` the line is one segment."
    )
    shows = {"d": upward, "e": downward} | ({"S.overflow after 1": overflow} if overflow else {})
    rows = f"{name} d v 0 4 upward inclusive none ; {name} e v 0 4 downward exclusive g"
    return instruction(name, does, SUM_OVERFLOW if overflow else "", worked(line_data(combiner), rows, shows))


def spread(combiner: str, values: str, overflow: str = "") -> Entry:
    """A spread along both lines of a grid."""
    name = f"spread-with-{combiner}-1L"
    does = (
        f"Stores {COMBINES_TO[combiner]} of the values of A of all selected processors of the line along axis X in D, "
        "in each selected processor of the line."
    )
    shows = {"d": values} | ({"G.overflow": overflow} if overflow else {})
    flags = SUM_OVERFLOW if overflow else ""
    return instruction(name, does, flags, worked(grid_data(combiner), f"{name} d v 0 4", shows))


def reduce(combiner: str, values: str, overflow: str = "") -> Entry:
    """A reduce to coordinate 2 of both lines of a grid: in one of them that processor isn't selected."""
    name = f"reduce-with-{combiner}-1L"
    does = (
        f"Stores {COMBINES_TO[combiner]} of the values of A of all selected processors of the line along axis X in D, "
        "only in the line's processor at coordinate C, and only where it is selected."
    )
    shows = {"d": values} | ({"G.overflow": overflow} if overflow else {})
    flags = SUM_OVERFLOW if overflow else ""
    return instruction(name, does, flags, worked(grid_data(combiner), f"{name} d v 0 4 2", shows))


NEIGHBOURS = (
    instruction(
        "get-from-news-1L",
        "Each selected processor stores the value of A of its neighbour on axis X in D. The neighbour upward has the "
        "next greater coordinate, and the last one's is the first. The receiver's context decides.",
        "",
        worked(
            NEWS,
            "get-from-news-1L d v 0 upward 8 ; get-from-news-1L e v 1 downward 8",
            {"d": "11 12 13 0 21 22 23 20", "e": "20 21 22 0 10 11 12 13"},
        ),
    ),
    instruction(
        "send-to-news-1L",
        "Each selected processor sends its value of A to its neighbour on axis X, which stores it in D whatever its "
        "own context. The neighbour upward has the next greater coordinate, and the last one's is the first. "
        "The sender's context decides.",
        "",
        worked(
            NEWS,
            "send-to-news-1L d v 0 upward 8 ; send-to-news-1L e v 1 downward 8",
            {"d": "0 10 11 12 23 20 21 22", "e": "20 21 22 23 10 11 12 0"},
        ),
    ),
)

SCANS = (
    scan("u-add", "3 4 8 9 14 0 0 6", "6 5 1 0 8 0 6 0", "0 0 0 0 0 0 1 1"),
    scan("logior", "3 3 7 7 7 0 7 7", "5 5 1 0 6 0 6 0"),
    scan("logand", "15 14 12 12 12 0 4 4", "12 12 13 15 6 0 6 15"),
    scan("logxor", "3 2 6 7 2 0 0 6", "4 5 1 0 4 0 6 0"),
    scan("u-max", "3 3 4 4 5 0 5 6", "4 4 1 0 6 0 6 0"),
    scan("u-min", "3 1 1 1 1 0 1 1", "1 1 1 15 2 0 6 15"),
    instruction(
        "scan-with-copy-1L",
        "Stores in D of each selected processor the value of A of the first selected processor of its segment, along "
        "axis X in the direction. A segment begins where G is 1, whatever the context there; with `none` the line is "
        "one segment.",
        "",
        worked(
            line_data("copy"),
            "scan-with-copy-1L d v 0 4 upward none ; scan-with-copy-1L e v 0 4 downward g",
            {"d": "3 3 3 3 3 0 3 3", "e": "1 1 1 1 6 0 6 6"},
        ),
    ),
)

SPREADS = (
    spread("u-add", "5 5 0 5 6 6 6 6", "0 0 0 0 1 1 1 1"),
    spread("logior", "3 3 0 3 15 15 15 15"),
    spread("logand", "12 12 0 12 4 4 4 4"),
    spread("logxor", "3 3 0 3 8 8 8 8"),
    spread("u-max", "3 3 0 3 9 9 9 9"),
    spread("u-min", "1 1 0 1 2 2 2 2"),
    instruction(
        "spread-with-copy-1L",
        "Stores the value of A of the line's processor at coordinate C, whatever that one's context, in D, in each "
        "selected processor of the line along axis X.",
        "",
        worked(grid_data("copy"), "spread-with-copy-1L d v 0 4 2", {"d": "4 4 0 4 2 2 2 2"}),
    ),
)

REDUCES = (
    reduce("u-add", "0 0 0 0 0 0 6 0", "0 0 0 0 0 0 1 0"),
    reduce("logior", "0 0 0 0 0 0 15 0"),
    reduce("logand", "0 0 0 0 0 0 4 0"),
    reduce("logxor", "0 0 0 0 0 0 8 0"),
    reduce("u-max", "0 0 0 0 0 0 9 0"),
    reduce("u-min", "0 0 0 0 0 0 2 0"),
)
