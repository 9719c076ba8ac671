"""The reference: what goes by address. Gets, sends, and sends that combine."""

from __future__ import annotations

from pevudlo.reference.arithmetic import instruction
from pevudlo.reference.entry import Entry, worked
from pevudlo.reference.lines import COMBINES_TO

GET = """
set S 4
field ad S 2
field v S 8
field d S 8
input ad 0 3 3 0 1
input v 0 10 20 30 40
input S.context 2 0
"""

SEND = """
set S 4
field ad S 2
field v S 4
field d S 4
field n S 1
input ad 0 {addresses}
input v 0 9 3 14 10
input d 0 6 7 13 5
input S.context 3 0
"""


def combining(combiner: str, values: str) -> Entry:
    """A combining send: two messages meet in processor 2, one comes to processor 0."""
    name = f"send-with-{combiner}-1L"
    does = (
        "Each selected processor sends its value of A to the processor whose send address B holds. That one stores "
        f"{COMBINES_TO[combiner]} of its old value of D and of all that arrives in D, whatever its own context. "
        "N becomes 1 in each processor that got a message, and 0 in every other one; with `none` nothing is notified."
    )
    data = SEND.format(addresses="2 0 2 1")
    return instruction(name, does, "", worked(data, f"{name} d ad v 4 n", {"d": values, "n": "1 0 1 0"}))


ENTRIES: tuple[Entry, ...] = (
    instruction(
        "get-1L",
        "Each selected processor stores the value of A of the processor whose send address B holds in D. Where a "
        "selected processor holds an address outside the set, the row is refused when it runs, and `faults` lists it.",
        "",
        worked(GET, "get-1L d ad v 8", {"d": "40 40 0 20"}),
    ),
    instruction(
        "send-1L",
        "Each selected processor sends its value of A to the processor whose send address B holds. That one stores it "
        "in D, whatever its own context. N becomes 1 in each processor that got a message, and 0 in every other one; "
        "with `none` nothing is notified. Where two messages meet, the row is refused when it runs, and `faults` "
        "lists it.",
        "",
        worked(SEND.format(addresses="2 0 3 1"), "send-1L d ad v 4 n", {"d": "3 7 9 14", "n": "1 0 1 1"}),
    ),
    combining("u-add", "9 7 4 5"),
    combining("logior", "7 7 15 5"),
    combining("logand", "2 7 8 5"),
    combining("logxor", "5 7 10 5"),
    combining("u-max", "6 7 14 5"),
    combining("u-min", "3 7 9 5"),
)
