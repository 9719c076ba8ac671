"""The faults, by number, with the names and texts that the program's sources give them."""

# Made by python/tools/make-modules: don't edit.

from __future__ import annotations

from dataclasses import dataclass


@dataclass(frozen=True)
class Fault:
    """A fault. Where its text has `{0}`, the fault's own number belongs there."""

    number: int
    name: str
    text: str

    def words(self, detail: int | None = None) -> str:
        """The text with the fault's own number in it."""
        return self.text if detail is None else self.text.replace("{0}", str(detail))


FAULTS: dict[int, Fault] = {
    each.number: each
    for each in (
        Fault(1, "SetsFull", "as many sets as a board may have are declared"),
        Fault(2, "BadAxes", "the lengths of the axes make no geometry"),
        Fault(3, "NameTaken", "a set or a field has this name"),
        Fault(4, "NoSet", "no set has this name"),
        Fault(5, "FieldsFull", "as many fields as a board may have are declared"),
        Fault(6, "BadWidth", "the width is 0 or above the greatest one"),
        Fault(7, "NoField", "no field has this name, or no set has the name before the dot"),
        Fault(8, "WrongCount", "there are no values, or more than fit from the first place on"),
        Fault(9, "TooWide", "the value for processor {0} does not fit the width"),
        Fault(10, "NoRow", "no row has this id"),
        Fault(11, "RowsFull", "the program has as many rows as it may have"),
        Fault(12, "BadLength", "a length is 0, or above the width of an operand"),
        Fault(13, "WrongSet", "fields of two sets are named"),
        Fault(14, "BadAxis", "the set has no axis of this number"),
        Fault(
            15,
            "BadOperand",
            "an operand of one bit is wider, a constant is too great, or a coordinate is outside its axis",
        ),
        Fault(16, "Overlap", "the notify field is the destination"),
        Fault(17, "EditionsSpent", "the edit counter is at its greatest value"),
        Fault(18, "HistoryFull", "the history has {0} entries, which is its limit"),
        Fault(19, "NoMemory", "there is no memory left"),
        Fault(20, "Syntax", "the line is not in the grammar, from column {0} on"),
        Fault(21, "StrangeSeat", "the seat has seen {0} entries of a history of {1}"),
        Fault(22, "NoOrder", "no order has this number"),
        Fault(23, "NoEntry", "a look found no entry"),
    )
}
