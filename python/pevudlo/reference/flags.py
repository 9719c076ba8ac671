"""The reference: instructions on the test flag and on the context flag, which says which processors are selected."""

from __future__ import annotations

from pevudlo.reference.arithmetic import instruction
from pevudlo.reference.entry import Entry, worked

TEST = """
set S 4
field f S 1
input f 0 1 0 1 0
input S.test 0 0 1 0 1
input S.context 0 1 1 0 0
"""

CONTEXT = """
set S 4
field f S 1
input f 0 1 0 1 0
input S.test 0 1 0 1 0
input S.context 0 1 1 0 0
"""


def on_test(name: str, operand: str, does: str, key: str, values: str) -> Entry:
    """An instruction on the test flag: it acts in selected processors, as all instructions but a few do."""
    flags = "" if name == "store-test" else does[0].lower() + does[1:].rstrip(".")
    return instruction(name, does, flags, worked(TEST, f"{name} {operand}", {key: values}))


def on_context(name: str, operand: str, does: str, key: str, values: str) -> Entry:
    """An instruction on the context flag: it acts in every processor."""
    flags = "" if name == "store-context" else does[0].lower() + does[1:].rstrip(".")
    said = f"{does} It acts in every processor, selected or not."
    return instruction(name, said, flags, worked(CONTEXT, f"{name} {operand}", {key: values}))


OF_TEST: tuple[Entry, ...] = (
    on_test("set-test", "S", "Test becomes 1.", "S.test", "1 1 0 1"),
    on_test("clear-test", "S", "Test becomes 0.", "S.test", "0 0 0 1"),
    on_test("load-test", "f", "Test becomes the bit F.", "S.test", "1 0 0 1"),
    on_test("store-test", "f", "Stores the test flag in the bit F.", "f", "0 1 1 0"),
)

OF_CONTEXT: tuple[Entry, ...] = (
    on_context("set-context", "S", "Context becomes 1: all processors are selected.", "S.context", "1 1 1 1"),
    on_context("clear-context", "S", "Context becomes 0: no processor is selected.", "S.context", "0 0 0 0"),
    on_context("invert-context", "S", "Context becomes the other bit.", "S.context", "0 0 1 1"),
    on_context("load-context", "f", "Context becomes the bit F.", "S.context", "1 0 1 0"),
    on_context(
        "logand-context", "f", "Context stays where the bit F is 1, and becomes 0 elsewhere.", "S.context", "1 0 0 0"
    ),
    on_context(
        "logior-context", "f", "Context stays where the bit F is 0, and becomes 1 elsewhere.", "S.context", "1 1 1 0"
    ),
    on_context(
        "logand-context-with-test",
        "S",
        "Context stays where the test flag is 1, and becomes 0 elsewhere.",
        "S.context",
        "1 0 0 0",
    ),
    on_context("store-context", "f", "Stores the context flag in the bit F.", "f", "1 1 0 0"),
)
