"""The texts of faults: the sources of the program are the one place where they are said."""

from __future__ import annotations

import re
from pathlib import Path

from pevudlo.lang.faults import FAULTS

REPOSITORY = Path(__file__).resolve().parents[2]
SOURCE = REPOSITORY / "crates/paris_names/src/faults.rt"


def test_each_fault_has_the_text_and_the_number_of_the_sources() -> None:
    lines = [line.strip() for line in SOURCE.read_text().split("\n")]
    for fault in FAULTS.values():
        variant = next(at for at, line in enumerate(lines) if re.fullmatch(rf"{fault.name}(\(.*\))?,", line))
        assert lines[variant - 1] == f'#[error("{fault.text}")]'
        assert any(re.fullmatch(rf"Fault::{fault.name}(\(.*\))? => {fault.number},", line) for line in lines)
    assert sorted(FAULTS) == list(range(1, 24))
    assert sum(line.startswith('#[error("') for line in lines) == len(FAULTS)


def test_names_are_those_of_the_documents() -> None:
    text = (REPOSITORY / "docs/SCRIPTS.md").read_text().split("\n## Refusals\n")[1].split("\n## ")[0]
    rows = re.findall(r"^\| (\d+) \| (\w+)", text, re.M)
    assert len(rows) == 19
    assert all(FAULTS[int(number)].name == name for number, name in rows)


def test_words() -> None:
    assert FAULTS[9].words(3) == "the value for processor 3 does not fit the width"
    assert FAULTS[12].words() == "a length is 0, or above the width of an operand"
