"""The reference: it is whole, and each example shows what the program answers and what the definitions give."""

from __future__ import annotations

import re
from collections.abc import Iterator
import pytest
from paris_model_book import Book, flags_written, keys_of
from pevudlo.lang.faults import FAULTS
from pevudlo.lang.instructions import INSTRUCTIONS
from pevudlo.reference.entry import Entry, Example, Kind, Step, steps
from pevudlo.reference.table import ENTRIES, LETTERS, explained_words, find, of_kind
from pevudlo.wire.pipe import Pipe
from pevudlo.wire.program import ROOT, find as find_program

PROGRAM = find_program()
SCRIPTS = (ROOT / "docs" / "SCRIPTS.md").read_text()
COMMANDS = "paris set field input insert delete replace take bring release show list faults settle".split()
UNSHOWN = (17, 18, 19, 21, 23)
"""Faults that no script meets."""


def name_of(entry: Entry) -> str:
    return f"{entry.kind.value}-{entry.name}"


WITH_EXAMPLE = [entry for entry in ENTRIES if entry.example is not None]
OF_MODEL = [entry for entry in WITH_EXAMPLE if entry.kind is not Kind.FAULT]


def example_of(entry: Entry) -> Example:
    assert entry.example is not None
    return entry.example


def replies_by_program(example: Example) -> list[tuple[str, tuple[str, ...]]]:
    with Pipe(PROGRAM) as pipe:
        return [(line, tuple(pipe.ask(line))) for line, _ in example.asked()]


def replies_by_model(example: Example) -> list[tuple[str, tuple[str, ...]]]:
    book = Book()
    return [(line, tuple(book.answer(line))) for line, _ in example.asked()]


@pytest.mark.parametrize("entry", WITH_EXAMPLE, ids=name_of)
def test_the_program_answers_what_an_example_says(entry: Entry) -> None:
    assert replies_by_program(example_of(entry)) == list(example_of(entry).asked())


@pytest.mark.parametrize("entry", OF_MODEL, ids=name_of)
def test_the_definitions_give_what_an_example_says(entry: Entry) -> None:
    assert replies_by_model(example_of(entry)) == list(example_of(entry).asked())


def table(heading: str, text: str = SCRIPTS) -> Iterator[list[str]]:
    """The rows of the tables below a heading, cell by cell."""
    part = text.split(f"\n## {heading}\n")[1].split("\n## ")[0]
    for line in part.split("\n"):
        if line.startswith("| ") and not set(line) <= set("|- "):
            yield [cell.strip() for cell in line.strip("|").split(" | ")]


def documented_spellings() -> set[str]:
    """Each spelling of the document's table of instructions, with every combiner in the place of OP."""
    found = set()
    for cells in list(table("Instructions"))[1:]:
        texts = re.findall(r"`([^`]+)`", cells[0])
        shared = texts.pop() if "each with" in cells[0] else ""
        for text in texts:
            whole = f"{text} {shared}".strip()
            if re.match(r"[a-z]", whole) and " " in whole:
                found |= {whole.replace("OP", combiner) for combiner in combiners()} if "-OP-" in whole else {whole}
    return found


def combiners() -> list[str]:
    said = re.search(r"OP is one of (.*?)\.\n", SCRIPTS)
    assert said is not None
    return re.findall(r"`([^`]+)`", said.group(1))


def test_each_command_has_an_entry_as_the_document_spells_it() -> None:
    documented = [", ".join(re.findall(r"`([^`]+)`", cells[0])) for cells in list(table("Commands"))[1:]]
    assert [entry.spelling for entry in of_kind(Kind.COMMAND)] != []
    assert sorted(entry.spelling for entry in of_kind(Kind.COMMAND)) == sorted(documented)
    assert sorted(entry.name for entry in of_kind(Kind.COMMAND)) == sorted(COMMANDS)


def test_each_instruction_has_an_entry_as_the_document_spells_it() -> None:
    spellings = [entry.spelling for entry in of_kind(Kind.INSTRUCTION)]
    assert len(spellings) == len(set(spellings)) == 77
    assert set(spellings) == documented_spellings()
    assert [entry.name for entry in of_kind(Kind.INSTRUCTION)] == [text.split(" ")[0] for text in spellings]
    assert {entry.name for entry in of_kind(Kind.INSTRUCTION)} == set(INSTRUCTIONS)


def test_each_fault_has_an_entry_and_an_example_where_a_script_meets_it() -> None:
    faults = of_kind(Kind.FAULT)
    assert [(entry.number, entry.name) for entry in faults] == [
        (number, FAULTS[number].name) for number in range(1, 24)
    ]
    assert tuple(entry.number for entry in faults if entry.example is None) == UNSHOWN


def test_the_example_of_a_fault_ends_with_the_document_s_reply() -> None:
    documented = {int(cells[0]): cells[4].strip("`") for cells in list(table("Refusals"))[1:]}
    shown = {entry.number: entry for entry in of_kind(Kind.FAULT) if entry.example is not None}
    assert len(shown) == 18
    for number, entry in shown.items():
        replies = [reply for _, reply in example_of(entry).asked()]
        assert replies[-1] == (documented[number],), entry.name
        assert not any(line.startswith("refused") for reply in replies[:-1] for line in reply), entry.name


@pytest.mark.parametrize("entry", of_kind(Kind.INSTRUCTION), ids=name_of)
def test_an_example_runs_its_instruction_and_shows_all_that_it_writes(entry: Entry) -> None:
    book = Book()
    rows, shown = [], set()
    for line, reply in example_of(entry).asked():
        book.answer(line)
        if line.startswith("insert end "):
            rows.append(line.removeprefix("insert end "))
        if line.startswith("show "):
            shown.add(line.split(" ")[1])
            assert re.fullmatch(r"values \d+( \d+)*", reply[0])
    assert {row.split(" ")[0] for row in rows} == {entry.name}
    written = set().union(*(keys_of(book.board, row)[1] for row in rows))
    assert written == shown


@pytest.mark.parametrize("entry", of_kind(Kind.INSTRUCTION), ids=name_of)
def test_the_flags_that_an_entry_names_are_those_that_it_writes(entry: Entry) -> None:
    named = set(re.findall(r"\b(context|test|carry|overflow)\b", entry.flags.split(":")[0]))
    for clause in entry.flags.split(". ")[1:]:
        named |= set(re.findall(r"^(context|test|carry|overflow)", clause))
    if entry.kind is Kind.INSTRUCTION and ":" not in entry.flags:
        named = set(re.findall(r"^(context|test|carry|overflow)", entry.flags))
    assert named == flags_written(entry.name) == set(INSTRUCTIONS[entry.name].flags)


def looks_by_model(example: Example, lines: list[str]) -> list[str]:
    """What the looks of an example show after other lines than its own."""
    book = Book()
    for line in lines:
        book.answer(line)
    return [reply for line, _ in example.asked() if line.startswith("show ") for reply in book.answer(line)]


CONDITIONAL = [entry for entry in of_kind(Kind.INSTRUCTION) if INSTRUCTIONS[entry.name].is_conditional]


@pytest.mark.parametrize("entry", CONDITIONAL, ids=name_of)
def test_in_an_example_it_is_seen_who_is_selected(entry: Entry) -> None:
    example = example_of(entry)
    others = [line for line, _ in example.asked() if not re.match(r"input \w\.context |show ", line)]
    shown = [reply[0] for line, reply in example.asked() if line.startswith("show ")]
    assert looks_by_model(example, others) != shown


@pytest.mark.parametrize("entry", of_kind(Kind.INSTRUCTION), ids=name_of)
def test_an_example_tells_its_instruction_from_others_of_the_same_operands(entry: Entry) -> None:
    example = example_of(entry)
    shown = [reply[0] for line, reply in example.asked() if line.startswith("show ")]
    alike = [other for other in INSTRUCTIONS.values() if other.operands == INSTRUCTIONS[entry.name].operands]
    assert looks_by_model(example, [line for line, _ in example.asked()]) == shown
    for other in alike:
        if other.name != entry.name:
            lines = [line.replace(f" {entry.name} ", f" {other.name} ") for line, _ in example.asked()]
            assert (
                looks_by_model(example, [line for line in lines if not line.startswith("show ")]) != shown
            ), other.name


def test_the_letters_of_a_spelling_are_explained() -> None:
    for entry in of_kind(Kind.INSTRUCTION):
        assert list(explained_words(entry)) == entry.spelling.split(" ")[1:]
    assert {letter for entry in of_kind(Kind.INSTRUCTION) for letter in explained_words(entry)} == set(LETTERS)
    assert list(explained_words(find("input")[0])) == ["KEY", "NUM", "VAL"]


def test_entries_are_found_by_name_and_number() -> None:
    assert [entry.name for entry in find("U-ADD-3-1L")] == ["u-add-3-1L"]
    assert [entry.name for entry in find("12")] == ["BadLength"]
    assert [entry.name for entry in find("badlength")] == ["BadLength"]
    assert [entry.kind for entry in find("faults")] == [Kind.COMMAND]
    assert find("0") == find("") == find("nothing-at-all") == []


def test_names_are_of_one_entry() -> None:
    names = [entry.name.lower() for entry in ENTRIES]
    assert len(names) == len(set(names))


def test_steps_say_replies_that_are_left_out() -> None:
    text = "set S 4\ninsert end set-test S\ninsert end set-test S\nlist => rows 1 / 1 x"
    assert steps(text) == (
        Step("set S 4", ("ok",)),
        Step("insert end set-test S", ("row 1",)),
        Step("insert end set-test S", ("row 2",)),
        Step("list", ("rows 1", "1 x")),
    )
    assert list(Step("field f{n} S 1", ("row {n}",), 2).asked()) == [
        ("field f1 S 1", ("row 1",)),
        ("field f2 S 1", ("row 2",)),
    ]
