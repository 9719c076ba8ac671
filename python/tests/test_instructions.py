"""The table of instructions: its spellings are those of the documents and of the program; its functions give them."""

from __future__ import annotations

import os
import pydoc
import re
import subprocess
import sys
from pathlib import Path

import pytest

from pevudlo import paris
from pevudlo.lang.instructions import BY_FUNCTION, COMBINERS, INSTRUCTIONS, Instruction, Operand, read
from pevudlo.wire.pipe import Pipe
from pevudlo.wire.program import find

REPOSITORY = Path(__file__).resolve().parents[2]
WORDS = {
    Operand.DESTINATION: "d",
    Operand.A: "a",
    Operand.B: "b",
    Operand.SET: "S",
    Operand.BIT: "f",
    Operand.AXIS: "1",
    Operand.LENGTH: "8",
    Operand.SOURCE_LENGTH: "7",
    Operand.COORDINATE: "3",
    Operand.CONSTANT: "200",
    Operand.DIRECTION: "downward",
    Operand.INCLUSION: "exclusive",
    Operand.SEGMENTS: "g",
    Operand.NOTIFY: "n",
}
DECLARED = ["set S 2x4"] + [f"field {name} S 8" for name in "dab"] + [f"field {name} S 1" for name in "fgn"]
EVERY = list(INSTRUCTIONS.values())


def operands_of(instruction: Instruction) -> list[str]:
    return [WORDS[operand] for operand in instruction.operands]


def text_of(instruction: Instruction) -> str:
    return " ".join([instruction.name, *operands_of(instruction)])


def spellings_of_documents() -> set[str]:
    """The spellings of the table in docs/SCRIPTS.md, each with its letters."""
    section = (REPOSITORY / "docs/SCRIPTS.md").read_text().split("\n## Instructions\n")[1].split("\n## ")[0]
    spelled: set[str] = set()
    for line in section.split("\n"):
        if not line.startswith("| `"):
            continue
        parts = re.findall(r"`([^`]+)`", line.split(":")[0])
        names = [part for part in parts if " " not in part]
        for part in parts:
            if names and part.isupper():
                continue
            letters = [other for other in parts if other.replace(" ", "").isupper()] if " " not in part else [""]
            for combiner in COMBINERS if "OP" in part else [""]:
                spelled.add(f"{part} {letters[0]}".strip().replace("OP", combiner))
    return spelled


def test_the_spellings_are_those_of_the_documents() -> None:
    assert {each.spelling for each in EVERY} == spellings_of_documents()
    assert len(EVERY) == 77


def test_the_program_takes_each_spelling_and_shows_it_back() -> None:
    with Pipe(find()) as pipe:
        for line in DECLARED:
            assert pipe.ask(line) == ["ok"]
        for number, each in enumerate(EVERY, start=1):
            assert pipe.ask(f"insert end {text_of(each)}") == [f"row {number}"]
        _, *rows = pipe.ask("list")
    assert [row.split(" ", 4)[4] for row in rows] == [text_of(each) for each in EVERY]


def test_each_function_gives_the_text() -> None:
    assert sorted(paris.__all__) == sorted(BY_FUNCTION)
    assert len(BY_FUNCTION) == len(INSTRUCTIONS)
    for name, each in BY_FUNCTION.items():
        assert name.isidentifier()
        operands = [int(word) if word.isdigit() else word for word in operands_of(each)]
        assert getattr(paris, name)(*operands) == text_of(each)


def test_names_of_functions() -> None:
    assert paris.u_add("c", "a", "b", 8) == "u-add-3-1L c a b 8"
    assert paris.u_move("c", "a", 8) == "u-move-1L c a 8"
    assert paris.u_move_2l("c", "a", 8, 4) == "u-move-2L c a 8 4"
    assert paris.scan_with_copy("d", "v", 0, 8, "upward") == "scan-with-copy-1L d v 0 8 upward none"
    assert paris.send("d", "ad", "v", 8, notify="n") == "send-1L d ad v 8 n"


def is_changed(pipe: Pipe, row: int, key: str) -> bool:
    return pipe.ask(f"show {key} after {row}")[0].startswith("pending")


def test_each_instruction_writes_what_the_table_says() -> None:
    """A look behind an unsettled row is pending for the keys that it writes, and for no other."""
    fields, flags = list("dabfgn"), ["context", "test", "carry", "overflow"]
    with Pipe(find()) as pipe:
        for line in DECLARED:
            pipe.ask(line)
        for each in EVERY:
            row = int(pipe.ask(f"insert end {text_of(each)}")[0].split()[1])
            written = {field for field in fields if is_changed(pipe, row, field)}
            assert written == set(each.fields_written(text_of(each).split())), each.name
            assert {flag for flag in flags if is_changed(pipe, row, f"S.{flag}")} == set(each.flags), each.name
            assert pipe.ask("settle") == ["settled 1"]


def test_conditional_instructions_write_nothing_where_nothing_is_selected() -> None:
    """Where the context is 0, all but the unconditional ones leave fields and flags as they were."""
    with Pipe(find()) as pipe:
        for line in DECLARED + ["input d 0 1 2 3 4 5 6 7 8", "input a 0 9 9 9 9 9 9 9 9", "input f 0 1 0 1 0 1 0 1 0"]:
            pipe.ask(line)
        pipe.ask("input S.context 0 0 0 0 0 0 0 0 0")
        for each in EVERY:
            row = int(pipe.ask(f"insert end {text_of(each)}")[0].split()[1])
            pipe.ask("settle")
            after = [pipe.ask(f"show {key} end") for key in ("d", "f", "S.context", "S.test", "S.overflow")]
            pipe.ask(f"delete {row}")
            before = [pipe.ask(f"show {key} end") for key in ("d", "f", "S.context", "S.test", "S.overflow")]
            assert after == before or not each.is_conditional, each.name
            if each.name in ("u-move-always-1L", "set-context", "invert-context", "load-context", "store-context"):
                assert after != before, each.name


def told_on_the_page() -> dict[str, list[str]]:
    """Of each instruction the paragraphs of docs/INSTRUCTIONS.md, and its example as the last one."""
    page = (REPOSITORY / "docs/INSTRUCTIONS.md").read_text()
    told: dict[str, list[str]] = {}
    for entry in page.split("\n### ")[1:]:
        name, _, rest = entry.split("\n## ")[0].partition("\n")
        if name in INSTRUCTIONS:
            text, example = rest.split("\n```\n")[:2]
            told[name] = [*text.strip().split("\n\n"), example]
    return told


TOLD = told_on_the_page()


@pytest.mark.parametrize("instruction", EVERY, ids=list(BY_FUNCTION))
def test_help_has_the_text_and_the_example_of_the_page(instruction: Instruction) -> None:
    """`help` shows it: words may be in other lines, and the example is line by line as on the page."""
    plain = pydoc.plaintext  # type: ignore[attr-defined]
    shown = pydoc.render_doc(getattr(paris, instruction.function), renderer=plain)
    words = " ".join(shown.split())
    (spelled, *texts), example = TOLD[instruction.name][:-1], TOLD[instruction.name][-1]
    spelling, _, does = spelled.partition("`. ")
    assert spelling == f"`{instruction.spelling}" and instruction.spelling in words
    for text in (does, *texts):
        assert text.removesuffix(".") in words
    assert example in "\n".join(line.removeprefix("    ") for line in shown.split("\n"))


@pytest.mark.parametrize(
    ("name", "meant"),
    [
        ("mul", ("multiplies", "paris.u_multiply, paris.s_multiply")),
        ("u_mul", ("paris.u_multiply",)),
        ("u_add_3_1l", ("paris.u_add",)),
        ("scan_with_add", ("paris.scan_with_u_add",)),
        ("where", ("paris.logand_context_with_test", "paris.set_context")),
        ("zzz", ("dir(paris)",)),
    ],
)
def test_a_name_that_is_no_function_says_what_is_meant(name: str, meant: tuple[str, ...]) -> None:
    with pytest.raises(AttributeError) as error:
        getattr(paris, name)
    assert f"no function {name!r}" in str(error.value)
    assert all(word in str(error.value) for word in meant)
    ran = subprocess.run(
        [sys.executable, "-c", f"import pevudlo; pevudlo.paris.{name}"],
        capture_output=True,
        text=True,
        env={**os.environ, "PYTHONPATH": str(REPOSITORY / "python")},
        timeout=60,
    )
    # Python adds no guess of its own.
    assert ran.stderr.endswith(f"AttributeError: {error.value}\n")
    assert not hasattr(paris, name) and not hasattr(paris, "__wrapped__")


def test_every_name_of_the_package_is_there() -> None:
    """One is loaded once it is asked for, with the reference that its functions are told by."""
    script = "import sys, pevudlo\nprint('pevudlo.paris' in sys.modules, set(pevudlo.__all__) <= set(dir(pevudlo)))\n"
    script += "from pevudlo import *\nprint(paris.u_add is pevudlo.paris.u_add, hasattr(pevudlo, 'parys'))"
    words = [sys.executable, "-c", script]
    environment = {**os.environ, "PYTHONPATH": str(REPOSITORY / "python")}
    ran = subprocess.run(words, capture_output=True, text=True, env=environment, timeout=60)
    assert ran.stdout == "False True\nTrue False\n", ran.stderr


def test_read() -> None:
    instruction, named = read("send-1L d ad v 8 none")
    assert instruction.spelling == "send-1L D B A L N"
    assert named[Operand.B] == "ad" and named[Operand.NOTIFY] == "none"
    assert instruction.fields_written(["send-1L", "d", "ad", "v", "8", "none"]) == ("d",)
    for wrong in ("u-add c a b 8", "u-add-3-1L c a b", ""):
        with pytest.raises(ValueError):
            read(wrong)


@pytest.mark.parametrize(
    "name", ["lang/faults.py", "paris/__init__.py", "paris/elementwise.py", "paris/communication.py"]
)
def test_modules_are_what_is_made(name: str) -> None:
    made = subprocess.run(
        [sys.executable, REPOSITORY / "python/tools/make-modules", "--print", name],
        capture_output=True,
        text=True,
        timeout=60,
    )
    assert made.stdout == (REPOSITORY / "python/pevudlo" / name).read_text()
    assert made.returncode == 0
