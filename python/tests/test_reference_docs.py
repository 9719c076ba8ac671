"""docs/INSTRUCTIONS.md: it is made from the table, and its blocks do what their comments say."""

from __future__ import annotations

import re
import shutil
import subprocess
import sys
from pathlib import Path

import pytest
from reference_markdown import document

from pevudlo.reference.table import ENTRIES, find
from pevudlo.reference.text import help_lines, is_whole, script_lines
from pevudlo.wire.pipe import Pipe
from pevudlo.wire.program import ROOT, find as find_program

DOCUMENT = ROOT / "docs" / "INSTRUCTIONS.md"
MAKER = ROOT / "python/tools/make-docs"


def blocks() -> dict[str, list[str]]:
    """The block below each heading that has one."""
    text = DOCUMENT.read_text()
    found = re.findall(r"^### (\S+)\n(?:(?!^#{2,3} ).)*?^```\n(.*?)^```$", text, re.M | re.S)
    return {name: block.rstrip("\n").split("\n") for name, block in found}


WHOLE = {entry.name for entry in ENTRIES if entry.example is not None and is_whole(entry.example)}


def test_the_document_is_what_the_table_says() -> None:
    assert DOCUMENT.read_text() == document(), "run python/tools/make-docs"


def test_the_document_has_an_example_of_each_entry() -> None:
    assert set(blocks()) == {entry.name for entry in ENTRIES if entry.example is not None}
    assert len(blocks()) == 14 + 77 + 18


@pytest.mark.parametrize("name", sorted(WHOLE))
def test_a_block_that_is_pasted_answers_its_comments(name: str) -> None:
    wanted: list[str] = []
    told: list[str] = []
    with Pipe(find_program()) as pipe:
        for line in blocks()[name]:
            if line.startswith("# "):
                wanted.append(line.removeprefix("# "))
            told += [reply for reply in pipe.ask(line) if not re.fullmatch(r"ok|row \d+|settled \d+", reply)]
    assert told == wanted != []


def test_help_has_words_flags_operands_and_the_example() -> None:
    (entry,) = find("u-add-3-1L")
    lines = help_lines(entry)
    assert lines[0] == "u-add-3-1L D A B L"
    assert entry.example is not None
    assert lines[-len(script_lines(entry.example)) :] == script_lines(entry.example)
    text = "\n".join(lines)
    assert "Flags: carry and overflow" in text and re.search(r"^ +D +the destination, a field$", text, re.M)
    assert max(map(len, lines)) <= 104


def test_help_of_a_fault_that_no_script_meets_says_so() -> None:
    (entry,) = find("NoMemory")
    assert help_lines(entry)[0] == "refused 19   (fault NoMemory)"
    assert help_lines(entry)[-1].strip() == "No script shows it."


def run_maker(maker: Path, *words: str) -> subprocess.CompletedProcess[str]:
    return subprocess.run([sys.executable, maker, *words], capture_output=True, text=True, timeout=60)


def test_the_maker_says_what_is_old_and_refuses_other_words() -> None:
    assert run_maker(MAKER, "--check").returncode == 0
    wrong = run_maker(MAKER, "--chk")
    assert wrong.returncode == 2 and wrong.stderr.startswith("usage: ")


def test_the_maker_finds_a_document_that_was_changed(tmp_path: Path) -> None:
    shutil.copytree(MAKER.parent, tmp_path / "python/tools")
    (tmp_path / "python/pevudlo").symlink_to(ROOT / "python/pevudlo")
    maker = tmp_path / "python/tools/make-docs"
    assert run_maker(maker, "--check").returncode == 1
    assert run_maker(maker).returncode == 0
    made = tmp_path / "docs" / "INSTRUCTIONS.md"
    assert made.read_text() == document()
    assert run_maker(maker, "--check").returncode == 0
    made.write_text(document().replace("values 1", "values 2"))
    old = run_maker(maker, "--check")
    assert old.returncode == 1 and "docs/INSTRUCTIONS.md is old" in old.stderr
