"""`paris help`: pages and their parts in a terminal, and what there is for a word."""

from __future__ import annotations

import os
import pty
import re
import subprocess
import sys
from pathlib import Path

import pytest

from pevudlo.help.pages import Page, pages
from pevudlo.lang.instructions import INSTRUCTIONS
from pevudlo.reference.page_text import shown
from pevudlo.wire.program import ROOT

LEARNT = "lesson machine scripts instructions idioms people python embedding glossary editors".split()
"""The pages that whoever learns or uses it reads."""


def paris_help(*topic: str, columns: int = 100) -> subprocess.CompletedProcess[str]:
    environment = {**os.environ, "COLUMNS": str(columns)}
    words = [str(ROOT / "paris"), "help", *topic]
    return subprocess.run(words, capture_output=True, text=True, timeout=60, env=environment, cwd="/")


def test_every_page_is_known_by_its_name() -> None:
    assert set(LEARNT) <= set(pages())
    assert {page.path for page in pages().values()} >= set((ROOT / "docs").glob("*.md"))
    said = paris_help()
    assert (said.returncode, said.stderr) == (0, "")
    assert all(re.search(rf"^  {name} +\S", said.stdout, re.M) for name in pages())
    assert all(name in said.stdout for name in INSTRUCTIONS)


@pytest.mark.parametrize("name", LEARNT)
def test_a_page_is_shown_whole(name: str) -> None:
    said = paris_help(name.upper())
    assert (said.returncode, said.stderr) == (0, "")
    page = (ROOT / "docs" / f"{name.upper()}.md").read_text()
    words = re.findall(r"\w+", re.sub(r"\]\([^)]*\)|^```\w+$", "", page, flags=re.M))
    told = re.findall(r"\w+", said.stdout)
    left_out = [word for word in set(words) if words.count(word) > told.count(word)]
    assert left_out == []


@pytest.mark.parametrize("width", [40, 100])
def test_running_text_keeps_to_the_width(width: int) -> None:
    for page in pages().values():
        prose = re.sub(r"^```.*?^```\n", "", page.text, flags=re.M | re.S)
        lines = [line for line in shown(prose, width) if len(line) > width and not line.startswith("#")]
        # A word may be wider than the terminal.
        assert all(len(line.split()) <= 2 for line in lines), (page.name, lines)


def test_code_is_shown_as_it_stands() -> None:
    page = pages()["lesson"]
    lines = shown(page.text, 40)
    for block in re.findall(r"^```\w*\n(.*?)^```", page.text, re.M | re.S):
        assert all(line in lines for line in block.splitlines())


def test_a_part_is_shown_by_words_of_its_heading() -> None:
    said = paris_help("lesson", "who", "takes", "part").stdout
    assert said.startswith("## 2. Who takes part\n") and "## 3." not in said and "Exercise 3" in said
    parts = [part.heading for part in pages()["people"].parts_named("watch")]
    assert parts == ["watch"]


def test_a_heading_in_code_is_none(tmp_path: Path) -> None:
    file = tmp_path / "x.md"
    file.write_text(
        "# X\n\n## A\n\n```\n# no heading\n## nor this\n```\nmore\n\n### `b` of [A](y.md)\n\ntext\n\n## C\n"
    )
    parts = Page("x", file).parts()
    assert [part.heading for part in parts] == ["A", "b of A", "C"]
    assert "### `b`" in parts[0].text and parts[0].text.endswith("text\n") and parts[1].text.endswith("text\n")


def test_a_table_that_is_too_wide_is_told_row_by_row() -> None:
    table = "| word | what it is |\n|---|---|\n| `set` | some processors |\n| a | b |\n"
    assert shown(table, 40) == ["  word   what it is", "  `set`  some processors", "  a      b"]
    assert shown(table, 22) == [
        "  word | what it is",
        "  `set`",
        "      what it is: some",
        "      processors",
        "  a",
        "      what it is: b",
    ]


@pytest.mark.parametrize(
    ("topic", "said"),
    [
        ("u-add-3-1L", "u-add-3-1L D A B L"),
        ("show", "show KEY"),
        ("BadLength", "12"),
        ("scan", "scan-with-u-add-1L"),
        ("if", "paris help idioms If and else"),
        ("shift", "get-from-news"),
        ("sort", "paris help lesson 7. Sorting"),
    ],
)
def test_words_are_looked_up(topic: str, said: str) -> None:
    ran = paris_help(topic)
    assert (ran.returncode, ran.stderr) == (0, "") and said in ran.stdout


@pytest.mark.parametrize(
    ("topic", "near"), [("lessn", "`lesson`"), ("xyzzyx", "alone lists"), ("\x1b[2J", "alone lists")]
)
def test_what_there_is_no_help_for(topic: str, near: str) -> None:
    ran = paris_help(topic)
    assert (ran.returncode, ran.stdout) == (1, "") and near in ran.stderr and "\x1b" not in ran.stderr


def test_a_package_that_stands_alone_says_so(tmp_path: Path) -> None:
    folder = tmp_path / "lib" / "python"
    folder.mkdir(parents=True)
    subprocess.run(["cp", "-r", ROOT / "python/pevudlo", folder], check=True)
    environment = {**os.environ, "PYTHONPATH": str(folder)}
    words = [sys.executable, "-m", "pevudlo", "help"]
    for topic, status in (("", 0), ("show", 0), ("lesson", 1)):
        ran = subprocess.run(
            [*words, *topic.split()], capture_output=True, text=True, timeout=60, env=environment, cwd=tmp_path
        )
        assert ran.returncode == status and "Traceback" not in ran.stderr
        assert topic or "No pages were installed" in ran.stdout


def test_a_page_is_paged_on_a_terminal(tmp_path: Path) -> None:
    ours, theirs = pty.openpty()
    environment = {**os.environ, "PAGER": f"tee {tmp_path}/paged >/dev/null", "TERM": "xterm"}
    with subprocess.Popen(
        [str(ROOT / "paris"), "help", "lesson"], stdin=theirs, stdout=theirs, env=environment
    ) as child:
        os.close(theirs)
        assert child.wait(60) == 0
    os.close(ours)
    assert (tmp_path / "paged").read_text().startswith("# A first lesson")
