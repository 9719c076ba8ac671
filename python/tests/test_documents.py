"""The examples of docs/PYTHON.md, ARRAYS.md and GALLERY.md, run as they stand there, and the programs that measure."""

from __future__ import annotations

import doctest
import os
import re
import subprocess
import sys
from pathlib import Path

import pytest

from pevudlo import Desk, Look, Machine, Order, Seat, find

REPOSITORY = Path(__file__).resolve().parents[2]
DOCUMENT = REPOSITORY / "docs/PYTHON.md"


def test_the_examples_give_what_the_document_says(library: bool) -> None:
    text = DOCUMENT.read_text(encoding="utf-8")
    blocks = re.findall(r"```python\n(.*?)```", text, re.S)
    chosen = [block for block in blocks if library or not re.search("library=|Library", block)]
    assert (len(chosen) == len(blocks)) == library
    test = doctest.DocTestParser().get_doctest("\n".join(chosen), {}, "docs/PYTHON.md", str(DOCUMENT), 0)
    assert not library or len(test.examples) == text.count("\n>>> ")
    assert doctest.DocTestRunner(optionflags=doctest.IGNORE_EXCEPTION_DETAIL).run(test).failed == 0
    for value in test.globs.values():
        if isinstance(value, Machine):
            value.close()


@pytest.mark.parametrize("name", ["ARRAYS", "GALLERY"])
def test_the_examples_of_functions_give_what_the_document_says(libparis: Path, name: str) -> None:
    path = REPOSITORY / f"docs/{name}.md"
    text = path.read_text(encoding="utf-8")
    blocks = re.findall(r"```python\n(.*?)```", text, re.S)
    test = doctest.DocTestParser().get_doctest("\n".join(blocks), {}, f"docs/{name}.md", str(path), 0)
    assert len(test.examples) == text.count("\n>>> ") > 30
    assert doctest.DocTestRunner().run(test).failed == 0


def lists_in(text: str) -> list[list[int]]:
    """The lists of whole numbers in a text."""
    return [[int(word) for word in found.split(", ")] for found in re.findall(r"\[((?:\d+, )+\d+)\]", text)]


def test_the_gallery_gives_what_the_scripts_of_examples_give() -> None:
    """Its lists stand at the front of what the scripts show, where numbers that no processor has are left out."""
    text = (REPOSITORY / "docs/GALLERY.md").read_text(encoding="utf-8")
    blocks = re.findall(r"\*\*([^*]*)[.,]\*\*.*?```python\n(.*?)```", text.split("## The programs of")[1], re.S)
    assert len(blocks) == 8
    for name, block in blocks:
        script = name.lower().replace(" by vector", " vector").replace(" ", "-")
        expected = (REPOSITORY / "examples" / f"{script}.expected").read_text(encoding="utf-8")
        shown = [line.split()[1:] for line in expected.splitlines() if line.startswith("values")]
        numbers = [[int(word) for word in line] for line in shown]
        got = lists_in("".join(line for line in block.splitlines(True) if not line.startswith((">>>", "..."))))
        for each in got if name != "Life" else ():
            assert any(line[: len(each)] == each or [number for number in line if number] == each for line in numbers)
        if name == "Life":
            assert any([[at // 8, at % 8] for at, cell in enumerate(line) if cell] == got for line in numbers)
        assert got or name == "Dot product"


def test_the_document_names_each_call() -> None:
    text = DOCUMENT.read_text(encoding="utf-8").split("## Calls and commands")[1].split("\n## ")[0]
    calls = [name for name in dir(Machine) if not name.startswith("_")]
    assert {"insert", "settle", "copy"} <= set(calls)
    for name in set(calls) - {"close", "process"}:
        assert re.search(rf"`(machine\.)?{name}\b", text), name


@pytest.mark.parametrize("kind", [Desk, Seat, Look, Order])
def test_the_document_names_each_call_of_a_desk(kind: type) -> None:
    text = DOCUMENT.read_text(encoding="utf-8").split("### Several people at one program")[1].split("\n## ")[0]
    calls = [name for name in dir(kind) if not name.startswith("_")]
    assert calls
    for name in calls:
        assert re.search(rf"`(look\.|order\.)?{name}\b", text), name


def test_bench_measures() -> None:
    find()
    ran = subprocess.run([sys.executable, REPOSITORY / "bench/pipe", "1"], capture_output=True, text=True, timeout=60)
    assert ran.returncode in (0, 1) and ran.stderr == ""
    times, rows = (table.splitlines() for table in ran.stdout.split("\n\n"))
    assert times[0].startswith("| what |") and len(times) == 6
    assert all(re.fullmatch(r"\|[^|]+\|( \d+\.\d (us|ms) \|){3} 200 (us|ms) \|", line) for line in times[2:])
    assert rows[0].startswith("| a row is put in |") and len(rows) in (4, 6)
    assert all(re.fullmatch(r"\|[^|]+\|( \d+\.\d µs \|){2} \*\*\d+\.\d+\*\* \|", line) for line in rows[2:])


def test_bench_measures_arrays(libparis: Path) -> None:
    ran = subprocess.run([sys.executable, REPOSITORY / "bench/arrays", "1"], capture_output=True, text=True, timeout=60)
    assert ran.returncode in (0, 1) and ran.stderr == ""
    rounds, lines = (table.splitlines() for table in ran.stdout.split("\n\n"))
    assert rounds[0].startswith("| one round |") and len(rounds) == 5
    assert all(re.fullmatch(r"\| (8|32|64) bits (\|[ \d./]+ms ){5}\| \*\*\d+\.\d\*\* \|", line) for line in rounds[2:])
    assert all(re.fullmatch(r"\|[^|]+\| \d+(\.\d+ µs each| ns) \|", line) for line in lines[2:-1])


def test_bench_measures_functions(libparis: Path) -> None:
    words = [sys.executable, str(REPOSITORY / "bench/functions"), "1", "64"]
    ran = subprocess.run(words, capture_output=True, text=True, timeout=60)
    lines = ran.stdout.splitlines()
    assert (ran.returncode, ran.stderr, len(lines)) == (0, "", 6) and lines[0].startswith("| operations |")
    assert lines[-1] == "life from 4 to 5 generations: 15 of 77 rows ran, and one has 15"
    assert all(re.fullmatch(r"\| [a-z ]+, 64 \| \d+ µs (\|[ \d.()]+){11}\|", line) for line in lines[2:-1])


def test_the_first_program_over_the_library_writes_what_the_document_says(libparis: Path, tmp_path: Path) -> None:
    text = (REPOSITORY / "docs/EMBEDDING.md").read_text(encoding="utf-8").split("\n## From Python\n")[1]
    program, written = re.findall(r"```(?:python)?\n(.*?)```", text, re.S)[:2]
    environment = {**os.environ, "PYTHONPATH": str(REPOSITORY / "python")}
    words = [sys.executable, "-c", program]
    ran = subprocess.run(words, capture_output=True, text=True, timeout=60, cwd=tmp_path, env=environment)
    assert (ran.stdout, ran.stderr, ran.returncode) == (written, "", 0)


def test_explain_writes_what_the_document_says(tmp_path: Path) -> None:
    text = (REPOSITORY / "docs/PEOPLE.md").read_text(encoding="utf-8").split("\n## explain\n")[1]
    script, written = re.findall(r"```\n(.*?)```", text, re.S)[:2]
    (tmp_path / "wrong.paris").write_text(script)
    words = [str(REPOSITORY / "paris"), "explain", "wrong.paris"]
    ran = subprocess.run(words, capture_output=True, text=True, timeout=60, cwd=tmp_path)
    assert (ran.stdout, ran.stderr, ran.returncode) == (written, "", 1)


def test_explain_tells_of_refused_rows_what_the_document_says(tmp_path: Path) -> None:
    text = (REPOSITORY / "docs/PEOPLE.md").read_text(encoding="utf-8").split("In the script `meet.paris`")[1]
    script, written = re.findall(r"```\n(.*?)```", text, re.S)[:2]
    (tmp_path / "meet.paris").write_text(script)
    as_json = next(block for block in re.findall(r"```\n(.*?)```", text, re.S) if block.startswith("{"))
    for option, end in (("", written), ("--json", as_json)):
        ran = subprocess.run(
            [str(REPOSITORY / "paris"), "explain", "meet.paris", *option.split()],
            capture_output=True,
            text=True,
            timeout=60,
            cwd=tmp_path,
        )
        assert ran.stdout.endswith("\n" + end) and (ran.stderr, ran.returncode) == ("", 0)


def test_the_readme_shows_five_lines_and_their_replies() -> None:
    readme = (REPOSITORY / "README.md").read_text(encoding="utf-8")
    before, shown = re.split(r"^```\n(?=insert)", readme.partition("\n## Five lines\n")[2], flags=re.M)
    shown, _, behind = shown.partition("```\n")
    numbers = re.search(r"`S` has four processors, and its field `a` of 8 bits holds `([\d ]+)`", before)
    last = re.search(r"After the next `settle`, `(show a end)` answers `(.*)`\.", behind)
    assert numbers and last
    rows = [re.split(r" {2,}", line) for line in shown.splitlines()]
    script = ["set S 4", "field a S 8", f"input a 0 {numbers[1]}", *(row[0] for row in rows), "settle", last[1]]
    replies = ["ok", "ok", "ok", *(row[1] for row in rows), "settled 1", last[2]]
    ran = subprocess.run(
        [str(REPOSITORY / "paris")], input="\n".join([*script, ""]), capture_output=True, text=True, timeout=60
    )
    assert (ran.stdout.splitlines(), ran.stderr, len(rows)) == (replies, "", 5)


def test_pictures_are_small() -> None:
    pictures = sorted((REPOSITORY / "docs/pictures").glob("*.png"))
    assert pictures and all(picture.stat().st_size <= 100_000 for picture in pictures)
    for document in ("README.md", "docs/PEOPLE.md"):
        text = (REPOSITORY / document).read_text(encoding="utf-8")
        named = re.findall(r"\]\(([^)]*\.png)\)", text)
        assert named and all(((REPOSITORY / document).parent / name).exists() for name in named)


@pytest.mark.parametrize(
    ("heading", "words"), [("A script and its replies", []), ("Parts at a desk", ["--desk", "--workers", "2"])]
)
def test_scripts_shows_scripts_beside_their_replies(heading: str, words: list[str]) -> None:
    text = (REPOSITORY / "docs/SCRIPTS.md").read_text(encoding="utf-8").partition(f"\n## {heading}\n")[2]
    block = re.split(r"^```\n", text, flags=re.M)[1].splitlines()
    column = min(line.index("ok", 10) for line in block if line.endswith("  ok"))
    lines = [line for line in block if not line.startswith("#")]
    script = [line[:column].rstrip() for line in lines]
    replies = [line[column:] for line in lines if line[column:]]
    said = "".join(f"{line}\n" for line in script if line)
    front = str(REPOSITORY / "paris")
    ran = subprocess.run([front, *words], input=said, capture_output=True, text=True, timeout=60)
    assert (ran.stdout.splitlines(), ran.stderr, ran.returncode) == (replies, "", 0)
