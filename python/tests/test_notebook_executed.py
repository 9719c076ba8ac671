"""A notebook that Jupyter executes: cells whose values changed are drawn anew in the outputs where they stand."""

from __future__ import annotations

import json
import os
import re
import subprocess
import sys
from pathlib import Path
from typing import Any

import pytest
from random_editor import Fresh, numbers_of

from pevudlo.wire.program import ROOT

PATIENCE = 180.0
DATA = "set S 4\nfield a S 8\nfield b S 8\nfield c S 8\ninput a 0 1 2 3 4\n"
ROWS = "u-multiply-3-1L b a a 8\nshow b end\n"
MORE = "u-max-3-1L c b a 8\nshow c end\n"
CHANGED = DATA.replace("3 4", "7 4")
CELLS = [
    "%load_ext pevudlo.notebook",
    f"%%paris data\n{DATA}",
    f"%%paris rows\n{ROWS}",
    f"%%paris more\n{MORE}",
    f"%%paris data\n{CHANGED}",
    "values = %paris values c\nprint(*map(int, values))",
    "%paris script",
]


def notebook(cells: list[str]) -> dict[str, Any]:
    """A notebook of cells that weren't executed."""
    kernel = {"display_name": "Python 3", "language": "python", "name": "python3"}
    made: list[dict[str, Any]] = [
        {
            "cell_type": "code",
            "execution_count": None,
            "id": f"cell-{at}",
            "metadata": {},
            "outputs": [],
            "source": text,
        }
        for at, text in enumerate(cells)
    ]
    return {"cells": made, "metadata": {"kernelspec": kernel}, "nbformat": 4, "nbformat_minor": 5}


@pytest.fixture(scope="module")
def outputs(libparis: Path, tmp_path_factory: pytest.TempPathFactory) -> list[list[dict[str, Any]]]:
    """The outputs of each cell."""
    folder = tmp_path_factory.mktemp("executed")
    (folder / "cells.ipynb").write_text(json.dumps(notebook(CELLS)))
    environment = {**os.environ, "PARIS_LIBRARY": str(libparis), "PYTHONPATH": str(ROOT / "python")}
    environment |= {"HOME": str(folder), "IPYTHONDIR": str(folder)}
    words = [sys.executable, "-m", "nbconvert", "--to", "notebook", "--execute", "--output", "executed", "cells.ipynb"]
    ran = subprocess.run(words, cwd=folder, env=environment, capture_output=True, text=True, timeout=PATIENCE)
    assert ran.returncode == 0, ran.stderr
    return [cell["outputs"] for cell in json.loads((folder / "executed.ipynb").read_text())["cells"]]


def numbers(text: str, look: str) -> list[int]:
    """What a look at a fresh run of a text gives."""
    (reply,) = Fresh(text.split("\n")[:-1]).answers([look])
    return numbers_of(reply)


def words(outputs: list[dict[str, Any]]) -> str:
    """The text of a cell's only output."""
    (output,) = outputs
    found = output["data"]["text/plain"] if "data" in output else output["text"]
    return "".join(found)


def test_cells_further_down_are_drawn_anew_in_their_outputs(outputs: list[list[dict[str, Any]]]) -> None:
    text = CHANGED + ROWS + MORE
    b, c = numbers(text, "show b after 1"), numbers(text, "show c end")
    assert b != numbers(DATA + ROWS + MORE, "show b after 1")
    rows, more = words(outputs[2]), words(outputs[3])
    assert rows.startswith("rows, drawn anew: 2 of 2 rows ran again") and more.startswith("more, drawn anew: ")
    assert [list(map(int, each.split("\n")[-1].split())) for each in (rows, more)] == [b, c]
    html = "".join(outputs[3][0]["data"]["text/html"])
    cells = re.findall(r"<td[^>]*>(\d+)</td>", html.split("<figure")[1])
    assert [int(cell) for cell in cells][-len(c) :] == c


def test_a_cell_that_is_run_again_is_an_edit(outputs: list[list[dict[str, Any]]]) -> None:
    assert words(outputs[1]).startswith("data: a new book (the first text): 0 of 0 rows ran")
    assert words(outputs[4]).startswith("data: 2 of 2 rows ran again")


def test_the_pieces_give_values_and_a_script(outputs: list[list[dict[str, Any]]]) -> None:
    assert words(outputs[5]).split() == list(map(str, numbers(CHANGED + ROWS + MORE, "show c end")))
    script = words(outputs[6])
    assert numbers(script, "show c end") == numbers(CHANGED + ROWS + MORE, "show c end")
    assert not any(reply.startswith("refused") for reply in Fresh(script.split("\n")[:-1]).refused.values())
