"""Results of followed functions in a notebook: drawn anew where they stand, and sliders, in a kernel and without."""

from __future__ import annotations

import os
import sys
from collections.abc import Iterator
from pathlib import Path
from types import ModuleType
from typing import Any

import pytest

numpy = pytest.importorskip("numpy")
from pevudlo import follow  # noqa: E402
from pevudlo.wire.program import ROOT  # noqa: E402

PRICE = numpy.array([3, 5, 8, 2, 9, 1, 4, 7], dtype=numpy.int16)
COUNT = numpy.array([1, 0, 2, 5, 1, 9, 3, 1], dtype=numpy.int16)


@pytest.fixture(autouse=True)
def _library(libparis: Path) -> None:
    """All of these are over the library."""


class Handle:
    """What stands in a notebook: what was drawn there, one after another."""

    def __init__(self, drawn: Any) -> None:
        self.drawn, self.places = [drawn], 1

    def update(self, drawn: Any) -> None:
        """Draws anew."""
        self.drawn.append(drawn)

    def display(self, drawn: Any) -> None:
        """Draws in another place too."""
        assert drawn is self.drawn[-1]
        self.places += 1


@pytest.fixture
def handles(monkeypatch: pytest.MonkeyPatch) -> Iterator[list[Handle]]:
    """What IPython.display shows, in the place of IPython."""
    found: list[Handle] = []

    def display(drawn: Any, display_id: bool) -> Handle:
        assert display_id
        found.append(Handle(drawn))
        return found[-1]

    module = ModuleType("IPython.display")
    setattr(module, "display", display)
    monkeypatch.setitem(sys.modules, "IPython.display", module)
    yield found


def sheet(price: Any, count: Any, tax: int = 10) -> dict[str, Any]:
    """A small sheet."""
    line = price * count
    return {"line": line, "net": line - 10, "total": (line + line // tax).sum()}


def test_watched_results_are_drawn_anew_where_they_are_others(handles: list[Handle]) -> None:
    p = follow(sheet)(PRICE, COUNT)
    p.watch("total")
    p.watch("line")
    total, line = handles
    assert repr(total.drawn[0]).split("\n")[1] == "69" and "rows ran" in total.drawn[0].head
    assert repr(line.drawn[0]) == "line, signed numbers of 16 bits: 0 rows ran\n 3  0 16 10  9  9 12  7"
    p(PRICE, COUNT, tax=5)
    assert [repr(each).split("\n")[1] for each in total.drawn] == ["69", "76*"] and len(line.drawn) == 1
    other = COUNT.copy()
    other[3] = 6
    p.again(count=other)
    assert repr(line.drawn[-1]).split()[-8:] == ["3", "0", "16", "12*", "9", "9", "12", "7"]
    assert [len(total.drawn), len(line.drawn)] == [3, 2]
    p.undo()
    assert [len(total.drawn), len(line.drawn)] == [4, 3] and "10*" in repr(line.drawn[-1])
    p.again(count=COUNT)
    assert [len(total.drawn), len(line.drawn)] == [4, 3]
    p.watch("line")
    assert (len(handles), line.places) == (2, 2)
    assert ">10<i>, changed</i></td>" in line.drawn[-1]._repr_html_()
    with pytest.raises(KeyError, match="and no tax"):
        p.watch("tax")


def test_signed_numbers_and_more_axes_are_drawn_as_numpy_has_them(handles: list[Handle]) -> None:
    p = follow(lambda a: (a, a[1], a > 2))(numpy.array([[1, 2, -3, 4], [5, 6, 7, -8]], dtype=numpy.int8))
    for name in p.names:
        p.watch(name)
    assert [repr(each.drawn[0]).split("\n")[1:] for each in handles] == [
        [" 1  2 -3  4", " 5  6  7 -8"],
        [" 5  6  7 -8"],
        ["0 0 0 1", "1 1 1 0"],
    ]
    large = follow(lambda a: a + 1)(numpy.arange(4_096))
    large.watch("result")
    assert "4,096 numbers, least 1, greatest 4096" in repr(handles[-1].drawn[0])


def test_what_is_refused_stands_as_a_sentence_and_goes_again(handles: list[Handle]) -> None:
    def put(a: Any, to: Any, which: int = 0) -> dict[str, Any]:
        return {"put": numpy.zeros_like(a).scatter(to, a)} if which == 0 else {"other": a}

    to = numpy.arange(8)
    p = follow(put)(PRICE, to)
    p.watch("put")
    (shown,) = handles
    p.again(to=numpy.minimum(to, 6))
    assert "is refused: two numbers go to place 6" in repr(shown.drawn[-1])
    assert shown.drawn[-1]._repr_html_().startswith("<p>put: scatter in line ")
    p.again(which=1)
    assert repr(shown.drawn[-1]) == "put: the function returns other, and no put"
    p.again(which=0, to=to)
    assert repr(shown.drawn[-1]).split("\n")[1] == "3 5 8 2 9 1 4 7" and len(shown.drawn) == 4
    strict = follow(lambda a, b: a * b, overflow="raise")(PRICE, COUNT)
    strict.watch("result")
    strict.again(b=COUNT * 5_000)
    assert "multiply in line" in repr(handles[-1].drawn[-1]) and "has no room" in repr(handles[-1].drawn[-1])


def test_without_ipython_and_ipywidgets_sentences_say_what_serves(monkeypatch: pytest.MonkeyPatch) -> None:
    p = follow(sheet)(PRICE, COUNT)
    modules: Any = sys.modules
    for name in ("IPython.display", "ipywidgets"):
        monkeypatch.setitem(modules, name, None)
    with pytest.raises(ImportError, match=r"watched in a notebook, which IPython draws: here p\[name\] gives one"):
        p.watch("total")
    with pytest.raises(ImportError, match=r"a slider wants ipywidgets: .*p\.again\(tax=1\) calls as it would"):
        p.slider("tax", 1, 20)
    with pytest.raises(TypeError, match="whole numbers of the last call are tax, and price is none of them"):
        p.slider("price", 1, 20)
    p.again(tax=5)
    assert p["total"] == 76


# In a kernel.

CELLS = {
    "imports": "import numpy\nfrom pevudlo import follow",
    "function": "@follow\ndef sheet(a, b, tax=10):\n    s = a + b\n    return {'taxed': s * tax, 'bare': s}",
    "call": "a = numpy.arange(4, dtype=numpy.uint8)\np = sheet(a, a, tax=3)",
    "watched": "p.watch('taxed'); p.watch('bare')",
    "slider": "box = p.slider('tax', 0, 400)\nbox",
    "moved": "box.children[0].value = 5",
    "ran": "len(p.ran), p.traces",
    "too far": "box.children[0].value = 300",
    "said": "print(box.children[1].value, p['taxed'])",
    "back": "box.children[0].value = 7",
    "function again": "@follow\ndef sheet(a, b, tax=10):\n    return {'taxed': (a + b) * tax + 1, 'bare': a + b}",
    "call again": "p = sheet(a, a, tax=7)",
}


def messages(kernel: Any, cell: str) -> list[tuple[str, str]]:
    """Runs a cell. Gives the kinds of what was shown with its text."""
    found = list[tuple[str, str]]()

    def see(message: Any) -> None:
        kind, content = message["msg_type"], message["content"]
        if kind in ("display_data", "update_display_data", "execute_result"):
            found.append((kind, content["data"].get("text/plain", "")))
        elif kind in ("stream", "error"):
            found.append((kind, content.get("text") or content["evalue"]))

    kernel.execute_interactive(cell, output_hook=see, timeout=60)
    return found


@pytest.fixture(scope="module")
def kernel(libparis: Path, tmp_path_factory: pytest.TempPathFactory) -> Iterator[Any]:
    """A kernel of Python's, with the package on its path."""
    pytest.importorskip("ipywidgets")
    manager = pytest.importorskip("jupyter_client.manager")
    environment = {**os.environ, "PARIS_LIBRARY": str(libparis), "PYTHONPATH": str(ROOT / "python")}
    folder = str(tmp_path_factory.mktemp("kernel"))
    environment |= {"HOME": folder, "IPYTHONDIR": folder}
    runs, client = manager.start_new_kernel(kernel_name="python3", env=environment)
    yield client
    client.stop_channels()
    runs.shutdown_kernel(now=True)


def numbers_of(text: str) -> list[str]:
    """The numbers that are drawn, without what marks them."""
    return text.split("\n")[1].replace("*", "").split()


def test_a_slider_in_a_kernel_calls_again_and_draws_anew(kernel: Any) -> None:
    told = {name: [each for each in messages(kernel, cell) if each[0] != "stream"] for name, cell in CELLS.items()}
    assert [(kind, numbers_of(text)) for kind, text in told["watched"]] == [
        ("display_data", ["0", "6", "12", "18"]),
        ("display_data", ["0", "2", "4", "6"]),
    ]
    assert [kind for kind, _ in told["slider"]] == ["display_data"]
    # What is taxed is drawn anew, and what isn't isn't.
    for name, numbers in (
        ("moved", ["0", "10", "20", "30"]),
        ("back", ["0", "14", "28", "42"]),
        ("call again", ["1", "15", "29", "43"]),
    ):
        ((kind, text),) = told[name]
        assert kind == "update_display_data" and numbers_of(text) == numbers
        assert text.startswith("taxed, unsigned numbers of 8 bits: ")
    assert told["ran"] == [("execute_result", "(0, 2)")]
    assert told["too far"] == told["function again"] == []


def test_a_refused_move_says_why_beside_the_slider(kernel: Any) -> None:
    for name in ("imports", "function", "call", "slider", "too far"):
        messages(kernel, CELLS[name])
    ((_, text),) = messages(kernel, CELLS["said"])
    assert "300 has no room in unsigned numbers of 8 bits: `astype` gives more" in text and "[ 0  6 12 18]" in text
