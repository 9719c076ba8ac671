"""Cells of a notebook as pieces of one program: in a shell of IPython, and without one."""

from __future__ import annotations

import importlib
import os
import signal
from collections.abc import Iterator
from typing import Any

import pytest
from pages import Tree
from random_editor import Fresh, compare, numbers_of

from pevudlo.notebook.magic import CELL, LINE, Magic
from pevudlo.notebook.pieces import NoPiece, Pieces
from pevudlo.wire.pipe import Pipe
from pevudlo.wire.program import find

DATA = "set S 4\nfield a S 8\nfield b S 8\nfield c S 8\ninput a 0 1 2 3 4\n"
ROWS = "u-add-3-1L b a a 8\nshow b end\n"
MORE = "u-max-3-1L c b a 8\nshow c end\n"
OTHER = "# Nothing that a changes.\nu-move-constant-1L c 7 8\n"


@pytest.fixture
def pieces() -> Iterator[Pieces]:
    """Pieces over the program."""
    pieces = Pieces(lambda: Pipe(find(), 1))
    yield pieces
    pieces.close()


def look(text: str, line: str) -> list[int]:
    """What a look gives in a fresh run of a text."""
    (reply,) = Fresh(text.split("\n")[:-1]).answers([line])
    return numbers_of(reply)


def test_pieces_in_their_order_are_one_program(pieces: Pieces) -> None:
    for name, text in (("data", DATA), ("rows", ROWS), ("more", MORE)):
        assert list(pieces.put(name, text)) == [name] and pieces.done.count == (name != "data")
    compare(pieces.document, (DATA + ROWS + MORE).split("\n")[:-1])
    pieces.put("between", OTHER, "rows")
    assert pieces.names == ["data", "rows", "between", "more"]
    compare(pieces.document, (DATA + ROWS + OTHER + MORE).split("\n")[:-1])
    pieces.put("more", MORE, "rows", is_after=False)
    assert pieces.names == ["data", "more", "rows", "between"]
    compare(pieces.document, (DATA + MORE + ROWS + OTHER).split("\n")[:-1])


def test_a_cell_that_is_run_again_is_an_edit(pieces: Pieces) -> None:
    """Those whose values changed are drawn, and no others."""
    for name, text in (("data", DATA), ("other", OTHER), ("rows", ROWS), ("more", MORE)):
        pieces.put(name, text)
    drawn = pieces.put("data", DATA.replace("3 4", "3 5"))
    assert list(drawn) == ["data", "rows", "more"] and pieces.done.count == 2
    text = DATA.replace("3 4", "3 5") + OTHER + ROWS + MORE
    b, c = look(text, "show b after 2"), look(text, "show c end")
    assert (b, c) == ([2, 4, 6, 10], [2, 4, 6, 10])
    assert repr(drawn["rows"]).split("\n") == [
        "rows, drawn anew: 2 of 3 rows ran again",
        "  u-add-3-1L b a a 8   ▶ b 2 4 6 10*  carry 0000  overflow 0000",
        "  show b end",
        "       2  4  6 10",
    ]
    # The same once more, and another comment: nothing else is drawn.
    assert list(pieces.put("data", DATA.replace("3 4", "3 5"))) == ["data"]
    assert list(pieces.put("other", "# Another comment.\n" + OTHER)) == ["other"] and pieces.done.count == 0
    # A row that runs again and gives the same changes no other cell.
    assert list(pieces.put("other", OTHER.replace("7", "8"))) == ["other"] and pieces.done.count >= 2


def test_rows_alone_and_looks_alone_are_drawn_anew(pieces: Pieces) -> None:
    for name, text in (
        ("data", DATA),
        ("row", "u-add-3-1L b a a 8\n"),
        ("none", "# None.\n"),
        ("look", "show b end\n"),
    ):
        pieces.put(name, text)
    drawn = pieces.put("data", DATA.replace("3 4", "3 5"))
    assert list(drawn) == ["data", "row", "look"] and repr(drawn["look"]).endswith(" 2  4  6 10")


def test_refusals_are_drawn_where_they_come_and_go(pieces: Pieces) -> None:
    assert "(refused 7: " in repr(pieces.put("rows", ROWS)["rows"])
    drawn = pieces.put("data", DATA, "rows", is_after=False)
    assert list(drawn) == ["data", "rows"] and "refused" not in repr(drawn["rows"])
    meet = "field to S 2\ninput to 0 1 1 0 0\nsend-1L c to a 8 none\n"
    assert "two messages meet at processor 0" in repr(pieces.put("meet", meet)["meet"])
    drawn = pieces.put("data", DATA.replace("a 0 1 2", "a 0 9 2"))
    assert list(drawn) == ["data", "rows"]


def test_a_piece_is_taken_out(pieces: Pieces) -> None:
    for name, text in (("data", DATA), ("rows", ROWS), ("more", MORE)):
        pieces.put(name, text)
    drawn = pieces.drop("rows")
    assert list(drawn) == ["more"] and pieces.names == ["data", "more"]
    compare(pieces.document, (DATA + MORE).split("\n")[:-1])
    with pytest.raises(NoPiece):
        pieces.drop("rows")
    for other in ("rows", "x"):
        with pytest.raises(NoPiece):
            pieces.put("x", "", other)
    assert pieces.names == ["data", "more"]


def test_rows_that_are_taken_out_or_replaced_in_another_piece(pieces: Pieces) -> None:
    """The piece that they stand in is drawn anew. Lines are counted in their own pieces."""
    for name, text in (("data", DATA), ("rows", "u-add-3-1L b a a 8\nu-max-3-1L c b a 8\n")):
        pieces.put(name, text)
    drawn = pieces.put("ends", "# Both.\nreplace 2 u-min-3-1L c b a 8\ndelete 1\nu-move-1L b c 8\ndelete 3\n")
    assert list(drawn) == ["rows", "ends"]
    assert repr(drawn["rows"]).split("\n")[1:] == [
        "  u-add-3-1L b a a 8   - taken out by line 3 of ends",
        "  u-max-3-1L c b a 8   - replaced by line 2 of ends",
    ]
    assert repr(drawn["ends"]).split("\n")[1:] == [
        "  replace 2 u-min-3-1L c b a 8   ▶ c 0 0 0 0",
        "  delete 1   - takes out the row of line 1 of rows",
        "  u-move-1L b c 8   - taken out by line 5",
        "  delete 3   - takes out the row of line 4",
    ]
    # A line above them says another place, and further cells work.
    assert list(pieces.put("more", MORE)) == ["more"]
    assert list(pieces.put("ends", "replace 2 u-min-3-1L c b a 8\ndelete 1\n")) == ["rows", "ends"]
    assert "taken out by line 2 of ends" in repr(pieces.put("rows", "u-add-3-1L b a a 8\nu-max-3-1L c b a 8\n")["rows"])


def test_the_pieces_are_a_script(pieces: Pieces) -> None:
    """The program takes it, and gives the same values."""
    for name, text in (
        ("data", DATA),
        ("rows", ROWS + "# A comment.\n\n"),
        ("more", MORE + "u-ad x\ninsert end lognot-2-1L a a 8\n"),
    ):
        pieces.put(name, text)
    script = pieces.script()
    assert "insert end u-add-3-1L b a a 8\nshow b end\n# A comment.\n\ninsert end u-max-3-1L c b a 8\n" in script
    with Pipe(find(), 1) as pipe:
        replies = pipe.ask_all([*script.split("\n")[:-1], "settle", "show c end"])
    assert replies[-1] == ["values 2 4 6 8"] and sum(reply[:1] == ["refused 20 1"] for reply in replies) == 1


def test_pieces_in_html(pieces: Pieces) -> None:
    pieces.put("data", DATA)
    drawn = pieces.put("<b>", ROWS + "show <i> end\nset T 4\n")["<b>"]
    tree = Tree(drawn._repr_html_()).root
    table = next(tree.all("table", "pv-piece"))
    assert next(table.all("caption")).text.startswith("<b>: 1 of 1 row ran again; 1 line is refused")
    lines = [cell.text for cell in table.all("td", "pv-line")]
    assert lines == ["u-add-3-1L b a a 8", "show b end", "show <i> end"]
    grid = next(table.all("figure"))
    assert [cell.text for cell in grid.all("td") if "pv-corner" not in cell.classes] == ["2", "4", "6", "8"]
    (wrong,) = table.all("td", "pv-wrong")
    assert wrong.text.startswith("✗ ") and "(refused 20 6: " in wrong.text


# In a shell.


class Notebook:
    """A shell of IPython, and what its cells show: by the numbers of displays, the last text of each."""

    def __init__(self) -> None:
        shell: Any = importlib.import_module("IPython.core.interactiveshell").InteractiveShell
        publisher: Any = importlib.import_module("IPython.core.displaypub").CapturingDisplayPublisher
        self.shell, self._kind = shell.instance(), shell
        self.shell.display_pub = self.publisher = publisher(parent=self.shell, shell=self.shell)
        self.shown: dict[str, str] = {}
        self.magic = Magic(self.shell, Pieces(lambda: Pipe(find(), 1)))
        self.magic.register()

    def close(self) -> None:
        """Ends the shell, of which there is one at a time."""
        self.magic.pieces.close()
        self.shell.history_manager.end_session()
        self._kind.clear_instance()

    def run(self, cell: str) -> list[tuple[bool, str]]:
        """Runs a cell. Gives what was shown: whether it stood there before, and the first line of the text."""
        self.publisher.outputs.clear()
        ran = self.shell.run_cell(cell)
        ran.raise_error()
        self.result = ran.result
        news = []
        for output in self.publisher.outputs:
            name = output["transient"]["display_id"]
            assert output["update"] == (name in self.shown)
            news.append((name in self.shown, output["data"]["text/plain"].split("\n")[0]))
            assert output["data"]["text/html"].startswith("<style>")
            self.shown[name] = output["data"]["text/plain"]
        return news


@pytest.fixture
def notebook(tmp_path: Any, monkeypatch: pytest.MonkeyPatch) -> Iterator[Notebook]:
    """A notebook without a past."""
    monkeypatch.setenv("IPYTHONDIR", str(tmp_path))
    notebook = Notebook()
    yield notebook
    notebook.close()


def test_cells_further_down_are_drawn_anew_where_they_stand(notebook: Notebook) -> None:
    assert notebook.run(f"%%paris data\n{DATA}") == [(False, "data: a new book (the first text): 0 of 0 rows ran")]
    assert notebook.run(f"%%paris rows\n{ROWS}") == [(False, "rows: 1 of 1 row ran again")]
    assert notebook.run(f"%%paris more\n{MORE}") == [(False, "more: 1 of 2 rows ran again")]
    # The cell is run again: it is shown in its new output, and the two others in theirs.
    del notebook.shown[next(iter(notebook.shown))]
    changed = DATA.replace("3 4", "3 5")
    assert notebook.run(f"%%paris data\n{changed}") == [
        (False, "data: 2 of 2 rows ran again"),
        (True, "rows, drawn anew: 2 of 2 rows ran again"),
        (True, "more, drawn anew: 2 of 2 rows ran again"),
    ]
    assert [text.split("\n")[-1].split() for text in notebook.shown.values() if "show" in text] == [
        [str(number) for number in look(changed + ROWS + MORE, line)] for line in ("show b after 1", "show c end")
    ]
    notebook.run("%paris drop rows")
    assert [name for name in notebook.magic.pieces.names] == ["data", "more"]


def test_what_the_pieces_give_to_python(notebook: Notebook) -> None:
    notebook.run(f"%%paris data\n{DATA}")
    notebook.run("%%paris rows before data\n# First.\n")
    notebook.run(f"%%paris more after data\n{ROWS}")
    notebook.run("%paris")
    assert notebook.result == ["rows", "data", "more"]
    notebook.run("values = %paris values b\nsum(values.tolist())")
    assert notebook.result == sum(look(DATA + ROWS, "show b end")) == 20
    notebook.run("%paris script")


def test_an_array_is_taken_into_cells(notebook: Notebook) -> None:
    """It is the input data of a key, a piece of its own, and an edit where it is given again."""
    notebook.run(f"%%paris data\n{DATA}")
    notebook.run(f"%%paris rows\n{ROWS}")
    notebook.run("import numpy\ngiven = numpy.array([-1, 2, 3, 200], dtype=numpy.int16)")
    shown = notebook.run("%paris input a = given")
    assert [head.split(":")[0] for _, head in shown] == ["rows, drawn anew", "input a"]
    text = DATA + ROWS + "input a 0 255 2 3 200\n"
    notebook.run("values = %paris values b\nvalues.tolist()")
    assert notebook.result == look(text, "show b end") == [254, 4, 6, 144]
    notebook.run("%paris input a = 7")
    notebook.run("values = %paris values b\nvalues.tolist()")
    assert notebook.result == [14] * 4 and notebook.magic.pieces.names == ["data", "rows", "input a"]
    for cell, words in (
        ("%paris input c2 = given", "there is no key c2: a cell declares it before it has input data"),
        ("%paris input a = given[:2]", r"a wants values of shape \(4,\), and these are of \(2,\)"),
        ("%paris input a = given * 100", "has no two's complement of 8 bits"),
        ("%paris input a = given / 2", "values are whole numbers"),
        ("%paris input a", "%paris input KEY = ARRAY"),
    ):
        with pytest.raises(Exception, match=words):
            notebook.run(cell)
    notebook.run("values = %paris values b\nvalues.tolist()")
    assert notebook.result == [14] * 4
    notebook.run("%paris drop input a")
    notebook.run("values = %paris values b\nvalues.tolist()")
    assert notebook.result == look(DATA + ROWS, "show b end")


def test_words_that_mean_nothing(notebook: Notebook) -> None:
    for cell, words in (
        ("%%paris\nset S 4", CELL),
        ("%%paris a b c\nset S 4", CELL),
        ("%%paris a after b\nset S 4", "there is no piece b: none yet"),
        ("%paris drop", LINE),
        ("%paris drop a", "there is no piece a: none yet"),
        ("%paris values a", "there is no key a"),
    ):
        with pytest.raises(importlib.import_module("IPython.core.error").UsageError) as refused:
            notebook.run(cell)
        assert str(refused.value) == words and notebook.magic.pieces.names == []


def test_a_program_that_is_killed_behind_a_notebook(notebook: Notebook) -> None:
    notebook.run(f"%%paris data\n{DATA}")
    peer = notebook.magic.pieces.document.book.peer
    assert isinstance(peer, Pipe)
    os.kill(peer.process, signal.SIGKILL)
    ((is_old, head),) = notebook.run(f"%%paris rows\n{ROWS}")
    assert not is_old and "killed by signal 9" in head and notebook.magic.pieces.done.rows == 1


def test_the_extension_is_loaded_by_its_name(notebook: Notebook) -> None:
    notebook.shell.run_cell("%load_ext pevudlo.notebook").raise_error()
    assert notebook.shell.find_cell_magic("paris").__self__ is not notebook.magic
