"""All that people see of each line of a text, in each of five views, is what a fresh run of the text says of it.

The texts have rows that are taken out and replaced further down, looks, comments, refused lines and carriage returns.
"""

from __future__ import annotations

import io
import os
import re
import shutil
from bisect import bisect_right
from collections import Counter
from collections.abc import Iterator, Sequence
from contextlib import redirect_stdout
from pathlib import Path
from random import Random
from typing import Any

import pytest
from random_editor import RandomEditor, compare, told
from seen_lines import START, Reading, check_mark

from pevudlo import find_library
from pevudlo.document.plain import MOST_TOLD, Plain
from pevudlo.document.screen import Screen
from pevudlo.draw.grids import Grid, text_of
from pevudlo.draw.visible import visible
from pevudlo.lang.instructions import FLAGS
from pevudlo.live.followed import FollowedSession
from pevudlo.lsp import completion, names, outline, values
from pevudlo.lsp.diagnostics import ERROR, HINT, INFORMATION, WARNING, actions, diagnostics
from pevudlo.lsp.opened import Opened
from pevudlo.lsp.positions import paired
from pevudlo.notebook.pieces import Pieces
from pevudlo.wire.library import Library
from pevudlo.wire.peers import Peer
from pevudlo.wire.pipe import Pipe
from pevudlo.wire.program import ROOT, find

TEXTS = int(os.environ.get("PEVUDLO_SEEN_TEXTS", "150"))
"""How many texts with rows taken out are looked at."""

TEXTS_EACH = 10
MOST_WITHOUT = 3
"""Behind so many texts without such a row another editor begins, since the last one has broken its declarations."""

END = re.compile("\r\n|\n|\r")
"""Where lines end for an editor."""

SAME = ", the same as before"
SIZE = os.terminal_size((400, 80))
FIRST = (ROOT / "docs/SCRIPTS.md").read_text(encoding="utf-8").split("```\n")[1]
"""The first script of the page of scripts, with its replies on the right."""


class Views:
    """The views of a text: each has a document of its own, but for a terminal and lines, which share the editor's."""

    def __init__(self, folder: Path, library: Path | None) -> None:
        self._begin = (lambda: Library(library)) if library else program
        self.opened = Opened("file:///seen.paris", "", 1, self._begin)
        self.pieces = Pieces(self._begin)
        (folder / "seen.paris").write_text("")
        self.session = FollowedSession(folder / "seen.paris", library or find_library(), 1)
        self.told: list[str] = []
        self.plain = Plain(self.opened.document, self.told.append)
        self.screen = Screen(self.opened.document, "seen.paris")

    def close(self) -> None:
        """Ends all that runs."""
        self.opened.document.close()
        self.pieces.close()
        self.session.close()

    def type(self, lines: Sequence[str]) -> None:
        """The text is typed, so that rows may be held. All of it can be asked, in each view."""
        self.opened.change([{"text": text_of_lines(lines)}], 2)
        self.opened.renew()
        for _, _, place in places(lines):
            ask(self.opened, place)
        values.hints(self.opened, everywhere())
        diagnostics(self.opened, True)
        with redirect_stdout(io.StringIO()):
            self.screen.show(self.opened.done)
        self.plain.show(self.opened.done)
        self.session.take(text_of_lines(lines), hold=True)
        told: Any = self.session.values(0, 9_999)
        assert len(told["lines"]) == len(lines)

    def check(self, lines: Sequence[str], chance: Random) -> Reading:
        """The text is saved. Fails where a view says something else than a fresh run."""
        reading = Reading(lines)
        self.opened.change([{"text": text_of_lines(lines)}], 3)
        self.opened.save()
        self.opened.renew()
        compare(self.opened.document, lines)
        check_screen(self, reading)
        check_plain(self, reading)
        check_hints(self, reading)
        check_diagnostics(self, reading)
        check_cursor(self, reading)
        check_page(self, reading)
        check_cells(self, reading, chance)
        return reading


def program() -> Peer:
    """A program with nothing declared."""
    return Pipe(find(), 1)


def text_of_lines(lines: Sequence[str]) -> str:
    """Lines as a text."""
    return "".join(f"{line}\n" for line in lines)


# A terminal, and lines.


def check_screen(views: Views, reading: Reading) -> None:
    """All lines of a terminal that has room for them."""
    out = io.StringIO()
    with redirect_stdout(out):
        views.screen.show(views.opened.done)
    drawn = re.sub(r"\x1b\[[0-9;?]*[A-Za-z]", "", out.getvalue()).split("\r\n")[1:-1]
    assert len(drawn) == len(reading.lines)
    left = 6 + min(max([20, *(len(visible(line)) for line in reading.lines)]), SIZE.columns * 45 // 100)
    for at, line in enumerate(drawn):
        assert line[:6] == f"{at + 1:5} "
        check_mark(reading, at, line[6].strip(), line[left + 3 :].rstrip())


def check_plain(views: Views, reading: Reading) -> None:
    """What is told in lines is right, and of a new book all is told that has to be."""
    done, document = views.opened.done, views.opened.document
    views.told.clear()
    views.plain.show(done)
    found = dict[int, str]()
    for said in views.told[1:]:
        number, rest = said.removeprefix("  ").split(": ", 1)
        at = int(number) - 1
        found[at] = rest.removeprefix(f"{visible(reading.lines[at])}: ")
    for at, words in found.items():
        sign = reading.wanted[at].sign
        check_mark(reading, at, "" if reading.wanted[at].row and sign != "!" else sign, words.removesuffix(SAME))
    if done.fresh and len(reading.lines) < MOST_TOLD:
        touched = {at for at, shown in enumerate(document.shown) if shown.row and shown.row.book in done.touched}
        others = {at for at, wanted in enumerate(reading.wanted) if wanted.gone or wanted.sign in ("✗", "→", "i")}
        assert found.keys() == touched | others


# An editor.


def everywhere() -> dict[str, Any]:
    """The range of a whole file."""
    return {"range": {"start": {"line": 0, "character": 0}, "end": {"line": 9_999, "character": 0}}}


def positions(lines: Sequence[str]) -> list[tuple[int, int]]:
    """Where each line of a script begins for an editor: its line, and how many units stand before it in the text."""
    ends = [end.end() for end in END.finditer(text_of_lines(lines))]
    starts, at = [], 0
    for line in lines:
        starts.append((bisect_right(ends, at), at))
        at += len(line) + 1
    return starts


def places(lines: Sequence[str]) -> Iterator[tuple[int, str, dict[str, int]]]:
    """The words of all lines, each with its line and the place of its first letter for an editor."""
    text = text_of_lines(lines)
    ends = [0, *(end.end() for end in END.finditer(text))]
    at = 0
    for number, line in enumerate(lines):
        for word in re.finditer("[^ ]+", line):
            row = bisect_right(ends, at + word.start()) - 1
            units = len(text[ends[row] : at + word.start()].encode("utf-16-le", "surrogatepass")) // 2
            yield number, word.group(), {"line": row, "character": units}
        at += len(line) + 1


def ask(opened: Opened, place: dict[str, int]) -> tuple[str, list[int]]:
    """What is said where the cursor is, and the lines of the definition."""
    about = {"textDocument": {"uri": opened.uri}, "position": place}
    said, found = values.hover(opened, about, False), names.definition(opened, about)
    return said["contents"]["value"] if said else "", [each["range"]["start"]["line"] for each in found]


def ask_more(opened: Opened, place: dict[str, int]) -> None:
    """What else can be asked where the cursor is, is answered."""
    about = {"textDocument": {"uri": opened.uri}, "position": place}
    for asked in (names.declaration, names.references, names.highlights, names.prepare_rename, completion.completion):
        asked(opened, about)


def check_hints(views: Views, reading: Reading) -> None:
    """The short values behind lines, and none behind others."""
    firsts = [row for row, _ in positions(reading.lines)]
    hints = {
        bisect_right(firsts, hint["position"]["line"]) - 1: hint["label"]
        for hint in values.hints(views.opened, everywhere())
    }
    for at, wanted in enumerate(reading.wanted):
        label = hints.pop(at, "")
        if wanted.sign == "!":
            assert label == values.STORES_NOTHING
        elif wanted.row is not None:
            sign = label[0] if label[:2] in ("▶ ", "= ") else ""
            check_mark(reading, at, sign, label.removeprefix(f"{sign} "))
        elif wanted.sign == "→":
            check_mark(reading, at, "→", label)
        else:
            assert label == (f"- {wanted.words}" if wanted.sign == "-" else ""), (at, label)
    assert hints == {}


def check_diagnostics(views: Views, reading: Reading) -> None:
    """What is told of lines: that they are refused, store nothing, or do nothing in the present program."""
    firsts = [row for row, _ in positions(reading.lines)]
    told: dict[int, list[tuple[int, str]]] = {}
    for each in diagnostics(views.opened, True):
        at = bisect_right(firsts, each["range"]["start"]["line"]) - 1
        told.setdefault(at, []).append((each["severity"], each["message"]))
        if each["severity"] == ERROR:
            assert each["code"] == int(reading.fresh.refused[at].split(" ")[1])
    for at, wanted in enumerate(reading.wanted):
        known = {"✗": ERROR, "!": WARNING, "i": INFORMATION, "·": HINT}
        severity = known.get(wanted.sign, HINT if wanted.gone else 0)
        assert [each for each, _ in told.pop(at, [])] == ([severity] if severity else []), at
    assert told == {}
    actions(views.opened, everywhere() | {"context": {"diagnostics": []}})
    outline.symbols(views.opened)
    outline.folds(views.opened)
    outline.tokens(views.opened)


def check_cursor(views: Views, reading: Reading) -> None:
    """What is said of each word of each line, and where its definition is.

    Of a refused line the same is said of all words but keys.
    """
    last = -1
    for at, word, place in places(reading.lines):
        is_first, last = at != last, at
        is_key = word in reading.fresh.keys and not reading.lines[at].startswith("#")
        if is_first:
            ask_more(views.opened, place)
        if is_first or is_key or not reading.is_refused(at):
            said, lines = ask(views.opened, place)
            if reading.wanted[at].sign == "-":
                assert said.split("\n")[0] == reading.wanted[at].words, (at, said)
            # Only of lines that are in the grammar it is known what words name.
            if is_key and (not reading.is_refused(at) or f"`{word}`: " in said):
                check_key(reading, at, word, said, lines)


def check_key(reading: Reading, at: int, key: str, said: str, lines: list[int]) -> None:
    """What is said of a key in a line, and where its value comes from."""
    firsts = [row for row, _ in positions(reading.lines)]
    row = reading.wanted[at].row
    check_values(reading, key, reading.wanted[at].place, said, f"`{key}`: ")
    if row is not None and key in reading.written(row) and row not in reading.faults:
        check_values(reading, key, row, said, f"`{key}` behind this row")
    found = [each for each in reading.sources(at, key) if each != at]
    declared = [reading.declared[key.partition(".")[0]]]
    assert lines == [firsts[each] for each in found or declared], (at, key, lines)


def check_values(reading: Reading, key: str, place: int, said: str, head: str) -> None:
    """Fails where the grid below a head isn't that of a key at a place."""
    lines = said.split("\n")
    first = next(at for at, line in enumerate(lines) if line.startswith(head)) + 1
    of_set = reading.board.set_of(key)
    width = 1 if key.partition(".")[2] in FLAGS else reading.board.fields[key][1]
    grid = Grid(key, tuple(reading.board.axes[of_set]), width, reading.values[key, place])
    wanted = text_of(grid, columns=values.COLUMNS).split()
    found = re.sub(r"[*()]", " ", "\n".join(lines[first:])).split()
    assert found[: len(wanted)] == wanted, (key, place, said)


# A page, and cells.


def check_page(views: Views, reading: Reading) -> None:
    """The lines beside the text of a page."""
    views.session.take(text_of_lines(reading.lines))
    told: Any = views.session.values(0, 9_999)
    assert len(told["lines"]) == len(reading.lines) and not views.session.trouble
    for at, (_, sign, words) in enumerate(told["lines"]):
        check_mark(reading, at, sign.strip(), words)


def check_cells(views: Views, reading: Reading, chance: Random) -> None:
    """The text cut into two cells, of which the first is drawn at once, and the second when it comes."""
    lines = reading.lines
    cut = chance.randint(0, len(lines))
    for name in views.pieces.names:
        views.pieces.drop(name)
    views.pieces.put("first", text_of_lines(lines[:cut]))
    drawn = {"first": views.pieces.put("second", text_of_lines(lines[cut:])).get("first")}
    drawn["second"] = views.pieces.put("second", text_of_lines(lines[cut:]))["second"]
    for name, start, count in (("first", 0, cut), ("second", cut, len(lines) - cut)):
        piece = drawn[name]
        if piece is None:
            continue
        assert repr(piece) and piece._repr_html_()
        shown = [at for at in range(start, start + count) if at_all(reading, at)]
        assert len(piece._lines) == len(shown)
        for at, line in zip(shown, piece._lines):
            by = reading.wanted[at].by
            where = f"line {by + 1 if by < cut else by - cut + 1}"
            where += "" if (by < cut) == (at < cut) else " of first" if by < cut else " of second"
            check_mark(reading, at, line.mark.state.value.strip(), line.mark.text, where)
            if reading.wanted[at].sign == "→":
                assert list(line.numbers or ()) == reading.values[line.key, reading.wanted[at].place]
        assert views.pieces.script() == text_of_lines([*map(told, lines)])


def at_all(reading: Reading, at: int) -> bool:
    """Whether a cell shows a line: no comment, and no declaration or input data that is taken."""
    return bool(reading.wanted[at].sign) or reading.wanted[at].row is not None


# The tests.


@pytest.fixture(autouse=True)
def terminal(monkeypatch: pytest.MonkeyPatch) -> None:
    """A terminal with room for all."""
    monkeypatch.setattr(shutil, "get_terminal_size", lambda: SIZE)


def library_of(seed: int, request: pytest.FixtureRequest) -> Path | None:
    """Every third editor is over the library."""
    return Path(request.getfixturevalue("libparis")) if seed % 3 == 2 else None


@pytest.mark.parametrize("seed", range(-(-TEXTS // TEXTS_EACH)))
def test_all_that_is_seen_of_random_texts(seed: int, tmp_path: Path, request: pytest.FixtureRequest) -> None:
    """So many texts with rows that are taken out, and those between them."""
    chance, signs = Random(seed), Counter[str]()
    views = Views(tmp_path, library_of(seed, request))
    made, seen, without = seed, 0, MOST_WITHOUT
    while seen < TEXTS_EACH:
        if without >= MOST_WITHOUT:
            made, without = made + TEXTS, 0
            editor = RandomEditor(made, names_rows=True)
        # An editor can't say half a pair of UTF-16.
        lines = [paired(line) for line in editor.lines]
        if chance.random() < 0.2:
            views.type(lines)
        reading = views.check(lines, chance)
        signs.update(wanted.sign for wanted in reading.wanted)
        seen += reading.has_taken_out
        without = 0 if reading.has_taken_out else without + 1
        editor.edit()
    views.close()
    assert all(signs[sign] for sign in ("▶=", "-", "✗", "→", "")), signs


ADD, MAX = "u-add-3-1L a a a 8\n", "u-max-3-1L a a a 8\n"
HEAD, ONE = "set S 4\nfield a S 8\ninput a 0 1 2\n", "u-move-constant-1L a 1 8\n"
SCRIPTS = {
    "a row that is taken out": "set S 4\nfield a S 8\ninsert end u-move-1L a a 8\ndelete 1\n",
    "the first script of the page": text_of_lines([line[:32].rstrip() for line in FIRST.split("\n") if line.strip()]),
    "replaced, and taken out then": f"{HEAD}{ADD}replace 1 {MAX}show a end\n{ADD}delete 1\nshow a end\nshow a after 2\n"
    f"delete 1\nreplace 1 {MAX}",
    "the first of three": f"{HEAD}{ONE}{ADD}{ADD}insert after 2 {ONE}delete 1\ndelete 2\nsettle\nlist\n# The end.\n\n"
    "show a end\n",
}


@pytest.mark.parametrize("case", SCRIPTS)
def test_all_that_is_seen_of_scripts(case: str, tmp_path: Path, library: bool, request: pytest.FixtureRequest) -> None:
    views = Views(tmp_path, request.getfixturevalue("libparis") if library else None)
    lines = SCRIPTS[case].split("\n")[:-1]
    reading = views.check(lines, Random(1))
    assert reading.has_taken_out and reading.values["a", START]
    # The same once more, behind an edit elsewhere.
    views.check(["# Above.", *lines], Random(2))
    views.close()
