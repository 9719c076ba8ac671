"""An open file that is one program of several people: it hears from the editor and from the server, and tells both."""

from __future__ import annotations

import time
from collections.abc import Callable, Mapping, Sequence
from dataclasses import asdict
from typing import Any

from pevudlo.document.pieces import Kind, piece_of
from pevudlo.join.beside import label, whole
from pevudlo.join.edits import hunks
from pevudlo.join.link import GONE, Link
from pevudlo.join.merging import Line
from pevudlo.join.places import Places, places_of
from pevudlo.join.shared import NOBODY, Strange
from pevudlo.join.state import Put, Send, State
from pevudlo.lsp.opened import Opened
from pevudlo.lsp.positions import Range
from pevudlo.serve.guests import MOST_LOOKS
from pevudlo.serve.lines import START

BUSY = "wait a moment"
"""How words end by which a server takes nothing now, and will again."""

MOST_TYPED = 200
"""So many letters of a line that is being typed are told."""

QUIET = (Kind.NOTHING, Kind.SET, Kind.FIELD, Kind.PROFILE, Kind.TIME)
"""Kinds of lines that give nothing."""

Told = dict[str, Any]
Tell = Callable[[str], None]


class Joined:
    """A file, and the link by which it is shared. `put` gives an edit to the editor, and `say` tells its user words."""

    def __init__(self, file: Opened, link: Link, put: Callable[[Told], None], say: Tell) -> None:
        self.file, self.link, self._put, self._say = file, link, put, say
        self.state = State(lines_of(file), file.version)
        self.names: dict[int, str] = {}
        self.states: Told = {}
        self.seat, self._turn, self._mark = NOBODY, 0, 0
        self._looks: Sequence[int] = ()
        self._caret: tuple[int, int] | None = None
        self._told_caret: Told = {}
        self._said = ""
        self._places: tuple[Sequence[Line], Sequence[str], Places] | None = None
        self.is_new = False

    # What the editor tells.

    def changed(self, changes: Sequence[Told]) -> None:
        """The file was changed."""
        typed = typed_line(self.file, changes)
        self.state.changed(lines_of(self.file), self.file.version, typed, time.monotonic())
        if typed is not None:
            self._caret = typed, len(self.file.lines[typed].removesuffix("\r"))
        self.tell_caret()

    def moved(self, line: int, letter: int) -> None:
        """The caret is at a letter of a line."""
        self._caret = line, letter
        self.state.left(line)
        self.tell_caret()

    def tell_caret(self) -> None:
        """Tells others where the caret is, and what is being typed there."""
        if self._caret is None or not self.state.is_there:
            return
        at, letter = min(self._caret[0], len(self.state.texts) - 1), self._caret[1]
        text = self.state.texts[at] if at >= 0 else ""
        number = self.places.near(at)
        typed = "" if text == self.state.shared.text.get(number) else text
        told = {"id": number, "column": letter, "text": typed[:MOST_TYPED]}
        if told != self._told_caret:
            self._told_caret = told
            self.link.ask(self._turn, do="caret", **told)

    # What the server tells.

    def hear(self) -> None:
        """Takes in what came from the server."""
        for told in self.link.news():
            self._turn = told.get("turn", self._turn)
            try:
                self._take(told)
            except Strange:
                self.link.ask(self._turn, do="text")

    def _take(self, told: Told) -> None:
        """Takes in a message: answers first, then a whole text, then what was done. Raises Strange."""
        if GONE in told:
            self._part(str(told[GONE]))
        for answer in told.get("answers", ()):
            self._answered(answer)
        self._take_lines(told)
        self._take_states(told.get("states", {}))
        self.is_new = self.is_new or "text" in told or "ops" in told or GONE in told

    def _take_lines(self, told: Told) -> None:
        """Takes in what is told of lines. Raises Strange."""
        if "text" in told:
            self.state.told_text(told["text"])
            self._looks, self._told_caret, self._said = (), {}, ""
        for op in told.get("ops", ()):
            self.state.told_op(op)
        if told.get("lost"):
            raise Strange("operations are lost")

    def _part(self, why: str) -> None:
        """The server is gone."""
        self.state.parted()
        self.states.clear()
        if why != self._said:
            self._said = why
            self._say(f"{why}; it is tried again")

    def _answered(self, answer: Told) -> None:
        """Takes in an answer."""
        if "hello" in answer:
            hello = answer["hello"]
            self.seat, self.state.may_edit = hello["seat"], hello["kind"] != "looking"
            self.names |= {number: name for number, name in hello.get("seats", ())}
        elif answer.get("mark") != self._mark:
            return
        elif "refused" in answer:
            is_busy = str(answer["refused"]).endswith(BUSY)
            self.state.refused(is_busy, time.monotonic())
            if not is_busy:
                self._say(f"not sent: {answer['refused']}")
        else:
            self.state.accepted(answer["n"], answer["put"])

    def _take_states(self, states: Told) -> None:
        """Takes in states."""
        self.states |= states
        self.names |= {number: name for number, name, _ in states.get("people") or ()}
        self.is_new = self.is_new or any(name[0] == "v" or name == "rows" for name in states)

    # What is done then.

    def step(self) -> None:
        """Sends what is next, to the server or to the editor."""
        while (step := self.state.next(time.monotonic())) is not None:
            match step:
                case Send(changes):
                    self._mark += 1
                    told = [{**asdict(change), "op": change.op.value} for change in changes]
                    self.link.ask(self._turn, do="edit", mark=self._mark, changes=told)
                case Put(version, old, new):
                    edits = text_edits(self.file, old, new)
                    document = {"uri": self.file.uri, "version": version}
                    self._put({"documentChanges": [{"textDocument": document, "edits": edits}]})

    @property
    def places(self) -> Places:
        """Which shared line each line of the file is. It is found anew where the state has another base or text."""
        base, texts = self.state.base, self.state.texts
        if self._places is None or self._places[0] is not base or self._places[1] is not texts:
            self._places = base, texts, places_of(base, texts)
        return self._places[2]

    @property
    def carets(self) -> list[Told]:
        """Where others are, by lines of the file: the letter, the name, and what is being typed there."""
        lines, found = self.places.lines, list[Told]()
        for name, told in self.states.items():
            if name.startswith("caret") and told is not None and told[0] in (START, *lines):
                line = lines.get(told[0], 0)
                found.append({"line": line, "letter": told[1], "name": told[2], "text": told[3]})
        return found

    @property
    def words(self) -> str:
        """Who is there, and how many rows are unsettled."""
        if not self.state.is_there:
            return "not joined"
        others = [name for number, name, _ in self.states.get("people") or () if number != self.seat]
        rows = self.states.get("rows") or {}
        said = f"joined with {', '.join(others)}" if others else "joined"
        left = rows.get("left", 0)
        said += f"; {left:,} row{'s' * (left != 1)} to run" if left else ""
        return f"{said}; {rows['trouble']}" if rows.get("trouble") else said

    # What lines give.

    def look(self, lines: range) -> None:
        """These lines are shown from now on."""
        ids, texts = self.places.ids, self.state.texts
        shown = [at for at in lines if at < len(ids) and ids[at] != START]
        wanted = [ids[at] for at in shown if piece_of(texts[at]).kind not in QUIET][:MOST_LOOKS]
        if wanted != self._looks and self.state.is_there:
            self._looks = wanted
            self.link.ask(self._turn, do="look", ids=wanted)

    def given(self, number: int) -> Mapping[str, Any]:
        """What is told of a line, as far as it is the server's line as it stands."""
        at = self.places.ids[number] if number < len(self.state.texts) else START
        if at == START or self.state.shared.text.get(at) != self.state.texts[number]:
            return {}
        found: Mapping[str, Any] = self.states.get(f"v{at}") or {}
        return found

    def label(self, number: int) -> str:
        """The short values of a line, with the name of who else wrote it last."""
        at = self.places.ids[number] if number < len(self.state.texts) else START
        by = self.state.shared.by.get(at, NOBODY)
        name = self.names.get(by, "") if by != self.seat else ""
        return "  ".join(filter(None, (label(self.given(number)), f"({name})" if name else "")))

    def whole(self, number: int) -> str:
        """All that is told of a line."""
        return whole(self.given(number))


def lines_of(file: Opened) -> list[str]:
    """The lines of a file, of which a last line feed begins none. One may end at a carriage return and a line feed."""
    lines = [line.removesuffix("\r") for line in file.lines]
    return lines[:-1] if lines[-1] == "" else lines


def typed_line(file: Opened, changes: Sequence[Told]) -> int | None:
    """The line in which the last change ends; None where it was one of the whole text."""
    if not changes or "range" not in changes[-1]:
        return None
    start, put = changes[-1]["range"]["start"]["line"], changes[-1]["text"]
    return file.place({"line": start + put.count("\n"), "character": 0})[0]


def text_edits(file: Opened, old: Sequence[str], new: Sequence[str]) -> list[Told]:
    """The edits of the protocol that make a text of the one that a file has."""
    return [text_edit(file, len(old), hunk.start, hunk.end, hunk.lines) for hunk in hunks(old, new)]


def text_edit(file: Opened, count: int, start: int, end: int, lines: Sequence[str]) -> Told:
    """The edit that puts lines into the place of some of a file's. At its end it begins behind the line above it."""
    if end < count or not count:
        where, text = span(file, (start, 0), (end, 0)), "".join(f"{line}\n" for line in lines)
    elif start:
        where, text = span(file, (start - 1, None), (end - 1, None)), "".join(f"\n{line}" for line in lines)
    else:
        where, text = span(file, (0, 0), (end - 1, None)), "\n".join(lines)
    return {"range": where, "newText": text}


def span(file: Opened, start: tuple[int, int | None], end: tuple[int, int | None]) -> Range:
    """A part of a file, by lines and letters, None for a line's end."""
    places = {
        side: (at, len(file.lines[at]) if letter is None else letter)
        for side, (at, letter) in (("start", start), ("end", end))
    }
    return {side: file.position(*place) for side, place in places.items()}
