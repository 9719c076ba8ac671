"""A language server and an editor: frames, requests in any order, cancelled ones, files, and the end."""

from __future__ import annotations

import json
import os
import re
import signal
import time
from bisect import bisect_right
from collections.abc import Iterator
from pathlib import Path
from random import Random
from typing import Any

import pytest
from editors import MODERN, URI, Editor, Gone, Message, Started, framed, typed
from random_editor import RandomEditor, compare
from terminals import children_of

from pevudlo.lang.faults import FAULTS
from pevudlo.lsp import server as lsp_server
from pevudlo.lsp.client import CAPABILITIES
from pevudlo.lsp.frames import MOST_BODY, MOST_HEAD, Frames, NoFrame
from pevudlo.lsp.frames import framed as framed_by_it
from pevudlo.lsp.methods import METHODS
from pevudlo.lsp.positions import laid_out, letter_at, units
from pevudlo.wire.pipe import Pipe
from pevudlo.wire.program import find

HEAD = "set S 4\nfield a S 8\nfield b S 8\nfield c S 8\ninput a 0 1 2 3 4\n"
ADD, TWICE = "u-add-3-1L b a a 8\n", "u-add-3-1L c b b 8\n"
TEXT = HEAD + ADD + TWICE + "show c end\n"
ABOUT_FILES = [name for name, method in METHODS.items() if method.answer is not None]
ALL = {"start": {"line": 0, "character": 0}, "end": {"line": 9_999, "character": 0}}


@pytest.fixture
def editor() -> Iterator[Editor]:
    """An editor with the file open."""
    with Editor() as editor:
        editor.open(TEXT)
        yield editor


@pytest.fixture
def late(tmp_path: Path) -> Path:
    """The program, which begins when there is a file `go` beside it."""
    late = tmp_path / "late"
    late.write_text(f'#!/bin/sh\nwhile [ ! -e {tmp_path}/go ]; do sleep 0.02; done\nexec {find()} "$@"\n')
    late.chmod(0o755)
    return late


def labels(editor: Editor) -> list[str]:
    """The short values behind all lines."""
    return [hint["label"] for hint in editor.of("inlayHint", range=ALL)]


# Frames.


def test_frames_that_come_in_parts() -> None:
    messages: list[Message] = [{"id": 1, "method": "é" * 300}, {"method": "x", "params": {"text": "😀\n\r\n\r\n"}}, {}]
    data = b"".join(framed_by_it(message) for message in messages)
    for size in (1, 2, 7, len(data)):
        frames, found = Frames(), list[Message]()
        for at in range(0, len(data), size):
            frames.feed(data[at : at + size])
            while (body := frames.body()) is not None:
                found.append(json.loads(body))
        assert found == [{"jsonrpc": "2.0", **message} for message in messages]


@pytest.mark.parametrize("head", [b"Content-Type: x\r\nContent-Length: 2\r\n\r\n", b"content-length:2\r\nX: y\r\n\r\n"])
def test_heads_of_other_spellings(head: bytes) -> None:
    frames = Frames()
    frames.feed(head + b"{}")
    assert frames.body() == b"{}" and frames.body() is None


@pytest.mark.parametrize(
    "data",
    [
        b"x" * MOST_HEAD,
        b"Content-Length: x\r\n\r\n{}",
        b"X: 2\r\n\r\n{}",
        b"Content-Length: %d\r\n\r\n" % (MOST_BODY + 1),
    ],
)
def test_what_is_no_frame(data: bytes) -> None:
    frames = Frames()
    frames.feed(data)
    with pytest.raises(NoFrame):
        frames.body()


def test_half_a_message_keeps_no_update_waiting(editor: Editor) -> None:
    """What was typed is shown although the next message isn't whole; the rest of it is answered then."""
    editor.change(typed(4, 16, 17, "5"))
    late = framed({"id": "late", "method": "textDocument/documentSymbol", "params": {"textDocument": {"uri": URI}}})
    editor.write(late[:40])
    assert editor.ran()["text"] == "2 of 2 rows ran again"
    editor.write(late[40:])
    while (message := editor.more()).get("id") != "late":
        pass
    assert [each["name"] for each in message["result"]] == ["S", "a", "b", "c"]


@pytest.mark.parametrize(
    ("body", "code"), [(b"{", -32700), (b"\xff", -32700), (b"[]", -32600), (b"7", -32600), (b"[" * 100_000, -32700)]
)
def test_a_body_that_is_no_message(editor: Editor, body: bytes, code: int) -> None:
    editor.write(b"Content-Length: %d\r\n\r\n%s" % (len(body), body))
    while "error" not in (message := editor.more()):
        pass
    assert message["id"] is None and message["error"]["code"] == code
    assert len(labels(editor)) == 3


# Positions.


def test_positions_count_units_of_utf_16() -> None:
    line = "# é😀x"
    assert [units(line[:at]) for at in range(len(line) + 1)] == [0, 1, 2, 3, 5, 6]
    assert [letter_at(line, at) for at in range(8)] == [0, 1, 2, 3, 4, 4, 5, 5]
    layout = laid_out(f"\n\n\n{line}")
    assert layout.span(3, 3, 4) == {"start": {"line": 3, "character": 3}, "end": {"line": 3, "character": 5}}


END = re.compile("\r\n|\n|\r")
"""Where a line ends in the protocol."""


def offset(text: str, position: dict[str, int]) -> int:
    """Where a position is in a whole text, in units of UTF-16."""
    starts = [0, *(end.end() for end in END.finditer(text))]
    if position["line"] >= len(starts):
        return units_of(text)
    start = starts[position["line"]]
    line = END.split(text[start:], maxsplit=1)[0]
    return units_of(text[:start]) + min(position["character"], units_of(line))


def units_of(text: str) -> int:
    """How many units a text has as UTF-16."""
    return len(text.encode("utf-16-le")) // 2


def test_random_changes_of_ranges() -> None:
    """They are the same changes of the whole text as UTF-16."""
    chance = Random(1)

    def some(letters: str, most: int) -> str:
        return "".join(chance.choice(letters) for _ in range(chance.randint(0, most)))

    def position(text: str) -> dict[str, int]:
        lines = END.split(text)
        line = chance.randrange(len(lines) + 1)
        letters = lines[line] if line < len(lines) else ""
        beyond = 5 if chance.random() < 0.1 else 0
        at = len(letters) if beyond else chance.randint(0, len(letters))
        return {"line": line, "character": units_of(letters[:at]) + beyond}

    for _ in range(3_000):
        text = some("ab \n\n\r\r😀é", 30)
        layout = laid_out(text)
        for _ in range(5):
            start, end = sorted((position(text), position(text)), key=lambda each: offset(text, each))
            put = some("xy\n\r😀", 4)
            raw = text.encode("utf-16-le")
            wanted = raw[: 2 * offset(text, start)] + put.encode("utf-16-le") + raw[2 * offset(text, end) :]
            sides = {"start": start, "end": end} if chance.random() < 0.8 else {"start": end, "end": start}
            layout = layout.edited({"range": sides, "text": put})
            assert "\n".join(layout.lines) == wanted.decode("utf-16-le")
            text = "\n".join(layout.lines)


def test_each_letter_has_its_position_and_each_position_its_letter() -> None:
    """By the ends of lines that the protocol has. Between two signs that end one line together nothing stands."""
    chance = Random(2)
    for _ in range(500):
        text = "".join(chance.choice("ab\n\r😀") for _ in range(chance.randint(0, 20)))
        layout, starts = laid_out(text), [0, *(end.end() for end in END.finditer(text))]
        at = 0
        for number, line in enumerate(layout.lines):
            for letter in range(len(line) + 1):
                row = bisect_right(starts, at + letter) - 1
                is_between = text[at + letter - 1 : at + letter + 1] == "\r\n"
                found = layout.position(number, letter)
                units_before = units_of(text[starts[row] : at + letter - is_between])
                assert found == {"line": row, "character": units_before}, (text, number, letter)
                assert layout.place(found) == (number, letter - is_between)
            at += len(line) + 1
        behind = {"line": len(starts), "character": 3}
        assert layout.place(behind) == (len(layout.lines) - 1, len(layout.lines[-1]))


def test_a_comment_with_letters_beyond_ascii(editor: Editor) -> None:
    """The text below it is changed, and so is the line itself, behind a letter of two units."""
    editor.change(typed(5, 0, 0, "# 😀é: the sum\n"))
    editor.change(typed(5, 4, 5, "e"), typed(4, 16, 17, "5"))
    assert editor.ran()["text"] == "2 of 2 rows ran again"
    assert editor.server.files[URI].lines[5] == "# 😀e: the sum"
    editor.change(typed(5, 2, 4, "\ud83d\ude00 \ud83d"))
    assert len(labels(editor)) == 3 and editor.server.files[URI].lines[5] == "# 😀 \ufffde: the sum"


def test_a_file_with_other_ends_of_lines(editor: Editor) -> None:
    editor.change({"text": TEXT.replace("\n", "\r\n")})
    editor.ran()
    assert len(editor.wrong()) == 8 and "carriage return" in editor.wrong()[0]["message"]


def test_a_lone_carriage_return_ends_a_line_of_the_protocol_and_none_of_a_script(editor: Editor) -> None:
    """The program takes such a line for one, and refuses it. All below it are where the editor has them."""
    text = TEXT.replace("field c S 8\n", "field c S 8\n# 😀 One.\rfield d S 8\r\nfield e S 8\r# Two.\n")
    editor.open(text)
    assert editor.server.files[URI].document.lines == [*text.split("\n")[:-1]]
    (wrong,) = editor.wrong()
    assert wrong["range"] == {"start": {"line": 6, "character": 10}, "end": {"line": 7, "character": 1}}
    assert [hint["position"] for hint in editor.of("inlayHint", range=ALL)] == [
        {"line": 9, "character": 18},
        {"line": 10, "character": 18},
        {"line": 11, "character": 10},
    ]
    assert editor.of("hover", 10, 13)["contents"]["value"].startswith("`b`: 8 bits in `S`, from the row")
    assert editor.of("hover", 10, 13)["range"] == typed(10, 13, 14, "")["range"]
    assert editor.of("definition", 10, 13)[0]["range"] == typed(9, 0, 18, "")["range"]
    assert [each["range"]["start"]["line"] for each in editor.of("references", 10, 13)] == [2, 9, 10, 10]
    assert [each["range"]["start"]["line"] for each in editor.of("documentSymbol")] == [0, 1, 2, 3, 4]
    folds = [(each["startLine"], each["endLine"]) for each in editor.of("foldingRange")]
    assert folds == [(0, 11)]
    items = editor.of("completion", 11, 6)["items"]
    assert items[0]["textEdit"]["range"] == typed(11, 5, 6, "")["range"]
    # What is typed goes where the editor has it, and a line feed behind the carriage return makes two lines of it.
    editor.type(8, 10, 17, "5 6 7 8")
    assert editor.server.files[URI].lines[6] == "input a 0 5 6 7 8"
    editor.type(7, 0, 0, "\n")
    assert editor.server.files[URI].lines[5:8] == ["field e S 8\r", "# Two.", "input a 0 5 6 7 8"]
    assert editor.of("hover", 8, 6)["range"] == typed(8, 6, 7, "")["range"]


def test_colours_where_a_lone_carriage_return_ends_a_line(editor: Editor) -> None:
    editor.open("# 😀\rb\r\n# c\nset S 4\rset T 4\r\n")
    data = editor.of("semanticTokens/full")["data"]
    assert [tuple(data[at : at + 4]) for at in range(0, len(data), 5)] == [
        *((0, 0, 4, 0), (1, 0, 1, 0), (1, 0, 3, 0)),
        *((1, 0, 3, 1), (0, 4, 1, 7), (0, 2, 1, 6), (1, 0, 3, 6), (0, 4, 1, 7), (0, 2, 1, 6)),
    ]


# Requests.


def test_it_says_what_it_can() -> None:
    with Editor() as editor:
        assert editor.began["capabilities"] == CAPABILITIES
        provided = {"textDocument/" + name.removesuffix("Provider") for name in CAPABILITIES if "Provider" in name}
        known = {method.replace("semanticTokens/full", "semanticTokens") for method in ABOUT_FILES}
        assert provided == known - {"textDocument/prepareRename", "textDocument/semanticTokens/range"}


def test_requests_before_it_is_begun_and_behind_its_end() -> None:
    with Editor(None) as editor:
        assert editor.fails("textDocument/hover")[0] == -32002
        editor.tell("textDocument/didOpen", textDocument={"uri": URI, "text": TEXT, "version": 1})
        editor.ask("initialize", capabilities={})
        assert editor.fails("initialize", capabilities={})[0] == -32600
        assert editor.fails("textDocument/documentSymbol", textDocument={"uri": URI}) == (
            -32602,
            f"{URI} isn't open",
        )
        assert editor.ask("shutdown") is None
        assert editor.fails("shutdown")[0] == editor.fails("textDocument/hover")[0] == -32600
        editor.tell("exit")
        assert editor.end() == 0


@pytest.mark.parametrize(
    ("method", "params", "code"),
    [
        ("textDocument/nope", {}, -32601),
        ("textDocument/hover", {"textDocument": {"uri": "file:///other"}}, -32602),
        ("textDocument/hover", {"textDocument": {"uri": URI}}, -32602),
        ("textDocument/hover", {}, -32602),
        ("textDocument/hover", [1], -32602),
        ("textDocument/inlayHint", {"textDocument": {"uri": URI}, "range": {"start": 3}}, -32602),
    ],
)
def test_requests_that_have_no_result(editor: Editor, method: str, params: Any, code: int) -> None:
    editor.write(framed({"id": "x", "method": method, "params": params}))
    message = editor.answer("x")
    assert message["error"]["code"] == code
    assert len(labels(editor)) == 3


@pytest.mark.parametrize(
    ("method", "params"),
    [
        ("textDocument/didChange", {"textDocument": {"uri": URI}}),
        ("textDocument/didChange", {"textDocument": {"uri": "file:///other"}, "contentChanges": []}),
        ("textDocument/didOpen", {}),
        ("textDocument/didSave", "x"),
    ],
)
def test_notices_that_are_wrong_change_nothing(editor: Editor, method: str, params: Any) -> None:
    editor.write(framed({"method": method, "params": params}))
    assert editor.news("window/logMessage")["message"].startswith(method)
    assert len(labels(editor)) == 3


def test_a_change_whose_second_part_is_wrong_changes_nothing(editor: Editor) -> None:
    editor.change(typed(4, 16, 17, "5"), {"range": {}, "text": "x"})
    editor.news("window/logMessage")
    assert labels(editor)[0].startswith("▶ b 2 4 6 8 ")


def test_notices_and_answers_that_mean_nothing_here(editor: Editor) -> None:
    editor.tell("$/setTrace", value="off")
    editor.tell("workspace/didChangeConfiguration", settings={})
    editor.write(framed({"id": "paris-1", "result": None}))
    editor.write(framed({"method": 7}))
    assert len(labels(editor)) == 3


def test_requests_are_answered_in_their_order(editor: Editor) -> None:
    """However many wait, and those about a text that was changed between them are of that text."""
    data, numbers = b"", list(range(1_000, 1_040))
    for number in numbers:
        change = {
            "textDocument": {"uri": URI, "version": number},
            "contentChanges": [typed(4, 16, 17, str(number % 7))],
        }
        data += framed({"method": "textDocument/didChange", "params": change})
        about = {"textDocument": {"uri": URI}, "range": ALL}
        data += framed({"id": number, "method": "textDocument/inlayHint", "params": about})
    editor.write(data)
    for number in numbers:
        first, *_ = editor.answer(number)["result"]
        # b is a + a, and the last number of a is what was typed.
        assert f" 6 {2 * (number % 7)}" in first["label"].replace("*", "")
    assert [each["id"] for each in editor.heard if each.get("id") in numbers and "result" in each] == numbers


def test_a_request_that_is_cancelled_while_it_waits(editor: Editor) -> None:
    about = {"textDocument": {"uri": URI}}
    ask = [framed({"id": number, "method": "textDocument/documentSymbol", "params": about}) for number in (70, 71, 72)]
    cancel = framed({"method": "$/cancelRequest", "params": {"id": 71}})
    editor.write(b"".join(ask) + cancel + framed({"method": "$/cancelRequest", "params": {"id": 99}}))
    answers = {number: editor.answer(number) for number in (70, 71, 72)}
    assert answers[71]["error"] == {"code": -32800, "message": "the request was cancelled"}
    assert len(answers[70]["result"]) == len(answers[72]["result"]) == 4
    # One that was answered can't be cancelled, and numbers may come again.
    editor.write(framed({"method": "$/cancelRequest", "params": {"id": 70}}) + ask[0] + ask[1])
    assert len(editor.answer(70)["result"]) == len(editor.answer(71)["result"]) == 4


def test_a_request_that_is_cancelled_while_another_is_answered(late: Path) -> None:
    with Editor(program=lambda: late) as editor:
        editor.tell("textDocument/didOpen", textDocument={"uri": URI, "text": TEXT, "version": 1})
        ask = {"method": "textDocument/documentSymbol", "params": {"textDocument": {"uri": URI}}}
        editor.write(framed({"id": 70, **ask}) + framed({"id": 71, **ask}))
        time.sleep(0.1)
        editor.tell("$/cancelRequest", id=71)
        late.with_name("go").touch()
        assert len(editor.answer(70)["result"]) == 4
        assert editor.answer(71)["error"]["code"] == -32800


# Files.


def test_two_files_have_books_of_their_own(editor: Editor) -> None:
    other = "file:///other.paris"
    editor.open(HEAD.replace("field c S 8\n", "") + ADD, other)
    assert [each["name"] for each in editor.of("documentSymbol", uri=other)] == ["S", "a", "b"]
    assert [each["name"] for each in editor.of("documentSymbol")] == ["S", "a", "b", "c"]
    editor.tell("textDocument/didClose", textDocument={"uri": other})
    assert editor.news("textDocument/publishDiagnostics") == {"uri": other, "diagnostics": []}
    assert editor.fails("textDocument/documentSymbol", textDocument={"uri": other})[0] == -32602
    assert editor.open(TEXT)["text"].startswith("a new book") and len(labels(editor)) == 3


def test_what_is_typed_without_a_pause_is_one_update(editor: Editor) -> None:
    labels(editor)
    for digit in "56789":
        editor.change(typed(4, 16, 17, digit))
    assert editor.ran() == {"uri": URI, "text": "2 of 2 rows ran again", "ran": 2, "rows": 2}
    assert "18*" in labels(editor)[0]
    assert not [each for each in editor.heard[-2:] if each.get("method") == "$/paris/ran"]


def test_a_row_that_is_typed_stays_until_it_is_saved(editor: Editor) -> None:
    assert editor.type(5, 9, 10, "")["text"] == "0 of 2 rows ran again; 1 line is refused"
    (wrong,) = editor.wrong()
    assert wrong["range"] == typed(5, 0, 9, "")["range"] and wrong["code"] == 20
    said = ["did you mean `u-add-3-1L`?", FAULTS[20].words(1), "the row stays `u-add-3-1L b a a 8`"]
    assert wrong["message"].split("\n") == said
    assert editor.of("hover", 6, 13)["contents"]["value"].endswith("2 4 6 8\n```")
    editor.tell("textDocument/didSave", textDocument={"uri": URI})
    assert editor.ran() == {"uri": URI, "text": "1 of 1 row ran again; 1 line is refused", "ran": 1, "rows": 1}
    assert editor.type(5, 9, 9, "L")["text"] == "2 of 2 rows ran again" and editor.wrong() == []


def test_a_declaration_that_is_typed_stays(editor: Editor) -> None:
    assert editor.type(3, 10, 11, "")["ran"] == 0
    assert editor.wrong()[0]["message"].endswith("`field c S 8` stays") and len(editor.wrong()) == 1
    assert editor.type(3, 10, 10, "8")["ran"] == 0 and editor.wrong() == []
    # What is wrong is told where that is other than it was.
    editor.type(4, 16, 17, "5")
    assert len([each for each in editor.heard if each.get("method") == "textDocument/publishDiagnostics"]) == 3


def test_an_empty_file(editor: Editor) -> None:
    editor.change({"text": ""})
    assert editor.ran()["rows"] == 0 and labels(editor) == []
    for method in ("hover", "definition", "declaration", "references", "documentHighlight", "prepareRename"):
        assert not editor.of(method, 3, 7)
    assert len(editor.of("completion", 0, 0)["items"]) == 14 + 77


# A program that ends.


def programs_of(editor: Editor) -> list[int]:
    """The programs behind the file."""
    book = editor.server.files[URI].document.book
    peers = (book.peer, book.verdicts.peer)
    return [peer.process for peer in peers if isinstance(peer, Pipe)]


def test_a_program_that_is_killed_is_begun_anew(editor: Editor) -> None:
    before = labels(editor)
    for count in (2, 1):
        for process in programs_of(editor)[:count]:
            os.kill(process, signal.SIGKILL)
        # A look finds it out, and so does what is typed.
        hover = editor.of("hover", 4, 6)["contents"]["value"]
        said = [each["params"]["text"] for each in editor.heard if each.get("method") == "$/paris/ran"]
        assert hover.endswith("1 2 3 4\n```") and "killed by signal 9" in said[-1]
        assert labels(editor) == before
    for process in programs_of(editor):
        os.kill(process, signal.SIGKILL)
    assert "killed by signal 9" in editor.type(4, 16, 17, "5")["text"]
    compare(editor.server.files[URI].document, TEXT.replace("3 4", "3 5").split("\n")[:-1])


def test_a_program_that_never_starts(tmp_path: Path) -> None:
    """It is said in the first line, and each request fails; the next text begins anew."""
    programs = iter([Path("/bin/false")] * 2)
    with Editor(program=lambda: next(programs, find())) as editor:
        editor.tell("textDocument/didOpen", textDocument={"uri": URI, "text": TEXT, "version": 1})
        (wrong,) = editor.news("textDocument/publishDiagnostics")["diagnostics"]
        assert wrong["message"].startswith("no values: the program ") and wrong["range"]["start"]["line"] == 0
        code, words = editor.fails("textDocument/documentSymbol", textDocument={"uri": URI})
        assert code == -32803 and words.startswith("the program ")
        assert editor.type(4, 16, 17, "5")["rows"] == 2 and editor.wrong() == []


def test_what_takes_its_time_is_told(monkeypatch: pytest.MonkeyPatch, late: Path) -> None:
    monkeypatch.setattr(lsp_server, "LATE", 0.05)
    with Editor({**MODERN, "window": {"workDoneProgress": True}}, program=lambda: late) as editor:
        editor.tell("textDocument/didOpen", textDocument={"uri": URI, "text": TEXT, "version": 1})
        editor.news("$/progress")
        late.with_name("go").touch()
        editor.ran()
        told = [each for each in editor.heard if str(each.get("method")).endswith(("Progress/create", "$/progress"))]
        create, begin, *_, end = told
        token = create["params"]["token"]
        assert begin["params"] == {
            "token": token,
            "value": {"kind": "begin", "title": "sum.paris", "message": "tells 8 lines"},
        }
        assert end["params"] == {"token": token, "value": {"kind": "end"}}
        assert {each["params"]["token"] for each in told} == {token}


# Random ones.


@pytest.mark.parametrize("seed", range(3))
def test_a_random_session(seed: int) -> None:
    """Each request has one answer, and behind each save the document is what a fresh run of the text says."""
    chance, made = Random(seed), RandomEditor(seed)
    with Editor() as editor:
        editor.open("".join(f"{line}\n" for line in made.lines))
        values = 0
        for _ in range(12):
            before = list(made.lines)
            made.edit()
            editor.change(*changes(before, made.lines, chance))
            methods = chance.sample(ABOUT_FILES, 4)
            asked = [editor.request(method, **about(chance, len(made.lines))) for method in methods]
            for number in asked:
                answer = editor.answer(number)
                assert "result" in answer or is_no_name(answer["error"]), answer
            editor.tell("textDocument/didSave", textDocument={"uri": URI})
            editor.of("documentSymbol")
            values += compare(editor.server.files[URI].document, made.lines)
        assert values > 0


def is_no_name(error: Message) -> bool:
    """Whether a request failed since a word can't have another name, or not this one. No other one has to fail."""
    words = ("no declared name stands here", "is no name", "is declared already")
    return error["code"] == -32602 and any(part in error["message"] for part in words)


def changes(before: list[str], after: list[str], chance: Random) -> Iterator[Message]:
    """Changes that lead from a text to another: of all of it, or of a range for each of some lines."""
    if chance.random() < 0.2:
        yield {"text": "".join(f"{line}\n" for line in after)}
        return
    low = 0
    while low < min(len(before), len(after)) and before[low] == after[low]:
        low += 1
    # All behind the first line that differs, in two parts.
    rest = "".join(f"{line}\n" for line in after[low:])
    cut = chance.randint(0, len(rest))
    yield {
        "range": {"start": {"line": low, "character": 0}, "end": {"line": 9_999, "character": 0}},
        "text": rest[:cut],
    }
    yield {
        "range": {"start": {"line": 9_999, "character": 0}, "end": {"line": 9_999, "character": 9}},
        "text": rest[cut:],
    }


def about(chance: Random, count: int) -> dict[str, Any]:
    """All that a request may want: a place in the file or behind it, and what follows from it."""
    place = {"line": chance.randrange(count + 2), "character": chance.randrange(30)}
    return {
        "textDocument": {"uri": URI},
        "position": place,
        "range": {"start": place, "end": {"line": place["line"] + chance.randrange(9), "character": 0}},
        "context": {"diagnostics": [], "includeDeclaration": chance.random() < 0.5},
        "newName": chance.choice(("x9", "a", "9")),
    }


# The command.


def test_the_command_serves_over_standard_input_and_output() -> None:
    with Started() as editor:
        assert editor.open(TEXT)["text"] == "a new book (the first text): 2 of 2 rows ran"
        assert labels(editor)[-1] == "c 4 8 12 16"
        assert editor.ask("shutdown") is None
        editor.tell("exit")
        assert (editor.end(), editor.errors) == (0, b"")


def test_an_editor_that_goes_without_a_word() -> None:
    """The programs behind the server go too."""
    with Started("--workers", "1") as editor:
        editor.open(TEXT)
        started = children_of(editor.child.pid)
        assert len(started) == 2
        assert (editor.end(), editor.errors) == (1, b"")
        assert not any(Path(f"/proc/{process}").exists() for process in started)


@pytest.mark.parametrize("number", [signal.SIGINT, signal.SIGTERM])
def test_it_ends_when_it_is_told_to(number: int) -> None:
    with Started("--workers", "1") as editor:
        editor.open(TEXT)
        started = children_of(editor.child.pid)
        editor.child.send_signal(number)
        assert (editor.end(), editor.errors) == (1, b"")
        assert not any(Path(f"/proc/{process}").exists() for process in started)


def test_exit_without_shutdown_and_what_is_no_frame() -> None:
    with Started() as editor:
        editor.tell("exit")
        with pytest.raises(Gone):
            editor.more()
        assert (editor.end(), editor.errors) == (1, b"")
    with Started(capabilities=None) as editor:
        editor.write(b"help\r\n\r\n")
        said = b"paris lsp: a head has no length, or one that is too great; an editor starts it, and talks with it\n"
        assert (editor.end(), editor.errors) == (2, said)
