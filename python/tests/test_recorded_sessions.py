"""What Neovim and Emacs said in recorded sessions, said again: each request has an answer, and it is the right one."""

from __future__ import annotations

import json
from typing import Any

import pytest
from editors import Editor, Message, framed
from random_editor import Fresh, compare, numbers_of
from record_sessions import EDITOR, HOME, PLAYERS, SERVER, SESSIONS, TEXT

URI = f"file://{HOME}/sum.paris"
CHANGED = TEXT.replace("3 4", "3 5")
SAVED = (
    CHANGED.replace("u-ad-3-1L a a a 8", "u-add-3-1L a c c 8")
    .replace("field b", "field twice")
    .replace("u-add-3-1L b a", "u-add-3-1L twice a")
    .replace("c b b", "c twice twice")
)
"""What the file has at the end of either session."""

ASKED = {
    "inlayHint",
    "hover",
    "documentHighlight",
    "definition",
    "declaration",
    "references",
    "codeAction",
    "documentSymbol",
    "completion",
    "rename",
}
"""What either editor asks."""


def numbers(text: str, look: str) -> str:
    """What a look at a fresh run of a text gives, as editors show it."""
    (reply,) = Fresh(text.split("\n")[:-1]).answers([look])
    return " ".join(map(str, numbers_of(reply)))


class Played:
    """A recorded session, played by an editor that waits where the recorded server had said something."""

    def __init__(self, name: str) -> None:
        self.messages = [json.loads(line) for line in (SESSIONS / f"{name}.jsonl").read_text("utf-8").splitlines()]
        self.answers: list[tuple[str, Message]] = []
        self.ran: list[str] = []
        self.values = 0
        self._asked: dict[int, str] = {}
        with Editor(capabilities=None) as editor:
            for each in self.messages:
                if EDITOR in each:
                    self._say(editor, each[EDITOR])
                else:
                    self._hear(editor, each[SERVER])
            self.status = editor.end()

    def _say(self, editor: Editor, message: Message) -> None:
        """Says what the editor said."""
        if message.get("method") == "shutdown":
            self.values = compare(editor.server.files[URI].document, SAVED.split("\n")[:-1])
        if "id" in message and "method" in message:
            self._asked[message["id"]] = message["method"].removeprefix("textDocument/")
        editor.write(framed({name: value for name, value in message.items() if name != "jsonrpc"}))

    def _hear(self, editor: Editor, message: Message) -> None:
        """Waits for what the server said: an answer, or a notice."""
        if message.get("method") == "$/paris/ran":
            self.ran.append(editor.ran()["text"])
        elif "method" in message:
            editor.news(message["method"])
        else:
            self.answers.append((self._asked.pop(message["id"]), editor.answer(message["id"])))

    def results(self, method: str) -> list[Any]:
        """The results of requests."""
        return [answer["result"] for asked, answer in self.answers if asked == method]

    @property
    def unanswered(self) -> list[str]:
        """The requests without an answer."""
        return list(self._asked.values())


@pytest.fixture(scope="module", params=PLAYERS)
def played(request: pytest.FixtureRequest) -> Played:
    """Each of the sessions."""
    return Played(str(request.param))


def test_each_request_has_an_answer(played: Played) -> None:
    methods = [method for method, _ in played.answers]
    assert played.unanswered == [] and set(methods) >= ASKED | {"initialize", "shutdown"}
    for method, answer in played.answers:
        assert "error" not in answer, (method, answer)
        assert answer["result"] or method == "shutdown", method
    assert played.status == 0 if any(each.get(EDITOR, {}).get("method") == "exit" for each in played.messages) else 1


def test_behind_the_save_all_is_what_a_fresh_run_says(played: Played) -> None:
    assert played.values > 0


def test_values_are_those_of_a_fresh_run(played: Played) -> None:
    b = numbers(CHANGED, "show b end")
    hover = played.results("hover")[0]["contents"]["value"]
    assert "from the row `u-add-3-1L b a a 8` in line 7" in hover and b in " ".join(hover.split())
    hints = [{hint["position"]["line"]: hint["label"] for hint in result} for result in played.results("inlayHint")]
    assert hints[0][8] == f"c {numbers(TEXT, 'show c end')}" and hints[1][8] == f"c {numbers(CHANGED, 'show c end')}"
    assert hints[-1][6].startswith(f"twice {numbers(SAVED, 'show twice end')} ")
    assert "2 of 2 rows ran again; 1 line is refused" in played.ran and "1 of 3 rows ran again" in played.ran


def lines(found: list[Message]) -> list[int]:
    """The lines of places."""
    return [each["range"]["start"]["line"] for each in found]


def test_names_lead_to_their_lines(played: Played) -> None:
    """`b` is declared in the fourth line, written in the seventh, and read twice in the eighth."""
    assert [lines(found) for found in played.results("definition")] == [[6]]
    assert [lines(found) for found in played.results("declaration")] == [[3]]
    assert [lines(found) for found in played.results("references")] == [[3, 6, 7, 7]]
    assert lines(played.results("documentHighlight")[0]) == [3, 6, 7, 7]
    (renamed,) = played.results("rename")
    assert lines(renamed["changes"][URI]) == [3, 6, 7, 7]
    assert {edit["newText"] for edit in renamed["changes"][URI]} == {"twice"}


def test_what_is_wrong_is_mended_and_what_is_begun_is_completed(played: Played) -> None:
    (actions,) = played.results("codeAction")
    assert [action["title"] for action in actions] == ["Write `u-add-3-1L`"]
    (found,) = played.results("completion")
    assert [item["label"] for item in found["items"]] == ["a", "b", "c"]
    (symbols,) = played.results("documentSymbol")
    assert {"S", "a", "b", "c"} <= {symbol["name"] for symbol in all_of(symbols)}


def all_of(symbols: list[Message]) -> list[Message]:
    """Symbols, with those that stand below others."""
    return [each for symbol in symbols for each in (symbol, *all_of(symbol.get("children", [])))]
