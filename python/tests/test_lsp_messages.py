"""Messages of any shape: one may fail, by the protocol's error, and behind each the server answers a right one."""

from __future__ import annotations

import json
import sys
from collections.abc import Iterator
from random import Random
from typing import Any

import pytest
from editors import MODERN, URI, Editor, Gone, Message, Started, framed
from malformed import SAMPLES, right, wrong

from pevudlo.lsp.methods import METHODS, Role

TEXT = "set S 4\nfield a S 8\nfield b S 8\ninput a 0 1 2 3 4\nu-add-3-1L b a a 8\nu-max-3-1L b a b 8\nshow b end\n"
NAMES = ["S", "a", "b"]
PARSE_ERROR, INVALID_REQUEST, NO_METHOD, INVALID_PARAMS, NOT_BEGUN = -32700, -32600, -32601, -32602, -32002

REQUESTS = {name: method for name, method in METHODS.items() if method.role is Role.REQUEST and name != "initialize"}
NOTICES = {name: method for name, method in METHODS.items() if method.role is Role.NOTICE}
ABOUT_FILES = {name: method for name, method in REQUESTS.items() if method.answer is not None}


@pytest.fixture
def editor() -> Iterator[Editor]:
    """An editor with the file open."""
    with Editor() as editor:
        editor.open(TEXT)
        yield editor


def is_well(editor: Editor) -> bool:
    """Whether the server answers a right message about the file, whose text is as it was."""
    return [each["name"] for each in editor.of("documentSymbol")] == NAMES and editor.server.files[URI].version == 1


def body(editor: Editor, data: bytes) -> None:
    """Writes a body as it is."""
    editor.write(b"Content-Length: %d\r\n\r\n%s" % (len(data), data))


def error(editor: Editor, number: Any) -> int:
    """The error that is the next answer of an id."""
    while (message := editor.more()).get("id") != number or "method" in message:
        pass
    code: int = message["error"]["code"]
    return code


def test_the_table_makes_many_malformed_messages() -> None:
    assert sum(len(list(wrong(method.params, right(method.params)))) for method in METHODS.values()) > 1_500


@pytest.mark.parametrize("name", REQUESTS)
def test_each_malformed_request_fails_and_no_other(editor: Editor, name: str) -> None:
    shape = REQUESTS[name].params
    for number, params in enumerate(wrong(shape, right(shape))):
        editor.write(framed({"id": f"x{number}", "method": name, "params": params}))
        assert error(editor, f"x{number}") == INVALID_PARAMS, params
        assert is_well(editor), params


@pytest.mark.parametrize("name", NOTICES)
def test_each_malformed_notice_is_said_and_changes_nothing(editor: Editor, name: str) -> None:
    shape = NOTICES[name].params
    for params in wrong(shape, right(shape)):
        editor.write(framed({"method": name, "params": params}))
        assert editor.news("window/logMessage")["message"].startswith(f"{name}: params"), params
        assert is_well(editor), params


def test_each_malformed_beginning_fails_and_a_right_one_is_answered() -> None:
    shape = METHODS["initialize"].params
    with Editor(None) as editor:
        for params in wrong(shape, right(shape)):
            if params is not None:
                editor.write(framed({"id": "x", "method": "initialize", "params": params}))
                assert error(editor, "x") == INVALID_PARAMS, params
                assert editor.fails("textDocument/documentSymbol", textDocument={"uri": URI})[0] == NOT_BEGUN
        editor.ask("initialize", capabilities={})
        editor.open(TEXT)
        assert is_well(editor)


def test_a_client_can_not_what_it_says_in_another_shape() -> None:
    """At each depth of what it can do."""
    for path in (
        ("textDocument", "hover", "contentFormat"),
        ("textDocument", "publishDiagnostics", "tagSupport", "valueSet"),
        ("workspace", "inlayHint", "refreshSupport"),
        ("window", "workDoneProgress"),
    ):
        for depth in range(len(path) + 1):
            for sample in SAMPLES:
                capabilities: Any = sample
                for name in reversed(path[:depth]):
                    capabilities = {name: capabilities}
                if depth == len(path) and sample is True:
                    continue
                with Editor(None) as editor:
                    editor.ask("initialize", capabilities=capabilities)
                    editor.tell("textDocument/didOpen", textDocument={"uri": URI, "text": TEXT, "version": 1})
                    assert is_well(editor), capabilities
                    assert editor.of("hover", 4, 2)["contents"]["kind"] == "plaintext"
                    assert not [each for each in editor.heard if "refresh" in str(each.get("method"))]


@pytest.mark.parametrize(
    "identity", [sample for sample in SAMPLES if type(sample) is not str and sample not in (7, -1)]
)
def test_an_id_that_is_none(editor: Editor, identity: Any) -> None:
    for method in ("textDocument/hover", "shutdown", "textDocument/nope", "$/cancelRequest", "initialize"):
        editor.write(framed({"id": identity, "method": method, "params": {}}))
        assert error(editor, None) == INVALID_REQUEST
        assert is_well(editor)


@pytest.mark.parametrize("method", [sample for sample in SAMPLES if type(sample) is not str])
def test_a_method_that_is_none(editor: Editor, method: Any) -> None:
    editor.write(framed({"id": "x", "method": method, "params": {}}))
    assert error(editor, "x") == INVALID_REQUEST and is_well(editor)
    editor.write(framed({"method": method}))
    assert error(editor, None) == INVALID_REQUEST and is_well(editor)


@pytest.mark.parametrize("message", [*SAMPLES, {"id": 5}, {"params": {}}, [{"id": 1, "method": "shutdown"}]])
def test_what_is_neither_a_request_nor_an_answer(editor: Editor, message: Any) -> None:
    body(editor, json.dumps(message).encode())
    assert error(editor, None) == INVALID_REQUEST and is_well(editor)


@pytest.mark.parametrize("part", SAMPLES)
def test_answers_of_any_shape_say_nothing(editor: Editor, part: Any) -> None:
    for answer in ({"id": part, "result": part}, {"id": "paris-1", "error": part}, {"result": part}):
        editor.write(framed(answer))
        assert is_well(editor)
    assert not [each for each in editor.heard if "error" in each]


@pytest.mark.parametrize(
    "data",
    [
        b"",
        b"\xff\xfe",
        b'{"id": 1, "method": "shutdown"',
        b'{"id": NaN, "method": "shutdown"}',
        b'{"id": 1e999, "method": "shutdown"}',
        b'{"id": 1, "method": "shutdown", "params": -Infinity}',
        b'{"id": %s, "method": "shutdown"}' % (b"9" * 5_000),
        b'{"id": 1, "method": "shutdown", "params": %s%s}' % (b"[" * 50_000, b"]" * 50_000),
    ],
)
def test_a_body_that_is_no_json(editor: Editor, data: bytes) -> None:
    body(editor, data)
    assert error(editor, None) == PARSE_ERROR and is_well(editor)


def test_what_is_sent_back_may_be_too_deep() -> None:
    """What a client says of a wrong line comes back with what mends it, and that may be too deep to be written."""
    limit = sys.getrecursionlimit()
    sys.setrecursionlimit(10 * limit)
    codes = set()
    with Started() as editor:
        editor.open(TEXT + "u-ad-3-1L b a a 8\n")
        (told,) = editor.wrong()
        about = {"textDocument": {"uri": URI}, "range": told["range"], "context": {"diagnostics": [told | {"data": 0}]}}
        for depth in (100, *range(900, 1_000)):
            text = json.dumps({"id": "x", "method": "textDocument/codeAction", "params": about})
            body(editor, text.replace('"data": 0', f'"data": {"[" * depth}{"]" * depth}').encode())
            while (message := editor.more()).get("id") not in ("x", None) or "method" in message:
                pass
            codes.add(message["error"]["code"] if "error" in message else 0)
            assert len(editor.of("documentSymbol")) == len(NAMES)
    sys.setrecursionlimit(limit)
    assert {0, PARSE_ERROR} <= codes <= {0, PARSE_ERROR, -32603}


@pytest.mark.parametrize("name", ABOUT_FILES)
def test_places_outside_the_text_are_at_its_end(editor: Editor, name: str) -> None:
    greatest = (1 << 31) - 1
    places = [(line, character) for line in (0, 6, 7, 8, greatest) for character in (0, 99, greatest)]
    for line, character in places:
        place = {"line": line, "character": character}
        for other in ({"line": 0, "character": 0}, place, {"line": greatest, "character": greatest}):
            params = right(ABOUT_FILES[name].params) | {"position": place, "range": {"start": other, "end": place}}
            params |= {"context": {"diagnostics": [{"range": {"start": place, "end": other}}]}}
            answer = editor.answer(editor.request(name, **params))
            is_no_name = name == "textDocument/rename" and answer.get("error", {}).get("code") == INVALID_PARAMS
            assert "result" in answer or is_no_name, (place, answer)
        assert is_well(editor)


@pytest.mark.parametrize("name", [*ABOUT_FILES, *(name for name in NOTICES if name.startswith("textDocument/"))])
@pytest.mark.parametrize("uri", ["file:///other", "", "\ud800", "x" * 10_000])
def test_documents_that_are_not_open(editor: Editor, name: str, uri: str) -> None:
    params = right(METHODS[name].params)
    params["textDocument"]["uri"] = uri
    if name in ABOUT_FILES:
        assert editor.fails(name, **params)[0] == INVALID_PARAMS
    elif name != "textDocument/didOpen":
        editor.tell(name, **params)
        assert "isn't open" in editor.news("window/logMessage")["message"]
    else:
        editor.tell(name, **params)
        assert editor.ran()["rows"] == 0
    assert is_well(editor)


def test_a_request_that_is_told_and_a_notice_that_is_asked(editor: Editor) -> None:
    for name, method in REQUESTS.items():
        editor.tell(name, **(right(method.params) or {}))
        assert is_well(editor)
    for name, method in NOTICES.items():
        assert editor.fails(name, **(right(method.params) or {}))[0] == NO_METHOD
        assert is_well(editor)


def test_halves_of_pairs_in_texts_and_names(editor: Editor) -> None:
    half = "\ud83d"
    assert (
        editor.fails("textDocument/rename", textDocument={"uri": URI}, position=SPOT, newName=half)[0] == INVALID_PARAMS
    )
    editor.write(framed({"id": half, "method": f"textDocument/{half}", "params": {}}))
    assert error(editor, half) == NO_METHOD and is_well(editor)
    editor.open(f"{TEXT}# {half}\n")
    assert [each["name"] for each in editor.of("documentSymbol")] == [*NAMES, "\ufffd"]


SPOT = {"line": 4, "character": 11}


def random_value(chance: Random, depth: int) -> Any:
    """A value of any shape."""
    what = chance.randrange(9 if depth else 7)
    if what == 7:
        return [random_value(chance, depth - 1) for _ in range(chance.randrange(4))]
    if what == 8:
        names = ("textDocument", "position", "range", "context", "start", "end", "line", "uri", "text", "id", "version")
        return {chance.choice(names): random_value(chance, depth - 1) for _ in range(chance.randrange(5))}
    return (None, True, chance.randrange(-9, 99), chance.random() * 9, URI, "é\ud800", 1 << 40)[what]


@pytest.mark.parametrize("seed", range(4))
def test_random_messages(editor: Editor, seed: int) -> None:
    """Each that has an id has one answer."""
    chance = Random(seed)
    methods = [name for name in METHODS if name not in ("shutdown", "exit", "textDocument/didClose")]
    for number in range(250):
        message: Message = {"id": f"r{number}", "method": chance.choice(methods), "params": random_value(chance, 4)}
        if number % 3 == 0:
            message[chance.choice(("method", "params", "result"))] = random_value(chance, 2)
        if number % 3 == 1:
            del message["id"]
        editor.write(framed(message))
        if "id" in message:
            answer = editor.answer(message["id"])
            assert ("error" in answer) != ("result" in answer)
        assert is_well(editor), message


# The command itself.

ENDED: list[Message] = [
    {"method": "$/cancelRequest", "params": [1]},
    {"method": "$/cancelRequest", "params": "x"},
    {"method": "$/cancelRequest", "params": 7},
    {"id": [], "method": "textDocument/hover", "params": {}},
    {"id": {}, "method": "textDocument/hover", "params": {}},
    {"id": [1], "method": "shutdown"},
    {"id": 1, "method": "textDocument/hover", "params": {"textDocument": {"uri": []}}},
]


def test_the_command_goes_on_behind_malformed_messages() -> None:
    with Started(capabilities={"textDocument": {"hover": {"contentFormat": 7}}}) as editor:
        for message in ENDED:
            editor.write(framed(message))
        editor.open(TEXT)
        assert [each["name"] for each in editor.of("documentSymbol")] == NAMES
        assert editor.ask("shutdown") is None
        editor.tell("exit")
        assert (editor.end(), editor.errors) == (0, b"")


def test_what_comes_before_what_is_no_message_is_answered() -> None:
    with Started() as editor:
        number = framed({"id": "x", "method": "shutdown"})
        editor.write(number + b"help\r\n\r\n")
        assert editor.answer("x")["result"] is None
        with pytest.raises(Gone):
            editor.more()
        assert editor.end() == 2 and b"a head has no length" in editor.errors


def test_a_client_that_reads_no_more_ends_it_quietly() -> None:
    with Started(capabilities=MODERN) as editor:
        assert editor.child.stdout is not None
        editor.child.stdout.close()
        for number in range(3):
            editor.write(framed({"id": number, "method": "textDocument/hover", "params": {}}))
            if editor.child.poll() is not None:
                break
        editor.child.wait(20)
        assert editor.child.returncode == 1 and editor.child.stderr is not None and editor.child.stderr.read() == b""
