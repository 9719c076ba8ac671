"""What an editor that joins a program is shown: values, others' names and carets, and what the server doesn't take."""

from __future__ import annotations

import asyncio
from contextlib import ExitStack
from pathlib import Path
from typing import Any

import pytest
from join_model import MANNERS
from joining import Joining, until
from serving import People, served, with_people
from test_join import LOOK, ROW, TEXT, joining

from pevudlo.document.marks import short
from pevudlo.join.address import Address, NoAddress, read_address
from pevudlo.join.beside import label, whole

pytestmark = pytest.mark.usefixtures("libparis")
ALL = {"start": {"line": 0, "character": 0}, "end": {"line": 99, "character": 0}}


def play(tmp_path: Path, part: Any) -> None:
    """Plays something with an editor and people in browsers at one program."""
    file = tmp_path / "double.paris"
    file.write_text("".join(f"{line}\n" for line in TEXT))
    with served(file, "--folder", tmp_path / "kept", cwd=tmp_path) as server:

        async def with_editor(people: People) -> None:
            with ExitStack() as stack:
                await part(people, stack.enter_context(Joining(joining(server, "Ann"), MANNERS[0])))

        asyncio.run(with_people(server, with_editor))


async def has(editor: Joining, holds: Any) -> None:
    """Waits until something holds, while the editor does what it does by itself."""
    await asyncio.to_thread(until, holds, editor)


def labels(editor: Joining) -> dict[int, str]:
    """What stands beside lines, by their numbers, as it was asked for just now."""
    hints = editor.ask("textDocument/inlayHint", textDocument={"uri": editor.uri}, range=ALL)
    return {hint["position"]["line"]: hint["label"] for hint in hints}


def test_values_are_the_servers_and_names_stand_beside_lines(tmp_path: Path) -> None:
    async def part(people: People, ann: Joining) -> None:
        await has(ann, lambda: ann.lines == TEXT and ann.is_at_rest)
        await has(ann, lambda: labels(ann).get(LOOK) == "b 2 4 6 8")
        assert labels(ann)[ROW] == "b 2 4 6 8  carry 0000  overflow 0000"
        bob = await people.join("Bob")
        await bob.replace(ROW, "u-multiply-3-1L b a a 8")
        await has(ann, lambda: labels(ann).get(LOOK) == "b 1 4 9 16" and labels(ann)[ROW].endswith("(Bob)"))
        said = ann.of("hover", LOOK, 1, uri=ann.uri)["contents"]["value"]
        assert "b 1 4 9 16" in said
        assert ann.joining.joined is not None and ann.joining.joined.words == "joined with Bob"

    play(tmp_path, part)


def test_carets_go_both_ways_with_what_is_being_typed(tmp_path: Path) -> None:
    async def part(people: People, ann: Joining) -> None:
        await has(ann, lambda: ann.lines == TEXT and ann.is_at_rest)
        bob = await people.join("Bob")
        at = bob.lines[LOOK][0]
        await bob.socket.send_json({"do": "caret", "id": at, "column": 4, "text": "show c"})
        wanted = {"line": LOOK, "letter": 4, "character": 4, "name": "Bob", "text": "show c"}
        await has(ann, lambda: ann.carets == [wanted])
        place = {"line": ROW, "character": 2}
        ann.tell("$/paris/caret", textDocument={"uri": ann.uri}, position=place)
        await bob.until(lambda: bob.states.get("caret1") == [bob.lines[ROW][0], 2, "Ann", ""])
        await bob.close()
        await has(ann, lambda: ann.carets == [])

    play(tmp_path, part)


def test_a_line_that_is_locked_stays_and_is_told_and_all_else_is_sent(tmp_path: Path) -> None:
    async def part(people: People, ann: Joining) -> None:
        await has(ann, lambda: ann.lines == TEXT and ann.is_at_rest)
        teacher = await people.sit(people.server.teacher)
        await teacher.ask("lock", ids=[teacher.lines[ROW][0], teacher.lines[LOOK][0]])
        ann.put(ROW, ROW + 2, "# not this")
        ann.put(0, 0, "# but this")
        await has(ann, lambda: teacher.text[0] == "# but this" and "locked" in said(ann))
        await has(ann, lambda: ann.lines == ["# but this", *TEXT[:ROW], "# not this", TEXT[LOOK]])
        assert teacher.text == ["# but this", *TEXT]
        await teacher.ask("unlock", ids=[line[0] for line in teacher.lines])
        ann.save()
        await has(ann, lambda: teacher.text == ann.lines and "# not this" in ann.lines)

    play(tmp_path, part)


def said(editor: Joining) -> str:
    """What its user was told."""
    messages = [each["params"]["message"] for each in editor.heard if each.get("method") == "window/showMessage"]
    return "\n".join(messages)


def test_a_line_that_is_being_typed_is_sent_when_the_file_is_closed(tmp_path: Path) -> None:
    async def part(people: People, ann: Joining) -> None:
        await has(ann, lambda: ann.lines == TEXT and ann.is_at_rest)
        bob = await people.join("Bob")
        ann.put(6, 6, "# last")
        ann.tell_text()
        ann.tell("textDocument/didClose", textDocument={"uri": ann.uri})
        await bob.until(lambda: bob.text == [*TEXT, "# last"])
        await bob.until(lambda: [name for _, name, _ in bob.states["people"]] == ["Bob"])

    play(tmp_path, part)


def test_an_editor_comes_back_to_a_server_that_begins_again(tmp_path: Path) -> None:
    file = tmp_path / "double.paris"
    file.write_text("".join(f"{line}\n" for line in TEXT))
    words = (file, "--folder", tmp_path / "kept")
    with ExitStack() as stack:
        with served(*words, cwd=tmp_path) as server:
            port = server.base.rpartition(":")[2]
            ann = stack.enter_context(Joining(joining(server, "Ann"), MANNERS[0]))
            until(lambda: ann.lines == TEXT and ann.is_at_rest, ann)
        until(lambda: ann.joining.joined is not None and not ann.joining.joined.state.is_there, ann)
        ann.put(0, 0, "# meanwhile")
        with served(*words, "--again", "--port", port, cwd=tmp_path) as server:

            async def part(people: People) -> None:
                bob = await people.join("Bob")
                await has(ann, lambda: bob.text == ["# meanwhile", *TEXT])

            asyncio.run(with_people(server, part))


@pytest.mark.parametrize(
    ("word", "variables", "wanted"),
    [
        ("http://127.0.0.1:8600/#abc", {}, Address("http://127.0.0.1:8600", "abc", "Ann")),
        ("wss://paris.school.example", {"PARIS_SEAT": "abc"}, Address("https://paris.school.example", "abc", "Ann")),
        ("https://a.example/#join:x", {"PARIS_SEAT": "y"}, Address("https://a.example", "join:x", "Ann")),
    ],
)
def test_addresses(word: str, variables: dict[str, str], wanted: Address) -> None:
    assert read_address(word, "Ann", variables) == wanted
    assert wanted.token not in repr(wanted)


@pytest.mark.parametrize(
    "word", ["", "paris", "ftp://a/#x", "http://a/b#x", "http://u@a/#x", "http://a:x/#x", "http://a"]
)
def test_what_is_no_address(word: str) -> None:
    with pytest.raises(NoAddress):
        read_address(word, "Ann", {})


def test_first_messages_at_a_socket() -> None:
    assert Address("http://a", "x", "Ann").first == {"do": "sit", "token": "x"}
    assert Address("http://a", "join:x", "Ann").first == {"do": "join", "token": "x", "name": "Ann"}


def test_labels_of_what_a_server_tells() -> None:
    many = " ".join(map(str, range(64)))
    assert (
        label({"s": "row", "v": [["S.carry", 1, [4], "0 1 0 1"], ["b", 8, [4], "1 2 3 4"]]}) == "carry 0101  b 1 2 3 4"
    )
    assert label({"s": "look", "v": [["S.carry", 1, [2], "0 1"]]}) == "S.carry 01"
    first, _, _ = short(list(range(128)), None, 8).partition(" from ")
    assert label({"s": "look", "v": [["b", 8, [8, 16], many]]}) == f"b {first}"
    assert whole({"s": "look", "v": [["b", 8, [8, 16], many]]}) == f"b {many} … 128"
    assert label({"s": "wait"}) == "○" and label({}) == "" and label({"s": "refused", "t": "no"}) == ""
    assert label({"s": "gone", "t": "replaced by line 3"}) == "- replaced by line 3"
    assert label({"s": "fault", "t": "x"}) == "! it stores nothing" and whole({"s": "fault", "t": "x"}) == "x"
