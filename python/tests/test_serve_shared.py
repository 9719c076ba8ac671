"""`paris serve FILE`: one program of several people, over sockets."""

from __future__ import annotations

import asyncio
import json
import random
import signal
from pathlib import Path
from typing import Any

import pytest
from serving import PATIENCE, Client, People, served, with_people
from test_serve import run

from pevudlo.wire.pipe import Pipe
from pevudlo.wire.program import find

TEXT = ["set S 4", "field a S 8", "field b S 8", "input a 0 1 2 3 4", "u-add-3-1L b a a 8", "show b end"]
ROW, LOOK = 4, 5

pytestmark = pytest.mark.usefixtures("libparis")


@pytest.fixture
def file(tmp_path: Path) -> Path:
    """A program of one row."""
    path = tmp_path / "double.paris"
    path.write_text("".join(f"{line}\n" for line in TEXT))
    return path


def play(file: Path, part: Any, *words: str) -> None:
    """Plays something at one program."""
    with served(file, "--folder", file.parent / "kept", *words, cwd=file.parent) as server:
        asyncio.run(with_people(server, part))


async def same(*clients: Client) -> None:
    """Waits until all have the text of the first."""
    for client in clients:
        await has_text(client, clients[0])


async def has_text(client: Client, other: Client) -> None:
    """Waits until one has the text of the other."""
    await client.until(lambda: client.text == other.text)


async def has_values(client: Client, wanted: dict[int, str]) -> None:
    """Waits until these numbers stand beside lines."""
    await client.until(lambda: all(client.sees(at) == [numbers] for at, numbers in wanted.items()))


def test_several_people_see_each_other_s_edits_and_values(file: Path) -> None:
    async def part(people: People) -> None:
        ann, bob = await people.join("Ann"), await people.join("Bob")
        assert ann.hello["mode"] == "shared" and [name for _, name in ann.hello["seats"]][1] == "Ann"
        await bob.look()
        await bob.until(lambda: bob.sees(LOOK) == ["2 4 6 8"])
        told = await ann.replace(ROW, "u-multiply-3-1L b a a 8")
        await bob.until(lambda: bob.text[ROW] == "u-multiply-3-1L b a a 8" and bob.number == told["n"])
        assert bob.lines[ROW][2] == ann.hello["seat"]
        await bob.until(lambda: bob.sees(LOOK) == ["1 4 9 16"])
        assert [name for _, name, _ in ann.states["people"]] == ["Ann", "Bob"]
        await ann.socket.send_json({"do": "caret", "id": ann.lines[ROW][0], "column": 3, "text": "u-mul"})
        await bob.until(lambda: bob.states.get("caret1") == [ann.lines[ROW][0], 3, "Ann", "u-mul"])
        await ann.close()
        await bob.until(lambda: bob.states["caret1"] is None and len(bob.states["people"]) == 1)

    play(file, part)


def test_own_undo_and_who_did_what(file: Path) -> None:
    async def part(people: People) -> None:
        ann, bob = await people.join("Ann"), await people.join("Bob")
        await ann.replace(ROW, "u-multiply-3-1L b a a 8")
        await same(ann, bob)
        await bob.replace(3, "input a 0 5 5 5 5")
        await same(bob, ann)
        await ann.ask("undo")
        assert ann.text[3:5] == ["input a 0 5 5 5 5", TEXT[ROW]]
        assert "nothing of yours" in (await ann.ask("undo"))["refused"]
        await ann.replace(3, "input a 0 6")
        await same(ann, bob)
        assert "Ann has changed the same line since: input a 0 5 5 5 5" in (await bob.ask("undo"))["refused"]
        told = (await bob.ask("entries", id=0))["entries"]
        assert [(each["name"], each["undo"]) for each in told] == [
            ("Ann", False),
            ("Ann", True),
            ("Bob", False),
            ("Ann", False),
        ]
        line = ann.lines[3][0]
        told = (await bob.ask("entries", id=line))["entries"]
        assert [each["ops"] for each in told] == [
            [["replace", line, "input a 0 6", "input a 0 5 5 5 5"]],
            [["replace", line, "input a 0 5 5 5 5", TEXT[3]]],
        ]
        await bob.replace(ROW, "u-ad-3-1L b a a 8")
        (last, *_) = (await bob.ask("entries", id=0))["entries"]
        assert last["reply"] == "refused 20 1"

    play(file, part)


def test_locks_chapters_and_seats_that_look(file: Path) -> None:
    async def part(people: People) -> None:
        teacher, ann = await people.sit(people.server.teacher), await people.join("Ann")
        looker = await people.sit(people.server.token("Who looks"))
        line = ann.lines[ROW][0]
        for word in ("lock", "back", "close", "audit"):
            assert "alone" in (await ann.ask(word, ids=[line], n=1, seat=1))["refused"]
        await teacher.ask("lock", ids=[line])
        await ann.until(lambda: bool(ann.states["locks"] == [line]))
        assert "is locked" in (await ann.replace(ROW, "# mine"))["refused"]
        assert "n" in await teacher.replace(ROW, "# the teacher's")
        await same(teacher, ann)
        await teacher.ask("unlock", ids=[line])
        await ann.replace(ROW, "# mine")
        await ann.insert(0, "# on top")
        await same(ann, teacher, looker)
        assert "looks, and edits nothing" in (await looker.replace(0, "# no"))["refused"]
        assert "looks, and edits nothing" in (await looker.ask("undo"))["refused"]
        entries = (await ann.ask("entries", id=0))["entries"]
        assert "refused" in await teacher.ask("back", n=999)
        await teacher.ask("back", n=entries[-1]["n"])
        await ann.until(lambda: ann.text == [*TEXT[:ROW], "# the teacher's", *TEXT[ROW + 1 :]])
        assert "nothing of yours" in (await ann.ask("undo"))["refused"]
        assert (await ann.ask("entries", id=0))["entries"] == []

    play(file, part)


def test_a_seat_that_reads_nothing_asks_for_the_text_and_sees_the_last_values(file: Path) -> None:
    async def part(people: People) -> None:
        ann, bob = await people.join("Ann"), await people.join("Bob")
        await bob.look()
        reader, bob._reader = bob._reader, None
        assert reader is not None
        reader.cancel()
        # Long lines fill what the system holds for Bob, and then operations wait.
        number, was = ann.lines[0][:2]
        for turn in range(400):
            text = f"# {turn} {'x' * 60_000}"
            change = {"op": "replace", "id": number, "was": was, "text": text}
            while "refused" in await ann.ask("edit", changes=[change]):
                await asyncio.sleep(0.05)
            was = text
        bob.start()
        await bob.until(lambda: bob.text == ann.text)
        assert bob.texts >= 2 and bob.order == sorted(bob.order)

    play(file, part, "--rate", "100")


def test_a_server_that_was_killed_begins_again(file: Path) -> None:
    """What was acknowledged is there again, under the same addresses."""
    acknowledged: list[str] = []
    tokens: dict[str, str] = {}
    with served(file, "--folder", "kept", "--history", cwd=file.parent) as server:

        async def before(people: People) -> None:
            ann = await people.join("Ann")
            tokens["Ann"], tokens["teacher"] = ann.hello["token"], server.teacher
            for turn in range(15):
                assert "n" in await ann.insert(ROW, f"# edit {turn}")
                acknowledged.append(f"# edit {turn}")
            await ann.ask("undo")
            acknowledged.pop()
            server.process.send_signal(signal.SIGKILL)

        asyncio.run(with_people(server, before))
        server.process.wait(PATIENCE)
    assert "has a journal: begin again by --again" in run(file, "--folder", file.parent / "kept").stderr
    with served(file, "--folder", "kept", "--again", "--history", cwd=file.parent) as server:

        async def after(people: People) -> None:
            ann = await people.sit(tokens["Ann"])
            assert ann.text == [*TEXT[:ROW], *reversed(acknowledged), *TEXT[ROW:]]
            assert ann.hello["name"] == "Ann" and server.teacher == tokens["teacher"]
            await ann.ask("undo")
            assert ann.text[ROW] == acknowledged[-2]
            await ann.look()
            await ann.until(lambda: ann.sees(ann.text.index("show b end")) == ["2 4 6 8"])

        asyncio.run(with_people(server, after))
    told = [json.loads(line) for line in (file.parent / "kept/journal.jsonl").read_text().splitlines()]
    # Comments are no lines of the program, so the two beginnings alone have replies.
    assert [line["n"] for line in told if "said" in line] == [1, 17]
    assert len([line for line in told if "said" not in line]) == 1 + 15 + 1 + 1
    assert all(line["room"] == 0 for line in told)
    assert (file.parent / "kept/seats.json").stat().st_mode & 0o077 == 0


def test_the_history_and_the_journal_are_checked(file: Path) -> None:
    async def part(people: People) -> None:
        teacher, ann = await people.sit(people.server.teacher), await people.join("Ann")
        await ann.replace(3, "input a 0 5 6 7 8")
        await ann.ask("undo")
        await ann.look()
        await ann.until(lambda: ann.sees(LOOK) == ["2 4 6 8"])
        told = await teacher.ask("audit")
        # Four declarations and input data, a row, two edits, and an order and a result or more.
        assert told["agrees"] and told["entries"] >= 5 + 2 + 2 and told["chapters"] == 0

    play(file, part, "--history")
    words = file, "--folder", file.parent / "kept", "--audit"
    found = run(*words)
    said = "The journal holds: 2 edits were done again, and all 7 replies are the same.\n"
    assert (found.returncode, found.stdout, found.stderr) == (0, said, "")
    journal = file.parent / "kept/journal.jsonl"
    journal.write_text(journal.read_text().replace("5 6 7 8", "5 6 7 9", 1))
    found = run(*words)
    assert found.returncode == 1
    assert (
        found.stdout
        == "journal.jsonl isn't what was written: line 3 isn't as it was written, or one before it is gone\n"
    )
    assert run(file, "--folder", file.parent / "none", "--audit").returncode == 2
    assert "--audit is of one program" in run(*words, "--class", "3").stderr
    assert "--history is of one program" in run(file, "--history", "--class", "3").stderr


def test_without_a_history_nothing_is_checked(file: Path) -> None:
    async def part(people: People) -> None:
        teacher = await people.sit(people.server.teacher)
        assert teacher.hello["history"] is False
        assert (await teacher.ask("audit"))["refused"] == "this program is served without a history"

    play(file, part)


FIELDS = "abcd"
HEAD = ["set S 8", *(f"field {name} S 8" for name in FIELDS), "input a 0 1 2 3 4 5 6 7 8"]
ROWS = ("insert end u-add-3-1L {} {} {} 8", "insert end logxor-3-1L {} {} {} 8", "insert end u-max-3-1L {} {} {} 8")


async def edits(client: Client, seed: int, count: int) -> int:
    """Makes random edits as fast as they are taken. How many were made."""
    choose, made = random.Random(seed), 0
    while made < count:
        at = choose.randrange(len(HEAD), len(client.lines))
        text = choose.choice(ROWS).format(*(choose.choice(FIELDS) for _ in range(3)))
        kind = choose.random()
        if kind < 0.45:
            told = await client.replace(at, text)
        elif kind < 0.85:
            told = await client.insert(at, text)
        else:
            told = await client.ask("undo")
        made += "n" in told
        if "refused" in told:
            await asyncio.sleep(0.01)
    return made


def by_the_program(text: list[str], looks: list[str]) -> dict[int, str]:
    """What `./paris` says to the looks of a text, by their lines: all rows are settled before each."""
    told: dict[int, str] = {}
    with Pipe(find()) as pipe:
        for at, line in enumerate(text):
            if line in looks:
                pipe.ask("settle")
                told[at] = pipe.ask(line)[0].removeprefix("values ")
            elif not line.startswith("#"):
                pipe.ask(line)
    return told


def test_random_people_have_one_text_and_the_values_of_a_fresh_run(tmp_path: Path) -> None:
    file = tmp_path / "random.paris"
    looks = [f"show {name} end" for name in FIELDS]
    file.write_text("".join(f"{line}\n" for line in [*HEAD, "# rows", *looks]))

    async def part(people: People) -> None:
        clients = [await people.join(name) for name in ("Ann", "Bob", "Carla", "Dora")]
        await asyncio.gather(*(edits(client, at, 60) for at, client in enumerate(clients)))
        await same(*clients)
        text = clients[0].text
        wanted = by_the_program(text, looks)
        for client in clients:
            ids = [client.lines[at][0] for at in wanted]
            await client.socket.send_json({"do": "look", "ids": ids})
            await has_values(client, wanted)

    play(file, part, "--rate", "100")
