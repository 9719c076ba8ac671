"""`paris serve --class`: seats, the board, and texts that are handed out and in."""

from __future__ import annotations

import asyncio
import csv
import re
import subprocess
import sys
import time
from collections.abc import Callable, Coroutine
from pathlib import Path
from typing import Any, NoReturn

import pytest
from serving import Client, People, Told, served, with_people
from usages import is_usage_of

from pevudlo.serve.classroom import Classroom, as_text, file_of
from pevudlo.serve.journal import Journal
from pevudlo.serve.limits import MOST_LINE, Bucket, Limits, Refused, Size, check_line, check_size, size_of
from pevudlo.serve.seats import Kind, Seat, Seats, cleaned
from pevudlo.wire.program import ROOT

EXERCISE = ROOT / "examples/lesson/2-who-takes-part.paris"
SOLUTION = ROOT / "examples/lesson/solutions/2-who-takes-part.paris"
TEXT = EXERCISE.read_text().splitlines()
ROWS = [line for line in SOLUTION.read_text().splitlines() if line.startswith("insert ")]
EMPTY = TEXT.index("")
"""The line in whose place rows are to be put."""

LOOK = TEXT.index("show a end")
Play = Callable[[People], Coroutine[Any, Any, None]]

pytestmark = pytest.mark.usefixtures("libparis")


def play(tmp_path: Path, part: Play, *words: str | Path) -> None:
    """Plays something at a class of three."""
    said = words or ("--class", "3", EXERCISE, "--check", SOLUTION)
    with served(*said, "--folder", tmp_path / "kept", cwd=tmp_path) as server:
        asyncio.run(with_people(server, part))


def row_of(teacher: Client, seat: int) -> Told:
    """A student's row of the teacher's board, as far as it was told."""
    row: Told = teacher.states.get(f"board{seat}", {})
    return row


def checks_of(teacher: Client, seat: int) -> list[str]:
    """The signs of a student's checks on the teacher's board."""
    return [sign for sign, _ in row_of(teacher, seat).get("checks", [])]


# A lesson.


def test_a_student_works_and_the_board_shows_it(tmp_path: Path) -> None:
    async def part(people: People) -> None:
        teacher, ann = await people.sit(people.server.teacher), await people.join("Ann")
        assert ann.text == TEXT and ann.hello["kind"] == "student" and "checks" not in ann.hello
        assert teacher.hello["checks"] == ["a end"] and teacher.hello["kind"] == "teacher"
        await ann.look()
        await ann.until(lambda: ann.sees(LOOK) == ["9 4 7 100"])
        await teacher.until(lambda: checks_of(teacher, 1) == ["✗"])
        assert teacher.states["board1"]["checks"] == [["✗", "processor 1 has 4 where 2 is wanted, and so is one more"]]
        assert "n" in await ann.insert(EMPTY, *ROWS)
        await ann.look()
        await ann.until(lambda: ann.sees(LOOK + len(ROWS)) == ["9 2 7 50"])
        await teacher.until(lambda: checks_of(teacher, 1) == ["✓"])
        assert teacher.states["board1"]["name"] == "Ann" and teacher.states["board1"]["here"]
        assert not teacher.states["board2"]["here"] and checks_of(teacher, 2) == ["✗"]

    play(tmp_path, part)


def test_what_holds_for_the_seen_input_alone_is_wrong_on_the_board(tmp_path: Path) -> None:
    async def part(people: People) -> None:
        teacher, ann = await people.sit(people.server.teacher), await people.join("Ann")
        subtract = "insert end u-subtract-3-1L a a bit 8"
        await ann.insert(EMPTY, "input bit 0 0 1 0 25", subtract, subtract)
        wanted = ["✗", "processor 1 has 255 where 1 is wanted, and so are 2 more"]
        await teacher.until(lambda: row_of(teacher, 1).get("checks") == [wanted])
        await ann.look()
        await ann.until(lambda: ann.sees(LOOK + 3) == ["9 2 7 50"])

    play(tmp_path, part)


def test_without_a_solution_comments_say_what_is_wanted(tmp_path: Path) -> None:
    async def part(people: People) -> None:
        teacher, ann = await people.sit(people.server.teacher), await people.join("Ann")
        await ann.insert(EMPTY, *ROWS)
        await teacher.until(lambda: checks_of(teacher, 1) == ["✓"] and checks_of(teacher, 2) == ["✗"])
        at = ann.text.index("# values 9 2 7 50")
        await ann.replace(at, "# values 1 1 1 1")
        await ann.replace(at - 1, "show a start")
        await teacher.until(lambda: checks_of(teacher, 1) == ["–"])

    play(tmp_path, part, "--class", "2", EXERCISE)


def test_refused_lines_and_rows_are_told(tmp_path: Path) -> None:
    async def part(people: People) -> None:
        teacher, ann = await people.sit(people.server.teacher), await people.join("Ann")
        await ann.insert(EMPTY, "u-ad-3-1L a a a 8", "send-1L a zero a 8 none")
        await ann.look()
        await ann.until(lambda: ann.gives(EMPTY).get("s") == "refused" and ann.gives(EMPTY + 1).get("s") == "fault")
        assert "u-add-3-1L" in ann.gives(EMPTY)["t"] and "two messages meet" in ann.gives(EMPTY + 1)["t"]
        await teacher.until(lambda: bool(row_of(teacher, 1).get("refused")))
        assert teacher.states["board1"]["faults"] == 1

    play(tmp_path, part)


def test_all_of_a_class_may_come_at_once(tmp_path: Path) -> None:
    async def part(people: People) -> None:
        names = [f"Student {number}" for number in range(30)]
        came = await asyncio.gather(*[people.join(name) for name in names])
        assert [each.bye for each in came] == [""] * 30 and all(each.text == TEXT for each in came)

    play(tmp_path, part, "--class", "30", EXERCISE)


def test_texts_are_handed_out_and_the_old_ones_had_back(tmp_path: Path) -> None:
    async def part(people: People) -> None:
        teacher, ann, bob = await people.sit(people.server.teacher), await people.join("Ann"), await people.join("Bob")
        await ann.replace(0, "# mine")
        await teacher.replace(0, "# new for all")
        assert (await teacher.ask("hand-out", seats=[2]))["handed"] == 1
        await bob.until(lambda: bob.text[0] == "# new for all")
        assert ann.text[0] == "# mine"
        assert (await teacher.ask("hand-out"))["handed"] == 3
        await ann.until(lambda: ann.text == teacher.text)
        told = (await ann.ask("chapters"))["chapters"]
        assert [name for name, _ in told] == ["the beginning", "handed out"]
        assert (await ann.ask("back", chapter=0))["mark"]
        await ann.until(lambda: ann.text == ["# mine", *TEXT[1:]])
        assert "refused" in await ann.ask("back", chapter=9)
        assert "refused" in await ann.ask("hand-out")

    play(tmp_path, part)


def test_programs_are_handed_in_and_saved(tmp_path: Path) -> None:
    async def part(people: People) -> None:
        teacher, ann = await people.sit(people.server.teacher), await people.join("Ann Å/../x")
        await ann.insert(EMPTY, *ROWS)
        await teacher.until(lambda: checks_of(teacher, 1) == ["✓"])
        assert (await ann.ask("hand-in"))["handed"] > 0
        await teacher.until(lambda: bool(row_of(teacher, 1)["handed"]))
        await ann.replace(0, "# later")
        assert (await teacher.ask("save"))["saved"] == str(tmp_path / "kept")

    play(tmp_path, part)
    kept = tmp_path / "kept"
    assert (kept / "01-Ann-A-x.paris").read_text().splitlines()[0] == TEXT[0]
    assert (kept / "all/01-Ann-A-x.paris").read_text().splitlines()[0] == "# later"
    assert (kept / "all/02-Seat-2.paris").read_text() == EXERCISE.read_text()
    head, *rows = csv.reader((kept / "board.csv").read_text().splitlines())
    assert head == ["name", "a end", "lines refused", "rows refused", "last edit", "handed in"]
    assert [row[0] for row in rows] == ["Ann Å/../x", "Seat 2", "Seat 3"]
    # (the last edit's check may be on its way)
    assert rows[0][1] in "✓○" and rows[1][1] == "✗" and rows[0][5] and not rows[1][5]


def test_the_wall_shows_the_followed_seat(tmp_path: Path) -> None:
    async def part(people: People) -> None:
        teacher, ann = await people.sit(people.server.teacher), await people.join("Ann")
        wall = await people.sit(people.server.token("The wall"))
        assert wall.hello["kind"] == "looking" and wall.name == "Teacher"
        await teacher.ask("follow", seat=1)
        await wall.until(lambda: wall.name == "Ann")
        await ann.replace(0, "# on the wall")
        await wall.until(lambda: wall.text[0] == "# on the wall")
        await wall.look()
        await wall.until(lambda: wall.sees(LOOK) == ["9 4 7 100"])
        assert "looks, and edits nothing" in (await wall.replace(0, "# no"))["refused"]

    play(tmp_path, part)


def test_two_write_into_one_program(tmp_path: Path) -> None:
    """Who comes second finds the own line below the first one's, and both texts are told."""

    async def part(people: People) -> None:
        teacher, ann = await people.sit(people.server.teacher), await people.join("Ann")
        await teacher.ask("open", seat=1)
        await teacher.until(lambda: teacher.texts == 2)
        number, was, _ = ann.lines[0]
        first = await ann.ask("edit", changes=[{"op": "replace", "id": number, "was": was, "text": "# Ann's"}])
        change = {"op": "replace", "id": number, "was": was, "text": "# the teacher's"}
        second = await teacher.ask("edit", changes=[change])
        assert "clashes" not in first
        assert second["clashes"] == [{"id": number, "theirs": "# Ann's", "mine": "# the teacher's", "by": "Ann"}]
        for client in (ann, teacher):
            await client.until(lambda: client.text[:2] == ["# Ann's", "#? Teacher: # the teacher's"])
        await teacher.socket.send_json({"do": "caret", "id": number, "column": 2, "text": "<b>"})
        await ann.until(lambda: ann.states.get("caret0") == [number, 2, "Teacher", "<b>"])

    play(tmp_path, part)


def test_a_program_that_fails_is_its_own_trouble_alone(
    libparis: Path, tmp_path: Path, monkeypatch: pytest.MonkeyPatch
) -> None:
    """What the server doesn't foresee in one program is told there, and the others go on."""

    async def part() -> None:
        seats = Seats(2, 1, Limits(), [])
        hall = Classroom("x", seats, libparis, 1, TEXT, None, tmp_path, Journal(tmp_path), {})
        ann, bob = (hall.come(seat, {"do": "sit"}) for seat in seats.students)
        teacher = hall.come(seats.teacher, {"do": "sit"})
        ids = hall.own[ann.seat].lines.ids
        for guest in (ann, bob):
            hall.act(guest, {"do": "look", "ids": ids})
        monkeypatch.setattr(hall.own[ann.seat], "look", wrong)
        for _ in range(2):
            hall.tell()
            hall.tell_board()
            await asyncio.sleep(0.2)
        assert "IndexError: none" in await ann.next() and "9 4 7 100" in await bob.next()
        assert '"board1"' in (told := await teacher.next()) and '"board2"' in told
        monkeypatch.setattr(hall.own[ann.seat], "edit", wrong)
        hall.act(ann, {"do": "edit", "mark": 7, "changes": [{"op": "insert", "id": 0}]})
        assert '"refused":"the server failed: IndexError: none","mark":7' in await ann.next()
        hall.close()

    asyncio.run(part())


def wrong(*words: object) -> NoReturn:
    """What nobody foresees."""
    raise IndexError("none")


def test_the_lesson_of_the_page(tmp_path: Path) -> None:
    """An exercise of one's own, as the page has it: handed out, worked at, checked, handed in, and checked again."""
    exercise, solution = re.findall(r"^```\n(.*?)^```$", (ROOT / "docs/SERVE.md").read_text(), re.M | re.S)[:2]
    (tmp_path / "double.paris").write_text(exercise)
    (tmp_path / "solution.paris").write_text(solution)

    async def part(people: People) -> None:
        teacher, ann, bob = await people.sit(people.server.teacher), await people.join("Ann"), await people.join("Bob")
        place = ann.text.index("")
        await ann.insert(place, "u-add-3-1L c a a 8")
        await bob.replace(place, "input c 0 2 4 6 8")
        await teacher.until(lambda: checks_of(teacher, 1) == ["✓"] and checks_of(teacher, 2) == ["✗"])
        await teacher.ask("hand-out", seats=[2])
        await bob.until(lambda: bob.text[place] == "")
        await ann.ask("hand-in")
        await teacher.ask("save")

    with served("--class", "2", "double.paris", "--check", "solution.paris", cwd=tmp_path) as server:
        asyncio.run(with_people(server, part))
    kept = tmp_path / "double-served"
    assert {each.name for each in kept.iterdir()} >= {"01-Ann.paris", "all", "board.csv", "addresses.txt"}
    line = [str(ROOT / "paris"), "check", str(kept / "all"), str(tmp_path / "solution.paris")]
    ran = subprocess.run(line, capture_output=True, text=True, timeout=60)
    assert ran.returncode == 1 and "01-Ann.paris: the look gives what is wanted\n" in ran.stdout
    assert "1 of 2 files are as they are wanted" in ran.stdout


def test_a_class_begins_again_where_it_ended(tmp_path: Path) -> None:
    tokens = {}

    async def before(people: People) -> None:
        ann = await people.join("Ann")
        await ann.insert(EMPTY, *ROWS)
        await ann.ask("hand-in")
        tokens["Ann"] = ann.hello["token"]
        people.server.process.kill()

    async def after(people: People) -> None:
        teacher, ann = await people.sit(people.server.teacher), await people.sit(tokens["Ann"])
        assert ann.text[EMPTY : EMPTY + len(ROWS)] == ROWS and ann.name == "Ann"
        await teacher.until(lambda: checks_of(teacher, 1) == ["✓"] and checks_of(teacher, 2) == ["✗"])
        assert row_of(teacher, 1)["handed"] and not row_of(teacher, 2)["handed"]
        await ann.ask("undo")
        assert ann.text == TEXT

    play(tmp_path, before)
    play(tmp_path, after, "--class", "3", EXERCISE, "--check", SOLUTION, "--again")


# Who may come.


def test_who_may_not_come_is_told_why(tmp_path: Path) -> None:
    async def part(people: People) -> None:
        base, session = people.server.base, people.session
        ann = await people.join("Ann")
        for headers in (
            {"Origin": "http://evil.example"},
            {},
            {"Origin": "null"},
            {"Origin": base, "Host": "evil.example"},
        ):
            async with session.get(f"{base}/seat", headers=headers) as response:
                assert response.status == 403 and "another site" in await response.text()
        for headers in ({"Host": "evil.example"}, {"Origin": "http://evil.example"}):
            async with session.get(f"{base}/", headers=headers) as response:
                assert response.status == 403
        for path, status in (("/", 200), ("/seats.js", 200), ("/client.html", 404), ("/x/y", 404), ("/seat", 403)):
            async with session.get(f"{base}{path}") as response:
                assert response.status == status, path
                assert "frame-ancestors 'none'" in response.headers["Content-Security-Policy"]
        for token, said in (("x", "this address is of no seat"), ("", "of no seat"), ("\ud800é", "of no seat")):
            assert said in (await people.open({"do": "sit", "token": token})).bye
        assert "there is a ann already" in (await people.join("ann")).bye
        assert "a name has letters" in (await people.join(" \u202e\n ")).bye
        assert "a seat is named first" in (await people.open({"do": "edit"})).bye
        assert (await people.join("Bob")).bye == (await people.join("Carla")).bye == ""
        assert "all 3 seats are taken" in (await people.join("Dora")).bye
        assert not ann.bye and "n" in await ann.replace(0, "# still here")

    play(tmp_path, part)


def test_a_seat_that_is_closed_lets_nobody_in_and_a_new_address_does(tmp_path: Path) -> None:
    async def part(people: People) -> None:
        teacher, ann = await people.sit(people.server.teacher), await people.join("Ann")
        token = ann.hello["token"]
        await teacher.ask("close", seat=1)
        await ann.until(lambda: ann.bye == "this seat was closed by who teaches")
        assert "was closed" in (await people.sit(token)).bye
        renewed = (await teacher.ask("renew", seat=1))["token"]
        assert "of no seat" in (await people.sit(token)).bye
        again = await people.sit(renewed)
        assert again.hello["name"] == "Ann" and "n" in await again.replace(0, "# back")
        assert "stays open" in (await teacher.ask("close", seat=0))["refused"]

    play(tmp_path, part)


def test_a_seat_has_so_many_connections(tmp_path: Path) -> None:
    async def part(people: People) -> None:
        ann = await people.join("Ann")
        more = [await people.sit(ann.hello["token"]) for _ in range(4)]
        assert [bool(each.bye) for each in more] == [False, False, False, True]
        assert "in 4 windows already" in more[-1].bye

    play(tmp_path, part)


def test_names_have_an_address_each(tmp_path: Path) -> None:
    (tmp_path / "names").write_text("Ann\nBob <b>\n")
    with served("--class", "2", EXERCISE, "--names", "names", cwd=tmp_path) as server:
        assert "join" not in server.words
        addresses = tmp_path / "2-who-takes-part-served/addresses.txt"
        assert addresses.stat().st_mode & 0o077 == 0
        told = dict(line.split(": ", 1) for line in addresses.read_text().splitlines())
        assert list(told) == ["Ann", "Bob <b>", "Looking 1"]

        async def part(people: People) -> None:
            bob = await people.sit(told["Bob <b>"].partition("#")[2])
            assert bob.hello["name"] == bob.name == "Bob <b>" and bob.hello["seat"] == 2

        asyncio.run(with_people(server, part))


# What a seat may ask for.


def test_too_large_edits_are_refused_with_a_sentence(tmp_path: Path) -> None:
    async def part(people: People) -> None:
        ann = await people.join("Ann")
        before = list(ann.text)
        for text, said in (
            ("#" * (MOST_LINE + 1), "65,536 bytes at most"),
            ("# a\n# b", "no line feed"),
            ("set T 2048", "a set of 2,048 processors is too large: 1,024"),
        ):
            assert said in (await ann.replace(0, text))["refused"]
        rows = ["u-move-constant-1L one 1 8"] * 513
        assert "513 rows are too many: 512" in (await ann.insert(EMPTY, *rows))["refused"]
        assert "at most" in (await ann.ask("edit", changes=[{"op": "insert", "id": 0}] * 5000))["refused"]
        assert ann.text == before and not ann.bye

    play(tmp_path, part)


def test_a_flood_is_refused_and_nobody_else_notices(tmp_path: Path) -> None:
    async def part(people: People) -> None:
        ann, bob = await people.join("Ann"), await people.join("Bob")
        flood = [await ann.replace(0, f"# {at}") for at in range(40)]
        refused = [each for each in flood if "refused" in each]
        assert 10 <= len(refused) <= 20 and "5 edits a second are taken" in refused[0]["refused"]
        assert "n" in await bob.replace(0, "# calm")

    play(tmp_path, part)


def test_a_flood_of_questions_is_read_slowly_and_nobody_else_notices(tmp_path: Path) -> None:
    """240 messages are taken at once, and then 60 a second."""

    async def part(people: People) -> None:
        ann, bob = await people.join("Ann"), await people.join("Bob")
        begun = time.monotonic()
        flood = asyncio.gather(*(ann.ask("chapters") for _ in range(400)))
        await asyncio.sleep(1.0)
        assert not flood.done() and "n" in await bob.replace(0, "# calm") and not flood.done()
        assert len(await flood) == 400 and time.monotonic() - begun > (400 - 240) / 60 - 0.5

    play(tmp_path, part)


@pytest.mark.parametrize("message", ["", "[]", "{}", '{"do": 1}', "[" * 100_000, '{"do":"look","ids":[1.5]}'])
def test_what_is_no_message_ends_the_socket_of_its_seat(tmp_path: Path, message: str) -> None:
    async def part(people: People) -> None:
        ann, bob = await people.join("Ann"), await people.join("Bob")
        await ann.socket.send_str(message)
        await ann.until(lambda: bool(ann.bye))
        assert not bob.bye and "n" in await bob.replace(0, "# calm")

    play(tmp_path, part)


def test_half_requests_are_ended(tmp_path: Path) -> None:
    async def part(people: People) -> None:
        host, port = people.server.base.removeprefix("http://").split(":")
        reader, writer = await asyncio.open_connection(host, int(port))
        writer.write(b"GET / HTTP/1.1\r\nHost: ")
        told = await asyncio.wait_for(reader.read(), 10)
        assert told.startswith(b"HTTP/1.1 408 ") and told.endswith(b"was not there in time\n")
        reader, writer = await asyncio.open_connection(host, int(port))
        writer.write(b"GET / HTTP/1.1\r\n" + b"x" * 20_000)
        assert (await asyncio.wait_for(reader.read(), 10)).startswith(b"HTTP/1.1 431 ")

    play(tmp_path, part)


def test_so_many_connections_are_held(tmp_path: Path) -> None:
    async def part(people: People) -> None:
        ann = await people.join("Ann")
        host, port = people.server.base.removeprefix("http://").split(":")
        held = [await asyncio.open_connection(host, int(port)) for _ in range(255)]
        reader, _ = await asyncio.open_connection(host, int(port))
        assert (await asyncio.wait_for(reader.read(), 10)).startswith(b"HTTP/1.1 503 ")
        assert "n" in await ann.replace(0, "# calm")
        for _, writer in held:
            writer.close()
        await asyncio.sleep(0.2)
        assert (await people.join("Bob")).bye == ""

    play(tmp_path, part)


# The words, and what needs no server.


def run(*words: str | Path) -> subprocess.CompletedProcess[str]:
    """Runs the command with words that are refused."""
    line = [sys.executable, "-m", "pevudlo", "serve", *map(str, words)]
    return subprocess.run(line, capture_output=True, text=True, timeout=60, cwd=ROOT / "python")


def test_wrong_words(tmp_path: Path) -> None:
    wrong: list[list[str | Path]] = [
        [],
        [EXERCISE, "--check", SOLUTION],
        [EXERCISE, "--seats", "0"],
        ["--class", "0", EXERCISE],
        ["--class", "101", EXERCISE],
        ["--class", "3"],
        ["--class", "3", EXERCISE, "--origin", "paris.example"],
        ["--class", "3", EXERCISE, "--origin", "https://paris.example/x"],
    ]
    for words in wrong:
        ran = run(*words)
        assert (ran.returncode, ran.stdout) == (2, "") and is_usage_of("serve", ran.stderr), words
    (tmp_path / "names").write_text("a\nb\n")
    ran = run("--class", "1", EXERCISE, "--names", tmp_path / "names")
    assert ran.returncode == 2 and "there are 2 names for 1 seats" in ran.stderr
    assert "can't read /nope" in run("--class", "3", "/nope").stderr


def test_without_aiohttp_it_says_what_to_install(tmp_path: Path) -> None:
    (tmp_path / "aiohttp.py").write_text("raise ImportError\n")
    code = (
        f"import sys; sys.path.insert(0, {str(tmp_path)!r}); from pevudlo.cli import main; sys.exit(main(sys.argv[1:]))"
    )
    line = [sys.executable, "-c", code, "serve", "--class", "3", str(EXERCISE)]
    ran = subprocess.run(line, capture_output=True, text=True, timeout=60, cwd=ROOT / "python")
    assert (
        (ran.returncode, ran.stdout) == (2, "") and "python3-aiohttp" in ran.stderr and "pevudlo[serve]" in ran.stderr
    )


def test_buckets() -> None:
    now = [0.0]
    bucket = Bucket(Limits(rate=2, at_once=3, share=0.1), lambda: now[0])
    for _ in range(3):
        bucket.take()
    with pytest.raises(Refused, match="2 edits a second"):
        bucket.take()
    now[0] = 0.5
    bucket.take()
    bucket.spend(2.0)
    now[0] = 5.0
    with pytest.raises(Refused, match="the time of all others"):
        bucket.take()
    now[0] = 15.5
    bucket.take()


def test_how_large_a_program_is() -> None:
    lines = ["set S 64x64", "field a S 9", "field b S 64", "u-add-3-1L a a a 9", "u-move-1L b b 64", "u-nope a"]
    # (a sum leaves its field of two bytes, and the carry and the overflow flag of one)
    assert size_of(lines) == Size(2, 4096 * (2 + 1 + 1) + 4096 * 8, 4096, len("".join(lines)))
    assert size_of([]) == Size(0, 0, 0) and size_of(["u-add-3-1L a a a 9"]) == Size(1, 0, 0, 18)
    with pytest.raises(Refused, match="4,000,000 letters at most"):
        check_size(Size(0, 0, 0, 4_000_001), 1, Limits(), Size(0, 0, 0))
    limits = Limits(rows=1, value_bytes=10_000, processors=4096)
    with pytest.raises(Refused, match="2 rows are too many"):
        check_size(size_of(lines), 6, limits, Size(0, 0, 0))
    with pytest.raises(Refused, match="of values, and 0 MB are allowed"):
        check_size(size_of(lines[:4]), 4, limits, Size(0, 0, 0))
    check_size(size_of(lines), 6, limits, size_of(lines))


def test_lines_that_are_none() -> None:
    check_line("a" * MOST_LINE)
    for text in ("a\nb", "a\rb", "a\ud800", "a" * (MOST_LINE + 1), "é" * (MOST_LINE // 2 + 1)):
        with pytest.raises(Refused):
            check_line(text)


def test_names() -> None:
    assert cleaned("  Ann \u202e B\u0000ob ") == "Ann B ob" and len(cleaned("x" * 100)) == 40
    assert as_text("=cmd()") == "'=cmd()" and as_text("Ann") == "Ann"
    assert (
        file_of(Seat(7, "../Ö x", Kind.STUDENT)) == "07-O-x.paris"
        and file_of(Seat(8, "李", Kind.STUDENT)) == "08-seat.paris"
    )
    seats = Seats(2, 1, Limits(), ["Ann"])
    assert [seat.name for seat in seats] == ["Teacher", "Ann", "Seat 2", "Looking 1"]
    assert len({seat.token for seat in seats} | {seats.join}) == 5
    assert seats.sit(seats.join, "Bob") is seats.students[1]
    with pytest.raises(Refused, match="all 2 seats are taken"):
        seats.sit(seats.join, "Carla")
