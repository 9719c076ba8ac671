"""`explain`: each reply stands at its line, refusals are in words, and the exit status is the program's."""

from __future__ import annotations

import os
import re
import signal
import subprocess
import sys
import time
from pathlib import Path

import pytest
from random_lines import RandomLines
from usages import is_usage_of

from pevudlo.draw.visible import visible
from pevudlo.explain.command import main
from pevudlo.explain.words import ranged
from pevudlo.explain.writers import WIDE
from pevudlo.wire.program import find

REPOSITORY = Path(__file__).resolve().parents[2]
SCRIPTS = sorted(REPOSITORY.glob("examples/*.paris")) + sorted(REPOSITORY.glob("checks/rows/*/*.paris"))
AT_LINE = re.compile(r"^ *(\d+)  (.*)$")
INDENT = " " * 6


def run(*words: str | Path, stdin: bytes = b"", timeout: float = 60) -> subprocess.CompletedProcess[str]:
    """Runs `python3 -m pevudlo explain` on words."""
    environment = {**os.environ, "PARIS_FRONT": str(find()), "PYTHONPATH": str(REPOSITORY / "python")}
    return subprocess.run(
        [sys.executable, "-P", "-m", "pevudlo", "explain", *map(str, words)],
        input=stdin.decode("utf-8", "surrogateescape"),
        capture_output=True,
        text=True,
        errors="surrogateescape",
        timeout=timeout,
        env=environment,
    )


def blocks_of(said: str, lines: list[str]) -> list[tuple[int, str, list[str]]]:
    """What `explain` says, but for the first line and the last: of each command the line's number, what stands beside
    it, and the lines below. Comments stand there as they are."""
    blocks: list[tuple[int, str, list[str]]] = []
    for line in said.split("\n")[1:-2]:
        match = None if line.startswith(INDENT) else AT_LINE.match(line)
        if match is None:
            blocks[-1][2].append(line)
        elif not lines[int(match[1]) - 1].startswith("#"):
            blocks.append((int(match[1]), beside(match[2], lines[int(match[1]) - 1]), []))
        else:
            assert match[2] == visible(lines[int(match[1]) - 1])
    return blocks


def cut(line: str) -> str:
    """A line, or its beginning where it is long."""
    return line if len(line) <= 100 else f"{line[:97]}..."


def beside(text: str, line: str) -> str:
    """What stands beside a line. Of a refused one another part may be shown, so its reply is looked for."""
    whole = visible(cut(line))
    if text.startswith(f"{whole:<{WIDE}}  "):
        return text[max(WIDE, len(whole)) + 2 :]
    return text[text.rindex("  refused ") + 2 :]


def said_of(line: str, head: str, number: int) -> str:
    """A line as `explain` writes it."""
    return f"{number:>4}  {line:<{WIDE}}  {head}"


def replies_of(transcript: list[str]) -> list[list[str]]:
    """A transcript cut into replies."""
    replies: list[list[str]] = []
    while transcript:
        word, _, number = transcript[0].partition(" ")
        size = 1 + (int(number) if word in ("rows", "faults") else 0)
        replies.append(transcript[:size])
        transcript = transcript[size:]
    return replies


def plain_replies(path: Path) -> list[list[str]]:
    """The replies of the program itself to a script, and last that to `faults`."""
    asked = path.read_bytes().rstrip(b"\n") + b"\nfaults\n"
    plain = subprocess.run([find()], input=asked, capture_output=True, timeout=60)
    return replies_of(plain.stdout.decode("ascii").splitlines())


def numbered_commands(lines: list[str]) -> list[tuple[int, str]]:
    return [(number, line) for number, line in enumerate(lines, start=1) if line and not line.startswith("#")]


def assert_matches(said: str, lines: list[str], replies: list[list[str]]) -> None:
    """Each reply stands at the number of its line, whole where it is no grid, and grids have its numbers."""
    blocks, commands = blocks_of(said, lines), numbered_commands(lines)
    assert len(blocks) == len(commands) == len(replies)
    for (number, head, more), (at, line), reply in zip(blocks, commands, replies):
        assert number == at, line
        if reply[0].startswith("values "):
            assert head.startswith(f"values of {line.split(' ')[1]} "), line
            numbers = [text for each in more if not each.rstrip().endswith(":") for text in each.split()]
            # A long line of one axis has the first processor before each of its parts.
            numbers = [text for text in numbers if not text.endswith(":")]
            assert numbers == reply[0].split()[1:], line
            continue
        assert head == reply[0] or head.startswith(f"{reply[0]}: "), line
        if reply[0].startswith("rows "):
            assert [each.strip() for each in more] == reply[1:], line
        if reply[0].startswith("faults "):
            assert [" ".join(each.split(":")[0].split()) for each in more] == reply[1:], line
        if reply[0].startswith("refused "):
            assert more and more[-1].strip(), f"no hint for {line!r}"


def refused_lines(lines: list[str], replies: list[list[str]]) -> list[int]:
    return [number for (number, _), reply in zip(numbered_commands(lines), replies) if reply[0].startswith("refused")]


def last_line(commands: int, refused: list[int], faults: list[str] | None = None) -> str:
    """How `explain` ends. `faults` are lines of the reply to `faults` at the script's end."""
    count = "1 command" if commands == 1 else f"{commands} commands"
    rows = [line.split(" ")[0] for line in faults or ()]
    many = (
        f"{len(rows)} rows are refused for their data: rows" if len(rows) > 1 else "1 row is refused for its data: row"
    )
    data = f"; {many} {', '.join(rows[:12])}{', ..' if len(rows) > 12 else ''}" if rows else ""
    if not refused:
        return f"{count}, none refused{data}"
    where = "line" if len(refused) == 1 else "lines"
    return f"{count}, {len(refused)} refused: {where} {', '.join(runs_of(refused))}{data}"


def runs_of(numbers: list[int]) -> list[str]:
    """The numbers that have a neighbour on both sides are left out, but for the word between their ends."""
    known = set(numbers)
    ends = [number for number in numbers if not {number - 1, number + 1} <= known]
    parts: list[str] = []
    for number, before in zip(ends, [-1, *ends]):
        is_far = number - before > 1 and all(each in known for each in range(before, number))
        parts[-1:] = [f"{parts[-1]} to {number}"] if is_far else [*parts[-1:], str(number)]
    return parts


@pytest.mark.parametrize("path", SCRIPTS, ids=lambda path: str(path.relative_to(REPOSITORY)))
def test_each_script_has_the_replies_of_its_transcript(path: Path, capsys: pytest.CaptureFixture[str]) -> None:
    """It is run in this process; that the command's own process writes the same is seen of random lines."""
    lines = path.read_text().split("\n")
    replies = replies_of(path.with_suffix(".expected").read_text().splitlines())
    status, (written, wrong) = main([str(path)]), capsys.readouterr()
    assert wrong == ""
    assert_matches(written, lines, replies)
    refused = refused_lines(lines, replies)
    assert status == bool(refused)
    *told, faults = plain_replies(path)
    assert told == replies
    assert written.split("\n")[0] == str(path)
    assert written.split("\n")[-2] == last_line(len(replies), refused, faults[1:])


def test_ten_thousand_random_lines(tmp_path: Path) -> None:
    lines = RandomLines(20).lines(10_000)
    path = tmp_path / "random.paris"
    path.write_bytes("\n".join(lines).encode("utf-8", "surrogateescape"))
    *replies, faults = plain_replies(path)
    refused = refused_lines(lines, replies)
    # The lines are worth trying: each reply comes often.
    words = [reply[0].split(" ")[0] for reply in replies]
    for word in ("ok", "row", "order", "kept", "stale", "values", "pending", "rows", "faults", "settled"):
        assert words.count(word) >= 20, word
    met = {reply[0].split(" ")[1] for reply in replies if reply[0].startswith("refused")}
    assert met >= {"1", "2", "3", "4", "6", "7", "8", "9", "10", "12", "13", "14", "15", "20", "22"}
    ran = run(path)
    assert (ran.returncode, ran.stderr) == (1, "")
    assert_matches(ran.stdout, lines, replies)
    assert ran.stdout.split("\n")[-2] == last_line(len(replies), refused, faults[1:])
    assert not re.search(r"[\x00-\x09\x0b-\x1f\x7f-\x9f\udc80-\udcff]", ran.stdout)


MEETING = """set S 4
field to S 8
field v S 8
field d S 8
input to 0 0 0 1 2
input v 0 1 2 3 9
insert end send-1L d to v 8 none
insert end u-add-3-1L d d v 8
insert end get-1L d v v 8
take
bring 1
settle
faults
"""
MEET = "two messages meet at processor 0: `send-with-u-add-1L` combines them"
LIES = "processor 3 holds the address 9 in `v`: `S` has 4 processors, of addresses 0 to 3"


def test_rows_that_are_refused_for_their_data_are_told(tmp_path: Path) -> None:
    """Where they ran, where they are asked for, and at the end."""
    path = tmp_path / "meeting.paris"
    path.write_text(MEETING)
    ran = run(path)
    assert (ran.returncode, ran.stderr) == (0, "")
    assert ran.stdout.split("\n")[11:-1] == [
        said_of("bring 1", "kept: 1 row is refused for its data: row 1", 11),
        f"{INDENT}row 1 stores nothing, since {MEET}",
        said_of("settle", "settled 2: 2 rows are refused for their data: rows 1, 3", 12),
        f"{INDENT}row 1 stores nothing, since {MEET}",
        f"{INDENT}row 3 stores nothing, since {LIES}",
        said_of("faults", "faults 2", 13),
        f"{INDENT}1 collision 0: {MEET}",
        f"{INDENT}3 bad-address 3: {LIES}",
        "13 commands, none refused; 2 rows are refused for their data: rows 1, 3",
    ]


def test_of_many_rows_that_are_refused_the_first_are_told(tmp_path: Path) -> None:
    path = tmp_path / "many.paris"
    rows = "insert end send-1L d to v 8 none\n" * 20
    path.write_text(f"set S 4\nfield to S 2\nfield v S 8\nfield d S 8\n{rows}settle\n")
    said = run(path).stdout.split("\n")
    named = ", ".join(map(str, range(1, 13)))
    assert said[25] == said_of("settle", f"settled 20: 20 rows are refused for their data: rows {named}, ..", 25)
    assert said[26:38] == [f"{INDENT}row {row} stores nothing, since {MEET}" for row in range(1, 13)]
    assert said[38] == f"{INDENT}`faults` lists them all"


def test_stop_ends_at_the_first_refusal(tmp_path: Path) -> None:
    path = tmp_path / "stops.paris"
    path.write_text("set S 4\n# more\nshw a\nset T 4\n")
    lines = path.read_text().split("\n")
    for words in ([str(path), "--stop"], ["--stop", str(path)]):
        ran = run(*words)
        assert ran.returncode == 1
        assert [number for number, _, _ in blocks_of(ran.stdout, lines)] == [1, 3]
        assert ran.stdout.split("\n")[-2] == "2 commands, 1 refused: line 3; stopped at the first refusal"
    assert [number for number, _, _ in blocks_of(run(path).stdout, lines)] == [1, 3, 4]


def test_a_refusal_with_caret_and_hint(tmp_path: Path) -> None:
    path = tmp_path / "wrong.paris"
    path.write_text("set S 4\nfield a S 8\nshow a edn\ninput a 0 300")
    said = run(path).stdout.split("\n")
    refused = "refused 20 8: the line is not in the grammar, from column 8 on"
    at = said.index(said_of("show a edn", refused, 3))
    assert said[at + 1] == f"{INDENT}       ^" and "did you mean `end`" in said[at + 2]
    assert said_of("input a 0 300", "refused 9 0: the value for processor 0 does not fit the width", 4) in said
    assert "300" in said[-3] and "255" in said[-3]


@pytest.mark.parametrize(
    "numbers, said",
    [
        ([], ""),
        ([4], "4"),
        ([4, 5], "4, 5"),
        ([4, 5, 6], "4 to 6"),
        ([1, 3, 4, 5, 7, 8, 20, 21, 22, 23], "1, 3 to 5, 7, 8, 20 to 23"),
        (list(range(11, 112)), "11 to 111"),
    ],
)
def test_numbers_without_a_gap_are_a_range(numbers: list[int], said: str) -> None:
    assert ranged(numbers) == said


def test_the_end_names_many_refused_lines_by_a_range(tmp_path: Path) -> None:
    path = tmp_path / "many.paris"
    path.write_text("set S 4\n" * 9 + "# A comment.\n" + "nope\n" * 101)
    last = run(path).stdout.split("\n")[-2]
    assert last == "110 commands, 109 refused: lines 2 to 9, 11 to 111"


def test_words(tmp_path: Path) -> None:
    for words in ("", "a b", "--stop", "--stop --stop a", "--nope a", "--workers 17 a", "a --workers"):
        ran = run(*words.split())
        assert (ran.returncode, ran.stdout) == (2, "") and is_usage_of("explain", ran.stderr)
    ran = run(tmp_path / "none")
    assert ran.returncode == 2 and "can't read" in ran.stderr
    assert run(tmp_path).returncode == 2
    assert run("--help").returncode == 0 and run("--help").stdout.startswith("usage: paris explain ")
    ran = run("-", "--workers", "3", stdin=b"set S 4\n")
    assert ran.stdout == f"-\n{said_of('set S 4', 'ok', 1)}\n1 command, none refused\n"


def test_a_program_that_ends(tmp_path: Path) -> None:
    program = tmp_path / "fake"
    program.write_text("#!/bin/sh\nread line; echo 'no memory' >&2; exit 4\n")
    program.chmod(0o755)
    path = tmp_path / "one.paris"
    path.write_text("settle\n")
    words = [sys.executable, "-P", "-m", "pevudlo", "explain", str(path)]
    environment = {**os.environ, "PARIS_FRONT": str(program), "PYTHONPATH": str(REPOSITORY / "python")}
    ran = subprocess.run(words, capture_output=True, text=True, timeout=60, env=environment)
    assert ran.returncode == 4
    assert "exit status 4: no memory" in ran.stderr


def test_ctrl_c(tmp_path: Path) -> None:
    """Ctrl-C while rows are settled ends it with status 130, and leaves no child."""
    path = tmp_path / "long.paris"
    rows = "insert end u-truncate-3-1L a a a 64\n" * 4_000
    path.write_text(f"set S 65536\nfield a S 64\n{rows}settle\n")
    environment = {**os.environ, "PARIS_FRONT": str(find()), "PYTHONPATH": str(REPOSITORY / "python")}
    words = [sys.executable, "-u", "-P", "-m", "pevudlo", "explain", str(path)]
    ran = subprocess.Popen(words, stdout=subprocess.PIPE, stderr=subprocess.PIPE, text=True, env=environment)
    assert ran.stdout is not None
    for line in ran.stdout:
        if line.startswith("4002  "):
            break
    children = Path(f"/proc/{ran.pid}/task/{ran.pid}/children").read_text().split()
    assert len(children) == 1
    time.sleep(0.2)
    ran.send_signal(signal.SIGINT)
    ran.communicate(timeout=20)
    assert ran.returncode == 130
    assert not Path(f"/proc/{children[0]}").exists()


def test_who_stops_reading(tmp_path: Path) -> None:
    path = tmp_path / "long.paris"
    path.write_text("settle\n" * 20_000)
    environment = {**os.environ, "PARIS_FRONT": str(find()), "PYTHONPATH": str(REPOSITORY / "python")}
    words = f"{sys.executable} -P -m pevudlo explain {path} | head -n 1"
    ran = subprocess.run(["bash", "-c", words], capture_output=True, text=True, timeout=60, env=environment)
    assert ran.stdout == f"{path}\n"
    assert ran.stderr == ""
