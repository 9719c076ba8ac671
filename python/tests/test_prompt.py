"""The prompt without a terminal: lines come from a pipe. Views, words of its own, and files."""

from __future__ import annotations

import os
import re
import subprocess
import sys
from pathlib import Path
from random import Random

import pytest
from random_lines import RandomLines
from usages import is_usage_of

from pevudlo.files import read_lines, write_lines
from pevudlo.lang.grammar import COMMANDS
from pevudlo.prompt.help import OWN, help_for
from pevudlo.prompt.lines import Reader
from pevudlo.prompt.prompt import Prompt, talk
from pevudlo.prompt.session import Session
from pevudlo.reference.idioms import sections
from pevudlo.wire.program import ROOT, find

BASE = ["set S 4", "field a S 8", "input a 0 1 200 3 16"]


def prompt(lines: list[str], *words: str, program: Path | None = None) -> subprocess.CompletedProcess[str]:
    """Runs the prompt on lines that come from a pipe."""
    environment = {**os.environ, "PARIS_FRONT": str(program or find()), "PYTHONPATH": str(ROOT / "python")}
    return subprocess.run(
        [sys.executable, "-P", "-m", "pevudlo", "prompt", "--program", *words],
        input="".join(f"{line}\n" for line in lines),
        capture_output=True,
        text=True,
        errors="surrogateescape",
        timeout=60,
        env=environment,
    )


def answers(lines: list[str], before: list[str] | None = None, columns: int | None = None) -> list[str]:
    """What is answered to lines in a prompt of this process, after others whose answers are left out.

    `columns` is how wide its terminal is.
    """
    shown: list[str] = []
    session = Session(find())
    session.begin()
    try:
        answering = Prompt(session, shown.append, False, lambda: columns)
        for line in BASE if before is None else before:
            assert answering.handle(line)
        shown.clear()
        for line in lines:
            assert answering.handle(line)
    finally:
        session.close()
    return shown


def test_lines_that_come_from_a_pipe_are_answered_as_those_that_are_typed() -> None:
    lines = [*BASE, "show a end", "hex a", "shw a", "help 12", "# a comment", "", "delete 1"]
    ran = prompt([*lines, "quit", "set T 4"])
    assert (ran.returncode, ran.stderr) == (0, "")
    assert ran.stdout.split("\n")[:-1] == answers(lines, [])


def test_the_document_s_prompt_answers_as_it_stands_there(tmp_path: Path, monkeypatch: pytest.MonkeyPatch) -> None:
    text = (ROOT / "docs" / "PEOPLE.md").read_text().split("\n## prompt\n")[1]
    (block,) = re.findall(r"^```\n(paris> .*?)^```$", text, re.M | re.S)
    turns = [turn.rstrip("\n").split("\n") for turn in block.split("paris> ")[1:]]
    monkeypatch.chdir(tmp_path)
    told = [line for turn in turns for line in turn[1:]]
    assert answers([turn[0] for turn in turns], []) == told
    assert len(turns) == 9 and (tmp_path / "double.paris").is_file()


def test_workers_are_as_many_as_said(tmp_path: Path) -> None:
    program = tmp_path / "words"
    program.write_text('#!/bin/sh\nread -r line\necho "$@" >&2\nexit 4\n')
    program.chmod(0o755)
    for words, wanted in ((), "2"), (("--workers", "5"), "5"), (("--workers=16",), "16"):
        assert f"(exit status 4: --workers {wanted})" in prompt(["set S 4"], *words, program=program).stdout


def test_rows_that_are_refused_for_their_data_are_told(tmp_path: Path) -> None:
    """At the settle, at a look that is asked for, and where a file is loaded."""
    lines = [*BASE[:2], "field to S 2", "insert end send-1L a to a 8 none", "settle"]
    meet = "two messages meet at processor 0: `send-with-u-add-1L` combines them"
    told = ["settled 1: 1 row is refused for its data: row 1", f"  row 1 stores nothing, since {meet}"]
    assert answers(lines, [])[-2:] == told
    assert answers(["faults"], lines) == ["faults 1", f"  1 collision 0: {meet}"]
    path = tmp_path / "meets.paris"
    path.write_text("\n".join(lines))
    assert answers([f"load {path}"], []) == [
        f"{path}:5: {told[0]}",
        told[1],
        f"{path}: 5 commands, none refused; 1 row is refused for its data: row 1",
    ]


def test_no_word_of_its_own_is_a_command() -> None:
    assert not set(OWN) & set(COMMANDS)


def test_values_are_shown_in_each_way() -> None:
    head = "a at the end (S 4, 8 bits{})"
    assert answers(["show a end"]) == [head.format(""), "    1 200   3  16"]
    assert answers(["hex a"]) == [head.format(", in hex"), "  01 c8 03 10"]
    assert answers(["signed a end"]) == [head.format(", signed"), "    1 -56   3  16"]
    assert answers(["bits a start"])[1] == "  00000001 11001000 00000011 00010000"
    assert answers(["line a"]) == ["values 1 200 3 16"]


def test_a_way_without_a_key_stays_and_one_with_a_key_does_not() -> None:
    assert answers(["hex", "show a end", "signed a", "line", "show a end", "unsigned", "show a end"]) == [
        "values are shown as a grid, in hex",
        "a at the end (S 4, 8 bits, in hex)",
        "  01 c8 03 10",
        "a at the end (S 4, 8 bits, signed)",
        "    1 -56   3  16",
        "values are shown as a line, in hex",
        "values 01 c8 03 10",
        "values are shown as a line, unsigned",
        "values 1 200 3 16",
    ]


def test_a_grid_has_the_axes_of_its_set() -> None:
    grid = ["set G 4x2", "field g G 8", "input g 0 1 2 3 4 5 6 7 88"]
    assert answers(["grid g"], grid) == ["g at the end (G 4x2, 8 bits)", "   1  2  3  4", "   5  6  7 88"]


WIDE = ["set L 32", "field l L 8", "input l 0 " + " ".join(str(200 + number) for number in range(32))]
WIDE += ["set P 64x2", "field p P 8", "input p 0 " + " ".join(str(100 + number) for number in range(128))]


def test_a_grid_fits_eighty_columns() -> None:
    line = answers(["show l end"], WIDE, 80)
    assert line == [
        "l at the end (L 32, 8 bits)",
        *(f"  {at:2}: " + " ".join(str(200 + at + number) for number in range(16)) for at in (0, 16)),
    ]
    pieces = answers(["show p end"], WIDE, 80)
    assert pieces[1::3] == [f"  axis 0 at {at} to {at + 15}:" for at in (0, 16, 32, 48)]
    numbers = [[int(word) for word in text.split()] for at, text in enumerate(pieces[1:]) if at % 3]
    rows = [numbers[at] + numbers[at + 2] + numbers[at + 4] + numbers[at + 6] for at in (0, 1)]
    assert rows == [list(range(100, 164)), list(range(164, 228))]
    assert max(map(len, line + pieces)) <= 80
    assert answers(["show l end"], WIDE) == ["l at the end (L 32, 8 bits)", f"  {' '.join(map(str, range(200, 232)))}"]
    assert len(answers(["bits p"], WIDE, 40)) == 1 + 16 * 3


def test_lines_are_broken_between_words_at_eighty_columns() -> None:
    meet = ["field to S 2", "insert end send-1L a to a 8 none", "settle", "faults"]
    mistakes = ["insert end u-add a a a 8", "insert end shift a a 8", "zzzz", "delete 77", "input a 0 300"]
    lines = [*meet, *mistakes, "insert end " + "x" * 200, "input a 0 " + "1 " * 100 + "x"]
    helps = ["help", *(f"help {word}" for word in (*OWN, *COMMANDS, "scan-with-u-add-1L", "12", "with"))]
    wide, narrow = answers([*lines, *helps]), answers([*lines, *helps], columns=80)
    assert max(map(len, wide)) > 120 and max(map(len, narrow)) <= 80
    hints = [text for text in answers(mistakes) if "spelling" in text or "begins with" in text]
    folded = " ".join(" ".join(answers(mistakes, columns=80)).split())
    assert len(hints) == 2 and all(text.strip() in folded for text in hints)


def test_a_caret_stands_below_its_column_at_eighty_columns() -> None:
    line = "insert end u-add-3-1L " + " ".join(["a"] * 40) + " 8"
    said = answers([line], columns=60)
    at = next(number for number, text in enumerate(said) if text.strip() == "^")
    assert max(map(len, said)) <= 60
    # Behind three operands a length is wanted, and the fourth `a` is none.
    assert said[at - 1].startswith("  insert end u-add-3-1L a a a ") and said[at].index("^") == 2 + 28


def test_a_row_s_place_can_be_looked_at_in_a_way() -> None:
    rows = [*BASE, "insert end u-move-constant-1L a 10 8", "insert end u-move-constant-1L a 20 8", "settle"]
    assert answers(["hex a after 1"], rows) == ["a after row 1 (S 4, 8 bits, in hex)", "  0a 0a 0a 0a"]
    assert answers(["hex a after 9"], rows)[0] == "refused 10: no row has this id"
    assert answers(["hex b"], rows)[0].startswith("refused 7: ")


@pytest.mark.parametrize("line", ["load", "save", "again now", "new game"])
def test_a_word_that_is_written_otherwise_is_said(line: str) -> None:
    assert answers([line]) == [f"it is written `{OWN[line.split(' ')[0]].spelling}`"]


def test_a_word_of_the_prompt_s_own_that_is_misspelled_is_guessed() -> None:
    for line, meant in (("halp", "help"), ("sav x.paris", "save"), ("HEX a", "hex"), ("loadd x", "load")):
        said = answers([line])
        assert said[0].startswith("refused 20 1: ")
        assert said[-1] == f"  did you mean the prompt's own word `{meant}`? It is written `{OWN[meant].spelling}`"
    assert not any("own word" in line for line in answers(["shw a", "Set S 4", "lst", "xyzzy", "delete 9"]))


def test_help_finds_numbers_parts_and_likely_words() -> None:
    assert help_for("12") == help_for("BadLength") == help_for("badlength")
    assert help_for("12")[0] == "refused 12   (fault BadLength)"
    parts = help_for("scan-with-u")
    assert " ".join(parts[1:]).split() == ["scan-with-u-add-1L", "scan-with-u-max-1L", "scan-with-u-min-1L"]
    assert help_for("setle") == ["there is no help for `setle`: did you mean `settle`?"]
    assert help_for("xyzzy") == ["there is no help for `xyzzy`: `help` alone lists what there is"]


@pytest.mark.parametrize(
    "word, said, title",
    [
        ("shift", "shift: there is none: `u-multiply-3-1L D A B L`", "Shift by k along an axis"),
        ("if", "if: `logand-context-with-test S`", "If and else"),
        ("SORT", "SORT: there is none: ", "Sort by rank"),
        ("while", "while: there is no loop: ", "Until nothing changes"),
    ],
)
def test_help_knows_words_of_other_languages_as_hints_do(word: str, said: str, title: str) -> None:
    lines = help_for(word)
    assert lines[0].startswith(said)
    (script, *_) = re.findall(r"^```\n(.*?)^```$", sections()[title], re.M | re.S)
    assert title in lines and f"\n{script}" in "\n".join([*lines[lines.index(title) :], ""])
    assert answers([f"help {word}"], []) == lines
    assert not any("](" in line for line in lines)


def test_help_of_an_idiom_of_a_name_and_of_other_words() -> None:
    assert help_for("where the greatest is")[0] == help_for("Where the")[0] == "Where the greatest is"
    assert help_for("u-mul")[:2] == ["`u-mul` is `u-multiply-3-1L`:", "u-multiply-3-1L D A B L"]
    assert help_for("s-rem")[0].startswith("s-rem: there is no signed remainder: ")
    assert help_for("print") == ["print: `show KEY end` shows a key"]
    added = help_for("add")
    assert added[0].startswith("add: `u-add-3-1L D A B L` adds") and added[1] == "these have `add` in their names:"
    assert "  A constant as an operand; If and else; " in "\n".join(help_for(""))


def test_new_begins_with_nothing_declared() -> None:
    assert answers(["new", "show a end", "set S 8"]) == [
        "nothing is declared",
        *answers(["show a end"], []),
        "ok",
    ]


def test_load_explains_what_is_refused_and_goes_on(tmp_path: Path) -> None:
    script = tmp_path / "mistakes.paris"
    script.write_text("# mistakes\nset S 4\n\nfield a S 80\nfield a S 8\nshow b end\nshow a end\n")
    said = answers([f"load {script}"], [])
    assert said[0] == f"{script}:4: refused 6: the width is 0 or above the greatest one"
    assert [line.split(": ")[0] for line in said if line.startswith(str(script))] == [
        *(f"{script}:{line}" for line in (4, 6, 7)),
        str(script),
    ]
    assert said[-3:] == [
        f"{script}:7: a at the end (S 4, 8 bits)",
        "  0 0 0 0",
        f"{script}: 5 commands, 2 refused: lines 4, 6",
    ]


def test_what_is_loaded_is_saved_with_its_comments_and_without_its_mistakes(tmp_path: Path) -> None:
    script, copy = tmp_path / "one.paris", tmp_path / "two.paris"
    script.write_text("# first\nset S 4\n\nfield a S 80\nfield a S 8\nshow a end\ntake\n# last\n")
    prompt([f"save {copy}"], str(script))
    assert copy.read_text() == "# first\nset S 4\n\nfield a S 8\n# last\n"


def test_each_example_is_saved_as_a_script_of_the_same_replies(tmp_path: Path) -> None:
    looks = ["list", "faults"]
    scripts = sorted((ROOT / "examples").glob("*.paris"))
    assert len(scripts) == 9
    for script in scripts:
        copy = tmp_path / script.name
        wanted = answers(looks, [f"load {script}", f"save {copy}"])
        assert wanted[0].startswith("rows ") and answers(looks, [f"load {copy}"]) == wanted


def test_save_keeps_what_the_file_held_and_writes_whole_files(tmp_path: Path) -> None:
    file = tmp_path / "a.paris"
    write_lines(file, ["one", "caf\udce9"])
    assert read_lines(file) == ["one", "caf\udce9"] and file.read_bytes() == b"one\ncaf\xe9\n"
    file.chmod(0o640)
    write_lines(file, ["two"])
    assert file.read_text() == "two\n" and (tmp_path / "a.paris~").read_bytes() == b"one\ncaf\xe9\n"
    assert file.stat().st_mode & 0o777 == 0o640
    assert sorted(path.name for path in tmp_path.iterdir()) == ["a.paris", "a.paris~"]


def test_odd_bytes_are_written_as_escapes_and_end_nothing(tmp_path: Path) -> None:
    ran = prompt(["help \udcff\x1b[31m", f"load {tmp_path}/\x00", f"save {tmp_path}/a\x00", "hex \x1b", "set S 4"])
    said = ran.stdout.split("\n")
    assert said[0] == "there is no help for `\\xff\\x1b[31m`: `help` alone lists what there is"
    assert said[1:3] == [
        f"can't {way} {tmp_path}/{name}\\x00: embedded null byte" for way, name in (("read", ""), ("write", "a"))
    ]
    assert said[-2] == "ok" and "\x1b" not in ran.stdout


def test_random_lines_are_answered_each(tmp_path: Path) -> None:
    dice, lines = Random(3), RandomLines(3).lines(1500)
    own = [
        "help",
        "help scan",
        "help 5",
        "grid",
        "line",
        "hex a",
        "bits S.test end",
        "signed b after 1",
        "again",
        "load x",
    ]
    shown: list[str] = []
    session = Session(find())
    session.begin()
    try:
        answering = Prompt(session, shown.append, False)
        silent = 0
        for line in lines:
            for each in (line, dice.choice(own)) if dice.random() < 0.1 else (line,):
                before = len(shown)
                assert answering.handle(each)
                silent += len(shown) == before
                assert session.is_running
        comments = sum(not line or line.startswith("#") for line in lines)
        assert silent == comments
        answering.handle(f"save {tmp_path / 'random.paris'}")
        looks = ["list", "faults", *(f"show {key} end" for key in session.board.keys()), "take"]
        wanted = [session.tell(look) for look in looks]
        assert len(looks) > 12
        session.begin()
        answering.handle(f"load {tmp_path / 'random.paris'}")
        assert [session.tell(look) for look in looks] == wanted
        assert shown[-1].endswith(" commands, none refused")
    finally:
        session.close()


def test_a_file_that_cannot_be_read_or_written_is_said(tmp_path: Path) -> None:
    assert answers([f"load {tmp_path}/none"]) == [f"can't read {tmp_path}/none: No such file or directory"]
    assert answers([f"save {tmp_path}"]) == [f"can't write {tmp_path}: Is a directory"]
    assert answers([f"save {tmp_path}/none/x"]) == [f"can't write {tmp_path}/none/x: No such file or directory"]
    assert answers(["save /dev/full"]) == ["can't write /dev/full: No space left on device"]
    ran = prompt([], f"{tmp_path}/none")
    assert (
        ran.returncode == 2 and ran.stderr == f"paris prompt: can't read {tmp_path}/none: No such file or directory\n"
    )


def test_wrong_words_have_status_2() -> None:
    for words in (
        ["a", "b"],
        ["--grid"],
        ["--workers"],
        ["--workers", "17"],
        ["--workers=0"],
        ["--workers", "02"],
        ["-"],
    ):
        ran = prompt([], *words)
        assert (ran.returncode, ran.stdout) == (2, "") and is_usage_of("prompt", ran.stderr)
    ran = prompt([], "--help")
    assert ran.returncode == 0 and all(word.spelling in ran.stdout for word in OWN.values())


def test_a_program_that_ends_at_once_is_said(tmp_path: Path) -> None:
    program = tmp_path / "ends"
    program.write_text("#!/bin/sh\nread -r line\necho no memory >&2\nexit 4\n")
    program.chmod(0o755)
    ran = prompt(["set S 4", "show a end", "again", "set S 4", "quit"], program=program)
    said = ran.stdout.split("\n")
    ended = "no program runs: the program ended before its reply (exit status 4: no memory)"
    kept = "0 accepted commands are kept: `again` starts the program with them, `save FILE` saves them"
    again = "the program is started again, and 0 accepted commands are told"
    assert said == [ended, kept, ended, kept, again, ended, kept, ""]
    assert ran.returncode == 0


class Lines(Reader):
    """Lines that a test gives. An empty one stands for Ctrl-C before any line was typed."""

    def __init__(self, lines: list[str]) -> None:
        self.lines = lines

    def read(self) -> str | None:
        line = self.lines.pop(0) if self.lines else None
        if line == "":
            raise KeyboardInterrupt
        return line


def test_ctrl_c_while_a_reply_is_shown_loses_nothing() -> None:
    shown: list[str] = []

    def show(text: str) -> None:
        shown.append(text)
        if text == "row 1":
            raise KeyboardInterrupt

    session = Session(find())
    session.begin()
    try:
        rows = ["insert end set-test S", "insert end clear-test S"]
        talk(Prompt(session, show, False), Lines(["set S 4", "", *rows, "again", rows[1], "list"]))
    finally:
        session.close()
    assert shown[:3] == ["ok", "", "row 1"]
    assert shown[3:6] == ["", "no program runs: it was interrupted", shown[5]] and shown[5].startswith("2 accepted")
    assert shown[6] == "no program runs: it was interrupted"
    assert shown[8] == "the program is started again, and 2 accepted commands are told"
    assert shown[9:11] == ["row 2", "rows 2"] and len(shown) == 13


def test_one_question_is_no_answer_to_another() -> None:
    shown: list[str] = []
    session = Session(find())
    session.begin()
    try:
        asking = Prompt(session, shown.append, True)
        assert [asking.handle(line) for line in ("set S 4", "quit", "new", "quit")] == [True] * 4
        assert [line.split(", and ")[1] for line in shown[1:]] == [
            f"the same once more {what}" for what in ("ends the prompt", "begins anew", "ends the prompt")
        ]
        assert not asking.handle("quit")
    finally:
        session.close()


def test_new_keeps_what_was_accepted_where_no_program_can_be_started(tmp_path: Path) -> None:
    program = tmp_path / "program"
    program.symlink_to(find())
    session = Session(program)
    session.begin()
    try:
        session.tell("set S 4")
        program.unlink()
        shown: list[str] = []
        Prompt(session, shown.append, False).handle("new")
        assert shown[0].startswith("no program runs: it can't be started: ") and session.accepted == ["set S 4"]
    finally:
        session.close()


def test_a_program_that_is_gone_is_said(tmp_path: Path) -> None:
    program = tmp_path / "gone"
    program.write_text("#!/nowhere/at/all\n")
    program.chmod(0o755)
    ran = prompt(["set S 4"], program=program)
    assert ran.returncode == 2 and ran.stderr.startswith("paris prompt: no program runs: it can't be started: ")
