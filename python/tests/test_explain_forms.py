"""`explain --json` and `explain --quiet`: the same replies in another form, or refusals and values alone."""

from __future__ import annotations

import json
from pathlib import Path
from typing import Any

import pytest
from random_lines import RandomLines
from test_explain import LIES, MEET, MEETING, REPOSITORY, SCRIPTS, blocks_of, numbered_commands, plain_replies
from test_explain import refused_lines, run, said_of


def reply_of(told: dict[str, Any]) -> list[str]:
    """The lines of the reply that an object tells."""
    kind = told["kind"]
    if kind in ("ok", "nothing"):
        return [kind]
    if kind == "rows":
        lines = [f"{row['row']} edition {row['edition']} {row['status']} {row['instruction']}" for row in told["rows"]]
        return [f"rows {len(lines)}", *lines]
    if kind == "faults":
        lines = [f"{fault['row']} {fault['cause']} {fault['processor']}" for fault in told["faults"]]
        return [f"faults {len(lines)}", *lines]
    if kind == "refused":
        fault = told["fault"]
        return [
            " ".join(["refused", str(fault["number"]), *([] if fault["detail"] is None else [str(fault["detail"])])])
        ]
    if kind == "verdict":
        return [" ".join([told["verdict"], *([] if told["edition"] is None else [str(told["edition"])])])]
    if kind == "order":
        return [f"order {told['order']} row {told['row']} edition {told['edition']}"]
    return [f"{kind} {' '.join(map(str, told['values'])) if kind == 'values' else told[kind]}"]


def objects(said: str) -> list[dict[str, Any]]:
    """The objects that are written, one a line."""
    assert said.isascii()
    return [json.loads(line) for line in said.splitlines()]


def assert_tells(said: str, path: Path) -> None:
    """Each reply is told at its line, and the end as it is."""
    lines = path.read_bytes().decode("utf-8", "surrogateescape").split("\n")
    *replies, faults = plain_replies(path)
    *told, end = objects(said)
    assert [reply_of(each) for each in told] == replies
    shown = [
        (number, line.encode("utf-8", "surrogateescape").decode("utf-8", "backslashreplace"))
        for number, line in numbered_commands(lines)
    ]
    assert [(each["line"], each["command"]) for each in told] == shown
    rows = [int(line.split(" ")[0]) for line in faults[1:]]
    assert end == {
        "file": str(path),
        "kind": "end",
        "commands": len(replies),
        "refused": refused_lines(lines, replies),
        "faults": rows,
        "stopped": False,
    }


@pytest.mark.parametrize("path", SCRIPTS, ids=lambda path: str(path.relative_to(REPOSITORY)))
def test_objects_have_the_replies_of_each_script(path: Path) -> None:
    ran = run(path, "--json")
    assert ran.stderr == ""
    assert_tells(ran.stdout, path)


def test_objects_have_the_replies_of_random_lines(tmp_path: Path) -> None:
    path = tmp_path / "random.paris"
    path.write_bytes("\n".join(RandomLines(21).lines(3_000)).encode("utf-8", "surrogateescape"))
    ran = run(path, "--json")
    assert (ran.returncode, ran.stderr) == (1, "")
    assert_tells(ran.stdout, path)


def test_an_object_says_what_the_words_say(tmp_path: Path) -> None:
    path = tmp_path / "meeting.paris"
    path.write_text(MEETING + "show a end\ninput v 0 300\nshow d end\n")
    told = objects(run(path, "--json").stdout)
    faults = [
        {"row": 1, "cause": "collision", "processor": 0, "words": MEET},
        {"row": 3, "cause": "bad-address", "processor": 3, "words": LIES},
    ]
    assert told[10]["faults"] == faults[:1] and told[11]["faults"] == faults == told[12]["faults"]
    assert told[11]["settled"] == 2 and "faults" not in told[0]
    assert told[13]["fault"]["name"] == "NoField" and "`a` isn't declared" in told[13]["fault"]["hint"]
    fault = told[14]["fault"]
    assert (fault["number"], fault["detail"], fault["column"]) == (9, 0, None) and "255" in fault["hint"]
    shape = {"key": "d", "place": "end", "set": "S", "axes": [4], "bits": 8}
    # Row 1 sends nothing, so row 2 doubles nothing but adds v to zeros.
    assert told[15] == {
        "file": str(path),
        "line": 16,
        "command": "show d end",
        "kind": "values",
        **shape,
        "values": [1, 2, 3, 9],
    }
    assert told[16]["faults"] == [1, 3] and told[16]["refused"] == [14, 15]


def test_quiet_writes_refusals_and_values_alone(tmp_path: Path) -> None:
    path = tmp_path / "quiet.paris"
    path.write_text(MEETING + "list\nshw d\nshow d end\n")
    loud, quiet = run(path), run(path, "--quiet")
    assert (quiet.returncode, quiet.stderr) == (1, "")
    wanted = [11, 12, 13, 15, 16]
    lines = path.read_text().split("\n")
    blocks = {block[0]: block for block in blocks_of(loud.stdout, lines)}
    assert blocks_of(quiet.stdout + "\n", lines) == [blocks[number] for number in wanted]
    assert [each["line"] for each in objects(run("--quiet", path, "--json").stdout)] == wanted


def test_quiet_is_silent_where_all_is_well(tmp_path: Path) -> None:
    path = tmp_path / "well.paris"
    path.write_text("set S 4\ninsert end set-test S\nsettle\nlist\n")
    ran = run(path, "--quiet")
    assert (ran.returncode, ran.stdout, ran.stderr) == (0, "", "")
    path.write_text("set S 4\ninsert end set-test S\nshow S.test end\n")
    said = said_of("show S.test end", "pending 1: row 1 writes it last, and is unsettled", 3)
    assert run(path, "--quiet").stdout == f"{path}\n{said}\n"


def test_stop_is_told_in_the_last_object(tmp_path: Path) -> None:
    path = tmp_path / "stops.paris"
    path.write_text("set S 4\nshw a\nset T 4\n")
    end = objects(run(path, "--json", "--stop").stdout)[-1]
    assert (end["commands"], end["refused"], end["stopped"]) == (2, [2], True)
