"""Pages of scripts: causes, large sets, hostile text, and the command that makes them."""

from __future__ import annotations

import re
from pathlib import Path

import pytest
from live_tabs import strip_in
from page_checks import Data, data_for, kind_of, page_with
from pages import REPOSITORY, Tree, answers, script_of
from usages import is_usage_of

from pevudlo.client.pieces import Kind
from pevudlo.page import command

SENDS = """set S 4
field v S 8
field ad S 8
field d S 8
field n S 1
input v 0 9 3 12 11
input ad 0 2 0 3 0
input S.context 0 1 1 0 1
insert end send-1L d ad v 8 n
insert end u-add-3-1L d d v 8
settle
insert end get-1L d v v 8
settle""".splitlines()
HOSTILE = [
    "# <script>alert(1)</script> & \"quotes\" 'single' </script><img src=x>",
    "set S 4",
    "field a S 8",
    "# </script> again",
    "insert end <svg/onload=alert(1)>",
    "insert end u-move-1L a a 8",
    "# bytes \udcff that are no text",
    "settle",
    "<b>x</b>",
]


def test_refused_rows_say_their_cause() -> None:
    data = Data(page_with(SENDS))
    words = {fault[0]: fault[3] for fault in data.moments[-1]["faults"]}
    assert answers(SENDS + ["faults"])[-1][1:] == ["1 collision 0", "3 bad-address 0"]
    assert words == {
        1: "two messages meet at processor 0: `send-with-u-add-1L` combines them",
        3: "processor 0 holds the address 9 in `v`: `S` has 4 processors, of addresses 0 to 3",
    }


def test_a_run_without_refused_rows_has_no_causes() -> None:
    assert all(moment["faults"] == [] for moment in data_for("life").moments)


def test_large_sets_are_summed_up() -> None:
    lines = ["set S 128x64", "field a S 13", "field b S 1", "insert end my-send-address-1L a 13", "settle"]
    data = Data(page_with([*lines, "show a end"]))
    piece = data.values(0)["a", 1]
    assert kind_of(piece) is Kind.STRIP
    strip = strip_in(piece)
    assert (strip["low"], strip["high"], strip["count"]) == (0, 8191, 8192) and strip["changed"] == 0


def test_hostile_text_stays_text() -> None:
    html = page_with(HOSTILE, "<title>.paris")
    root = Tree(html).root
    kinds = [node.attributes.get("type") for node in root.all("script")]
    assert (
        kinds == ["importmap", "application/json", "module"] and not list(root.all("img")) and not list(root.all("svg"))
    )
    assert not [node for node in root.all() if any(name.startswith("on") for name in node.attributes)]
    data = Data(html)
    assert data.told["hello"]["hello"] == "<title>.paris"
    assert data.told["intro"][0].startswith("<script>alert(1)</script> & ")
    texts = [note["text"] for note in data.moments[0]["notes"]]
    assert "insert end <svg/onload=alert(1)>" in texts and "<b>x</b>" in texts
    assert "bytes \\xff that are no text" in [*texts, *sum(data.moments[0]["comments"].values(), [])]
    assert "\udcff" not in html


def test_a_page_needs_no_network() -> None:
    html = page_with(script_of("life"))
    root = Tree(html).root
    for node in root.all():
        for name in ("src", "href"):
            address = node.attributes.get(name, "#")
            assert address.startswith(("#", "data:")) or address == "script", address
    policy = [node for node in root.all("meta") if node.attributes.get("http-equiv") == "Content-Security-Policy"]
    assert len(policy) == 1 and policy[0].attributes["content"].startswith("default-src 'none'")
    style = "".join(node.text for node in root.all("style"))
    assert "url(" not in style and "@import" not in style
    assert not re.search(r"https?://", html.replace("http-equiv", ""))


def test_main_writes_the_file_and_gives_the_programs_status(tmp_path: Path, capsys: pytest.CaptureFixture[str]) -> None:
    out = tmp_path / "out.html"
    assert command.main([str(REPOSITORY / "examples/life.paris"), "-o", str(out)]) == 0
    assert out.read_text().startswith("<!doctype html>") and capsys.readouterr().out == f"{out}\n"
    script = tmp_path / "wrong.paris"
    script.write_text("shw a end\n")
    assert command.main([str(script), "-o", "-"]) == 1
    (note,) = Data(capsys.readouterr().out).notes("wrong")
    assert (note["number"], note["text"], note["refused"]["at"]) == (1, "shw a end", 0)


@pytest.mark.parametrize(
    "words", [[], ["a", "b"], ["--stop", "a"], ["a", "-o"], ["--workers", "17", "a"], ["a", "-o", ""], ["-x"]]
)
def test_wrong_words_have_status_2(words: list[str], capsys: pytest.CaptureFixture[str]) -> None:
    with pytest.raises(SystemExit) as ended:
        command.main(words)
    assert ended.value.code == 2 and is_usage_of("page", capsys.readouterr().err)


def test_a_file_that_isnt_there_has_status_2(capsys: pytest.CaptureFixture[str]) -> None:
    assert command.main(["/nowhere/a.paris"]) == 2
    assert "/nowhere/a.paris" in capsys.readouterr().err
