"""What a language server says of lines: values and where they come from, what is wrong, names, what may stand there."""

from __future__ import annotations

from collections.abc import Iterator
from typing import Any

import pytest
from editors import MODERN, URI, Editor, Message, typed
from random_editor import Fresh, numbers_of

from pevudlo.lang.grammar import COMMANDS
from pevudlo.lang.instructions import INSTRUCTIONS
from pevudlo.lsp.diagnostics import MOST_TOLD
from pevudlo.lsp.outline import TOKENS
from pevudlo.lsp.values import MOST_LINES

HEAD = "set S 4\nfield a S 8\nfield b S 8\nfield c S 8\ninput a 0 1 2 3 4\n"
ADD, TWICE = "u-add-3-1L b a a 8\n", "u-add-3-1L c b b 8\n"
TEXT = HEAD + ADD + TWICE + "show c end\n"
MEET = "set S 4\nfield to S 2\nfield v S 8\nfield d S 8\ninput to 0 0 0 1 2\nsend-1L d to v 8 none\n"
PLAIN: Message = {"textDocument": {"hover": {"contentFormat": ["plaintext"]}}}


@pytest.fixture
def editor() -> Iterator[Editor]:
    """An editor with the file open."""
    with Editor() as editor:
        editor.open(TEXT)
        yield editor


def retyped(editor: Editor, text: str) -> Message:
    """Puts another text into the file, saves it, and gives what the update did."""
    editor.change({"text": text})
    editor.tell("textDocument/didSave", textDocument={"uri": URI})
    return editor.ran()


def hints(editor: Editor, first: int = 0, last: int = 9_999) -> dict[int, str]:
    """The short values of the lines of a range."""
    found = editor.of("inlayHint", range=typed(first, 0, 0, "")["range"] | {"end": {"line": last, "character": 0}})
    return {hint["position"]["line"]: hint["label"] for hint in found}


def hover(editor: Editor, line: int, character: int) -> str:
    """What is said of the word at a place."""
    said = editor.of("hover", line, character)
    return str(said["contents"]["value"]) if said else ""


def fresh(text: str, *asked: str) -> list[list[int]]:
    """The numbers that a fresh run of a text gives."""
    return [numbers_of(reply) for reply in Fresh(text.split("\n")[:-1]).answers(asked)]


def spelled(numbers: list[int]) -> str:
    """Numbers with a space between each two."""
    return " ".join(map(str, numbers))


# Values.


def test_short_values_stand_behind_lines(editor: Editor) -> None:
    b, c, carry = fresh(TEXT, "show b after 1", "show c end", "show S.carry after 1")
    assert (b, carry) == ([2, 4, 6, 8], [0] * 4)
    found = hints(editor)
    assert list(found) == [5, 6, 7]
    assert found[5] == f"▶ b {spelled(b)}  carry 0000  overflow 0000" and found[7] == f"c {spelled(c)}"
    assert list(hints(editor, 6, 6)) == [6]
    ends = [hint["position"]["character"] for hint in editor.of("inlayHint", range=typed(5, 0, 0, "")["range"])]
    assert ends == [len(ADD) - 1]
    editor.type(4, 10, 11, "200")
    assert hints(editor)[5] == "▶ b 144* 4 6 8  carry 1* 0 0 0  overflow 1* 0 0 0"
    # A row runs, since another comes before it, and gives the same.
    editor.type(5, 0, 0, "u-move-1L b a 8\n")
    assert hints(editor)[6].startswith("= b 144 4 6 8 ") and hints(editor)[8].startswith("c ")


def test_a_client_is_told_when_values_are_others(editor: Editor) -> None:
    hints(editor)
    editor.type(4, 10, 11, "9")
    assert editor.more()["method"] == "workspace/inlayHint/refresh"
    editor.type(0, 0, 0, "# Nothing runs.\n")
    hints(editor)
    assert len([each for each in editor.heard if "refresh" in str(each.get("method"))]) == 2


def test_of_a_whole_file_some_lines_have_values(editor: Editor) -> None:
    retyped(editor, HEAD + ADD * 450)
    assert list(hints(editor)) == list(range(5, 5 + MOST_LINES)) and len(hints(editor, 440)) == 15


def test_rows_that_store_nothing_say_so(editor: Editor) -> None:
    assert Fresh(MEET.split("\n")[:-1]).faults == ["1 collision 0"]
    retyped(editor, MEET)
    assert hints(editor) == {5: "! it stores nothing"}
    (wrong,) = editor.wrong()
    said = "the row stores nothing, since two messages meet at processor 0: `send-with-u-add-1L` combines them"
    assert (wrong["severity"], wrong["message"]) == (2, said) and said in hover(editor, 5, 2)


def test_values_where_the_cursor_is(editor: Editor) -> None:
    text = HEAD + "input S.context 3 0\n" + ADD + TWICE + "show c end\n"
    retyped(editor, text)
    b, c = fresh(text, "show b after 1", "show c end")
    assert (b, c) == ([2, 4, 6, 0], [4, 8, 12, 0])
    assert hover(editor, 6, 13) == ("`a`: 8 bits in `S`, input data of line 5\n```text\n1 2 3 4\n```")
    # What is stored there: as it was, and behind the row, with what changed and who isn't selected.
    before, behind = hover(editor, 6, 11).split("\n\n")
    assert before == "`b`: 8 bits in `S`, as it was declared\n```text\n0 0 0 0\n```"
    assert behind.startswith("`b` behind this row, `*` where it changed, `( )` where not selected\n")
    assert behind.split("\n")[2].split() == ["2", "*", "4", "*", "6", "*", "(0)"]
    assert hover(editor, 7, 13).startswith("`b`: 8 bits in `S`, from the row `u-add-3-1L b a a 8` in line 7\n")
    assert hover(editor, 8, 5).startswith("`c`: 8 bits in `S`, from the row `u-add-3-1L c b b 8` in line 8\n")
    assert hover(editor, 8, 5).split("\n")[2].split() == [str(number) for number in c]
    assert hover(editor, 5, 8) == "`S.context`: 1 bit in `S`, at the start\n```text\n1 1 1 0\n```"
    assert hover(editor, 0, 4) == "set `S`: 4 processors" and hover(editor, 6, 17) == hover(editor, 99, 0) == ""


def test_an_instruction_where_the_cursor_is(editor: Editor) -> None:
    said = hover(editor, 5, 3).split("\n\n")
    assert said[0].startswith("`u-add-3-1L D A B L`\n```text\nStores the sum A + B in D.")
    assert [part.split("\n")[0] for part in said[1:]] == [
        "`b` behind this row, `*` where it changed",
        "`S.carry` behind this row",
        "`S.overflow` behind this row",
    ]
    assert hover(editor, 7, 1).startswith("`show KEY start, show KEY after NUM,") and "example" not in hover(
        editor, 7, 1
    )
    retyped(editor, HEAD + "set-context S\n")
    assert "`S.context` behind this row" in hover(editor, 5, 12)


def test_plain_words_for_who_has_no_markdown() -> None:
    with Editor(PLAIN) as editor:
        editor.open(TEXT + "settle\n")
        said = editor.of("hover", 5, 13)["contents"]
        assert said == {"kind": "plaintext", "value": "`a`: 8 bits in `S`, input data of line 5\n1 2 3 4"}
        # Who draws nothing pale isn't told of lines that are passed over.
        assert editor.wrong() == []


# Where a value comes from.


def places(found: list[Message]) -> list[tuple[int, int, int]]:
    """The lines of locations, and from where to where."""
    ranges = [each["range"] for each in found]
    return [(each["start"]["line"], each["start"]["character"], each["end"]["character"]) for each in ranges]


def test_a_definition_is_the_row_that_a_value_comes_from(editor: Editor) -> None:
    retyped(editor, TEXT + "u-max-3-1L b b a 8\nshow b end\nshow b start\nu-add-3-1L c b c 8\n")
    add, most = (5, 0, len(ADD) - 1), (8, 0, len("u-max-3-1L b b a 8"))
    assert places(editor.of("definition", 6, 13)) == [add]
    assert places(editor.of("definition", 7, 5)) == [(6, 0, len(TWICE) - 1)]
    # Of a row that writes what it reads, what it reads is from above.
    assert places(editor.of("definition", 8, 11)) == places(editor.of("definition", 8, 13)) == [add]
    assert places(editor.of("definition", 9, 5)) == places(editor.of("definition", 11, 13)) == [most]
    # The start is input data, or else the declaration; of input data it is the declaration too.
    assert places(editor.of("definition", 4, 6)) == [(1, 6, 7)]
    assert places(editor.of("definition", 5, 13)) == [(4, 0, 17)]
    assert places(editor.of("definition", 10, 5)) == places(editor.of("declaration", 8, 11)) == [(2, 6, 7)]
    assert places(editor.of("definition", 1, 8)) == places(editor.of("declaration", 1, 8)) == [(0, 4, 5)]
    assert places(editor.of("definition", 5, 2)) == places(editor.of("declaration", 0, 1)) == []


def test_a_definition_in_a_file_that_names_rows(editor: Editor) -> None:
    """The row in the first place of the program stands in the last line, and another one is replaced there."""
    text = HEAD + f"{TWICE}show c end\ninsert start {ADD}replace 1 u-max-3-1L c b b 8\n"
    retyped(editor, text)
    assert fresh(text, "show c end") == [[2, 4, 6, 8]]
    assert places(editor.of("definition", 5, 13)) == [(7, 0, len(f"insert start {ADD}") - 1)]
    assert places(editor.of("definition", 6, 5))[0][0] == 8 and "replace 1" not in hover(editor, 6, 5)
    assert hover(editor, 6, 5).split("\n")[2] == "2 4 6 8"


def test_rows_that_are_taken_out_or_replaced_further_down(editor: Editor) -> None:
    """They have no values. What is read in their lines is what stands where they stood."""
    text = TEXT + "delete 1\nreplace 2 u-max-3-1L c a b 8\n"
    retyped(editor, text)
    (c,) = fresh(text, "show c end")
    assert c == [1, 2, 3, 4] and hints(editor) == {
        5: "- taken out by line 9",
        6: "- replaced by line 10",
        7: "c 1 2 3 4",
        8: "- takes out the row of line 6",
        9: "▶ c 1 2 3 4",
    }
    assert hover(editor, 5, 11).startswith("taken out by line 9\n\n`b`: 8 bits in `S`, as it was declared\n")
    assert hover(editor, 6, 3).split("\n")[:3] == ["replaced by line 10", "", "`u-add-3-1L D A B L`"]
    assert "behind this row" not in hover(editor, 6, 3) + hover(editor, 5, 11)
    assert hover(editor, 8, 1).startswith("takes out the row of line 6\n\n`delete NUM`")
    # No value comes from them. The line that takes out a row leads to it.
    assert places(editor.of("definition", 6, 13)) == places(editor.of("definition", 5, 11)) == [(2, 6, 7)]
    assert places(editor.of("definition", 7, 5)) == [(9, 0, len("replace 2 u-max-3-1L c a b 8"))]
    assert places(editor.of("definition", 8, 8)) == [(5, 0, len(ADD) - 1)]
    pale = [(each["range"]["start"]["line"], each["message"]) for each in editor.wrong()]
    assert pale == [(5, "this row is taken out by line 9"), (6, "this row is replaced by line 10")]


# What is wrong, and what mends it.

WRONG: dict[str, tuple[str, tuple[int, int], str, str]] = {
    "an instruction": ("u-ad-3-1L b a a 8", (0, 9), "did you mean `u-add-3-1L`?", "u-add-3-1L b a a 8"),
    "a command": ("shw a end", (0, 3), "did you mean `show`?", "show a end"),
    "a place": ("show a edn", (7, 10), "did you mean `end`? Here could stand", "show a end"),
    "a flag": ("show S.cary end", (5, 11), "did you mean `S.carry`", "show S.carry end"),
    "no place": ("insert u-add-3-1L b a a 8", (7, 17), "say where: `insert end", "insert end u-add-3-1L b a a 8"),
    "two spaces": ("u-add-3-1L b  a a 8", (13, 14), "an empty word stands here", "u-add-3-1L b a a 8"),
    "a space at the end": ("show a end ", (10, 11), "an empty word stands here", "show a end"),
    "zeros": ("u-add-3-1L b a a 08", (17, 19), "a number has no leading zeros", "u-add-3-1L b a a 8"),
    "a direction": (
        "get-from-news-1L b a 0 upwards 8",
        (23, 30),
        "did you mean `upward`?",
        "get-from-news-1L b a 0 upward 8",
    ),
    "a field": ("u-add-3-1L count a count 8", (11, 16), "did you mean `counts`?", "u-add-3-1L counts a counts 8"),
    "a set": ("set-context Sum", (12, 15), "did you mean `Sums`?", "set-context Sums"),
    "a value": ("input a 1 7 256 3", (12, 15), "256 needs more than the 8 bits of `a`", ""),
    "a name that is taken": ("field b S 8", (6, 7), "`b` is a field of `S`", ""),
    "a length": ("u-add-3-1L b a a 9", (0, 18), "the length L is 9", ""),
    "too short": ("show a", (5, 6), "the line ends too soon", ""),
    "a word beyond ASCII": ("show é end", (5, 6), "words are made of ASCII letters", ""),
}


@pytest.mark.parametrize("case", WRONG)
def test_what_is_wrong_is_told_where_it_is_and_mended(editor: Editor, case: str) -> None:
    line, part, words, mended = WRONG[case]
    text = "set Sums 2\n" + HEAD + "field counts S 8\n# 😀\n" + line + "\n"
    retyped(editor, text)
    (wrong,) = editor.wrong()
    assert wrong["range"] == typed(8, *part, "")["range"] and (wrong["severity"], wrong["source"]) == (1, "paris")
    # The number is that of a fresh run, and the words are those of `explain`.
    refused = Fresh(text.split("\n")[:-1]).refused[8].split(" ")
    assert (str(wrong["code"]), refused[0]) == (refused[1], "refused") and words in wrong["message"]
    actions = editor.of("codeAction", range=wrong["range"], context={"diagnostics": [wrong]})
    assert len(actions) == bool(mended)
    for action in actions:
        assert action["kind"] == "quickfix" and action["diagnostics"] == [wrong]
        retyped(editor, changed(text, action["edit"]["changes"][URI]))
        assert editor.server.files[URI].document.lines[8] == mended and editor.wrong() == []


def changed(text: str, edits: list[Message]) -> str:
    """A text behind edits, each within a line without letters of two units."""
    lines = text.split("\n")
    for edit in sorted(edits, key=lambda edit: -int(edit["range"]["start"]["character"])):
        start, end = edit["range"]["start"], edit["range"]["end"]
        line = lines[start["line"]]
        lines[start["line"]] = line[: start["character"]] + edit["newText"] + line[end["character"] :]
    return "\n".join(lines)


def test_messages_that_meet_are_mended(editor: Editor) -> None:
    for prefix in ("", "insert end "):
        text = MEET.replace("send-1L", f"{prefix}send-1L")
        retyped(editor, text)
        (action,) = editor.of("codeAction", range=editor.wrong()[0]["range"], context={"diagnostics": editor.wrong()})
        mended = changed(text, action["edit"]["changes"][URI])
        assert mended == text.replace("send-1L", "send-with-u-add-1L")
        retyped(editor, mended)
        assert editor.wrong() == [] and Fresh(mended.split("\n")[:-1]).faults == []


def test_right_lines_have_no_mends(editor: Editor) -> None:
    everywhere = {"start": {"line": 0, "character": 0}, "end": {"line": 9_999, "character": 0}}
    assert editor.of("codeAction", range=everywhere, context={"diagnostics": []}) == []


def test_lines_that_are_passed_over_are_pale(editor: Editor) -> None:
    retyped(editor, TEXT + "settle\nlist\n")
    assert [(each["severity"], each["tags"], each["range"]["start"]["line"]) for each in editor.wrong()] == [
        (4, [1], 8),
        (4, [1], 9),
    ]


def test_of_many_wrong_lines_some_are_told(editor: Editor) -> None:
    retyped(editor, HEAD + "u-ad a\n" * 350)
    told = editor.wrong()
    assert len(told) == MOST_TOLD + 1 and told[-1]["message"] == "250 more lines are wrong"
    assert told[-1]["range"]["start"]["line"] == 354


# Names.


def test_references_and_another_name(editor: Editor) -> None:
    text = "set a1 4\nfield a a1 8\n# a a1\ninput a 0 7\ninput a1.carry 0 1\n"
    text += "show a end\nset-context a1\nshow a1.test end\n"
    text += "insert end u-add-3-1L a a a 8\nscan-with-copy-1L a a 0 8 upward none\nwrong a\n"
    retyped(editor, text)
    named = [(1, 6, 7), (3, 6, 7), (5, 5, 6), *((8, at, at + 1) for at in (22, 24, 26)), (9, 18, 19), (9, 20, 21)]
    # The cursor may be at the word's end. `none` is no name.
    assert places(editor.of("references", 8, 22)) == places(editor.of("references", 8, 23)) == named
    assert text.split("\n")[9][33:] == "none" and places(editor.of("references", 9, 34)) == []
    assert places(editor.of("references", 8, 22, context={"includeDeclaration": False})) == named[1:]
    sets = [(0, 4, 6), (1, 8, 10), (4, 6, 8), (6, 12, 14), (7, 5, 7)]
    assert places(editor.of("references", 4, 7)) == sets
    marked = editor.of("documentHighlight", 5, 5)
    assert places(marked) == named and [each["kind"] for each in marked] == [3, 2, 2, 3, 3, 3, 3, 3]
    before = fresh(text, "show a end", "show a1.carry end")
    for line, at, old, new, is_set in ((5, 5, "a", "sum", False), (7, 6, "a1", "grid", True)):
        assert editor.of("prepareRename", line, at) == {
            "range": typed(line, 5, 5 + len(old), "")["range"],
            "placeholder": old,
        }
        edits = editor.of("rename", line, at, newName=new)["changes"][URI]
        assert [edit["newText"] for edit in edits] == [new] * len(edits)
        assert places(edits) == (sets if is_set else named)
        renamed = changed(text, edits)
        a, carry = ("a", f"{new}.carry") if is_set else (new, "a1.carry")
        assert fresh(renamed, f"show {a} end", f"show {carry} end") == before


@pytest.mark.parametrize(
    ("line", "character", "name", "words"),
    [
        (5, 11, "1b", "`1b` is no name"),
        (5, 11, "none", "`none` is no name"),
        (5, 11, "c", "`c` is declared already"),
        (5, 11, "S", "`S` is declared already"),
        (5, 3, "d", "no declared name stands here"),
        (5, 17, "d", "no declared name stands here"),
    ],
)
def test_names_that_nothing_can_have(editor: Editor, line: int, character: int, name: str, words: str) -> None:
    about = {"textDocument": {"uri": URI}, "position": {"line": line, "character": character}}
    code, said = editor.fails("textDocument/rename", **about, newName=name)
    assert code == -32602 and said.startswith(words)


def test_a_name_may_stay_as_it_is(editor: Editor) -> None:
    assert len(editor.of("rename", 5, 11, newName="b")["changes"][URI]) == 4


# What may stand there, and the file at a glance.


def offered(editor: Editor, line: int, character: int) -> list[str]:
    """The words that are offered at a place."""
    return [item["label"] for item in editor.of("completion", line, character)["items"]]


def test_what_may_stand_at_the_cursor(editor: Editor) -> None:
    retyped(
        editor,
        TEXT + "field f S 1\nset T 2\nfield t T 4\n\nu-add-3-1L b \nsho\ninsert end u-sub\nset-context \nshow S.\n",
    )
    assert set(INSTRUCTIONS) | {"set", "show", "settle"} <= set(offered(editor, 11, 0))
    assert offered(editor, 12, 13) == ["a", "b", "c", "f"] and offered(editor, 13, 3) == ["show"]
    assert offered(editor, 14, 16) == ["u-subtract-3-1L"] and offered(editor, 15, 12) == ["S", "T"]
    assert offered(editor, 16, 7) == ["S.context", "S.test", "S.carry", "S.overflow"]
    # Above a declaration its name isn't offered.
    assert offered(editor, 4, 6) == ["a", "b", "c"] + [f"S.{flag}" for flag in ("context", "test", "carry", "overflow")]
    items = editor.of("completion", 14, 16)["items"]
    assert items[0]["textEdit"] == {"range": typed(14, 11, 16, "")["range"], "newText": "u-subtract-3-1L"}
    assert items[0]["detail"] == "u-subtract-3-1L D A B L"


def test_a_profile_is_the_first_command_or_none(editor: Editor) -> None:
    retyped(editor, "# Wide.\n\nparis 2\nset S 4\nfield a S 128\nparis 1\n")
    assert (
        offered(editor, 2, 1) == ["paris"] and offered(editor, 2, 6) == ["1", "2"] and "paris" in offered(editor, 0, 0)
    )
    assert offered(editor, 3, 1) == [word for word in [*COMMANDS, *INSTRUCTIONS] if word.startswith("s")]
    assert "paris" not in offered(editor, 3, 0) and "paris" not in offered(editor, 6, 0)
    (wrong,) = editor.wrong()
    assert wrong["range"]["start"]["line"] == 5 and "the first command or none" in wrong["message"]
    assert "Chooses the profile" in hover(editor, 2, 2)
    retyped(editor, "paris 3\nset S 4\nfield a S 65\n")
    header, field = editor.wrong()
    assert header["range"] == typed(0, 6, 7, "")["range"] and "the profile, 1 or 2" in header["message"]
    assert "`paris 2` is the first command" in field["message"]


def test_a_file_at_a_glance(editor: Editor) -> None:
    retyped(editor, "# The sum.\n# Of two.\n# Numbers.\n\n" + TEXT)
    symbols = editor.of("documentSymbol")
    assert [(each["name"], each["detail"], each["kind"]) for each in symbols] == [
        ("The sum.", "", 3),
        ("S", "4", 5),
        ("a", "S 8", 8),
        ("b", "S 8", 8),
        ("c", "S 8", 8),
    ]
    folds = editor.of("foldingRange")
    assert [(each["startLine"], each["endLine"], each["kind"]) for each in folds] == [
        (0, 2, "region"),
        (4, 11, "region"),
        (0, 2, "comment"),
    ]


def kinds(data: list[int], lines: list[str]) -> Iterator[tuple[str, str]]:
    """The words that tokens stand for, with their kinds, in units of UTF-16."""
    line = start = 0
    for at in range(0, len(data), 5):
        line, start = line + data[at], data[at + 1] + (0 if data[at] else start)
        raw = lines[line].encode("utf-16-le")[2 * start : 2 * (start + data[at + 2])]
        yield raw.decode("utf-16-le"), TOKENS[data[at + 3]]


def test_colours_of_words(editor: Editor) -> None:
    lines = ["# é😀", "field x S 8", "show S.carry end", "get-from-news-1L b a 0 upward 8", "set-context S", "é 7"]
    retyped(editor, HEAD + "\n".join(lines) + "\n")
    wanted: list[Any] = [("# é😀", "comment"), ("field", "keyword"), ("x", "variable"), ("S", "class"), ("8", "number")]
    wanted += [("show", "keyword"), ("S", "class"), ("carry", "property"), ("end", "keyword")]
    wanted += [("get-from-news-1L", "function"), ("b", "variable"), ("a", "variable"), ("0", "number")]
    wanted += [("upward", "enumMember"), ("8", "number"), ("set-context", "function"), ("S", "class"), ("7", "number")]
    data = editor.of("semanticTokens/full")["data"]
    all_lines = [*HEAD.split("\n")[:-1], *lines]
    assert list(kinds(data, all_lines))[-len(wanted) :] == wanted
    part = editor.of(
        "semanticTokens/range", range={"start": {"line": 5, "character": 0}, "end": {"line": 7, "character": 0}}
    )
    assert list(kinds(part["data"], all_lines)) == wanted[:9]


def test_what_a_modern_client_says_is_understood() -> None:
    with Editor({**MODERN, "textDocument": None, "workspace": {"inlayHint": []}, "window": 7}) as editor:
        assert editor.open(TEXT)["rows"] == 2
        assert not [each for each in editor.heard if "refresh" in str(each.get("method"))]
