"""A document is what a fresh run of its text by the program says, and wrong ones are found."""

from __future__ import annotations

import importlib
import os
import shutil
import sys
from collections.abc import Callable, Iterator
from itertools import count, pairwise
from pathlib import Path
from random import Random

import pytest
from random_editor import LOST, compare, edited, saved

from pevudlo.document import verdicts
from pevudlo.document.differences import by_few_edits, matched
from pevudlo.document.document import Document
from pevudlo.document.update import Update
from pevudlo.lang.instructions import INSTRUCTIONS
from pevudlo.wire.library import Library
from pevudlo.wire.peers import Peer
from pevudlo.wire.pipe import Ended, Pipe
from pevudlo.wire.program import ROOT, find

TEXTS = int(os.environ.get("PEVUDLO_TEXTS", "1000"))
"""How many texts the random editors make."""

TEXTS_EACH = 20
FIRST = 5
"""Of so many editors it is known that they compare values, and that some of their rows needn't run again."""

SCRIPTS = sorted(
    [*ROOT.glob("examples/*.paris"), *ROOT.glob("checks/rows/*/*.script"), *ROOT.glob("checks/rows/*/*.paris")]
)
PACKAGE = ROOT / "python/pevudlo/document"

Begin = Callable[[], Peer]


def program() -> Peer:
    """A program with nothing declared."""
    return Pipe(find(), 1)


@pytest.fixture
def begin(library: bool, request: pytest.FixtureRequest) -> Begin:
    """What a document runs on: the program, and the library."""
    return library_of(request) if library else program


def library_of(request: pytest.FixtureRequest) -> Begin:
    """Sessions of the library."""
    path = Path(request.getfixturevalue("libparis"))
    return lambda: Library(path)


@pytest.mark.parametrize("seed", range(-(-TEXTS // TEXTS_EACH)))
def test_a_random_editor(seed: int, request: pytest.FixtureRequest) -> None:
    """Every third editor is over the library, and the others are over the program."""
    ran = rows = 0

    def see(done: Update) -> None:
        nonlocal ran, rows
        if not done.fresh:
            assert done.count <= len(done.touched)
            ran, rows = ran + done.count, rows + done.rows

    with Document(library_of(request) if seed % 3 == 2 else program) as document:
        values = edited(document, seed, TEXTS_EACH, see)
    # Some editor breaks its declarations early, and has next to no rows from then on.
    assert seed >= FIRST or (values > 100 and ran < rows)


def test_a_random_editor_with_few_refusals_kept(monkeypatch: pytest.MonkeyPatch) -> None:
    monkeypatch.setattr(verdicts, "MOST_KEPT", 3)
    with Document(program) as document:
        assert edited(document, 8, TEXTS_EACH) > 100


SET = "set S 4\n"
FIELDS = "field a S 8\nfield b S 8\nfield c S 8\n"
HEAD = SET + FIELDS + "input a 0 1 2 3 4\ninput b 0 5 6 7 8\n"
ADD, SUB, MAX = "u-add-3-1L c a b 8\n", "u-subtract-3-1L b a c 8\n", "u-max-3-1L a b c 8\n"
SEND = "send-1L c b a 8 none\n"

MORE = "input a 1 9 9\n"
WIDE = SET + "field a S 128\nfield b S 100\nfield c S 128\n" + f"input a 0 {2**127} {2**64} 1 {2**128 - 1}\n"
WIDE += f"input b 0 {2**99} 3 {2**64 - 1}\n"
SQUARE, SHIFT = "u-multiply-3-1L c a a 128\n", "u-truncate-3-1L b a b 100\n"

# Texts one after another. Behind a text that ends with TYPED the line that is typed is held.
TYPED = "(typed)"
KEPT: dict[str, tuple[str, ...]] = {
    "ids": (HEAD + ADD + SUB + "show b after 2\n", HEAD + MAX + ADD + SUB + "show b after 2\n"),
    "after an id": (HEAD + ADD + SUB + f"insert after 1 {MAX}", HEAD + MAX + ADD + SUB + f"insert after 1 {MAX}"),
    "input": (HEAD + ADD, HEAD.replace("5 6 7", "5 9 7") + ADD),
    "input that is taken out": (HEAD + MORE + ADD, HEAD + ADD, HEAD + MORE + ADD, SET + FIELDS + ADD),
    "named above": (HEAD + ADD, "input a 0 7\n" + HEAD + ADD),
    "a new declaration": (HEAD + ADD.replace("c", "d"), HEAD + "field d S 8\n" + ADD.replace("c", "d")),
    "another declaration": (HEAD + ADD, HEAD.replace("c S 8", "c S 4") + ADD),
    "context": (HEAD + "input S.context 1 0\n" + ADD, HEAD + "input S.context 2 0\n" + ADD),
    "order": (HEAD + ADD + SUB + MAX, HEAD + MAX + ADD + SUB, HEAD + SUB + MAX + ADD, HEAD + MAX + SUB + ADD),
    "a row above a declaration": (
        SET + FIELDS + ADD + "field d S 8\n" + SUB,
        SET + ADD + FIELDS + "field d S 8\n" + SUB,
    ),
    "typed and saved": (HEAD + ADD + SUB, HEAD + ADD[:9] + "\n" + SUB + TYPED, HEAD + ADD[:9] + "\n" + SUB),
    "a row that goes": (HEAD + ADD + SUB + MAX, HEAD + ADD + MAX, HEAD),
    "a row that comes to be refused": (HEAD + ADD, HEAD + ADD + SEND, HEAD + ADD + SEND + SUB, HEAD + ADD + SUB),
    "a field above its set": (SET, "field a S 8\n" + SET, "field a S 8\n" + SET + ADD),
    "a look below a new row": (HEAD + ADD + "show b end\n", HEAD + ADD + SUB + "# Here.\nshow b end\n"),
    "a look behind a row that goes": (HEAD + ADD + SUB + "show b end\n", HEAD + ADD + SUB + "show b end\ndelete 2\n"),
    "another instruction": (HEAD + ADD + f"replace 1 {SUB}", HEAD + ADD + f"replace 1 {MAX}"),
    "a profile": (
        "paris 2\n" + WIDE + SQUARE,
        "paris 2\n" + WIDE + SHIFT + SQUARE,
        WIDE + SQUARE,
        "# Wide.\n\nparis 2\n" + WIDE + SQUARE + "show c end\n",
        "# Wide still.\nparis 2\n" + WIDE + SHIFT + "show b end\n",
        "paris 1\n" + WIDE + SQUARE,
        "paris 3\n" + WIDE + SQUARE,
        "paris\n" + HEAD + ADD,
        "paris\n" + HEAD + ADD + SUB,
    ),
    "a profile that is late": ("# Nothing.\n", "list\nparis 2\n", "list\nparis 2\nparis 3\n" + HEAD + ADD),
    "a profile behind what is passed over": ("settle\nparis 2\n" + WIDE + SQUARE, "paris 2\n" + WIDE + SQUARE),
    "two sets": (HEAD + ADD, HEAD + "set T 2\nfield t T 8\ninput t 1 3\n" + ADD + "u-move-1L t t 8\n", HEAD + ADD),
}
WRONG = (
    ("pieces", 'self.row or self.place == "after" or is_first', "is_first", ("ids", "after an id")),
    ("book", "for part in differing_ranges(before, after):", "for part in list[range]():", ("input", "context")),
    ("verdicts", "            if early:\n", "            if False:\n", ("named above",)),
    ("book", "            self.verdicts.forget_names()\n", "            pass\n", ("a new declaration",)),
    (
        "document",
        'raise NewBook(f"`{short_line(old)}` is',
        'return (lambda _: [])(f"`{short_line(old)}` is',
        ("another declaration",),
    ),
    ("book", 'numbers = [int(key.endswith(".context"))]', "numbers = [0]", ("context",)),
    (
        "differences",
        "spine = rising(once_in_both(old, ours, new, theirs))",
        "spine = once_in_both(old, ours, new, theirs)",
        ("order",),
    ),
    ("meaning", "        and low >= before.head\n", "", ("a row above a declaration",)),
    ("document", "(hold or not self.meaning.is_held)", "True", ("typed and saved",)),
    ("book", '            self._tell(f"delete {row.book}", Ok, done)\n', "", ("a row that goes",)),
    ("document", "if not piece.names <= known:", "if False:", ("a field above its set",)),
    ("meaning", "shown[at] = each._replace(anchor=last)", "pass", ("a look below a new row",)),
    ("book", "self._by_address |= ids_by_address(put)", "pass", ("a row that comes to be refused",)),
    ("book", "bool(self.faults) or not", "not", ("a row that comes to be refused",)),
    ("meaning", "if self._former:", "if False:", ("a look behind a row that goes",)),
    ("book", "        self._inputs = wanted\n", "", ("input that is taken out",)),
    ("document", "if header_of(lines) != header_of(self.meaning.lines):", "if False:", ("a profile",)),
    ("book", "[profile_line(self.board.profile), *accepted]", "accepted", ("a profile that is late",)),
    ("book", "[profile_line(USUAL)]", "[]", ("a profile behind what is passed over",)),
)


def follow(document: Document, texts: tuple[str, ...]) -> int:
    """Compares a document behind each of some texts, but while one is typed."""
    values = 0
    for text in texts:
        if text.endswith(TYPED):
            document.update(text.removesuffix(TYPED), hold=True)
        else:
            values += saved(document, text.split("\n")[:-1])
    return values


@pytest.mark.parametrize("texts", KEPT.values(), ids=KEPT)
def test_kept_texts(texts: tuple[str, ...], begin: Begin) -> None:
    with Document(begin) as document:
        assert follow(document, texts)


NUMBERS = count()


def planted(folder: Path, module: str, old: str, new: str) -> type[Document]:
    """The documents of a copy of the package that says something else in one place."""
    name = f"planted_{next(NUMBERS)}"
    shutil.copytree(PACKAGE, folder / name, ignore=shutil.ignore_patterns("__pycache__"))
    for path in (folder / name).glob("*.py"):
        text = path.read_text()
        if path.stem == module:
            assert text.count(old) == 1, f"{module} doesn't say {old!r} once: plant another one"
            text = text.replace(old, new)
        path.write_text(text.replace("pevudlo.document", name))
    document: type[Document] = importlib.import_module(f"{name}.document").Document
    return document


@pytest.fixture
def folder(tmp_path: Path) -> Iterator[Path]:
    """A folder of modules."""
    sys.path.insert(0, str(tmp_path))
    yield tmp_path
    sys.path.remove(str(tmp_path))


@pytest.mark.parametrize(("module", "old", "new", "names"), WRONG, ids=[", ".join(names) for *_, names in WRONG])
def test_planted_ones_are_found(folder: Path, module: str, old: str, new: str, names: tuple[str, ...]) -> None:
    kind = planted(folder, module, old, new)
    for name in names:
        with kind(program) as document, pytest.raises(AssertionError):
            follow(document, KEPT[name])


def test_a_copy_with_nothing_planted_is_found_right(folder: Path) -> None:
    with planted(folder, "book", "MOST_SAID = 60", "MOST_SAID = 61")(program) as document:
        assert all(follow(document, texts) for texts in KEPT.values())


HOLDING = HEAD + ADD + SUB + MAX


def test_a_profile_that_is_typed_stays(begin: Begin) -> None:
    rest = WIDE + SQUARE
    with Document(begin) as document:
        document.update("paris 2\n" + rest)
        for typed, reply in (("paris ", "refused 20 7"), ("paris", "refused 20 6"), ("par 2", "refused 20 1")):
            done = document.update(f"{typed}\n{rest}", hold=True)
            assert not done.fresh and done.held == (0,) and document.shown[0].refused == reply
            assert document.stays(0) == "`paris 2` stays" and not any(each.refused for each in document.shown[1:])
            assert document.book.board.profile == 2
        done = document.update("paris 1\n" + rest, hold=True)
        assert "profile" in done.fresh and document.shown[3].refused == "refused 6" and not done.held
        told = document.explanation(2)
        assert told is not None and "`paris 2` is the first command" in told.hint
        document.update("paris 4\n" + rest)
        told = document.explanation(0)
        assert told is not None and (told.column, told.hint) == (7, "here could stand the profile, 1 or 2")


def test_one_line_that_is_typed_keeps_its_row(begin: Begin) -> None:
    with Document(begin) as document:
        document.update(HOLDING)
        at = document.lines.index(ADD[:-1])
        for typed in (ADD[:-3], ADD[:-4], ADD[:3]):
            done = document.update(HOLDING.replace(ADD, f"{typed}\n"), hold=True)
            assert (done.held, done.sent, done.count, len(done.touched)) == ((at,), [], 0, 0)
            assert document.shown[at].refused and [row.text for row in document.rows][0] == ADD[:-1]
            assert document.stays(at) == f"the row stays `{ADD[:-1]}`" and not document.stays(at + 1)
        done = document.update(HOLDING, hold=True)
        assert (done.held, done.sent, done.count) == ((), [], 0)
        compare(document, document.lines)


def test_several_lines_that_are_typed_keep_their_rows(begin: Begin) -> None:
    with Document(begin) as document:
        document.update(HOLDING)
        at = document.lines.index(ADD[:-1])
        # Two lines at once, as where a name is changed in both, and one more behind them.
        typed = HOLDING.replace(ADD + SUB, ADD.replace("c a", "c a1") + SUB.replace("b a", "b a1"))
        done = document.update(typed, hold=True)
        assert (done.held, done.sent, done.count) == ((at, at + 1), [], 0)
        typed = typed.replace(MAX, "u-max\n")
        done = document.update(typed, hold=True)
        assert (done.held, done.sent, done.count) == ((at, at + 1, at + 2), [], 0)
        # The middle one is right again, as another row: it is replaced, and the other two stay.
        typed = typed.replace(SUB.replace("b a", "b a1"), SUB.replace("b a c", "b c a"))
        done = document.update(typed, hold=True)
        assert (done.held, len(done.sent), done.sent[0].split(" ")[0]) == ((at, at + 2), 1, "replace")
        assert [row.text for row in document.rows] == [ADD[:-1], SUB[:-1].replace("b a c", "b c a"), MAX[:-1]]
        # What is saved drops all that is held.
        assert saved(document, typed.split("\n")[:-1]) and len(document.rows) == 1


def test_a_declaration_that_is_typed_keeps_what_it_declares(begin: Begin) -> None:
    with Document(begin) as document:
        document.update(HOLDING)
        at, field = document.lines.index("field c S 8"), "field c S 8\n"
        for typed in ("field c S \n", "field c S\n", "fiel c S\n"):
            done = document.update(HOLDING.replace(field, typed), hold=True)
            assert (done.held, done.sent, done.fresh) == ((at,), [], "")
            assert document.lines[at] == typed[:-1] and document.shown[at].refused.startswith("refused 20 ")
            told = document.explanation(at)
            assert told is not None and told.line == typed[:-1] and document.stays(at) == "`field c S 8` stays"
            assert [shown.refused for shown in document.shown if shown.row is not None] == [""] * 3
        # Another line is changed meanwhile, a line comes above, and one below.
        other = HOLDING.replace(field, "fiel c S\n").replace("5 6 7", "5 9 7")
        done = document.update(other, hold=True)
        assert (done.held, done.fresh, done.sent) == ((at,), "", ["input b 1 9"])
        done = document.update(f"# Above.\n{other}", hold=True)
        assert (done.held, done.fresh, done.count) == ((at + 1,), "", 0)
        done = document.update(f"# Above.\n{other}{MAX}", hold=True)
        assert (done.held, done.fresh, done.count) == ((at + 1,), "", 1)
        # It is right again, and then it is saved half typed.
        right = f"# Above.\n{HOLDING}{MAX}".replace("5 6 7", "5 9 7")
        done = document.update(right, hold=True)
        assert (done.held, done.sent, done.fresh) == ((), [], "")
        compare(document, right.split("\n")[:-1])
        document.update(HOLDING.replace(field, "field c S\n"), hold=True)
        assert saved(document, HOLDING.replace(field, "field c S\n").split("\n")[:-1]) and not document.rows


def test_what_is_no_declaration_that_is_typed(begin: Begin) -> None:
    """A declaration that becomes a comment or another one, or goes with a line of its own, is gone at once."""
    field = "field c S 8\n"
    for other in ("# field c S 8\n", "field c S 16\n", "field c S\nfield d S 8\n", ""):
        with Document(begin) as document:
            document.update(HOLDING)
            done = document.update(HOLDING.replace(field, other), hold=True)
            assert done.fresh == "`field c S 8` is changed or gone, or stands elsewhere" and not done.held
            compare(document, document.lines)


def test_a_declaration_that_was_refused_is_not_held() -> None:
    with Document(program) as document:
        document.update(f"{HOLDING}field d S 99\n")
        done = document.update(f"{HOLDING}field d S\n", hold=True)
        assert not done.held and document.stays(len(document.lines) - 1) == ""
        compare(document, document.lines)


def test_a_program_that_ends_while_a_declaration_is_typed() -> None:
    with Document(program) as document:
        document.update(HOLDING)
        document.update(HOLDING.replace("field c S 8", "field c S"), hold=True)
        peer = document.book.peer
        assert isinstance(peer, Pipe)
        peer.kill()
        done = document.update(HOLDING.replace("field c S 8", "field c"), hold=True)
        assert "killed by signal 9" in done.fresh and len(done.held) == 1 and len(document.rows) == 3


def test_a_held_row_among_rows_of_its_text() -> None:
    """A row like the held one goes: one of the two stays."""
    twice = HEAD + ADD + ADD + SUB
    with Document(program) as document:
        document.update(twice)
        document.update(twice.replace(ADD + ADD, f"# Gone.\n{ADD[:8]}\n"), hold=True)
        assert [row.text for row in document.rows] == [ADD[:-1], SUB[:-1]]
        assert saved(document, (HEAD + ADD + SUB).split("\n")[:-1])


def test_a_book_that_another_changes_is_begun_anew(begin: Begin) -> None:
    with Document(begin) as document:
        document.update(HOLDING)
        for line in ("delete 2", f"replace 1 {MAX[:-1]}", f"insert end {ADD[:-1]}"):
            document.book.peer.ask(line)
            done = document.update(HOLDING + f"input a 0 {len(line)}\n")
            assert done.fresh == LOST
            compare(document, document.lines)


def test_a_save_alone_finds_what_another_changed(begin: Begin) -> None:
    """What is typed sends nothing, and asks nothing. What is saved is compared, though it is the same text."""
    with Document(begin) as document:
        document.update(HOLDING)
        document.book.peer.ask("delete 3")
        done = document.update(f"{HOLDING}# Typed.\n", hold=True)
        assert (done.fresh, done.sent, len(document.book.peer.ask("list"))) == ("", [], 3)
        done = document.update(f"{HOLDING}# Typed.\n")
        assert done.fresh == LOST and done.count == 3
        compare(document, document.lines)
        done = document.update(document_text(document))
        assert (done.fresh, done.sent, done.count, len(done.touched)) == ("", [], 0, 0)


def test_a_save_that_compares_nothing_is_found(folder: Path) -> None:
    with planted(folder, "book", "done.count or is_saved:", "done.count:")(program) as document:
        document.update(HOLDING)
        document.book.peer.ask("delete 3")
        assert document.update(HOLDING).fresh == "" and len(document.book.peer.ask("list")) == 3


def document_text(document: Document) -> str:
    """The text that a document has."""
    return "".join(f"{line}\n" for line in document.lines)


def test_nothing_is_kept_of_rows_that_are_gone(begin: Begin) -> None:
    with Document(begin) as document:
        document.update(HOLDING)
        for at in range(40):
            document.update(HOLDING + f"u-move-constant-1L {'abc'[at % 3]} {at} 8\n" + MAX * (at % 2))
            seen = [document.written(row) for row in document.rows]
        rows = {row.book for row in document.rows}
        kept = [document._looks.keys(), document._before.keys(), [(row, "") for row in document.book.editions]]
        assert len(seen) == 5 and all({row for row, _ in each} <= rows for each in kept)


def test_a_program_that_ends_is_begun_anew() -> None:
    with Document(program) as document:
        document.update(HOLDING)
        peer = document.book.peer
        assert isinstance(peer, Pipe)
        peer.kill()
        done = document.update(HOLDING + MAX)
        assert done.fresh.startswith("the program ") and "killed by signal 9" in done.fresh and done.count == 4
        compare(document, document.lines)


def test_a_program_that_ends_while_a_text_comes(tmp_path: Path) -> None:
    """The first one ends within the text, and so does the one behind it: the next text begins anew."""
    short = tmp_path / "short"
    short.write_text(f"#!{sys.executable}\nfor _ in range(5):\n    input()\n    print('ok', flush=True)\n")
    short.chmod(0o755)
    programs = iter([short] * 2 + [short] * 2 + [find()] * 2)
    with Document(lambda: Pipe(next(programs), 1)) as document:
        with pytest.raises(Ended):
            document.update(HOLDING)
        with pytest.raises(Ended):
            document.update(HOLDING + ADD)
        done = document.update(HOLDING)
        assert done.fresh == "the last update was stopped" and done.count == 3
        compare(document, document.lines)


@pytest.mark.parametrize("script", SCRIPTS, ids=[path.stem for path in SCRIPTS])
def test_each_script_is_a_live_file(script: Path) -> None:
    """Behind a text with another set, and led to by edits from the script without its last lines."""
    lines = script.read_bytes().decode("utf-8", "surrogateescape").split("\n")[:-1]
    with Document(program) as document:
        document.update("set Q 4\n")
        document.update_lines(lines[: len(lines) * 2 // 3])
        assert (saved(document, lines) > 0) == bool(document.book.board.sets)


def test_differences_are_the_fewest() -> None:
    """Of texts in which each line stands often."""
    chance = Random(3)
    for _ in range(300):
        old, new = (["abc"[chance.randrange(3)] for _ in range(chance.randrange(9))] for _ in range(2))
        found = by_few_edits(old, new)
        assert found is not None and [old[one] for one, _ in found] == [new[other] for _, other in found]
        assert len(found) == longest(old, new)
        for pairs in (found, matched(old, new)):
            assert all(one < two and other < next_other for (one, other), (two, next_other) in pairwise(pairs))
            assert all(old[one] == new[other] for one, other in pairs)


def longest(old: list[str], new: list[str]) -> int:
    """How many lines two short texts can have in common, in their order."""
    if not old or not new:
        return 0
    if old[0] == new[0]:
        return 1 + longest(old[1:], new[1:])
    return max(longest(old[1:], new), longest(old, new[1:]))


def test_texts_round_the_limit_of_rows() -> None:
    chance, rows = Random(1), [f"{name} c a b {width}" for name in ("u-add-3-1L", "u-max-3-1L") for width in (4, 8)]
    lines = [*HEAD.split("\n")[:-1], *(chance.choice(rows) for _ in range(4_094))]
    with Document(program) as document:
        for _ in range(6):
            at = chance.randrange(9, len(lines))
            lines[at:at] = [chance.choice(rows) for _ in range(2)] + ["u-add-3-1L c a b"]
            assert LOST not in document.update_lines(list(lines)).fresh and compare(document, lines, some=5)
        assert len(document.rows) == 4_096 < len(lines) - 20
        # More rows are others than edits are worth.
        for cut, why in ((60, ""), (2_000, "1,998 rows are others")):
            del lines[20 : 20 + cut]
            assert document.update_lines(list(lines)).fresh == why
        assert compare(document, lines, some=5)


def test_many_rows_in_another_order(begin: Begin) -> None:
    chance, names = Random(2), [name for name in INSTRUCTIONS if name.endswith("-3-1L")]
    rows = [f"{name} {to} a b {width}" for name in names for to in "abc" for width in (1, 2, 3, 5, 8)]
    with Document(begin) as document:
        for _ in range(4):
            chance.shuffle(rows)
            done = document.update(HEAD + "\n".join(rows[:150]) + "\n")
            assert LOST not in done.fresh
        compare(document, document.lines, some=20)
