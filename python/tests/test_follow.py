"""Functions that are followed: what a call sends, what runs, what is told, and what is refused with which sentence."""

from __future__ import annotations

import subprocess
import sys
import warnings
from collections.abc import Callable, Iterator
from pathlib import Path
from typing import Any, NamedTuple

import pytest

numpy = pytest.importorskip("numpy")
from pevudlo import algorithms, find, follow  # noqa: E402
from pevudlo.follow.followed import Followed, followed  # noqa: E402
from pevudlo.follow.refusals import NotTraced, OverflowWarning, RowRefused, TooMuch  # noqa: E402
from pevudlo.follow.session import Session  # noqa: E402

PRICE = numpy.array([3, 5, 8, 2, 9, 1, 4, 7], dtype=numpy.uint16)
COUNT = numpy.array([1, 0, 2, 5, 1, 9, 3, 1], dtype=numpy.uint16)
FACTOR = 3


@pytest.fixture(autouse=True)
def _library(libparis: Path) -> None:
    """All of these are over the library."""


def sheet(price: Any, count: Any, tax: int = 10) -> dict[str, Any]:
    """A small sheet."""
    line = price * count
    return {"line": line, "total": (line + line // tax).sum()}


def changed(array: Any, at: int, number: int) -> Any:
    """An array with another number."""
    array = array.copy()
    array[at] = number
    return array


@pytest.fixture
def sent(monkeypatch: pytest.MonkeyPatch) -> Iterator[list[Any]]:
    """What is told sessions: lines, and the field, the first place and the count of numbers."""
    told: list[Any] = []
    tell, give = Session.tell, Session.give

    def tell_and_note(self: Session, lines: Any) -> None:
        told.extend(lines)
        tell(self, lines)

    def give_and_note(self: Session, field: str, first: int, words: Any) -> None:
        told.append((field, first, len(words)))
        give(self, field, first, words)

    monkeypatch.setattr(Session, "tell", tell_and_note)
    monkeypatch.setattr(Session, "give", give_and_note)
    yield told


def test_other_numbers_send_the_part_that_differs_and_trace_nothing(sent: list[Any]) -> None:
    p = follow(sheet)(PRICE, COUNT)
    assert p["total"] == 69 and len(p.ran) == 7 and p["line"].tolist() == [3, 0, 16, 10, 9, 9, 12, 7] and p.ran == ()
    sent.clear()
    other = changed(changed(COUNT, 3, 6), 5, 8)
    p(PRICE, other)
    assert sent == [("count", 3, 3)] and p.traces == 1
    assert p["total"] == 70 and set(p.ran) < set(range(1, 8))
    sent.clear()
    p(price=PRICE.copy(), count=other.copy())
    assert sent == [] and p["total"] == 70 and p.ran == ()
    other[0] = 2
    p(PRICE, other)
    assert sent == [("count", 0, 1)]


def test_the_last_call_again_with_some_arguments_others(sent: list[Any]) -> None:
    p = follow(lambda *arrays, **named: numpy.maximum(*arrays) * named["by"] + named["c"])
    with pytest.raises(IndexError, match="was not called yet"):
        p.again(c=COUNT)
    p(PRICE, COUNT, by=2, c=COUNT)
    high = numpy.maximum(PRICE, COUNT)
    assert p.result.tolist() == (high * 2 + COUNT).tolist()
    sent.clear()
    other = changed(COUNT, 2, 9)
    assert p.again(c=other).result.tolist() == (high * 2 + other).tolist() and sent == [("c", 2, 1)]
    assert p.again(by=3).result.tolist() == (high * 3 + other).tolist() and p.traces == 2
    assert p.again(arrays1=PRICE).result.tolist() == (PRICE * 3 + other).tolist()
    with pytest.raises(TypeError, match="the last call has arrays0, arrays1, by, c, and no d"):
        p.again(d=1)
    p.undo().undo()
    assert p.again(c=COUNT).result.tolist() == (high * 2 + COUNT).tolist()
    # An array that isn't named is as it was, and one that is named is compared.
    sent.clear()
    assert (
        p.again(arrays0=PRICE[::-1].copy(), arrays1=COUNT).result.tolist()
        == (numpy.maximum(PRICE[::-1], COUNT) * 2 + COUNT).tolist()
    )
    assert len(sent) == 1


def test_another_constant_replaces_a_row(sent: list[Any]) -> None:
    p = follow(sheet)(PRICE, COUNT)
    assert p["total"] == 69
    sent.clear()
    p(PRICE, COUNT, tax=5)
    assert len(sent) == 1 and sent[0].startswith("replace ") and p["total"] == 76
    assert 1 not in p.ran


def test_one_turn_more_or_less_leaves_what_is_in_common(sent: list[Any]) -> None:
    def steps(a: Any, turns: int) -> Any:
        for turn in range(turns):
            a = (a ^ turn) + 1
        return a

    p = follow(steps)(PRICE, 8)
    first = p.result
    rows = set(p.ran)
    p(PRICE, 6)
    assert p.result.dtype == numpy.uint16 and p.ran == () and all(line.startswith("delete") for line in sent[-6:])
    p(PRICE, 8)
    assert p.result.tolist() == first.tolist() and set(p.ran).isdisjoint(rows)


def test_equal_expressions_are_one() -> None:
    p = follow(lambda a, b: ((a + b) * (a + b), a + b))(PRICE, COUNT)
    assert p.text().count("insert end") == 2


def test_what_a_function_reads_beside_its_arguments_is_seen(monkeypatch: pytest.MonkeyPatch) -> None:
    turns, table = [1], {"add": 2}

    def scaled(a: Any) -> Any:
        return helper(a) + len(turns) * table["add"]

    p = follow(scaled)(PRICE)
    assert p.result.tolist() == (PRICE * 3 + 2).tolist()
    p(PRICE)
    assert p.traces == 1
    turns.append(1)
    assert p(PRICE).result.tolist() == (PRICE * 3 + 4).tolist()
    table["add"] = 5
    assert p(PRICE).result.tolist() == (PRICE * 3 + 10).tolist()
    monkeypatch.setattr(sys.modules[__name__], "FACTOR", 2)
    assert p(PRICE).result.tolist() == (PRICE * 2 + 10).tolist()
    monkeypatch.setattr(sys.modules[__name__], "helper", lambda a: a)
    assert p(PRICE).result.tolist() == (PRICE + 10).tolist() and p.traces == 5


def test_what_an_argument_holds_is_seen_where_it_is_changed() -> None:
    def scaled(a: Any, numbers: Any, **named: Any) -> Any:
        return a * len(numbers) + numbers[0] + named["more"]["by"]

    numbers, more = [1], {"by": 2}
    p = follow(scaled)(PRICE, numbers, more=more)
    assert p.result.tolist() == (PRICE + 3).tolist()
    numbers[:] = [7, 5]
    assert p(PRICE, numbers, more=more).result.tolist() == (PRICE * 2 + 9).tolist()
    more["by"] = 4
    assert p.again(numbers=numbers).result.tolist() == (PRICE * 2 + 11).tolist() and p.traces == 3
    assert p(PRICE, numbers, more=more).traces == 3


def helper(a: Any) -> Any:
    """What another function calls."""
    return a * FACTOR


def test_true_and_one_are_two_constants() -> None:
    p = follow(lambda a, k: a + k)(PRICE > 3, 1)
    assert p.result.dtype == numpy.int64
    assert p(PRICE > 3, True).result.dtype == bool


class Pair(NamedTuple):
    """Two results."""

    low: Any
    high: Any


def test_names_of_what_is_returned() -> None:
    p = follow(lambda *arrays, **named: Pair(numpy.minimum(*arrays), named["c"]))(PRICE, COUNT, c=COUNT)
    assert p.names == ("low", "high") and p["low"].tolist() == numpy.minimum(PRICE, COUNT).tolist()
    q = follow(lambda a: (a, a + 1))(PRICE)
    assert q.names == ("0", "1") and q[1][0] == 4 and q["0"].tolist() == PRICE.tolist()
    with pytest.raises(KeyError, match="the function returns 0, 1, and no third"):
        q["third"]
    with pytest.raises(IndexError, match="was not called yet"):
        follow(sheet)["total"]


def test_a_call_with_arrays_of_another_function_is_a_part_of_it() -> None:
    inner = follow(lambda a: a * 2)
    p = follow(lambda a: inner(a) + 1)(PRICE)
    assert p.result.tolist() == (PRICE * 2 + 1).tolist()


def test_shapes_and_broadcasting() -> None:
    grid, row = numpy.arange(32, dtype=numpy.int32).reshape(4, 8), numpy.arange(8, dtype=numpy.int8)
    p = follow(
        lambda grid, row: (grid + row, grid @ row, grid.T if grid.shape[0] == grid.shape[1] else grid[1], grid[2, 3])
    )
    p(grid, row)
    assert p[0].tolist() == (grid + row).tolist() and p[1].tolist() == (grid @ row.astype(int)).tolist()
    assert p[2].tolist() == grid[1].tolist() and p[3] == grid[2, 3]
    square = numpy.arange(16, dtype=numpy.uint8).reshape(4, 4)
    p(square, row[:4])
    assert p[2].tolist() == square.T.tolist() and p[0].tolist() == (square + row[:4]).tolist()
    p.undo()
    assert p[0].shape == (4, 8) and p.ran == ()


def test_undo_takes_a_call_back_with_its_results() -> None:
    p = follow(sheet)(PRICE, COUNT)
    assert p["total"] == 69
    p(PRICE, changed(COUNT, 1, 4), tax=5)
    p(PRICE, changed(COUNT, 1, 4), tax=5)
    assert p["total"] == 100
    assert p.undo()["total"] == 69 and p.ran == ()
    p(PRICE, COUNT, tax=9)
    assert p["total"] == 71
    p.undo()
    with pytest.raises(IndexError, match="there is no call to take back"):
        p.undo()


def test_overflow_is_told_by_line() -> None:
    def lost(a: Any, b: Any) -> Any:
        product = a * b
        return product - b

    a, b = numpy.array([200, 3, 1, 90], dtype=numpy.uint8), numpy.array([2, 3, 4, 3], dtype=numpy.uint8)
    p = follow(lost)(a, b)
    assert [
        (each.line.number - lost.__code__.co_firstlineno, each.operation, each.processors) for each in p.overflows()
    ] == [(1, "multiply", 2)]
    assert str(p.overflows()[0]).startswith("multiply in line ") and "test_follow.py has no room" in str(
        p.overflows()[0]
    )
    with pytest.warns(OverflowWarning, match="has no room for its numbers in 2 processors") as caught:
        follow(lost, overflow="warn")(a, b)["result"]
    assert caught[0].filename == __file__
    strict = follow(lost, overflow="raise")(a, b)
    for _ in range(2):
        with pytest.raises(OverflowError, match="multiply in line"):
            strict["result"]
    with warnings.catch_warnings():
        warnings.simplefilter("error")
        assert strict(b - 1, b).result.tolist() == [0, 3, 8, 3]
    with pytest.raises(ValueError, match='overflow is "warn" or "raise"'):
        follow(lost, overflow="ignore")


def test_a_refused_row_raises_where_a_value_stands_on_it() -> None:
    def put(a: Any, to: Any) -> dict[str, Any]:
        zero = numpy.zeros_like(a)
        return {"put": zero.scatter(to, a) + 1, "got": a.take(to), "else": a + 1}

    to = numpy.array([0, 1, 2, 3, 4, 5, 6, 6], dtype=numpy.uint8)
    p = follow(put)(PRICE, to)
    line = put.__code__.co_firstlineno + 2
    with pytest.raises(
        RowRefused, match=rf"scatter in line {line} of test_follow.py is refused: two numbers go to place 6"
    ):
        p["put"]
    assert p["got"].tolist() == PRICE[to].tolist() and p["else"].tolist() == (PRICE + 1).tolist()
    p(PRICE, changed(to, 3, 9))
    with pytest.raises(RowRefused, match=r"take in line \d+ of .* processor 3 holds the place 9, and there are 8"):
        p["got"]
    p(PRICE, changed(to, 7, 7))
    assert p["put"].tolist() == (PRICE + 1).tolist()


def test_why_names_the_lines_and_what_ran() -> None:
    p = follow(sheet)(PRICE, COUNT)
    p["total"]
    p(PRICE, COUNT, tax=5)
    p["total"]
    product, rest = p.why("total")
    assert (product.source, len(product.rows), product.ran) == ("line = price * count", 1, ())
    assert rest.ran and set(rest.ran) < set(rest.rows) and set(p.ran) == set(rest.ran)
    assert str(p.why("line")).endswith("1 row, 0 ran    line = price * count")


def test_the_text_is_a_script() -> None:
    p = follow(sheet)(PRICE, COUNT)
    ran = subprocess.run([str(find())], input=p.text(), capture_output=True, text=True, timeout=60)
    shown = [line for line in ran.stdout.splitlines() if line.startswith("values")]
    assert shown == ["values 3 0 16 10 9 9 12 7", "values" + " 69" * 8] and ran.returncode == 0
    assert "# line" in p.text() and ": line = price * count" in p.text()
    wide = follow(lambda a: a.astype(100) << 80)(PRICE)
    assert wide.text().startswith("paris 2\n") and wide.result.tolist() == [
        int(each) << 80 & 2**100 - 1 for each in PRICE
    ]


def test_traffic_tells_which_processor_is_asked_by_all() -> None:
    link = numpy.minimum(numpy.arange(64) + 1, 63).astype(numpy.uint16)
    p = follow(algorithms.list_ranking)(link)
    hot = max(p.traffic(), key=lambda each: int(each.most))
    assert (hot.instruction, hot.processor, hot.most) == ("get-1L", 63, 33) and "algorithms.py" in str(hot)
    assert hot.messages == hot.rows * 64 and 0 < hot.distance < 6


def defined(text: str) -> Followed:
    """A function of an interactive session."""
    names: dict[str, Any] = {"__name__": "__main__"}
    exec(text, names)
    return followed(names["f"], None, None, 16)


def test_a_cell_that_is_run_again_goes_on_with_its_rows() -> None:
    p = defined("def f(a, b):\n    return a * b, a + b")(PRICE, COUNT)
    assert p[1].tolist() == (PRICE + COUNT).tolist()
    q = defined("def f(a, b):\n    return a * b, a - b")
    assert q is p and q(PRICE, COUNT)[1].tolist() == (PRICE - COUNT).tolist()
    assert len(q.ran) == 1 and q[0].tolist() == (PRICE * COUNT).tolist()
    assert follow(sheet) is not follow(sheet)


def test_without_numpy_it_says_what_is_needed() -> None:
    text = "import sys; sys.modules['numpy'] = None\nimport pevudlo\nimport pevudlo.follow as f\npevudlo.follow(len)"
    ran = subprocess.run([sys.executable, "-c", text], capture_output=True, text=True, timeout=60)
    assert ran.stderr.splitlines()[-1].startswith(
        "ImportError: pevudlo.follow traces numpy's arrays: `pip install numpy`"
    )


def large(array: Any, count: int) -> list[Any]:
    """Many values that live at once."""
    kept = [array + turn for turn in range(count)]
    total = kept[-1]
    for each in kept:
        total = total ^ each
    for each in kept:
        total = total + each
    return [total]


def long(array: Any, count: int) -> Any:
    """Many rows."""
    for turn in range(count):
        array = (array ^ (turn % 60_000)) + 1
    return array


BAD: dict[str, tuple[Callable[..., Any], type[Exception], str]] = {
    "truth": (
        lambda a: a if a.sum() > 3 else -a,
        NotTraced,
        r"known once the program has run.*numpy\.where chooses by values",
    ),
    "number": (lambda a: a + int(a[0]), NotTraced, "a number of an array is known once the program has run"),
    "list": (lambda a: a.tolist(), NotTraced, "the list of an array's numbers is known once"),
    "loop": (lambda a: sum(x for x in a), NotTraced, "an operation on all of it makes one"),
    "asarray": (lambda a: numpy.asarray(a), NotTraced, "numpy's array of an array is known once"),
    "in place": (lambda a: a.__setitem__(0, 1), NotTraced, "aren't changed in place"),
    "float": (lambda a: a * 1.5, NotTraced, r"1\.5 is a float, which a program doesn't have: scale numbers"),
    "division": (lambda a: a / 2, NotTraced, "`//` gives whole numbers"),
    "mean": (lambda a: numpy.mean(a), NotTraced, r"`a\.sum\(\) // a\.size` is a whole number"),
    "power": (lambda a: a**2, NotTraced, r"`a \* a` is a square"),
    "compress": (lambda a: numpy.compress(a > 3, a), NotTraced, "`algorithms.pack` puts them at the front"),
    "extract": (lambda a: numpy.extract(a > 3, a), NotTraced, "`algorithms.pack` puts them at the front"),
    "diff": (lambda a: numpy.diff(a), NotTraced, r"`a - numpy\.roll\(a, 1\)` has the differences"),
    "at": (lambda a: numpy.add.at(a, a, a), NotTraced, r"`a\.scatter\(places, values, how\)` gives an array"),
    "reduceat": (lambda a: numpy.add.reduceat(a, a), NotTraced, r"`a\.scan\(how, segments=begins\)` combines within"),
    "outer method": (lambda a: numpy.add.outer(a, a), NotTraced, "an outer product wants arrays of one more axis"),
    "format": (lambda a: f"{a.sum():d}", NotTraced, "a number of an array is known once the program has run"),
    "unique": (lambda a: numpy.unique(a), NotTraced, "`algorithms.distinct` puts them at the front"),
    "nonzero": (lambda a: a.nonzero(), NotTraced, "`algorithms.pack` puts them at the front"),
    "reshape": (lambda a: a.reshape(2, 4), NotTraced, "another shape, and a program has one"),
    "slice": (lambda a: a[1:], NotTraced, "a part of an array has another shape, `numpy.where` masks"),
    "mask": (lambda a: a[a > 3], NotTraced, "booleans are no places: `algorithms.pack`"),
    "sine": (lambda a: numpy.sin(a), NotTraced, r"numpy\.sin isn't among what becomes rows: docs/ARRAYS\.md lists"),
    "other array": (
        lambda a: a + PRICE,
        NotTraced,
        "as an array of numpy's that is an argument of the function they are input data",
    ),
    "range": (lambda a: a + list(range(8)), NotTraced, r"`a\.addresses\(\)` are the numbers from 0 on"),
    "no room": (
        lambda a: a + 70_000,
        NotTraced,
        "70000 has no room in unsigned numbers of 16 bits: `astype` gives more",
    ),
    "negative": (lambda a: a + -1, NotTraced, "-1 has no room in unsigned numbers of 16 bits"),
    "width": (lambda a: a.astype(129), NotTraced, "numbers have 1 to 128 bits, and not 129"),
    "float type": (
        lambda a: a.astype(float),
        NotTraced,
        "whole numbers and booleans are what a program has, and not float64",
    ),
    "shift": (lambda a: a << a, NotTraced, "`take` of a table of powers gives others"),
    "booleans": (lambda a: (a > 1) - (a > 2), NotTraced, "numpy.subtract of booleans: `astype` makes numbers"),
    "how": (lambda a: a.scan("mul"), NotTraced, "`how` is one of add, or, and, xor, max, min, and not 'mul'"),
    "axis": (lambda a: a.sum(axis=1), NotTraced, "an array of 1 axes has no axis 1"),
    "one place": (lambda a: a.scatter(3, 1), NotTraced, "each processor puts one number to one place"),
    "scalar": (lambda a: a.sum().take(0), NotTraced, "places are those of arrays of the shape"),
    "outer": (lambda a: a[:, None] + a, NotTraced, "an outer product wants arrays of one more axis"),
    "returns": (lambda a: 3, NotTraced, "returns arrays, one or several by name, and result is int"),
    "returns none": (lambda a: [], NotTraced, "and this one returns none"),
    "fields": (
        lambda a: large(a, 80),
        TooMuch,
        r"64 fields are live at once at line \d+ .* line \d+ of test_follow.py keeps \d+",
    ),
    "rows": (
        lambda a: long(a, 2_000),
        TooMuch,
        r"4,096 rows, and these are 6,000: line \d+ of test_follow.py makes 6,000",
    ),
}


@pytest.mark.parametrize("what", BAD)
def test_what_is_refused_says_what_serves_and_loses_nothing(what: str) -> None:
    function, kind, words = BAD[what]
    p = follow(lambda a, is_bad=False: function(a) if is_bad else [a * a])(PRICE)
    assert p[0].tolist() == (PRICE * PRICE).tolist()
    with pytest.raises(kind, match=words) as refused:
        p(changed(PRICE, 0, 1), is_bad=True)
    if kind is NotTraced and "return" not in what:
        assert "of test_follow.py)" in str(refused.value)
    assert p[0].tolist() == (PRICE * PRICE).tolist() and p.ran == ()
    assert p(changed(PRICE, 0, 1))[0][0] == 1


@pytest.mark.parametrize(
    ("array", "kind", "words"),
    [
        (numpy.zeros(8), NotTraced, "a is an array of float64, .* scale it, as by 256, and give it as int64"),
        (numpy.zeros(12, int), NotTraced, "an axis of 12 is no power of two: fill arrays up to 16"),
        (numpy.zeros((2, 2, 2, 2, 2), int), TooMuch, "arrays have 4 axes at most, and not 5"),
        (numpy.zeros(2**17, int), TooMuch, "a program has 65,536 processors"),
        (3, NotTraced, "no argument is an array: give one, or the shape"),
    ],
)
def test_arrays_that_are_no_input_data(array: Any, kind: type[Exception], words: str) -> None:
    with pytest.raises(kind, match=words):
        follow(lambda a: [a + 1])(array)


def test_arrays_of_several_shapes_are_refused() -> None:
    with pytest.raises(NotTraced, match=r"have one shape, or broadcast to it: a \(8,\), b \(4,\)"):
        follow(lambda a, b: a + b)(PRICE, PRICE[:4])


def test_many_fields_of_one_call_leave_room_for_the_next() -> None:
    def mixed(a: Any, bits: int) -> Any:
        for turn in range(70):
            a = (a + turn).astype(bits + turn % 2)
        return a

    p = follow(mixed)(PRICE, 16)
    for bits in (8, 32, 100):
        exact, width = [int(each) for each in PRICE], 16
        for turn in range(70):
            exact = [(each + turn) % (1 << width) % (1 << bits + turn % 2) for each in exact]
            width = bits + turn % 2
        assert p(PRICE, bits).result.tolist() == exact
    p.close()
    assert repr(p) == "<followed mixed, not called yet>"


def test_what_it_is_shown_as() -> None:
    seen: list[str] = []

    def shown(a: Any) -> Any:
        seen.append(repr(a > 3))
        return a

    p = follow(shown)(PRICE)
    assert repr(p) == "<followed shown: result; 0 rows>" and p.result.tolist() == PRICE.tolist()
    assert seen == ["<array of shape (8,), booleans, which are known once the program has run>"]
