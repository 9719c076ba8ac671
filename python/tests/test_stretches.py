"""Counts, summaries and differences of stretches beside what the lists of the plain model come to."""

from __future__ import annotations

from collections.abc import Iterator, Sequence
from contextlib import closing
from math import prod
from pathlib import Path
from random import Random

import pytest
from paris_model_book import Book as Model
from random_instructions import WIDTHS
from random_schedules import KEYS, Lines

from pevudlo import Ended, Pending
from pevudlo.values.stretches import Stretch
from pevudlo.wire.book import Book
from pevudlo.wire.library_calls import END_NUMBER, START_NUMBER

PARTS = (1, 2, 3, 5, 8, 16)


def cut(numbers: Sequence[int], parts: int) -> Iterator[Sequence[int]]:
    """The stretches of a list."""
    for place in range(parts):
        yield numbers[place * len(numbers) // parts : (place + 1) * len(numbers) // parts]


def come_to(numbers: Sequence[int]) -> Stretch:
    """What a list comes to."""
    return Stretch(min(numbers), max(numbers), sum(numbers), sum(number != 0 for number in numbers))


def shown(model: Model, key: str, place: str) -> list[int] | Pending:
    """What the model shows."""
    kind, *words = model.answer(f"show {key} {place}")[0].split(" ")
    return Pending(int(words[0])) if kind == "pending" else [int(word) for word in words]


def begun(libparis: Path, seed: int, rows: int) -> tuple[Book, Model, Lines]:
    """A book and a model that were told the same lines."""
    book, model, lines = Book(libparis), Model(), Lines(seed)
    for line in lines.first(rows):
        assert book.ask(line) == model.answer(line)
    return book, model, lines


@pytest.mark.parametrize("seed", range(8))
def test_stretches_come_to_what_the_lists_of_the_model_do(libparis: Path, seed: int) -> None:
    """At the start, where nothing is pending, at the end of rows that aren't settled, and once they are."""
    book, model, lines = begun(libparis, seed, 6)
    with book:
        for _ in range(3):
            for key in KEYS:
                for place, name in ((START_NUMBER, "start"), (END_NUMBER, "end")):
                    look_at(book, key, place, shown(model, key, name))
            line = f"insert end {lines.instruction()}"
            assert book.ask(line) == model.answer(line)
            assert book.ask("settle") == model.answer("settle")


def look_at(book: Book, key: str, place: int, numbers: list[int] | Pending) -> None:
    """Compares each look with a list, or with what is pending."""
    if isinstance(numbers, Pending):
        assert book.count(key, place) == book.summary(key, 1, place) == numbers
        return
    assert book.count(key, place) == come_to(numbers).others
    for parts in (parts for parts in PARTS if parts <= len(numbers)):
        assert book.summary(key, parts, place) == [come_to(part) for part in cut(numbers, parts)]


@pytest.mark.parametrize("seed", range(8))
def test_differences_are_those_of_the_lists(libparis: Path, seed: int) -> None:
    book, model, lines = begun(libparis, seed, 0)
    with book, closing(book.still()) as before:
        old = {key: numbers for key in KEYS if not isinstance(numbers := shown(model, key, "end"), Pending)}
        dice, count = Random(seed), prod(lines.maker.board.axes["S"])
        for key in dice.sample(KEYS, 5):
            line = f"input {key} {dice.randrange(count)} {dice.getrandbits(WIDTHS.get(key, 1))}"
            assert book.ask(line) == model.answer(line)
        for key in KEYS:
            new = shown(model, key, "end")
            assert not isinstance(new, Pending)
            for parts in (parts for parts in PARTS if parts <= len(new)):
                wanted = [one != other for one, other in zip(cut(old[key], parts), cut(new, parts))]
                assert book.differs(before, key, parts, END_NUMBER) == wanted
                assert before.differs(book, key, parts, END_NUMBER) == wanted


def test_numbers_of_128_bits_have_sums_of_three_words(libparis: Path) -> None:
    numbers = [2**128 - 1, 2**128 - 2, 0, 5] * 64
    with closing(Book(libparis, 2)) as book:
        book.ask("set S 256")
        book.ask("field a S 128")
        book.ask(f"input a 0 {' '.join(map(str, numbers))}")
        assert book.summary("a", 1, END_NUMBER) == [Stretch(0, 2**128 - 1, sum(numbers), 192)]
        assert book.summary("a", 7, END_NUMBER) == [come_to(part) for part in cut(numbers, 7)]


def test_what_cannot_be_told(libparis: Path) -> None:
    with closing(Book(libparis)) as book, closing(Book(libparis)) as other:
        for line in ("set S 8", "field a S 8"):
            book.ask(line)
        for key, place in (("b", END_NUMBER), ("1", END_NUMBER), ("a", 7), ("\udc80", END_NUMBER)):
            assert book.count(key, place) is book.summary(key, 2, place) is None
            assert book.differs(book.still(), key, 2, place) is None
        for parts in (-1, 0, 9):
            with pytest.raises(ValueError, match=f"8 processors can't be cut into {parts} stretches"):
                book.summary("a", parts, END_NUMBER)
            with pytest.raises(ValueError, match=f"8 processors can't be cut into {parts} stretches"):
                book.differs(book.still(), "a", parts, END_NUMBER)
        assert book.differs(book, "a", 3, END_NUMBER) == [False] * 3
        assert book.differs(other, "a", 2, END_NUMBER) is None
        for line in ("set S 8", "field a S 9"):
            other.ask(line)
        with pytest.raises(ValueError, match="the two values differ in width"):
            book.differs(other, "a", 2, END_NUMBER)
        book.ask("insert end u-move-constant-1L a 5 8")
        assert book.count("a", END_NUMBER) == book.differs(book.still(), "a", 2, END_NUMBER) == Pending(1)
        other.close()
        with pytest.raises(Ended):
            book.differs(other, "a", 2, START_NUMBER)
