"""What goes between processors: counted by hand, as text, as a table with pictures and as a page."""

from __future__ import annotations

from pathlib import Path
from typing import Any

import pytest
from pages import Tree

numpy = pytest.importorskip("numpy")
from pevudlo import algorithms, follow  # noqa: E402


@pytest.fixture(autouse=True)
def _library(libparis: Path) -> None:
    """All of these are over the library."""


def moved(a: Any, to: Any) -> Any:
    """Messages of each kind."""
    put = a.scatter(to, a, "add")
    got = put.take(to) + a.take(a.addresses() ^ 1)
    return numpy.roll(got, 2).scan("max") + got.sum()


def test_messages_are_those_of_the_addresses() -> None:
    to = numpy.array([3, 3, 3, 0, 1, 3, 7, 6])
    p = follow(moved)(numpy.arange(8), to)
    first = moved.__code__.co_firstlineno
    by_line = {(each.line.number - first, each.instruction): each for each in p.traffic()}
    bits = sum(bin(at ^ int(place)).count("1") for at, place in enumerate(to))
    send = by_line[2, "send-with-u-add-1L"]
    assert (send.rows, send.messages, send.most, send.processor) == (1, 8, 4, 3)
    assert send.counts is not None and send.counts.tolist() == [1, 1, 0, 4, 0, 0, 1, 1]
    assert send.distance == bits / 8 and send.source == 'put = a.scatter(to, a, "add")'
    # Two rows get in one line, and the other one asks each neighbour once.
    get = by_line[3, "get-1L"]
    assert (get.rows, get.messages, get.most, get.processor) == (2, 16, 4, 3)
    assert get.counts is not None and get.counts.tolist() == [2, 2, 1, 5, 1, 1, 2, 2]
    assert get.distance == (bits + 8) / 16
    news, scan, spread = (
        by_line[4, f"{name}-1L"] for name in ("get-from-news", "scan-with-u-max", "spread-with-u-add")
    )
    assert [(each.rows, each.messages, each.processor) for each in (news, scan, spread)] == [
        (2, 16, None),
        (1, 8, None),
        (1, 8, None),
    ]
    assert str(send).startswith(f"line {first + 2} of test_follow_traffic.py: send-with-u-add-1L, 1 row, 8 messages, ")
    assert str(p.traffic()).count("\n") == len(by_line) - 1 == 4


def test_a_notebook_and_a_page_have_a_picture_for_each_line_by_address() -> None:
    link = numpy.minimum(numpy.arange(64) + 1, 63).astype(numpy.uint16)
    told = follow(algorithms.list_ranking)(link).traffic()
    tree = Tree(told.page()).root
    assert told.page().startswith("<!doctype html>") and "http" not in told.page()
    lines = list(next(tree.all("table")).all("tr"))[1:]
    rows = [[cell.text for cell in line.all("td")] for line in lines]
    # In the last of six rounds the places from 31 on ask the end, and the links are doubled in five.
    assert [row[1:6] for row in rows] == [["get-1L", "6", "384", "33", "63"], ["get-1L", "5", "320", "17", "63"]]
    assert [len(list(figure.all("td"))) >= 64 for figure in tree.all("figure")] == [True, True]
    assert "rank = rank + rank.take(link)" in rows[0][0] and "test" not in rows[0][0]
    large = follow(lambda a: a.take(a.addresses() // 2))(numpy.arange(4_096)).traffic()
    assert "data:image/png" in large._repr_html_()


def test_places_outside_and_nothing_at_all() -> None:
    p = follow(lambda a, to: a.take((to.astype(100) << 60) + 3))(numpy.arange(4), numpy.array([0, 0, 1, 0]))
    ((entry),) = p.traffic()
    assert entry.counts is not None and entry.counts.tolist() == [0, 0, 0, 3] and entry.messages == 4
    assert repr(follow(lambda a: a + 1)(numpy.arange(4)).traffic()) == "nothing goes between processors"
