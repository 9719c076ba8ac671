"""The order of rows: rows are put in and taken out as in a list."""

from __future__ import annotations

from random import Random

from pevudlo.lang.order import RowOrder


def test_as_a_list() -> None:
    chance, order, listed = Random(3), RowOrder(), list[int]()
    for row in range(1, 400):
        at = chance.randrange(len(listed) + 1)
        if at == 0:
            order.put_first(row)
        elif at == len(listed):
            order.put_last(row)
        else:
            order.put_after(listed[at - 1], row)
        listed.insert(at, row)
        if chance.random() < 0.4:
            order.take_out(listed.pop(chance.randrange(len(listed))))
        assert (list(order), len(order)) == (listed, len(listed))


def test_rows_that_nobody_told_of() -> None:
    order = RowOrder()
    order.take_out(7)
    order.put_after(9, 1)
    order.put_after(9, 2)
    assert list(order) == [1, 2]
