"""Ctrl-C that is put off: handlers of signals, in the main thread and in others."""

from __future__ import annotations

import signal
import threading
from collections.abc import Iterator
from types import FrameType
from typing import Any

import pytest

from pevudlo.interrupts import undisturbed


class Counted:
    """A handler that notes what it is called with."""

    def __init__(self) -> None:
        self.numbers: list[int] = []

    def __call__(self, number: int, frame: FrameType | None) -> None:
        self.numbers.append(number)


@pytest.fixture(autouse=True)
def handlers() -> Iterator[None]:
    """The handlers that a test sets are taken back."""
    kept = {number: signal.getsignal(number) for number in (signal.SIGINT, signal.SIGALRM)}
    yield
    for number, handler in kept.items():
        signal.signal(number, handler)


def counted() -> Counted:
    """A handler of Ctrl-C, which is set."""
    handler = Counted()
    signal.signal(signal.SIGINT, handler)
    return handler


def present() -> object:
    """The handler of Ctrl-C."""
    return signal.getsignal(signal.SIGINT)


def press() -> None:
    """Ctrl-C."""
    signal.raise_signal(signal.SIGINT)


def test_what_came_is_handled_behind_the_end_once() -> None:
    handler = counted()
    with undisturbed():
        press()
        press()
        assert handler.numbers == []
    assert handler.numbers == [signal.SIGINT]
    press()
    assert handler.numbers == [signal.SIGINT] * 2 and present() is handler


def test_without_ctrl_c_nothing_is_called() -> None:
    handler = counted()
    with undisturbed():
        assert present() is not handler
    assert handler.numbers == [] and present() is handler


def test_python_s_own_handler_raises_behind_the_end() -> None:
    signal.signal(signal.SIGINT, signal.default_int_handler)
    done = []
    with pytest.raises(KeyboardInterrupt):
        with undisturbed():
            press()
            done.append("all of it")
    assert done == ["all of it"] and present() is signal.default_int_handler


def test_what_is_within_another_one_waits_for_its_end() -> None:
    handler = counted()
    with undisturbed():
        with undisturbed():
            press()
        assert handler.numbers == []
        with undisturbed():
            press()
        assert handler.numbers == []
    assert handler.numbers == [signal.SIGINT] and present() is handler


def test_an_error_within_is_told_and_the_handler_is_back() -> None:
    handler = counted()
    with pytest.raises(ZeroDivisionError):
        with undisturbed():
            press()
            raise ZeroDivisionError
    assert handler.numbers == [signal.SIGINT] and present() is handler


def test_a_handler_that_is_set_meanwhile_stays() -> None:
    handler, other = counted(), Counted()
    with undisturbed():
        press()
        signal.signal(signal.SIGINT, other)
        press()
        assert other.numbers == [signal.SIGINT]
    assert handler.numbers == [signal.SIGINT], "what came before goes to the handler of then"
    assert present() is other
    press()
    assert other.numbers == [signal.SIGINT] * 2 and handler.numbers == [signal.SIGINT]


def test_a_handler_that_is_set_within_another_one_stays() -> None:
    handler, other = counted(), Counted()
    with undisturbed():
        with undisturbed():
            signal.signal(signal.SIGINT, other)
        assert present() is other
    assert present() is other and handler.numbers == []


def test_a_handler_that_was_kept_meanwhile_and_is_put_back_later_still_hands_on() -> None:
    handler = counted()
    with undisturbed():
        kept: Any = signal.signal(signal.SIGINT, Counted())
    signal.signal(signal.SIGINT, kept)
    press()
    assert handler.numbers == [signal.SIGINT]
    with undisturbed():
        press()
        assert handler.numbers == [signal.SIGINT]
    assert handler.numbers == [signal.SIGINT] * 2


def test_another_signal_s_error_leaves_ctrl_c_to_its_handler() -> None:
    handler, came = counted(), list[int]()

    def late(number: int, frame: FrameType | None) -> None:
        came.append(number)
        raise TimeoutError

    signal.signal(signal.SIGALRM, late)
    for turn in range(1, 2_001):
        # It comes anywhere: before, within and behind.
        try:
            signal.setitimer(signal.ITIMER_REAL, 0.00003)
            while len(came) < turn:
                with undisturbed():
                    pass
        except TimeoutError:
            pass
        press()
        assert len(handler.numbers) == turn
        with undisturbed():
            pass
        assert present() is handler


@pytest.mark.parametrize("handler", [signal.SIG_DFL, signal.SIG_IGN])
def test_where_python_has_no_handler_none_is_set(handler: signal.Handlers) -> None:
    signal.signal(signal.SIGINT, handler)
    with undisturbed():
        assert present() is handler
    assert present() is handler


def test_in_another_thread_nothing_is_done() -> None:
    handler, found = counted(), list[object]()

    def see() -> None:
        with undisturbed():
            found.append(present())

    thread = threading.Thread(target=see)
    thread.start()
    thread.join()
    assert found == [handler]
