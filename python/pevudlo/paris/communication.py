"""Instructions as functions: what goes between processors. Each gives the text of its instruction."""

# Made by python/tools/make-modules: don't edit.

from typing import Literal

from pevudlo.lang.instructions import NONE, spell

Direction = Literal["upward", "downward"]
Inclusion = Literal["inclusive", "exclusive"]


def get_from_news(destination: str, source: str, axis: int, direction: Direction, length: int) -> str:
    """`get-from-news-1L D A X DIR L`"""
    return spell("get-from-news-1L", destination, source, axis, direction, length)


def send_to_news(destination: str, source: str, axis: int, direction: Direction, length: int) -> str:
    """`send-to-news-1L D A X DIR L`"""
    return spell("send-to-news-1L", destination, source, axis, direction, length)


def scan_with_u_add(
    destination: str,
    source: str,
    axis: int,
    length: int,
    direction: Direction,
    inclusion: Inclusion,
    segments: str = NONE,
) -> str:
    """`scan-with-u-add-1L D A X L DIR INCL G`"""
    return spell("scan-with-u-add-1L", destination, source, axis, length, direction, inclusion, segments)


def scan_with_logior(
    destination: str,
    source: str,
    axis: int,
    length: int,
    direction: Direction,
    inclusion: Inclusion,
    segments: str = NONE,
) -> str:
    """`scan-with-logior-1L D A X L DIR INCL G`"""
    return spell("scan-with-logior-1L", destination, source, axis, length, direction, inclusion, segments)


def scan_with_logand(
    destination: str,
    source: str,
    axis: int,
    length: int,
    direction: Direction,
    inclusion: Inclusion,
    segments: str = NONE,
) -> str:
    """`scan-with-logand-1L D A X L DIR INCL G`"""
    return spell("scan-with-logand-1L", destination, source, axis, length, direction, inclusion, segments)


def scan_with_logxor(
    destination: str,
    source: str,
    axis: int,
    length: int,
    direction: Direction,
    inclusion: Inclusion,
    segments: str = NONE,
) -> str:
    """`scan-with-logxor-1L D A X L DIR INCL G`"""
    return spell("scan-with-logxor-1L", destination, source, axis, length, direction, inclusion, segments)


def scan_with_u_max(
    destination: str,
    source: str,
    axis: int,
    length: int,
    direction: Direction,
    inclusion: Inclusion,
    segments: str = NONE,
) -> str:
    """`scan-with-u-max-1L D A X L DIR INCL G`"""
    return spell("scan-with-u-max-1L", destination, source, axis, length, direction, inclusion, segments)


def scan_with_u_min(
    destination: str,
    source: str,
    axis: int,
    length: int,
    direction: Direction,
    inclusion: Inclusion,
    segments: str = NONE,
) -> str:
    """`scan-with-u-min-1L D A X L DIR INCL G`"""
    return spell("scan-with-u-min-1L", destination, source, axis, length, direction, inclusion, segments)


def scan_with_copy(
    destination: str,
    source: str,
    axis: int,
    length: int,
    direction: Direction,
    segments: str = NONE,
) -> str:
    """`scan-with-copy-1L D A X L DIR G`"""
    return spell("scan-with-copy-1L", destination, source, axis, length, direction, segments)


def spread_with_u_add(destination: str, source: str, axis: int, length: int) -> str:
    """`spread-with-u-add-1L D A X L`"""
    return spell("spread-with-u-add-1L", destination, source, axis, length)


def spread_with_logior(destination: str, source: str, axis: int, length: int) -> str:
    """`spread-with-logior-1L D A X L`"""
    return spell("spread-with-logior-1L", destination, source, axis, length)


def spread_with_logand(destination: str, source: str, axis: int, length: int) -> str:
    """`spread-with-logand-1L D A X L`"""
    return spell("spread-with-logand-1L", destination, source, axis, length)


def spread_with_logxor(destination: str, source: str, axis: int, length: int) -> str:
    """`spread-with-logxor-1L D A X L`"""
    return spell("spread-with-logxor-1L", destination, source, axis, length)


def spread_with_u_max(destination: str, source: str, axis: int, length: int) -> str:
    """`spread-with-u-max-1L D A X L`"""
    return spell("spread-with-u-max-1L", destination, source, axis, length)


def spread_with_u_min(destination: str, source: str, axis: int, length: int) -> str:
    """`spread-with-u-min-1L D A X L`"""
    return spell("spread-with-u-min-1L", destination, source, axis, length)


def spread_with_copy(destination: str, source: str, axis: int, length: int, coordinate: int) -> str:
    """`spread-with-copy-1L D A X L C`"""
    return spell("spread-with-copy-1L", destination, source, axis, length, coordinate)


def reduce_with_u_add(destination: str, source: str, axis: int, length: int, coordinate: int) -> str:
    """`reduce-with-u-add-1L D A X L C`"""
    return spell("reduce-with-u-add-1L", destination, source, axis, length, coordinate)


def reduce_with_logior(destination: str, source: str, axis: int, length: int, coordinate: int) -> str:
    """`reduce-with-logior-1L D A X L C`"""
    return spell("reduce-with-logior-1L", destination, source, axis, length, coordinate)


def reduce_with_logand(destination: str, source: str, axis: int, length: int, coordinate: int) -> str:
    """`reduce-with-logand-1L D A X L C`"""
    return spell("reduce-with-logand-1L", destination, source, axis, length, coordinate)


def reduce_with_logxor(destination: str, source: str, axis: int, length: int, coordinate: int) -> str:
    """`reduce-with-logxor-1L D A X L C`"""
    return spell("reduce-with-logxor-1L", destination, source, axis, length, coordinate)


def reduce_with_u_max(destination: str, source: str, axis: int, length: int, coordinate: int) -> str:
    """`reduce-with-u-max-1L D A X L C`"""
    return spell("reduce-with-u-max-1L", destination, source, axis, length, coordinate)


def reduce_with_u_min(destination: str, source: str, axis: int, length: int, coordinate: int) -> str:
    """`reduce-with-u-min-1L D A X L C`"""
    return spell("reduce-with-u-min-1L", destination, source, axis, length, coordinate)


def get(destination: str, addresses: str, source: str, length: int) -> str:
    """`get-1L D B A L`"""
    return spell("get-1L", destination, addresses, source, length)


def send(destination: str, addresses: str, source: str, length: int, notify: str = NONE) -> str:
    """`send-1L D B A L N`"""
    return spell("send-1L", destination, addresses, source, length, notify)


def send_with_u_add(destination: str, addresses: str, source: str, length: int, notify: str = NONE) -> str:
    """`send-with-u-add-1L D B A L N`"""
    return spell("send-with-u-add-1L", destination, addresses, source, length, notify)


def send_with_logior(destination: str, addresses: str, source: str, length: int, notify: str = NONE) -> str:
    """`send-with-logior-1L D B A L N`"""
    return spell("send-with-logior-1L", destination, addresses, source, length, notify)


def send_with_logand(destination: str, addresses: str, source: str, length: int, notify: str = NONE) -> str:
    """`send-with-logand-1L D B A L N`"""
    return spell("send-with-logand-1L", destination, addresses, source, length, notify)


def send_with_logxor(destination: str, addresses: str, source: str, length: int, notify: str = NONE) -> str:
    """`send-with-logxor-1L D B A L N`"""
    return spell("send-with-logxor-1L", destination, addresses, source, length, notify)


def send_with_u_max(destination: str, addresses: str, source: str, length: int, notify: str = NONE) -> str:
    """`send-with-u-max-1L D B A L N`"""
    return spell("send-with-u-max-1L", destination, addresses, source, length, notify)


def send_with_u_min(destination: str, addresses: str, source: str, length: int, notify: str = NONE) -> str:
    """`send-with-u-min-1L D B A L N`"""
    return spell("send-with-u-min-1L", destination, addresses, source, length, notify)
