"""Measures numpy.cumsum of as many numbers as bench/plain.rs scans.

It prints a line for each size, in the form of bench/plain.rs: `cumsum`, the width of a number in bits, the count of numbers,
picoseconds a call (the least of several rounds), and 0 for a checksum, since the numbers are others.
"""
import time

import numpy

WIDTHS = {8: numpy.uint8, 32: numpy.uint32, 64: numpy.uint64}
COUNTS = (1024, 65536)
ROUNDS = 5
# So many numbers a round, about.
NUMBERS = 4_000_000


def timed(numbers, calls):
    """Nanoseconds that so many calls take."""
    start = time.perf_counter_ns()
    for _ in range(calls):
        numpy.cumsum(numbers, dtype=numbers.dtype)
    return time.perf_counter_ns() - start


def main():
    source = numpy.random.default_rng(1)
    for count in COUNTS:
        calls = NUMBERS // count
        for width, kind in WIDTHS.items():
            numbers = source.integers(2**width, size=count, dtype=kind)
            least = min(timed(numbers, calls) for _ in range(ROUNDS))
            print("cumsum", width, count, least * 1000 // calls, 0)


main()
