#!/usr/bin/env python3
"""Calls for a spread on a lent book record, sound and damaged, with 12, 61 and 62, for the program `spread_vectors`.

    python3 tools/spread_vectors.py DIR

The lines are the `X` and `S` lines of tools/record_vectors.py, over the columns of routes alone. The record begins empty,
and a book comes as the entries in which the record before it differs.
"""

import random

from cases import write
from record_vectors import DAMAGES, MOST, PLAIN, Stream, route_text, spreads
from records import ROUTE_COLUMNS, SIZES, record_of
from rules import place, read_book

EMPTY = b""


class RouteStream(Stream):
    """The lines so far, and the record as they leave it."""

    def __init__(self):
        super().__init__()
        self.record = record_of(read_book(EMPTY)[1])

    def book(self, text):
        wanted = record_of(read_book(text)[1])
        for letter in ROUTE_COLUMNS:
            for index, value in enumerate(wanted[letter]):
                if self.record[letter][index] != value:
                    self.set(letter, index, value)

    def every_spread(self):
        """Calls that are answered or refused with 62, and calls that are refused with 61, unless 12 comes first."""
        for room in (64, 1, 0):
            self.spread(0, 0x18FF21F3, room)
        self.spread(8, 0x18FF21F3, 0)
        self.spread(0, 2**29, 64)


def on_routes(damage):
    return all(letter in ROUTE_COLUMNS for letter, _, _ in damage)


def damages(stream):
    for damage in [[], *filter(on_routes, DAMAGES)]:
        stream.book(PLAIN)
        for entry in damage:
            stream.set(*entry)
        stream.every_spread()


def full_damages(stream):
    """A full table of 64 routes in one chain, with each entry in turn set to the chain's ends, to 0 and beyond."""
    chain = [(i % 8, i, (i + 1) % 8, i + 1) for i in range(64)]
    for letter in ROUTE_COLUMNS:
        for index in range(0, SIZES[letter], 9):
            for value in (0, place(0, 0), place(0, 64), 63, 64, 65, MOST):
                stream.book(route_text(chain))
                stream.set(letter, index, value)
                stream.spread(0, 0, 64)
                stream.spread(0, 64, 63)


def main():
    stream = RouteStream()
    spreads(stream, random.Random(11))
    damages(stream)
    full_damages(stream)
    write(b"".join(stream.stdin), "".join(stream.stdout))


if __name__ == "__main__":
    main()
