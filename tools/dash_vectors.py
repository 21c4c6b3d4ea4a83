#!/usr/bin/env python3
"""Readings for the dash, as doubles, for the program `dash_vectors`.

    python3 tools/dash_vectors.py DIR            writes DIR/stdin and DIR/stdout
    python3 tools/dash_vectors.py --count        prints how many cases of each kind there are

A case is a line: signal number and raw count, 8 hex digits each. The answer: `value` and the 16 hex digits (highest first) of its
double's bits; `invalid`, `absent`, `error`, `reserved` or `outside` alone; or `no` and the refusal.

No count is drawn by chance. Those where a wrong way to the double gives other bits are found by search: from the lowest count of a
signal's range up, from the highest down, and from its middle up, the first within 65,536 counts that is a value and differs.
"""

import struct
import sys

from cases import h8, tabbed, write
from frame_books import edge_counts
from rules import CATALOGUE, class_of_count, dash

MOST = 2**32 - 1
SEARCHED = 2**16


def single(number):
    """The 32-bit float nearest to a number, as a double."""
    return struct.unpack(">f", struct.pack(">f", number))[0]


# Ways to a reading that are wrong for some counts: (resolution and offset in thousandths, raw count) -> double.
WRONG_WAYS = {
    "divided twice": lambda by, offset, raw: float(raw * by + offset) / 10.0 / 100.0,
    "multiplied by 0.001": lambda by, offset, raw: float(raw * by + offset) * 0.001,
    "scaled as doubles": lambda by, offset, raw: raw * (by / 1000.0) + offset / 1000.0,
    "through a 32-bit float": lambda by, offset, raw: single((raw * by + offset) / 1000.0),
    "from a 32-bit float": lambda by, offset, raw: single(raw * by + offset) / 1000.0,
    "in whole units": lambda by, offset, raw: float((raw * by + offset) // 1000),
}


# {shape: its first row}
SHAPES = {row.shape(): row for row in reversed(CATALOGUE.values())}


def of_shapes(counts_of):
    """Counts of the first signal of each shape."""
    return [(row.number, raw) for row in SHAPES.values() for raw in sorted(set(counts_of(row)))]


def of_signals(counts_of):
    """The same counts for every signal."""
    counts = {shape: sorted(set(counts_of(row))) for shape, row in SHAPES.items()}
    return [(row.number, raw) for row in CATALOGUE.values() for raw in counts[row.shape()]]


def differs(row, raw, way):
    word, thousandths = class_of_count(row, raw)
    return word == "value" and float(thousandths) / 1000.0 != way(row.resolution, row.offset, raw)


def searched(row, way):
    """Counts of the row where the way gives other bits, three at most."""
    lowest, highest, middle = row.lowest, row.highest, (row.lowest + row.highest) // 2
    walks = [
        range(lowest, min(lowest + SEARCHED, highest + 1)),
        range(highest, max(highest - SEARCHED, lowest - 1), -1),
        range(middle, min(middle + SEARCHED, highest + 1)),
    ]
    firsts = [next((raw for raw in walk if differs(row, raw, way)), None) for walk in walks]
    return [raw for raw in firsts if raw is not None]


def at_readings(row, readings):
    """The counts of the row that read as one of these thousandths."""
    for thousandths in readings:
        raw, left = divmod(thousandths - row.offset, row.resolution)
        if left == 0 and row.lowest <= raw <= row.highest:
            yield raw


def tenths_and_like():
    """Thousandths of readings that no double has exactly, of either sign."""
    small = (1, 3, 7, 9, 100, 200, 300, 400, 600, 700, 800, 900)
    for size in (*small, 1001, 1100, 2200, 3300, 10100, 64900, 65535, 99900, 123400, 1999900):
        yield from (size, -size)


def around_whole_units(row):
    """Nothing, one unit, and the powers of two, where doubles change their spacing: at them and a count to each side."""
    for units in (0, *(2**k for k in range(32))):
        for thousandths in {1000 * units, -1000 * units}:
            yield from at_readings(row, (thousandths - row.resolution, thousandths, thousandths + row.resolution))


def between(row):
    """A few counts inside the range."""
    span = row.highest - row.lowest
    return [row.lowest + span * part // 16 for part in (1, 3, 5, 8, 11, 13, 15)]


def too_wide(row):
    """One too wide, a count that fits once its upper bits are cut off, and the highest of all."""
    return [raw for raw in (2**row.bits, 2**row.bits + row.lowest + 1, 2**31, MOST) if 2**row.bits <= raw <= MOST]


def strangers():
    """Numbers that no signal has: beside signals, at the ends of the hundreds, and equal to a signal but for their upper bits."""
    beside = {number + step for number in CATALOGUE for step in (-1, 1)}
    ends = {100 * hundred + end for hundred in range(22) for end in (0, 1, 99)}
    upper = {203 + 2**bits for bits in (8, 11, 16, 24, 31)} | {2203, 20300, 65535, 65536, 2**31, MOST}
    for number in sorted((beside | ends | upper) - set(CATALOGUE)):
        for raw in (0, 1, MOST) if number > 2100 else (number % 5,):
            yield number, raw
    yield from ((0, MOST), (1, 2**16), (200, 2**8), (1928, MOST))  # 3 before 26


def families():
    """{kind: cases}"""
    made = {
        "limits, marks and one past them": of_signals(edge_counts),
        "counts between": of_signals(between),
        "too wide": of_signals(too_wide),
        "no double has it": of_shapes(lambda row: at_readings(row, tenths_and_like())),
        "whole units and their neighbours": of_shapes(around_whole_units),
        "no signal": list(strangers()),
    }
    for name, way in WRONG_WAYS.items():
        made[name] = of_signals(lambda row: searched(row, way))
    return made


def main():
    made = families()
    assert all(made.values())
    if sys.argv[1:] == ["--count"]:
        for kind, cases in made.items():
            print(len(cases), kind, sep="\t")
        return
    cases = list(dict.fromkeys(case for family in made.values() for case in family))  # each once
    write("".join(h8(number) + h8(raw) + "\n" for number, raw in cases), "".join(tabbed(*dash(*case)) for case in cases))


if __name__ == "__main__":
    main()
