#!/usr/bin/env python3
"""The signal catalogue, made of the printed rows of document 001 (tools/standard.json), and what `catalogue_vectors` prints.

    python3 tools/catalogue_vectors.py                  prints the expected output
    python3 tools/catalogue_vectors.py --json           prints the rows, as tools/catalogue.json has them

Document 01 ("The signal catalogue") says how a printed row becomes numbers, document 02 (P2) which printed offset is none. No other
source is read. Anything that the rules below do not foresee stops the script.
"""

import json
import sys

from catalogue import Row, class_of
from printed_cells import MARK_WORDS, MISPRINTED_OFFSETS, codes_of, corrected, version_limits
from standard import load

# --- one row ----------------------------------------------------------------------------------------------------------


def whole(fraction):
    assert fraction.denominator == 1, fraction
    return fraction.numerator


def marks_of(codes):
    """The marks among codes, ascending; neighbouring codes of one kind are one interval."""
    marks = []
    for first, last, word in codes:
        kind = MARK_WORDS.get(word)
        if kind and marks and marks[-1][0] == kind and marks[-1][2] + 1 == first:
            marks[-1] = (kind, marks[-1][1], last)
        elif kind:
            marks.append((kind, first, last))
    return marks


def row_of(signal):
    """The row of a printed signal. A version's raw limits stand in the coding cell, and its printed range is not that of a half."""
    resolution, offset, low, high, _ = corrected(signal)
    limits, printed = version_limits(signal.coding), None
    if not limits:
        limits = whole((low - offset) / resolution), whole((high - offset) / resolution)
        printed = (whole(low * 1000), whole(high * 1000))
    marks = marks_of(codes_of(signal.coding, signal.bits))
    return Row(signal.number, signal.bits, whole(resolution * 1000), whole(offset * 1000), *limits, marks, printed)


def check(rows):
    """Document 01's rule over the whole table."""
    numbers = [row.number for row in rows]
    assert numbers == sorted(set(numbers)), numbers
    for row in rows:
        assert 1 <= row.bits <= 32, row.number
        assert 0 <= row.lowest <= row.highest < 2**row.bits, row.number
        assert len(row.marks) <= 3, row.number
        free = 0
        for _, first, last in row.marks:
            assert free <= first <= last < 2**row.bits, row.number
            free = last + 1


# --- what the program prints ------------------------------------------------------------------------------------------

NO_SIGNALS = [0, 1, 200, 299, 1400, 1401, 1928, 2001, 65535, 4294967295]


def edges(row):
    """The raw counts tried for a row, in order; one that comes twice is tried twice."""
    counts = [0, row.lowest - 1, row.lowest, row.highest, row.highest + 1]
    for _, first, last in row.marks:
        counts += [first - 1, first, last, last + 1]
    counts += [2**row.bits - 1, 2**row.bits]
    return [count for count in counts if 0 <= count < 2**32]


def row_line(row):
    fields = ["row", row.number, row.bits, row.resolution, row.offset, row.lowest, row.highest]
    for mark in row.marks:
        fields += mark
    return "\t".join(str(field) for field in fields)


def count_line(catalogue, number, raw):
    answer = class_of(catalogue, number, raw)
    return "\t".join(str(field) for field in (number, raw) + answer)


def output(rows):
    catalogue = {row.number: row for row in rows}
    lines = []
    for row in rows:
        lines.append(row_line(row))
        lines += [count_line(catalogue, row.number, raw) for raw in edges(row)]
    lines += [count_line(catalogue, number, 0) for number in NO_SIGNALS]
    return "".join(line + "\n" for line in lines)


def main(arguments):
    _, signals = load()
    assert MISPRINTED_OFFSETS.keys() <= {signal.number for signal in signals}, "a correction of no signal"
    rows = [row_of(signal) for signal in signals]
    check(rows)
    if arguments == ["--json"]:
        entries = ",\n".join(json.dumps(row.as_json()) for row in rows)
        sys.stdout.write("[\n" + entries + "\n]\n")
    else:
        sys.stdout.write(output(rows))


if __name__ == "__main__":
    main(sys.argv[1:])
