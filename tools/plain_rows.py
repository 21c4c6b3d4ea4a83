#!/usr/bin/env python3
"""Prints host/plain_catalogue.h, the rows of the plain C implementation, from those that tools/catalogue_vectors.py made of the printed
ones (tools/catalogue.json). It reads no Rattle source."""

from catalogue import load

HEAD = """/* The {count} signals of tables 2 to 13 and 15 to 19 of QC/T 1201.5-2023, as the plain implementation has them: number, bits,
   resolution and offset in thousandths, lowest and highest raw count, how many intervals of marks, and those: class, first
   and last code. tools/plain_rows.py writes this file from the printed tables, with the correction of document 02 (P2). */
#ifndef PLAIN_CATALOGUE_H
#define PLAIN_CATALOGUE_H

#include "punnetcrest.h"

struct plain_mark {{
    uint32_t class_code, first, last;
}};

struct plain_row {{
    uint32_t number, bits;
    int64_t resolution, offset;
    uint32_t lowest, highest, mark_count;
    struct plain_mark marks[3];
}};

enum {{ PLAIN_ROWS = {count} }};

static const struct plain_row plain_catalogue[PLAIN_ROWS] = {{
"""
END = """};

#endif
"""


def braced(numbers):
    return "{ " + ", ".join(str(number) for number in numbers) + " }"


def unsigned(count):
    """A raw count in C, where one of 2^31 or more is no int."""
    return f"{count}u" if count >= 2**31 else str(count)


def row_line(row):
    marks = [braced((f"PC_{kind.upper()}", first, last)) for kind, first, last in row.marks] or [braced((0, 0, 0))]
    fields = [row.number, row.bits, row.resolution, row.offset, row.lowest, unsigned(row.highest), len(row.marks), braced(marks)]
    return f"    {braced(fields)},\n"


def main():
    rows = load().values()
    print(HEAD.format(count=len(rows)) + "".join(row_line(row) for row in rows) + END, end="")


main()
