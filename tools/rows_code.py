#!/usr/bin/env python3
"""The columns of the constant table, from the rows that the definition lists.

    python3 tools/rows_code.py           prints what crates/rows/src/columns.rt has to be

A mistake here can't make an answer wrong: the contracts of `row_at`, `widths` and `last_starts` hold the columns against the definition.
"""

from listed_rows import ROWS_FILE, listed

HEAD = """// The columns of the constant table: for each row of specs/Rows.antt its entry, with the signal's number behind it. tools/rows_code.py
// writes this file from there: change a row there, and `tools/vectors write` changes it here.
"""
KINDS = {"unmarked": 0, "invalid": 1, "absent": 2, "error": 3, "reserved": 4}  # as `kind_of` in crates/rows/src/table.rt reads them
UNMARKED = ("unmarked", 1, 0)
FRAME_BITS = 64


def mark_columns(which):
    def mark(row):
        return (row.marks + [UNMARKED] * 3)[which - 1]

    return [
        (f"KINDS_{which}", "u8", lambda row: KINDS[mark(row)[0]]),
        (f"FIRSTS_{which}", "u32", lambda row: mark(row)[1]),
        (f"LASTS_{which}", "u32", lambda row: mark(row)[2]),
    ]


# (name, type, the entry of a row)
COLUMNS = [
    ("NUMBERS", "u32", lambda row: row.number),
    ("BITS", "u8", lambda row: row.bits),
    ("LAST_STARTS", "u8", lambda row: FRAME_BITS - row.bits),
    ("RESOLUTIONS", "u16", lambda row: row.resolution),
    ("OFFSETS", "i32", lambda row: row.offset),
    ("LOWESTS", "u32", lambda row: row.lowest),
    ("HIGHESTS", "u32", lambda row: row.highest),
    *mark_columns(1),
    *mark_columns(2),
    *mark_columns(3),
]


def column(name, kind, entry, rows):
    entries = "".join(f"    {entry(row)}, // {row.number}\n" for row in rows)
    return f"\npub const {name}: [{kind}; {len(rows)}] = [\n{entries}];\n"


def main():
    rows = [row for row, _ in listed(ROWS_FILE)]
    print(HEAD + "".join(column(*one, rows) for one in COLUMNS), end="")


main()
