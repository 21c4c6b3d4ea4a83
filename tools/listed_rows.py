"""The rows that the definitions in Rattle list, a line each: the signals in crates/rows/specs/Rows.antt, with their English names, and
the shapes in crates/catalogue/specs/Shapes.antt, where the number is the shape's."""

import re
import sys
from pathlib import Path

from catalogue import Row

ROOT = Path(__file__).resolve().parent.parent
ROWS_FILE = "crates/rows/specs/Rows.antt"
SHAPES_FILE = "crates/catalogue/specs/Shapes.antt"

LINE = re.compile(r"(?m)^ +(?:∷ )?row .*$")
LISTED = re.compile(r" +(?:∷ )?row (\d+) (\d+) (\d+) \((plus|minus) (\d+)\) (\d+) (\d+) (.*?)  -- (.*)")
MARK = re.compile(r"\((\w+) (\d+) (\d+)\)")


def row_of_line(name, line):
    """(Row, comment) of a line of a list."""
    found = LISTED.fullmatch(line)
    if not found:
        sys.exit(f"{name}: this line is not like the others, with two blanks before its comment: {line.strip()}")
    number, bits, step, sign, offset, lowest, highest, marked, comment = found.groups()
    offset = int(offset) * {"plus": 1, "minus": -1}[sign]
    marks = [(kind, int(first), int(last)) for kind, first, last in MARK.findall(marked)]
    return Row(int(number), int(bits), int(step), offset, int(lowest), int(highest), marks, None), comment


def rows_in(name, text):
    """[(Row, comment)] of a list, whose numbers rise."""
    rows = [row_of_line(name, line) for line in LINE.findall(text)]
    for (row, _), (after, _) in zip(rows, rows[1:]):
        if row.number >= after.number:
            sys.exit(f"{name}: {after.number} stands behind {row.number}")
    return rows


def listed(name):
    """[(Row, comment)] of the list in a file of the tree."""
    return rows_in(name, (ROOT / name).read_text(encoding="utf-8"))
