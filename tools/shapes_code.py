#!/usr/bin/env python3
"""What the code has of the shapes, from the rows and the shapes that the definitions list.

    python3 tools/shapes_code.py DIR     writes into DIR what has to be in FILES: the shape of each signal as a list and as a `match`, and
                                         the arm of each shape

Only these lines are written; the rest of each file is as it is in the tree. A mistake here can't make an answer wrong: the contracts of
`shape_of` and `cut_of` hold the code against the definitions. That each arm does what it is to do Rattle's own search finds: the proof has
no line for it.
"""

import re
import sys
from pathlib import Path
from textwrap import fill

from listed_rows import ROOT, ROWS_FILE, SHAPES_FILE, listed

FOLDER = "crates/catalogue/"
# {file: (the text before the lines, the text behind them)}
FILES = {
    FOLDER + "specs/Signals.antt": ("signals =\n", "    ∷ []\n"),
    FOLDER + "src/shapes.rt": ("    match number {\n", "    }\n"),
    FOLDER + "src/by_shape.rt": ("    match shape {\n", "        _ =>"),
}
PAIRS_IN_A_LINE = 10
WIDEST_CALL, WIDEST_LINE = 60, 100  # rt fmt writes longer arguments into lines of their own
ARM_CALLS = ["no_mark", "one_mark", "two_marks", "three_marks"]  # by how many marks there are


# --- which shape each signal has --------------------------------------------------------------------------------------


def no_shape():
    """The number of no shape, which stands below the list."""
    return int(re.search(r"(?m)^no_shape = (\d+)$", (ROOT / SHAPES_FILE).read_text(encoding="utf-8"))[1])


def stop(words):
    sys.exit(f"{SHAPES_FILE}: {words} (docs/ARCHITECTURE.md, How to add)")


def shapes_of(rows, shapes):
    """[(signal, shape)]. Each row has a shape, and each shape a row."""
    by_shape = {row.shape(): row.number for row in shapes}
    if len(by_shape) < len(shapes):
        stop("two shapes have the same numbers")
    if shapes[-1].number >= no_shape():
        stop(f"{shapes[-1].number} is no number for a shape: no_shape is {no_shape()}, and has to be above all of them")
    lacking = [row.number for row in rows if row.shape() not in by_shape]
    found = [(row.number, by_shape[row.shape()]) for row in rows if row.shape() in by_shape]
    unused = sorted(set(by_shape.values()) - {shape for _, shape in found})
    if lacking:
        free = min(set(range(len(shapes) + 1)) - {row.number for row in shapes})
        instead = f", or change the line of {unused}, which no signal has any more" if unused else ""
        stop(f"no shape has the numbers of the rows {lacking}: add one (the lowest free number is {free}){instead}")
    if unused:
        stop(f"no signal has shape {unused}: take its line out, and leave its number free")
    return found


# --- the lines --------------------------------------------------------------------------------------------------------


def pairs(found):
    texts = [f"({number}, {shape})" for number, shape in found]
    lines = [" ∷ ".join(texts[at : at + PAIRS_IN_A_LINE]) for at in range(0, len(texts), PAIRS_IN_A_LINE)]
    return "    " + "\n    ∷ ".join(lines) + "\n"


def arm(shape):
    """The arm of a shape, laid out as rt fmt does."""
    numbers = [shape.bits, shape.resolution, shape.offset, shape.lowest, shape.highest]
    marks = [part for kind, first, last in shape.marks for part in (kind.capitalize(), first, last)]
    words = [str(word) for word in [*numbers, *marks, "window"]]
    call = f"        {shape.number} => {ARM_CALLS[len(shape.marks)]}("
    if len(", ".join(words)) <= WIDEST_CALL:
        return call + ", ".join(words) + "),\n"
    return call + "\n" + fill(", ".join(words) + ",", WIDEST_LINE, initial_indent=12 * " ", subsequent_indent=12 * " ") + "\n        ),\n"


def with_lines(name, lines):
    """The text of a file of the tree with other lines."""
    before, behind = FILES[name]
    head, _, rest = (ROOT / name).read_text(encoding="utf-8").partition(before)
    assert behind in rest, f"{name}: '{before.strip()}' and behind it '{behind.strip()}' have to stand there"
    return head + before + lines + rest[rest.index(behind) :]


def main():
    if len(sys.argv) != 2:
        sys.exit(__doc__)
    rows, shapes = ([row for row, _ in listed(name)] for name in (ROWS_FILE, SHAPES_FILE))
    found = shapes_of(rows, shapes)
    number_arms = "".join(f"        {number} => {shape},\n" for number, shape in [*found, ("_", no_shape())])
    for name, lines in zip(FILES, (pairs(found), number_arms, "".join(arm(shape) for shape in shapes))):
        path = Path(sys.argv[1]) / name
        path.parent.mkdir(parents=True, exist_ok=True)
        path.write_text(with_lines(name, lines), encoding="utf-8")


if __name__ == "__main__":
    main()
