"""Where the signals of one message sit: what a person needs to know about refusals 3, 7 and 8. The widths are the catalogue's."""

import json
from pathlib import Path
from typing import NamedTuple

from .texts import said_by

CATALOGUE = Path(__file__).resolve().parents[2] / "tools/catalogue.json"
FRAME_BITS = 64
OWN_STARTS = {503: 60, 504: 56}  # the checksum and the counter


class Placed(NamedTuple):
    line: int
    number: int
    start: int

    def last(self):
        return self.start + width(self.number) - 1

    def meets(self, other):
        return self.start <= other.last() and other.start <= self.last()


def widths():
    """{signal number: bits}"""
    with open(CATALOGUE, encoding="utf-8") as file:
        return {entry["number"]: entry["bits"] for entry in json.load(file)}


WIDTHS = widths()


def width(number):
    return WIDTHS[number]


def of_table(number):
    """The signals of the table that the number belongs to, first and last, or None."""
    table = [known for known in WIDTHS if known // 100 == number // 100]
    return (table[0], table[-1]) if table else None


def neighbours(book, line):
    """The signal on this line, and the others of its message that sit in the frame, wherever in the message they stand."""
    mine, others, message = None, [], 0
    for number, text in enumerate(book.lines(), 1):
        said = said_by(text)
        if said and said.kind == "M":
            if mine:
                break
            others, message = [], number
        elif said and said.kind == "S" and message:
            signal, start = (int(field) for field in said.fields)
            if signal in WIDTHS and start + width(signal) <= FRAME_BITS:
                placed = Placed(number, signal, start)
                mine, others = (placed, others) if number == line else (mine, others + [placed])
    return mine, others


def free_start(mine, others):
    """The lowest start from which this signal meets no other, or None."""
    if mine.number in OWN_STARTS:
        return None
    for start in range(FRAME_BITS - width(mine.number) + 1):
        if not any(mine._replace(start=start).meets(other) for other in others):
            return start
    return None
