"""The signal catalogue by document 01's rules: its rows, and the class of one raw count."""

import json
import os


class Row:
    """One signal. Resolution and offset in thousandths, limits as raw counts, marks as (kind, first, last); the printed limits,
    (lowest, highest) in thousandths, or None where none are printed."""

    FIELDS = ("number", "bits", "resolution", "offset", "lowest", "highest", "marks", "printed")

    def __init__(self, number, bits, resolution, offset, lowest, highest, marks, printed):
        self.number, self.bits, self.resolution, self.offset = number, bits, resolution, offset
        self.lowest, self.highest, self.printed = lowest, highest, printed
        self.marks = [tuple(mark) for mark in marks]

    def shape(self):
        """All of the row but its number and what is printed: signals of one shape are classed alike."""
        return self.bits, self.resolution, self.offset, self.lowest, self.highest, tuple(self.marks)

    def as_json(self):
        return {field: getattr(self, field) for field in self.FIELDS}

    @classmethod
    def of_json(cls, entry):
        return cls(*(entry[field] for field in cls.FIELDS))


def load():
    """{signal number: Row}, from the rows that tools/catalogue_vectors.py made of document 001's printed ones."""
    with open(os.path.join(os.path.dirname(__file__), "catalogue.json"), encoding="utf-8") as file:
        return {entry["number"]: Row.of_json(entry) for entry in json.load(file)}


def class_of_count(row, raw):
    """(word, number) of a count that fits: a mark wins over the range; then value within the limits; else outside."""
    for kind, first, last in row.marks:
        if first <= raw <= last:
            return kind, raw
    if row.lowest <= raw <= row.highest:
        return "value", raw * row.resolution + row.offset
    return "outside", raw


def class_of(rows, number, raw):
    """Classing one count by signal number: 3, then 26, then its class."""
    if number not in rows:
        return "no", 3
    if raw >= 2 ** rows[number].bits:
        return "no", 26
    return class_of_count(rows[number], raw)
