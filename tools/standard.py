#!/usr/bin/env python3
"""The printed tables of document 001 (QC/T 1201.5-2023), taken from its text and stored in tools/standard.json.

    python3 tools/standard.py DOCUMENT-001.txt          prints what tools/standard.json has to be

A signal has what its row prints, cell by cell; tools/printed_cells.py says what the cells mean. Anything that the rules below do
not foresee stops the script.
"""

import json
import re
import sys
from pathlib import Path
from typing import NamedTuple

STORED = Path(__file__).parent / "standard.json"
TABLES = list(range(2, 14)) + list(range(15, 20))
SIGNALS = 199


class Signal(NamedTuple):
    """One signal as printed: its own name and its Chinese one, its bits, the cells of its codes and its meaning, who sends it."""

    number: int
    name: str
    chinese: str
    bits: int
    coding: str
    meaning: str
    sender: str


# --- the tables of the printed text -----------------------------------------------------------------------------------

CAPTION = re.compile(r"表 ?(\d+) (.+?)(?: ?[(（]续[)）])?")


def caption(line):
    """(table, title) of a caption line, that of a table's later part included, or None."""
    found = CAPTION.fullmatch(line)
    return found and (int(found[1]), found[2])


def printed_tables(text):
    """{table: (title, [cells of each line below its headers, in printed order])}.

    A caption stands above its table; the first part of table 17 has its caption below it."""
    tables = {}
    lines = [line for line in text.split("\n") if line.strip()]
    for at, line in enumerate(lines):
        if not line.startswith("序号\t"):
            continue
        end = at + 1
        while re.match(r"\d*\t", lines[end]):
            end += 1
        table, title = caption(lines[at - 1]) or caption(lines[end])
        first_title, rows = tables.setdefault(table, (title, []))
        assert title == first_title, (table, title)
        rows.extend(line.split("\t") for line in lines[at + 1 : end])
    return tables


def check_row_numbers(table, rows):
    """The printed row numbers are 1, 2, 3, ... A second half of a version row has none."""
    printed = [int(cells[0]) for cells in rows if cells[0]]
    assert printed == list(range(1, len(printed) + 1)), (table, printed)
    assert all(cells[0] for cells in rows) or table == 13, table


# --- the signals of a table -------------------------------------------------------------------------------------------

NAMES = re.compile(r"(Message [A-Za-z]+|[A-Za-z0-9_]+[+-]?) (.*[\u4e00-\u9fff].*)")
SENDERS = {"BMS-->车辆": "BMS", "BMS→车辆": "BMS", "车辆-->BMS": "vehicle"}


def signals_of_table(table, rows):
    """Table 13's version rows are printed as two halves of eight bits, and each half is a signal: what is printed once, beside
    the first half, is that of both."""
    check_row_numbers(table, rows)
    above = None
    for at, cells in enumerate(rows, 1):
        assert all(cells) or not cells[0], (table, at)
        above = [cell or before for cell, before in zip(cells, above or cells)]
        _, names, bits, coding, meaning, way = above
        found = NAMES.fullmatch(names)
        assert found, names
        yield Signal(table * 100 + at, found[1], found[2], int(bits), coding, meaning, SENDERS[way])


def checked(titles, signals):
    """Both, with the tables and the count of signals that document 01 names."""
    assert list(titles) == TABLES, list(titles)
    assert len(signals) == SIGNALS, len(signals)
    return titles, signals


def extract(text):
    """({table: title}, [Signal]) from the text of document 001."""
    tables = sorted(printed_tables(text).items())
    signals = [signal for table, (_, rows) in tables for signal in signals_of_table(table, rows)]
    return checked({table: title for table, (title, _) in tables}, signals)


# --- what is stored ---------------------------------------------------------------------------------------------------


def entry_lines(entries):
    return ",\n".join(json.dumps(entry, ensure_ascii=False) for entry in entries)


def as_json(titles, signals):
    """The extract, an entry a line."""
    tables = entry_lines({"table": table, "title": title} for table, title in titles.items())
    return f'{{"tables": [\n{tables}\n],\n"signals": [\n{entry_lines(signal._asdict() for signal in signals)}\n]}}\n'


def load():
    """({table: title}, [Signal]) as stored."""
    stored = json.loads(STORED.read_text(encoding="utf-8"))
    titles = {entry["table"]: entry["title"] for entry in stored["tables"]}
    return checked(titles, [Signal(**entry) for entry in stored["signals"]])


if __name__ == "__main__":
    sys.stdout.write(as_json(*extract(Path(sys.argv[1]).read_text(encoding="utf-8"))))
