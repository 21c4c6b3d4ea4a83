#!/usr/bin/env python3
"""Which rows of the catalogue are not what they were at a commit: every number of every row is compared.

    python3 tools/rows_moved.py COMMIT          (whatever git takes for one)

It reads the rows in three places, at the commit and as they are now: the definition, what the proved table prints, to which the gate
holds it (the `row` lines of the stored cases), and plain C. It stops where the three don't list the same rows in the same order.
"""

import re
import subprocess
import sys

from catalogue import Row
from listed_rows import ROOT, ROWS_FILE, rows_in

PRINTED_FILE = "crates/catalogue_vectors/stdout"
PLAIN_FILE = "host/plain_catalogue.h"
PLAIN_ROW = re.compile(r"\{ (\d+), (\d+), (\d+), (-?\d+), (\d+), (\d+)u?, (\d), \{ (.*) \} \},")
PLAIN_MARK = re.compile(r"\{ PC_(\w+), (\d+), (\d+) \}")


def of_definition(text):
    return [row for row, _ in rows_in(ROWS_FILE, text)]


def of_printed(text):
    for line in text.split("\n"):
        word, *fields = line.split("\t")
        if word == "row":
            marks = [(fields[at], int(fields[at + 1]), int(fields[at + 2])) for at in range(6, len(fields), 3)]
            yield Row(*(int(field) for field in fields[:6]), marks, None)


def of_plain(text):
    for *numbers, _, marked in PLAIN_ROW.findall(text):
        marks = [(kind.lower(), int(first), int(last)) for kind, first, last in PLAIN_MARK.findall(marked)]
        yield Row(*(int(number) for number in numbers), marks, None)


READERS = {ROWS_FILE: of_definition, PRINTED_FILE: of_printed, PLAIN_FILE: of_plain}


def rows(text_of):
    """{number: its row's numbers by name}, the same list in all three places."""
    read = {name: [row.as_json() for row in reader(text_of(name))] for name, reader in READERS.items()}
    for name, found in read.items():
        if found != read[ROWS_FILE]:
            sys.exit(f"rows_moved: {name} and {ROWS_FILE} don't have the same rows; tools/vectors says more")
    return {row["number"]: row for row in read[ROWS_FILE]}


def moved(before, now):
    """(number, what is another in its row), of every number that one of them has."""
    for number in sorted(before.keys() | now.keys()):
        if number not in now or number not in before:
            yield number, "gone" if number not in now else "new"
        elif before[number] != now[number]:
            fields = [field for field in Row.FIELDS if before[number][field] != now[number][field]]
            yield number, ", ".join(f"{field} {before[number][field]} to {now[number][field]}" for field in fields)


def at_commit(commit):
    def text_of(name):
        shown = subprocess.run(["git", "show", f"{commit}:{name}"], cwd=ROOT, capture_output=True, text=True)
        return shown.stdout if shown.returncode == 0 else sys.exit(f"rows_moved: git shows no {name} at '{commit}': {shown.stderr}")

    return text_of


def main(arguments):
    if len(arguments) != 1:
        sys.exit(__doc__)
    before, now = rows(at_commit(arguments[0])), rows(lambda name: (ROOT / name).read_text(encoding="utf-8"))
    others = dict(moved(before, now))
    for number, what in others.items():
        print(number, what, sep="\t")
    print(f"{len(now.keys() - others.keys())} of {len(now)} rows are what they were, in the definition, as printed by the proved table, and in plain C")


if __name__ == "__main__":
    main(sys.argv[1:])
