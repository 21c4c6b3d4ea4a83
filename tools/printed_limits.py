#!/usr/bin/env python3
"""Prints crates/rows/specs/PrintedLimits.antt, the limits that document 001 prints for each signal, from the rows that
tools/catalogue_vectors.py made of its printed ones (tools/catalogue.json). It reads no Rattle source."""

from itertools import groupby

from catalogue import load

HEAD = """-- The limits that document 001 prints for each signal, lowest and highest, in thousandths of the printed unit. The 0~5 of 707, 708 and
-- 709 is taken as volts; 1301 to 1304 are excepted. tools/printed_limits.py writes this file from the printed tables. Assumes nothing.
use Rattle.std.specs.Prelude.{List, [], ◌∷◌, ℕ, ℤ}
use Rattle.rows.specs.Rows.{plus, minus}

pub record PrintedLimits : Type 0 where
  pub number : ℕ
  pub lowest : ℤ
  pub highest : ℤ

abbrev pub prints : ℕ → ℤ → ℤ → PrintedLimits
prints number lowest highest = record { number = number; lowest = lowest; highest = highest }

-- ---- the list, table by table

unfoldable pub printed_limits : List PrintedLimits
printed_limits =
"""
IN_A_LINE = 4


def signed(thousandths):
    return f"(minus {-thousandths})" if thousandths < 0 else f"(plus {thousandths})"


def entry(row):
    lowest, highest = row.printed
    return f"prints {row.number} {signed(lowest)} {signed(highest)}"


def lines(rows):
    """The entries, a few in a line, each table from a line of its own."""
    for _, table in groupby(rows, lambda row: row.number // 100):
        entries = [entry(row) for row in table]
        for at in range(0, len(entries), IN_A_LINE):
            yield " ∷ ".join(entries[at : at + IN_A_LINE])


def main():
    rows = [row for row in load().values() if row.printed is not None]
    print(HEAD + "    " + "\n    ∷ ".join(lines(rows)) + "\n    ∷ []")


main()
