#!/usr/bin/env python3
"""Prints docs/SIGNALS.md: the signals with their names, units and codes, for people who write books and who read frames. What it
shows is brought together, and checked, by tools/signals.py."""

from decimal import Decimal
from itertools import groupby

from catalogue import class_of_count
from english import CELLS, TITLES, WORDS
from printed_cells import MARK_WORDS, flags_of, gaps, meaning_of
from signals import load

# --- the text around the tables ---------------------------------------------------------------------------------------

HEAD = """# The signals

The {count} signals that an S line may name: tables 2 to 13 and 15 to 19 of QC/T 1201.5-2023. `tools/signals_page.py` writes this page
from the catalogue and from what the standard prints, and stops where the two don't agree.

## How to read a line

{lines}

- **Signal**: table x 100 + row. 501 is row 1 of table 5. But in table 13 the two version rows are two signals each: 1301 and 1302
  software, 1303 and 1304 hardware, 1305 year, 1306 month, 1307 day.
- **Name in the standard**: as printed, with the Chinese name behind it. What it is, and its unit, are in English.
- **Bits**: how many frame bits it takes. The number in them is its **raw count**.
- **Codes**: every raw count that has a word, in decimal (the standard prints them in hexadecimal). **The number before a word is the
  raw count itself: never count the words.** In 501, raw count 1 is unlocked and 2 is locked; in 301, 1 is open and 2 is closed. A
  code in *italics* (between asterisks in plain text) is a mark, one of invalid, absent, error and reserved: it is no value.
  "(no word)" is a code that the standard leaves without one.
- **Raw counts**: the lowest and the highest that are values, but for the marks among them. A count below or above that is no mark
  is `outside`.
- **Step**, **Offset**: the reading of a value is raw count x step + offset, in the unit. Of a code it is the code itself. An offset
  that the standard misprints stands corrected, with what is printed behind it.

**For a fitter.** The frame lister prints the reading of a value in thousandths, and the raw count of anything else. So divide what
stands behind `value` by 1000, and where the signal has codes, look for that number in the last column.

| The lister prints | Raw count | What it says |
|---|---|---|
{examples}

**For a planner.** An S line has the signal's number and the frame bit where it starts; from there on it takes its bits. 501 at start
0 fills frame bits 0 and 1, so the next signal may start at 2. 503 and 504 have one start each ([BOOK.md](BOOK.md)). Who sends the
signals of a table stands under its heading. Starts are not on this page: the standard has them in its annex B, which the project's
copy lacks.

BMS is the battery management system, BTMS the battery thermal management system, CSC the circuit that supervises a group of cells.
"""

NOTES = """
## Where the print is odd or easily misread

Names are as printed, slips and stray blanks included (`BMS_BattToalDCDCchgEny` in 404).

- **201 to 203, 209, 210, 513, 515, 603 to 605, 701, 704, 1101 to 1103**: the printed range reaches to raw count 65535,
  which is printed as invalid too. The mark wins.
- **203**: above 0 the pack is discharged, below 0 it is charged (5.1.3 of the standard).
- **206**: 0 is high voltage on, 2 is off.
- **206, 1806**: Current in these names means present; neither is a current.
- **301 to 309**: 开启 is the open relay, since 闭合, closed, stands beside it; in 206, 高压开启 is high voltage on.
- **301 to 309, 1804, 1809**: relays are coded in two ways: 1 open and 2 closed in table 3, 0 open and 1 closed in table 18.
- **324, 325**: the names end in 1, though there is one heating positive relay; those of 326 and 327 don't.
- **501**: 3 is printed as a locking fault, "not unlocked and not locked at the same time".
- **503, 504**: names of their own, with a blank in them and no prefix of the sender. The printed range of 503 is `0~15`; the
  printed formula gives 0 to 7.
- **513 to 515**: Ex is outside the swap stations in 513 and 514, but 515 counts all swaps. 514 counts Ah, though its name ends in
  Eny like the energies of table 4.
- **702, 703, 705, 706, 904 to 907**: PackNum in these names is the number of a CSC, SnsNum that of a cell or a probe in it.
- **703, 706, 904**: the printed unit is 箱, box, which is what is numbered; it is left out here. 706 numbers a cell, and no box.
- **705, 706**: the printed offset of 1 is a misprint by common consent: every pack maker that was asked sends them as 702 and 703,
  with no offset (document 02, P2). So raw 1 is the first CSC or cell, and raw 0 is outside. The printed range, `1~255`, stands.
- **702, 703, 705, 706**: 702 is the cell and 703 the CSC of the lowest cell voltage, but 705 the CSC and 706 the cell of the highest.
- **707 to 709**: printed with step 1, unit 0.1V and range `0~5`. The range is taken as volts: step 0.1 V, raw counts 0 to 50.
- **403, 407, 408, 710, 1002, 1003, 1701 to 1704**: no code is printed, so 65535 is a value, though 701 and 704 have it as invalid.
- **1104, 1105**: code 0 has no word and is within the printed range, so it is a value.
- **1301 to 1304**: two rows of 16 bits are printed, with the range `0~65535`. Each half is a signal of 8 bits, with the raw counts
  0 to 254 and the code 255 of its own coding cell. 255 in 1302 or 1304 is a version without the part B, such as R001.
- **1306, 1307**: four raw counts make a month or a day: raw 4 is January, or the first.
- **1502**: a request, printed with the two words of the state 1504.
- **1505, 1813**: codes that are left to the BMS maker or the BTMS supplier are values and no marks: ask them for the words.
- **1506**: a field of flags. The raw count is the sum of those that are set: 5 is KL15 and charging wakeup. They are printed as
  Bit32, Bit33 and Bit34, which are bits of the message: in a signal of 32 bits that starts at frame bit 32 they are the lowest
  three, with the weights 1, 2 and 4. Where a book starts 1506 elsewhere, ask the maker which bits are meant.
- **1604, 1606**: 1 is a request in both; no request is 0 in 1604 and 2 in 1606.
- **1705**: the code stands for a time and is none: `value 0` is 30 s.
- **1708**: code 3 is printed with B充 where B口, port B, is meant. 1710 to 1713 call the ports 1 and 2, and the print does not say
  which is A.
- **1802**: 0 requests high voltage on, and no code says that nothing is requested.
- **1804**: `BMS_HVSts` sounds like high voltage; the Chinese name is that of the water cooling relay, and is followed here.
- **1807**: 版本传感器 is a version sensor. Its own name and its codes are a liquid level (液位), and are followed here.
- **1812**: the unit is printed Kw. `BTMS_ActPower` sounds like the present power; the Chinese name is that of the power wanted, and is
  followed here.
- **1922, 1923**: stand among the faults and are none: a state, and a count.
"""


# --- a line of a table ------------------------------------------------------------------------------------------------

COLUMNS = ["Signal", "Name in the standard", "What it is", "Unit", "Bits", "Step", "Offset", "Raw counts", "Codes (raw count: word)"]


def plain(thousandths):
    return f"{(Decimal(thousandths) / 1000).normalize():f}"


def interval(first, last):
    return str(first) if first == last else f"{first} to {last}"


def code_text(first, last, word):
    """A code and its word. A mark is in italics and has the lister's word for it; None is a code without a word."""
    english = WORDS[word] if word else "(no word)"
    kind = MARK_WORDS.get(word)
    if kind and not english.startswith(kind):
        english = f"{kind} ({english})"
    text = f"{interval(first, last)}: {english}"
    return f"*{text}*" if kind else text


def codes_text(signal, codes):
    """All that the coding cell says. Where some code has a word that is no mark, every code is shown."""
    flags = flags_of(signal.coding, signal.bits)
    if flags:
        return "flags, added up: " + ", ".join(f"{weight or 'every other bit'}: {WORDS[word]}" for weight, word in flags)
    if not codes:
        return CELLS[signal.coding]
    if any(word not in MARK_WORDS for _, _, word in codes):
        codes = codes + [(first, last, None) for first, last in gaps(codes, signal.bits)]
    return ", ".join(code_text(*code) for code in sorted(codes, key=lambda code: code[0]))


def offset_text(shown):
    """The offset, and behind it the printed one where that is corrected."""
    printed = meaning_of(shown.signal.meaning).offset * 1000
    return plain(shown.row.offset) + ("" if printed == shown.row.offset else f" (printed: {plain(int(printed))})")


def line(shown):
    row, signal = shown.row, shown.signal
    numbers = [row.bits, plain(row.resolution), offset_text(shown), f"{row.lowest} to {row.highest}"]
    cells = [row.number, f"`{signal.name}` {signal.chinese}", shown.name, shown.unit, *numbers, codes_text(signal, shown.codes)]
    return "| " + " | ".join(str(cell) for cell in cells) + " |"


def table_text(signals):
    head = ["| " + " | ".join(COLUMNS) + " |", "|---" * len(COLUMNS) + "|"]
    return "\n".join(head + [line(shown) for shown in signals])


# --- the page ---------------------------------------------------------------------------------------------------------

EXAMPLES = [(501, 1), (501, 2), (501, 0), (301, 1), (301, 2), (301, 3), (203, 19999), (204, 251)]


def example(shown, raw):
    """What the lister prints of a raw count, and what it says."""
    kind, number = class_of_count(shown.row, raw)
    words = [WORDS[word] for first, last, word in shown.codes if first <= raw <= last]
    said = {"value": words[0] if words else f"{plain(number)} {shown.unit}", "outside": "no mark, and not among the raw counts"}
    return f"| `{shown.row.number} {kind} {number}` | {raw} | {shown.name}: {said.get(kind, 'a mark, no value')} |"


def senders(signals):
    """Who sends the signals of a table."""
    runs = [(sender, [one.row.number for one in run]) for sender, run in groupby(signals, lambda one: one.signal.sender)]
    if len(runs) == 1:
        return f"Sent by the {runs[0][0]}."
    return " ".join(f"{interval(numbers[0], numbers[-1])} are sent by the {sender}." for sender, numbers in runs)


def main():
    titles, signals = load()
    by_number = {shown.row.number: shown for shown in signals}
    examples = "\n".join(example(by_number[number], raw) for number, raw in EXAMPLES)
    print(HEAD.format(count=len(signals), lines=table_text([by_number[501], by_number[301]]), examples=examples), end="")
    for table, title in titles.items():
        own = [shown for shown in signals if shown.row.number // 100 == table]
        print(f"\n## Table {table}: {TITLES[title]} ({title})\n\n{senders(own)}\n\n{table_text(own)}")
    print(NOTES, end="")


main()
