"""The signals for the page: the catalogue's list in crates/rows/specs/Rows.antt, with the English names, brought together with what
document 001 prints (tools/standard.json), in English by tools/english.py. It stops where list, print and tools/catalogue.json don't
agree, and where tools/english.py has a word too few or too many."""

from typing import NamedTuple

import catalogue
import standard
from english import CELLS, TITLES, UNITS, WORDS
from listed_rows import ROWS_FILE, listed
from printed_cells import MARK_WORDS, NO_CODES, codes_of, corrected, flags_of, meaning_of, version_limits


class Shown(NamedTuple):
    """A row of the catalogue, the signal as printed, its English name and unit, its codes as (first, last, printed word)."""

    row: catalogue.Row
    signal: standard.Signal
    name: str
    unit: str
    codes: list


# --- what has to agree ------------------------------------------------------------------------------------------------


def name_and_unit(comment, printed):
    """The English name and the unit. A comment ends with a comma and a unit exactly where one is printed, and it is that one."""
    unit = UNITS[printed] if printed else ""
    name, _, ending = comment.rpartition(", ")
    assert unit == (ending if ending in UNITS.values() else ""), f"unit of '{comment}': printed {printed}"
    return (name if unit else comment), unit


def check_stored(row, stored):
    """The list's row is that of tools/catalogue.json."""
    for field in catalogue.Row.FIELDS:
        assert field == "printed" or getattr(row, field) == getattr(stored, field), f"{row.number}: {field}, list and catalogue.json"


def check_numbers(row, signal):
    """The list's row is the printed one, a misprinted offset corrected: the readings of its limits are the printed limits, but for a
    version's."""
    meaning = corrected(signal)
    assert row.bits == signal.bits, f"{row.number}: bits, list and print"
    assert row.resolution == meaning.resolution * 1000, f"{row.number}: step, list and print"
    assert row.offset == meaning.offset * 1000, f"{row.number}: offset, list and print"
    limits, printed = (row.lowest, row.highest), version_limits(signal.coding)
    if not printed:
        limits = tuple(raw * row.resolution + row.offset for raw in limits)
        printed = (meaning.low * 1000, meaning.high * 1000)
    assert limits == printed, f"{row.number}: limits, list and print"


def check_codes(row, codes):
    """The list's marks are exactly the codes whose word is that mark; a code with another word is a value, and reads as itself."""
    marked = {code: kind for kind, first, last in row.marks for code in range(first, last + 1)}
    printed = {}
    for first, last, word in codes:
        if word in MARK_WORDS:
            printed |= {code: MARK_WORDS[word] for code in range(first, last + 1)}
        else:
            assert row.lowest <= first and last <= row.highest, f"{row.number}: {word} is outside"
            assert (row.resolution, row.offset) == (1000, 0), f"{row.number}: {word} reads as another number"
            assert not any(first <= code <= last for code in marked), f"{row.number}: {word} is marked"
    assert marked == printed, f"{row.number}: marks, list and print"


def check_english(what, english, printed):
    """The English has each printed word, and no other."""
    lacking, unused = sorted(printed - english.keys()), sorted(english.keys() - printed)
    assert not lacking and not unused, f"tools/english.py, {what}: lacks {lacking}, not printed {unused}"


def check_words(titles, signals):
    words = {word for signal in signals for _, _, word in codes_of(signal.coding, signal.bits)}
    words |= {word for signal in signals for _, word in flags_of(signal.coding, signal.bits)}
    check_english("WORDS", WORDS, words)
    check_english("CELLS", CELLS, {signal.coding for signal in signals} & set(NO_CODES))
    check_english("TITLES", TITLES, set(titles.values()))
    check_english("UNITS", UNITS, {meaning_of(signal.meaning).unit for signal in signals} - {None})
    assert MARK_WORDS.keys() <= words, f"tools/printed_cells.py: not printed {MARK_WORDS.keys() - words}"
    assert not any("," in word for word in WORDS.values()), "tools/english.py: a comma in a code's word"


def load():
    """({table: printed title}, [Shown]), after every check."""
    (titles, signals), stored, rows = standard.load(), catalogue.load(), listed(ROWS_FILE)
    numbers = [signal.number for signal in signals]
    assert [row.number for row, _ in rows] == numbers == list(stored), "signals of list, print and catalogue.json"
    check_words(titles, signals)
    shown = []
    for (row, comment), signal in zip(rows, signals):
        codes = codes_of(signal.coding, signal.bits)
        check_stored(row, stored[row.number])
        check_numbers(row, signal)
        check_codes(row, codes)
        shown.append(Shown(row, signal, *name_and_unit(comment, meaning_of(signal.meaning).unit), codes))
    return titles, shown
