"""What the printed cells of a signal say (tools/standard.json): its unit, step and limits; its codes with their words; which words
are marks. Document 01 ("The signal catalogue") says how a printed row is read, document 02 (P2) the one thing in it that is a misprint.
Anything that the rules below do not foresee stops the script that asks."""

import re
from fractions import Fraction
from typing import NamedTuple

# A code's word, as printed, and the mark it is. Any other word names a value. So "No error", "fault" and "Reserved (maker's own)"
# are no marks, and neither is a code without a word.
MARK_WORDS = {
    "Invalid": "invalid",
    '"Signal Invalid"': "invalid",
    "无效": "invalid",
    "无效, 不显示": "invalid",  # of a version: invalid, not shown
    "未检测": "absent",  # not detected
    "无充电口配置": "absent",  # no charging port fitted
    "Error": "error",
    "预留": "reserved",
    "Reserved": "reserved",
}

FRAME_BITS = 64


# --- the cell with the signal's meaning -------------------------------------------------------------------------------

NUMBER = r"-?\d+(?:\.\d+)?"
MEANING = re.compile(
    r"分辨率: ?(?P<resolution>" + NUMBER + r")[; ]*"
    r"偏移量: ?(?P<offset>" + NUMBER + r")[; ]*"
    r"(?:单位: ?(?P<unit>[^;]*?)[; ]*)?"
    r"实际范围: ?(?P<low>" + NUMBER + r")~ ?(?P<high>" + NUMBER + r")(?: 举例说明: .*)?"
)


class Meaning(NamedTuple):
    """Exact fractions of the unit; the unit as printed, None where there is none."""

    resolution: Fraction
    offset: Fraction
    low: Fraction
    high: Fraction
    unit: str


def meaning_of(cell):
    found = MEANING.fullmatch(cell)
    assert found, cell
    resolution, offset, low, high = (Fraction(found[part]) for part in ("resolution", "offset", "low", "high"))
    # 707, 708 and 709 count a unit "0.1V", and their range is taken as volts: the number before the unit's name is a
    # factor of resolution and offset, not of the range.
    factor = re.match(r"\d+\.\d+", found["unit"] or "")
    if factor:
        resolution, offset = resolution * Fraction(factor.group()), offset * Fraction(factor.group())
    return Meaning(resolution, offset, low, high, found["unit"])


# Document 02, P2. The offset that is printed for the numbers of the highest cell, 705 and 706, is a misprint by common consent: every
# pack maker that was asked sends them as 702 and 703, those of the lowest cell, with none. {signal: (offset printed, offset meant)}
MISPRINTED_OFFSETS = {705: (1, 0), 706: (1, 0)}


def corrected(signal):
    """What the meaning cell of a signal says, with the offset that is meant where a wrong one is printed. All else is as printed."""
    meaning = meaning_of(signal.meaning)
    printed, meant = MISPRINTED_OFFSETS.get(signal.number, (meaning.offset, meaning.offset))
    assert meaning.offset == printed, f"{signal.number}: the offset {printed} is corrected, and {meaning.offset} is printed"
    return meaning._replace(offset=Fraction(meant))


# --- the coding cell --------------------------------------------------------------------------------------------------

NO_CODES = ("/", "ASCII")
KEY = re.compile(r"(?:0x(?P<first>[0-9A-F]+)(?:-0x(?P<last>[0-9A-F]+))?|(?P<other>Other|其他)|Bit(?P<bit>\d+)): ?")
VERSION = re.compile(r"[xyz]{3}: ?(?P<low>\d+)~(?P<high>\d+), 精度1, (?P<code>\d+): (?P<word>无效, 不显示);?")


def version_limits(cell):
    """(lowest, highest) raw count of half a version, whose limits stand in the coding cell; None for any other signal."""
    found = VERSION.fullmatch(cell)
    return found and (int(found["low"]), int(found["high"]))


def words_of(cell):
    """[(key, word)] of a coding cell, in printed order; none of a version's, which has a form of its own."""
    keys = list(KEY.finditer(cell))
    assert keys[0].start() == 0 if keys else cell in NO_CODES or VERSION.fullmatch(cell), cell
    ends = [key.start() for key in keys[1:]] + [len(cell)]
    return [(key, cell[key.end() : end].strip().rstrip(",")) for key, end in zip(keys, ends)]


def gaps(codes, bits):
    """The codes within the bits that no interval has, as intervals."""
    free, result = 0, []
    for first, last, _ in codes:
        assert free <= first <= last < 2**bits, codes
        if free < first:
            result.append((free, first - 1))
        free = last + 1
    if free < 2**bits:
        result.append((free, 2**bits - 1))
    return result


def codes_of(cell, bits):
    """[(first, last, word)] of every code that has a word, ascending. A word for all others stands on each gap."""
    version = VERSION.fullmatch(cell)
    if version:
        return [(int(version["code"]), int(version["code"]), version["word"])]
    words = words_of(cell)
    if any(key["bit"] for key, _ in words):
        return []
    codes = sorted((int(key["first"], 16), int(key["last"] or key["first"], 16), word) for key, word in words if key["first"])
    free = gaps(codes, bits)
    others = [(first, last, word) for key, word in words if key["other"] for first, last in free]
    return sorted(codes + others)


def flags_of(cell, bits):
    """[(weight, word)] of a cell that names bits, with the word for all other bits under None; else [].

    1506 alone: Bit32, Bit33 and Bit34 are bits of the message, whose last 32 the signal fills, so they are its lowest three."""
    words = words_of(cell)
    named = [(int(key["bit"]), word) for key, word in words if key["bit"]]
    assert all(FRAME_BITS - bits <= bit < FRAME_BITS for bit, _ in named), cell
    flags = [(2 ** (bit - (FRAME_BITS - bits)), word) for bit, word in named]
    return flags and flags + [(None, word) for key, word in words if key["other"]]
