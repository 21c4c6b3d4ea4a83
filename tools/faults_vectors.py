#!/usr/bin/env python3
"""Fault sums over the raw counts of 1901 to 1927, for the program `faults_vectors`.

    python3 tools/faults_vectors.py DIR

A case is a line: count of values (2 hex digits), the values (8 each). The answer: `sum`, highest, how many level rows
stand at 1, 2 and 3, one-bit faults set, emergency and agrees as 0 or 1; or `no` and the refusal.
"""

import random

from cases import h2, h8, tabbed, write
from rules import CATALOGUE, FAULT_ROWS, fault_sum

WIDTHS = [CATALOGUE[number].bits for number in FAULT_ROWS]
QUIET, LOUD = [0] * 27, [2**bits - 1 for bits in WIDTHS]


def with_count(counts, at, count):
    return counts[:at] + [count] + counts[at + 1 :]


def stray(chance):
    """Any counts that fit, mostly quiet."""
    return [chance.randrange(2**bits) if chance.random() < 0.4 else 0 for bits in WIDTHS]


def one_by_one():
    """Each row at each of its counts, alone and with all others at their highest."""
    for at, bits in enumerate(WIDTHS):
        for count in range(2**bits) if bits < 3 else (1, 2, 3, 31):
            yield with_count(QUIET, at, count)
            if count < 2**bits - 1:
                yield with_count(LOUD, at, count)


def wrong_lengths(chance):
    for length in range(33):
        if length != 27:
            yield [chance.choice([0, 1, 2**32 - 1]) for _ in range(length)]  # 31 before 32


def too_wide(chance):
    for at, bits in enumerate(WIDTHS):
        yield with_count(stray(chance), at, 2**bits)
        yield with_count(QUIET, at, chance.choice([2**bits + 1, 2**31, 2**32 - 1]))


def agreeing(chance):
    """The highest level told by 1901 rightly and wrongly."""
    for told in range(4):
        for _ in range(6):
            yield with_count(stray(chance), 0, told)


def main():
    chance = random.Random(7)
    families = [
        [QUIET, LOUD], one_by_one(), wrong_lengths(chance), too_wide(chance), agreeing(chance), (stray(chance) for _ in range(12)),
    ]  # fmt: skip
    cases = [counts for family in families for counts in family]
    lines = [h2(len(counts)) + "".join(map(h8, counts)) + "\n" for counts in cases]
    write("".join(lines), "".join(tabbed(*fault_sum(counts)) for counts in cases))


if __name__ == "__main__":
    main()
