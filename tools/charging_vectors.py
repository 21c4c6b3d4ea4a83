#!/usr/bin/env python3
"""Steps of the charging monitor: every state under walks, lost conditions, welds and counts too wide, for the program `charging_vectors`.

    python3 tools/charging_vectors.py DIR

A case is a line: the state's digit (0 start, 1 to 6 how many conditions are met, 7 fault) or `N` for a new monitor, then 8 hex digits each
for the raw counts of 1708, 1605, 311, 313, 325, 327, 301, 302, 1709, 304 and 306. The answer: the next state's digit, or `no` and the
refusal.
"""

import random
from itertools import combinations, product

from cases import h8, tabbed, write
from tester_rules import FAULT, SIGNALS, START, STATES, WELDS, charge_step, codes

NEW = "N"
STEPS = range(7)
MOST = 2**32 - 1

# Counts under which each condition holds and all of them together, and of each condition counts under which it does not.
GOOD = {1708: 1, 1605: 0, 311: 0, 313: 0, 325: 0, 327: 0, 301: 2, 302: 2, 1709: 1, 304: 2, 306: 2}
LOST = [
    [{1708: 0}, {1708: 4}, {1708: 7}],
    [{1605: 1}, {1605: 2}, {1605: 3}],
    [{311: 1}, {313: 1}, {325: 1}, {327: 1}, {311: 1, 327: 1}],
    [{301: 1}, {302: 1}, {301: 0, 302: 3}, {301: 3}],
    [{1709: 0}, {1709: 2}, {1709: 3}],
    [{304: 1}, {306: 1}, {304: 3}, {306: 0}, {304: 1, 306: 1}],
]


def seen(*changes):
    count = dict(GOOD)
    for change in changes:
        count.update(change)
    return count


def walk(observations):
    """A monitor from new on: each observation in the state that the one before led to."""
    state = NEW
    for count in observations:
        yield state, count
        found = charge_step(START if state == NEW else state, count)
        state = state if isinstance(found, tuple) else found


def walks():
    """From the plug to ready, one condition more with each observation, then each lost by itself; all at once; through a weld and out of it."""
    not_yet = [kinds[0] for kinds in LOST]
    yield from walk(seen(*(not_yet[i] for i in range(met, 6) if i != 2)) for met in range(7))
    yield from walk([seen()] * 8)
    for lost, kind in ((lost, kind) for lost in range(6) for kind in LOST[lost]):
        yield from walk([seen()] * 6 + [seen(kind)] + [seen()] * 7 + [seen({1708: 0})])
    for weld, met in product(WELDS, STEPS):
        yield from walk([seen()] * met + [seen({weld: 1}), seen(), seen({weld: 1, 1708: 0}), seen({1708: 0}), seen(), seen()])


def held_and_lost(chance):
    """Every state, fault too, and every choice of conditions that hold, the one about welds too, twice with counts by chance."""
    for state, lost in product(STATES, product((False, True), repeat=6)):
        for _ in range(2):
            yield state, seen({1708: chance.choice((1, 2, 3))}, *(chance.choice(LOST[i]) for i in range(6) if lost[i]))


def codes_alone():
    """Every state with each code of each signal, the others good; and so in what a truck without a plug shows."""
    unplugged = {1708: 0, 301: 1, 302: 1, 1709: 0, 304: 1, 306: 1}
    for state, number in product(STATES, SIGNALS):
        for code in range(codes(number)):
            yield state, seen({number: code})
            yield state, seen(unplugged, {number: code})


def leaving_fault():
    """In fault: every code of the plug with every choice of welds."""
    for plug, welds in product(range(codes(1708)), product((0, 1), repeat=4)):
        yield FAULT, seen({1708: plug}, dict(zip(WELDS, welds)))


def any_counts(chance):
    """Counts by chance within the widths."""
    for state in STATES:
        for _ in range(200):
            yield state, {number: chance.randrange(codes(number)) for number in SIGNALS}


def too_wide():
    """81: each count in each state, by one bit, by a bit above the code that is good, by the highest bit and by all; with a weld, and together."""
    for state, number in product(STATES, SIGNALS):
        first = codes(number)
        for count in (first, first + GOOD[number], 2**31 + GOOD[number], MOST):
            yield state, seen({number: count})
        if number not in WELDS:
            yield state, seen({number: first, 325: 1})
        yield state, seen({number: 2 * first, 306: 6, 1708: 9})
    for state in STATES:
        yield state, {number: MOST for number in SIGNALS}


def both_too_wide():
    """81: each pair of counts, none else, by equal bits: by the first over the width of each, by the same one, by the highest; in a state by turns."""
    pairs = ((one, other, over) for one, other in combinations(SIGNALS, 2) for over in (codes, lambda number: 8, lambda number: 2**31))
    for turn, (one, other, over) in enumerate(pairs):
        yield STATES[turn % len(STATES)], seen({number: over(number) + GOOD[number] for number in (one, other)})


def new_monitors():
    """The first observation of a monitor."""
    for plug, self_check, allowed in product(range(8), range(4), range(4)):
        yield NEW, seen({1708: plug, 1605: self_check, 1709: allowed})


def main():
    chance = random.Random(5)
    cases = [*walks(), *held_and_lost(chance), *codes_alone(), *leaving_fault(), *any_counts(chance), *too_wide(), *both_too_wide(), *new_monitors()]
    stdin, stdout = [], []
    for state, count in cases:
        stdin.append(str(state) + "".join(h8(count[number]) for number in SIGNALS) + "\n")
        found = charge_step(START if state == NEW else state, count)
        stdout.append(tabbed(*found) if isinstance(found, tuple) else tabbed(found))
    assert set(stdout) == {f"{state}\n" for state in STATES} | {"no\t81\n"}
    write("".join(stdin), "".join(stdout))


if __name__ == "__main__":
    main()
