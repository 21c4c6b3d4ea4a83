#!/usr/bin/env python3
"""Power steps: every state under a grid of observations, for the program `power_vectors`.

    python3 tools/power_vectors.py DIR

A case is a line: the state's digit (0 off, 1 rising, 2 precharge, 3 both, 4 on, 5 falling, 6 fault) or `N` for a new
monitor, then 8 hex digits each for the relays main negative, precharge, main positive, the command (1601), 1604, current
raw, inside raw (201), outside raw (202) and the share, which is eight hyphens where none is given. The answer: the next
state's digit, or `no` and the refusal.
"""

import random
from itertools import product

from cases import h8, tabbed, write
from rules import ON, PRECHARGE, START, power_step

NEW = "N"
STATES, RELAYS, CODES = range(7), (1, 2), range(4)
MOST = 2**32 - 1

# 10 A and -10 A are 20,100 and 19,900; -30 A is 19,700.
CURRENTS = [0, 19700, 19899, 19900, 19901, 20000, 20099, 20100, 20101, 20300, 65535]
# Inside and outside. 95 of 100, the share of all cases before P6, is reached or just missed; nothing inside; one or both without a valid reading.
VOLTAGES = [
    (6000, 5700), (6000, 5699), (100, 95), (100, 94), (20, 19), (20, 18), (1, 1), (1, 0), (7, 7), (7, 6),
    (65534, 62258), (65534, 62257), (65534, 65534), (5000, 6000), (0, 0), (0, 6000), (6000, 0),
    (65535, 65535), (65535, 65534), (6000, 65535), (65535, 6000),
]  # fmt: skip


def new_monitors():
    """The first observation of a monitor: every picture, command and 1604."""
    for relays, command, request in product(product(RELAYS, repeat=3), CODES, CODES):
        yield NEW, relays, command, request, 20000, (6000, 6000)


def grid(chance):
    """Every state, picture, command and 1604, each with three sets of current and voltages."""
    for state, relays, command, request in product(STATES, product(RELAYS, repeat=3), CODES, CODES):
        for _ in range(3):
            yield state, relays, command, request, chance.choice(CURRENTS), chance.choice(VOLTAGES)


def precharge_ends():
    """From precharge to both, and to falling, at every pair of voltages."""
    for voltages, command, request in product(VOLTAGES, CODES, (0, 1, 2)):
        yield PRECHARGE, (2, 2, 2), command, request, 20000, voltages
    for voltages, command in product(VOLTAGES, CODES):
        yield PRECHARGE, (2, 1, 1), command, 0, 20000, voltages


def switching_off():
    """From on to falling at every current."""
    for current, command, request in product(CURRENTS, CODES, CODES):
        yield ON, (2, 1, 1), command, request, current, (6000, 6000)


def refused(chance):
    """Refusals 41, 42 and 43, alone and together."""
    for state in STATES:
        for relay in (0, 3, 4, 255, 256, 257, 258, MOST):
            at = chance.randrange(3)
            yield state, tuple(relay if i == at else 1 for i in range(3)), 0, 0, 20000, (0, 0)
        for command, request in ((4, 0), (0, 4), (5, 5), (256, 0), (0, MOST), (MOST, 1)):
            yield state, (1, 1, 1), command, request, 20000, (0, 0)
        for current, voltages in ((65536, (0, 0)), (0, (65536, 0)), (0, (0, 65536)), (MOST, (MOST, MOST)), (85536, (0, 0))):
            yield state, (1, 1, 1), 0, 0, current, voltages
        yield state, (0, 1, 1), 4, 0, 65536, (0, 0)
        yield state, (1, 1, 3), 0, 0, 65536, (0, 0)
        yield state, (1, 0, 1), 0, 4, 0, (0, 0)
        yield state, (1, 1, 1), 4, 0, 65536, (0, 0)


def edges_of_shares():
    """From precharge to both: each share with the least outside that completes it, and one to each side of that."""
    for share, inside in product((49, 50, 51, 75, 89, 90, 91, 94, 95, 96, 99, 100, 101), (1, 7, 20, 6000, 59999)):
        least = -(-share * inside // 100)
        for outside in (least - 1, least, least + 1):
            yield PRECHARGE, (2, 2, 2), 1, 0, 20000, (inside, outside), share


def none_given():
    """No share, and beside it 90: every state and picture, and the edge of 90."""
    observations = [
        *((state, relays, 1, 0, 20000, (6000, 5400)) for state, relays in product((NEW, *STATES), product(RELAYS, repeat=3))),
        *((PRECHARGE, (2, 2, 2), 1, 0, 20000, voltages) for voltages in ((6000, 5399), (6000, 5400), (10, 8), (10, 9), *VOLTAGES)),
    ]
    for observation, share in product(observations, (None, 90)):
        yield *observation, share


def refused_shares():
    """44 in every state, also where the share plays no part; and 41, 42 and 43 before it."""
    for state, share in product((NEW, *STATES), (0, 1, 10, 49, 101, 102, 200, 255, 2**8 + 90, 2**16 + 90, 2**24 + 90, 2**31 + 90, MOST)):
        yield state, (1, 1, 1), 0, 0, 20000, (0, 0), share
        yield state, (2, 2, 2), 1, 0, 20000, (6000, 6000), share
    for state, share in product(STATES, (49, 101)):
        yield state, (1, 1, 3), 0, 0, 20000, (0, 0), share
        yield state, (1, 1, 1), 4, 0, 20000, (0, 0), share
        yield state, (1, 1, 1), 0, 0, 65536, (0, 0), share
        yield state, (0, 1, 1), 4, 0, 65536, (0, 0), share


def main():
    chance = random.Random(8)
    with_95 = [*new_monitors(), *grid(chance), *precharge_ends(), *switching_off(), *refused(chance)]
    cases = [*((*case, 95) for case in with_95), *edges_of_shares(), *none_given(), *refused_shares()]
    stdin, stdout = [], []
    for state, relays, command, request, current, voltages, share in cases:
        counts = "".join(map(h8, (*relays, command, request, current, *voltages)))
        stdin.append(str(state) + counts + ("-" * 8 if share is None else h8(share)) + "\n")
        found = power_step(START if state == NEW else state, relays, command, request, current, *voltages, share)
        stdout.append(tabbed(*found) if isinstance(found, tuple) else tabbed(found))
    write("".join(stdin), "".join(stdout))


if __name__ == "__main__":
    main()
