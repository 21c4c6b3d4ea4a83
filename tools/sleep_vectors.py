#!/usr/bin/env python3
"""Clock sequences for the sleep watch, for the program `sleep_vectors`.

    python3 tools/sleep_vectors.py DIR

A line is a letter and a time in 8 hex digits: `N` starts a new watch, awake at that time; `W` is a call with wake on,
`O` one with wake off. The answer to each call: `awake` or `asleep` with the last wake after it, or `no` and 51.
"""

import random

from cases import h8, tabbed, write
from rules import SleepWatch

CIRCLE, HALF = 2**32, 2**31
BEGINNINGS = [0, 1, 9999, 10000, 0x12345678, HALF - 1, HALF, CIRCLE - 10001, CIRCLE - 10000, CIRCLE - 9999, CIRCLE - 1]
AGES = [0, 1, 9998, 9999, 10000, 10001, 65536, HALF - 2, HALF - 1, HALF, HALF + 1, CIRCLE - 10000, CIRCLE - 9999, CIRCLE - 1]


def single_calls():
    """One call at every age, wake off and on, from every beginning."""
    for begin in BEGINNINGS:
        for age in AGES:
            for letter in "OW":
                yield begin, [(letter, age)]


def sequences():
    """Ages from the beginning; the watch keeps its last wake until a wake."""
    yield [("O", 0), ("O", 5000), ("O", 9999), ("O", 10000), ("O", 10001), ("O", 5), ("O", 0), ("W", 20000), ("O", 29999), ("O", 30000)]
    yield [("W", 9999), ("O", 19998), ("O", 19999), ("W", 19998), ("O", 29997), ("O", 29998)]
    yield [("O", HALF), ("O", HALF - 1), ("O", HALF), ("W", HALF), ("O", HALF + 9999), ("O", HALF + 10000)]
    yield [("W", HALF), ("W", HALF - 1), ("W", HALF), ("O", HALF + 9999), ("W", HALF - 1), ("O", HALF + 10000)]
    yield [("O", CIRCLE - 1), ("W", CIRCLE - 1), ("O", 10000), ("O", CIRCLE - 1), ("W", CIRCLE - 1), ("O", 9998), ("O", 9999)]
    yield [("O", 10000), ("W", CIRCLE - 5), ("O", 9994), ("O", 9995), ("W", 3), ("W", 2), ("O", 10002), ("O", 10003)]
    yield [("O", 10000), ("O", HALF), ("O", HALF + 5), ("W", HALF + 5), ("W", HALF + 4), ("W", HALF + 6)]


def random_walk(chance):
    """Calls with steps of every size, mostly forward."""
    now, calls = 0, []
    for _ in range(40):
        now += chance.choice([0, 1, 100, 3000, 9999, 10000, 10001, -1, -500, HALF - 1, HALF, -10000, 4000, 5000])
        calls.append((chance.choice("OOOW"), now))
    return calls


def main():
    chance = random.Random(9)
    runs = list(single_calls())
    runs += [(begin, calls) for calls in sequences() for begin in BEGINNINGS]
    runs += [(chance.randrange(CIRCLE), random_walk(chance)) for _ in range(30)]
    stdin, stdout = [], []
    for begin, calls in runs:
        stdin.append("N" + h8(begin) + "\n")
        watch = SleepWatch(begin)
        for letter, age in calls:
            now = (begin + age) % CIRCLE
            stdin.append(letter + h8(now) + "\n")
            found = watch.call(now, letter == "W")
            stdout.append(tabbed("no", 51) if found == "no" else tabbed(found, watch.last_wake))
    write("".join(stdin), "".join(stdout))


if __name__ == "__main__":
    main()
