#!/usr/bin/env python3
"""Route tables with their verdict and the spread of one place, for the program `routes_vectors`.

    python3 tools/routes_vectors.py DIR

A case is a line: count of routes (2 hex digits), for each its from and to place (8 hex digits each), then the place
whose spread is asked. A place is bus x 2^29 + identifier. The answer: `loop` or `doubling` with the index of the route
that document 01 names, from 0; or `sound`, the count of entries and the spread.
"""

import random

from cases import h2, h8, tabbed, write
from rules import place, spread, verdict_by_chains, verdict_by_counting

FEW = 5  # so many routes are also judged by listing every chain

PACK, BODY, DASH = (place(bus, 0x18FF21F3) for bus in range(3))
RENAMED = place(0, 0x18FF21D0)


def ring(count):
    """A loop over `count` places on as many buses."""
    return [(place(i, 0x100), place((i + 1) % count, 0x100)) for i in range(count)]


def numbered(*pairs):
    """Routes between places given by small numbers, spread over buses and identifiers."""
    at = lambda name: place(name % 8, 0x18FF0000 + name)
    return [(at(a), at(b)) for a, b in pairs]


def first(routes):
    return routes[0][0]


def worked():
    """The tables that the demands name, each with the place whose spread is asked."""
    end = 2**32 - 1
    yield [], 0
    yield [], end
    yield [(PACK, BODY)], PACK
    yield [(PACK, BODY)], BODY
    yield [(PACK, PACK)], PACK  # a route from a place to itself
    yield [(0, 0)], 0
    yield [(end, end)], end
    yield [(0, end)], 0
    yield [(PACK, BODY), (DASH, DASH)], PACK
    for count in range(2, 9):
        yield ring(count), PACK
        yield list(reversed(ring(count))), PACK
        yield ring(count)[:-1], first(ring(count))  # opened: a chain
        yield [(RENAMED, PACK)] + ring(count), PACK  # the first route leads into the loop but is not on it
    yield [(PACK, RENAMED)], PACK  # a renamed identifier on one bus is another place: no loop
    yield [(PACK, RENAMED), (RENAMED, BODY)], PACK
    yield [(PACK, BODY), (BODY, RENAMED)], PACK  # back on the first bus, under another name: no loop
    yield [(PACK, BODY), (BODY, RENAMED), (RENAMED, PACK)], PACK  # now it is one
    yield [(PACK, place(1, 5)), (place(1, 6), PACK)], place(1, 6)  # a loop by bus alone is none
    yield numbered((9, 8), (1, 2), (2, 1), (3, 4), (4, 3)), PACK  # two loops
    yield numbered((3, 4), (1, 2), (4, 3), (2, 1)), PACK
    yield numbered((1, 2), (3, 4), (5, 3), (4, 5), (2, 3)), PACK
    yield numbered((1, 2), (2, 3), (2, 1), (3, 2)), PACK  # two loops through one place
    yield numbered((1, 2), (1, 2)), PACK  # a repeated route
    yield numbered((5, 6), (1, 2), (7, 8), (1, 2)), PACK
    yield numbered((1, 2), (1, 3), (2, 4), (3, 4)), PACK  # a diamond
    yield numbered((3, 4), (2, 4), (1, 3), (1, 2)), PACK
    yield numbered((1, 2), (2, 3), (2, 3)), PACK  # the chain begins before the fork
    yield numbered((2, 3), (1, 2), (2, 3)), PACK
    yield numbered((9, 1), (0, 9), (1, 2), (1, 3), (2, 4), (3, 4)), PACK
    yield numbered((1, 3), (1, 2), (2, 3)), PACK  # a short cut
    yield numbered((2, 3), (1, 3), (1, 2)), PACK
    yield numbered((1, 2), (3, 2)), PACK  # two places lead to one: neither loop nor doubling
    yield numbered((1, 2), (3, 2), (2, 4), (4, 5)), numbered((1, 1))[0][0]
    yield numbered((1, 2), (1, 2), (2, 1)), PACK  # loop wins over doubling
    yield numbered((1, 2), (1, 2), (3, 3)), PACK
    yield numbered((1, 2), (1, 3), (2, 4), (3, 4), (5, 6), (6, 5)), PACK
    yield numbered((1, 2), (1, 3), (1, 4), (2, 5), (3, 6)), numbered((1, 1))[0][0]  # book order, end before spread
    yield numbered((1, 3), (2, 5), (1, 2), (3, 6), (1, 4)), numbered((1, 1))[0][0]


def long_ones(chance):
    """Full tables of 64 routes."""
    names = [place(i % 8, 0x1000 + i) for i in range(65)]
    chain = [(names[i], names[i + 1]) for i in range(64)]
    mixed = chance.sample(chain, 64)
    for routes in (chain, list(reversed(chain)), mixed):
        for start in (names[0], names[1], names[32], names[63], names[64], place(7, 7)):
            yield routes, start
    yield mixed[:63] + [(names[64], names[0])], names[0]
    yield chain[:63] + [(names[63], names[0])], names[0]  # one loop of 64
    yield chain[:63] + [(names[63], names[20])], names[0]
    yield chain[:63] + [(names[0], names[63])], names[0]
    yield chain[:63] + [(names[10], names[40])], names[0]
    yield [(names[0], names[1])] * 64, names[0]
    yield [(names[i // 2], names[(i // 2) + 1]) for i in range(64)], names[0]  # 2^32 chains
    yield [(names[0], names[i + 1]) for i in range(64)], names[0]  # a star
    yield [(names[i + 1], names[0]) for i in range(64)], names[9]
    for _ in range(8):
        tree = [(names[chance.randrange(i)], names[i]) for i in range(1, 65)]
        routes = chance.sample(tree, 64)
        yield routes, names[0]
        yield routes, tree[chance.randrange(64)][0]


def random_table(chance, most_routes, most_places):
    buses, names = range(chance.randint(1, 8)), range(0x18FF0000, 0x18FF0000 + chance.randint(1, 4))
    every = [place(bus, name) for bus in buses for name in names]
    places = chance.sample(every, min(len(every), chance.randint(1, most_places)))
    routes = []
    for _ in range(chance.randint(1, most_routes)):
        a, b = chance.choice(places), chance.choice(places)
        if chance.random() < 0.8 and a > b:
            a, b = b, a  # mostly downhill, so that many tables have no loop
        if a != b or chance.random() < 0.1:
            routes.append((a, b))
    return routes, chance.choice(places)


def random_ones(chance):
    for _ in range(500):
        yield random_table(chance, FEW, 8)
    for _ in range(120):
        yield random_table(chance, 12, 20)
    for _ in range(12):
        yield random_table(chance, 64, 32)


def judged(routes):
    verdict = verdict_by_counting(routes)
    assert len(routes) > FEW or verdict == verdict_by_chains(routes), routes
    return verdict


def answer(routes, start):
    verdict = judged(routes)
    if verdict[0] != "sound":
        return tabbed(*verdict)
    entries = spread(routes, start)
    return tabbed("sound", len(entries), *map(h8, entries))


def main():
    chance = random.Random(3)
    cases = [*worked(), *long_ones(chance), *random_ones(chance)]
    lines = [h2(len(routes)) + "".join(h8(a) + h8(b) for a, b in routes) + h8(start) + "\n" for routes, start in cases]
    write("".join(lines), "".join(answer(routes, start) for routes, start in cases))


if __name__ == "__main__":
    main()
