"""Books for the vectors of reading and packing: worked messages first, then messages filled at random."""

from rules import CATALOGUE, FIXED_STARTS, read_book

DOCUMENT_BOOK = b"M\t18FF21F3\nS\t203\t0\nS\t204\t16\n"

# {identifier: [(signal number, start)]}
WORKED = {
    # the lock and its checksum, in the usual order; the checksum first; and without the counter
    0x18FF2117: [(501, 0), (502, 2), (504, 56), (503, 60)],
    0x18FF2118: [(503, 60), (504, 56), (203, 5)],
    0x18FF2119: [(503, 60), (401, 9)],
    0x18FFFAF3: [(504, 56), (503, 60)],
    0x1FFFFFFF: [(502, 54), (503, 60), (206, 57), (1927, 59), (1926, 56)],
    # bits across byte edges, 32 bits at odd starts
    0x00000000: [(401, 1)],
    0x00000001: [(401, 31)],
    0x00000002: [(402, 32), (401, 0)],
    0x00000003: [(404, 13), (201, 47), (1923, 0)],
    0x00000004: [(202, 7), (203, 23), (207, 39)],
    0x00000005: [(1813, 58), (1705, 5), (1707, 15), (1708, 18), (1923, 30)],
    # every kind of mark, and none
    0x18FF3001: [(1710, 0), (1711, 8), (1712, 16), (1713, 24), (505, 32), (506, 40), (1807, 48), (1105, 50), (1603, 54)],
    0x18FF3002: [(710, 0), (1701, 16), (1812, 32), (1806, 48)],
    0x18FF3003: [(1301, 0), (1302, 8), (1303, 16), (1304, 24), (1305, 32), (1306, 40), (1307, 48), (705, 56)],
    0x18FF3004: [(601, 0), (702, 8), (1002, 16), (707, 32), (204, 40), (803, 48), (1201, 56)],
    0x18FF3005: [(301, 0), (502, 2), (1604, 4), (1606, 6), (1706, 8), (1709, 10), (1802, 12), (1809, 14), (501, 16), (1104, 18)],
    # no signals
    0x18FF4000: [],
}

# Document 02, P2: the numbers of the highest cell (705, 706) beside those of the lowest (702, 703), which are read and packed alike.
CELLS = 0x18FF24F3
CELLS_BOOK = {CELLS: [(702, 0), (703, 8), (705, 16), (706, 24)]}


def cell_counts():
    """Counts for that message: each signal at its limits, beside and past them, the others at 1; and all at once."""
    yield [1] * 4
    for raw in (0, 2, 254, 255, 256):
        yield from ([raw if at == place else 1 for at in range(4)] for place in range(4))
        yield [raw] * 4


def text_of(messages):
    lines = []
    for identifier, placements in messages.items():
        lines.append("M\t%08X\n" % identifier)
        lines += ["S\t%d\t%d\n" % placement for placement in placements]
    return "".join(lines).encode()


def random_placements(chance, most):
    """Up to `most` signals at random places, none twice, none meeting another."""
    free, placed = set(range(64)), []
    for _ in range(4 * most):
        number = chance.choice(sorted(CATALOGUE))
        start = FIXED_STARTS.get(number, chance.randrange(64))
        bits = set(range(start, start + CATALOGUE[number].bits))
        if bits <= free and number not in dict(placed) and len(placed) < most:
            free -= bits
            placed.append((number, start))
    return placed


def crowded():
    """One message with as many signals as its 64 bits can hold."""
    narrow = sorted(CATALOGUE.values(), key=lambda row: (row.bits, row.number))
    placed, start = [], 0
    for row in narrow:
        if start + row.bits <= 64 and row.number not in FIXED_STARTS:
            placed.append((row.number, start))
            start += row.bits
    return {0x18FF5000: placed}


def books(chance):
    """[(text, {identifier: placements})], every one taken."""
    made = [(DOCUMENT_BOOK, {0x18FF21F3: [(203, 0), (204, 16)]})]
    made += [(text_of(messages), messages) for messages in (WORKED, crowded())]
    for _ in range(9):
        messages = {chance.randrange(2**29): random_placements(chance, chance.randint(1, 12)) for _ in range(6)}
        made.append((text_of(messages), messages))
    for text, _ in made:
        assert read_book(text)[0][0] == "ok", text
    return made


def edge_counts(row):
    """Raw counts that fit and stand at an edge of the row's limits or marks."""
    counts = {0, row.lowest - 1, row.lowest, row.highest, row.highest + 1, 2**row.bits - 1}
    for _, first, last in row.marks:
        counts |= {first - 1, first, last, last + 1}
    return sorted(count for count in counts if 0 <= count < 2**row.bits)
