#!/usr/bin/env python3
"""Frames packed by a book, for the program `packing_vectors`.

    python3 tools/packing_vectors.py DIR

The stream: `B` with a book's text (length in 8 hex digits, newline, bytes, newline), and `P` lines: identifier (8 hex
digits), length of the lent frame (2), count of values (2), the values (8 each). The answer to a P line: `packed` and
the eight bytes as 16 hex digits, byte 0 first; or `no` and the refusal.
"""

import random

from cases import blob, h2, h8, tabbed, write
from frame_books import CELLS, CELLS_BOOK, books, cell_counts, edge_counts, text_of
from rules import CATALOGUE, class_of_count, pack_frame, read_book, read_frame, take_bits

TOO_BIG = 2**32 - 1


def packable(row):
    """The edge counts that the packer takes."""
    return [count for count in edge_counts(row) if class_of_count(row, count)[0] not in ("reserved", "outside")]


def good_counts(chance, placements):
    """A count for each placement: an edge or any other that is packable; for the checksum anything at all."""
    counts = []
    for number, _ in placements:
        row = CATALOGUE[number]
        stray = chance.randint(row.lowest, row.highest)
        if number == 503:
            counts.append(chance.choice([0, 7, 15, 16, 255, TOO_BIG]))
        elif chance.random() < 0.6 and class_of_count(row, stray)[0] == "value":
            counts.append(stray)
        else:
            counts.append(chance.choice(packable(row)))
    return counts


def too_wide(chance, row):
    return [chance.choice([2**row.bits, TOO_BIG])] if row.bits < 32 else []


def unwanted(row):
    return [count for count in edge_counts(row) if class_of_count(row, count)[0] in ("reserved", "outside")]


def bad_positions(chance, placements, good):
    """Good counts with one bad position, and with two, so that the first must win and 26 comes before 27 only within one."""
    bad = []
    for at, (number, _) in enumerate(placements[:12]):
        row = CATALOGUE[number]
        bad += [(at, count) for count in too_wide(chance, row) + unwanted(row)]
    for at, count in bad:
        yield good[:at] + [count] + good[at + 1 :]
    for _ in range(min(len(bad) - 1, 8)):
        counts = list(good)
        for at, count in chance.sample(bad, 2):
            counts[at] = count
        yield counts


def cases_of_message(chance, identifier, placements):
    """(identifier, frame length, counts) for one message."""
    for _ in range(6):
        yield identifier, 8, good_counts(chance, placements)
    good = good_counts(chance, placements)
    for counts in bad_positions(chance, placements, good):
        yield identifier, 8, counts
    for length in chance.sample([0, 1, 2, 3, 4, 5, 6, 7, 9, 10, 15, 16], 4):
        yield identifier, length, good
    for count in sorted({max(len(good), 1) - 1, len(good) + 1, chance.choice([0, 16, 64])} - {len(good)}):
        short = (good + [0] * 64)[:count]
        yield identifier, chance.choice([7, 8]), short  # 25 before 21
    wrong = len(good) + 1
    yield identifier, 8, [TOO_BIG] * wrong  # 25 before 26
    yield identifier ^ 0x10000, 7, [TOO_BIG] * wrong  # 22 before all others
    yield identifier, 9, [TOO_BIG] * len(good)  # 21 before 26
    yield identifier ^ 0x10000, 8, good


def answer(book, identifier, length, counts):
    word, found = pack_frame(book, identifier, length, counts)
    if word == "packed":
        check_read_back(book, identifier, found, counts)
    return tabbed(word, found.hex().upper() if word == "packed" else found)


def check_read_back(book, identifier, frame, counts):
    """What the packer accepts reads back as the same raw counts, apart from 503, and every other bit is 1."""
    placements = book.placements(identifier)
    word, readings = read_frame(book, identifier, frame, len(counts))
    assert word == "read"
    used = set()
    for (number, start), (raw, _, _), count in zip(placements, readings, counts):
        assert raw == count or number == 503
        used |= set(range(start, start + CATALOGUE[number].bits))
    assert all(take_bits(frame, k, 1) == 1 for k in range(64) if k not in used)


def main():
    chance = random.Random(6)
    stdin, stdout = [], []

    def turn_to(text):
        stdin.append(b"B" + blob(text))
        return read_book(text)[1]

    def ask(book, identifier, length, counts):
        line = "P" + h8(identifier) + h2(length) + h2(len(counts)) + "".join(map(h8, counts)) + "\n"
        stdin.append(line.encode())
        stdout.append(answer(book, identifier, length, counts))

    for text, messages in books(chance):
        book = turn_to(text)
        if len(messages) == 1:
            ask(book, 0x18FF21F3, 8, [19999, 250])  # document 01's frame
        for identifier, placements in messages.items():
            for case in cases_of_message(chance, identifier, placements):
                ask(book, *case)
        for identifier in (2**29, 2**32 - 1):
            ask(book, identifier, 8, [])
    for text in (b"", b"M\t18FF21F3\nS\t203\t60\n"):  # an empty book, and a refused one, which is left empty
        book = turn_to(text)
        ask(book, 0x18FF21F3, 8, [0])
        ask(book, 0, 7, [])
    book = turn_to(text_of(CELLS_BOOK))
    for counts in cell_counts():
        ask(book, CELLS, 8, counts)
    write(b"".join(stdin), "".join(stdout))


if __name__ == "__main__":
    main()
