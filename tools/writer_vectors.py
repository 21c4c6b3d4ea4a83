#!/usr/bin/env python3
"""Books written back, from records sound and damaged, with 12 and 71, for the program `writer_vectors`.

    python3 tools/writer_vectors.py DIR

The lines are the `B`, `X` and `W` lines of tools/record_vectors.py.
"""

import random

from cases import write
from frame_books import WORKED, books, crowded, text_of
from record_vectors import DAMAGES, MOST, PLAIN, Stream, route_text
from records import SIZES
from rules import CATALOGUE, FIXED_STARTS, place, read_book
from writing import MOST_WRITTEN, write_call

FAR = 8192  # the largest room of a case


def taken(text):
    assert read_book(text)[0][0] == "ok", text
    return text


def rooms(stream):
    """The record's text with room exact, one short, one more, none and far more."""
    word, text = write_call(stream.record, FAR)
    exact = len(text) if word == "text" else 0
    for room in sorted({exact, max(exact, 1) - 1, exact + 1, 0, FAR}):
        stream.text(room)


def longest():
    """Full tables, numbers of four digits and starts of two: no text has more bytes."""
    narrow = [row.number for row in CATALOGUE.values() if row.bits == 1 and row.number > 999]
    messages = {0x1FFFFFFF - i: [(narrow[(4 * i + k) % len(narrow)], 10 + (13 * k + i) % 54) for k in range(4)] for i in range(64)}
    routes = [(i % 8, 0x10000000 + i, 7 - i % 8, 0x1FFFFFFF - i) for i in range(64)]
    text = taken(text_of(messages) + route_text(routes))
    assert len(text) == MOST_WRITTEN == 4800
    return text


def shortest():
    """Full tables, numbers of three digits and starts of one, as far as there are bits."""
    narrow = sorted((row.bits, row.number) for row in CATALOGUE.values() if row.number < 1000 and row.number not in FIXED_STARTS)
    chosen, start = [], 0
    for bits, number in narrow[:4]:
        chosen.append((number, start))
        start += bits
    assert start <= 10
    return taken(text_of({i: chosen for i in range(64)}) + route_text([(0, i, 0, i + 1) for i in range(64)]))


def mixed(chance):
    """A book's lines with the R lines anywhere between, first, each behind an M line, and last but backwards."""
    messages = text_of(WORKED).splitlines(keepends=True)
    routes = route_text([(i % 8, 0x18FF0000 + i, (i + 3) % 8, 0x18FF8000 + i * i) for i in range(24)]).splitlines(keepends=True)
    anywhere = list(messages)
    indices = sorted(chance.randrange(len(messages) + 1) for _ in routes)
    for index, line in reversed(list(zip(indices, routes))):
        anywhere.insert(index, line)
    heads = [line for line in messages if line.startswith(b"M")]
    behind = b"".join(line + (routes[heads.index(line)] if line in heads else b"") for line in messages)
    for text in (b"".join(anywhere), b"".join(routes + messages), behind, b"".join(messages + routes[::-1])):
        yield taken(text)


def limits():
    """Identifiers, buses, starts and numbers at their least and most, and where a digit is added."""
    yield taken(b"M\t00000000\nM\t1FFFFFFF\nM\t0ABCDEF9\nM\t10000000\nM\t00000001\n")
    yield taken(route_text([(7, 2**29 - 1, 0, 0), (7, 0, 0, 2**29 - 1), (3, 0x0FEDCBA9, 4, 0x12345678), (1, 9, 2, 10)]))
    yield taken(b"M\t18FF21F3\n" + b"".join(b"S\t%d\t%d\n" % placed for placed in ((310, 0), (1902, 7), (311, 9), (312, 10), (1915, 62), (1916, 63))))
    ends = (min(CATALOGUE), max(number for number in CATALOGUE if number < 1000), min(number for number in CATALOGUE if number > 999), max(CATALOGUE))
    yield taken(text_of({0x18FF0000 + number: [(number, FIXED_STARTS.get(number, 0))] for number in ends}))
    yield taken(text_of({0x18FF2117: [(504, 56), (503, 60)], 0x18FF2118: [(503, 60)]}))


def parts():
    """No line; messages without signals, first, between and last; M lines alone; R lines alone; each kind once."""
    yield b""
    yield taken(b"M\t18FF21F3\n")
    yield taken(b"M\t18FF21F3\nM\t18FF21F4\nS\t203\t0\nM\t18FF21F5\nM\t18FF21F6\nS\t204\t3\nS\t205\t12\nM\t18FF21F7\n")
    yield taken(b"".join(b"M\t%08X\n" % (0x18FF0000 + 257 * i) for i in range(64)))
    yield taken(b"R\t0\t18FF21F3\t1\t18FF21F3\n")
    yield taken(route_text([(i % 8, i, (i + 1) % 8, i + 1) for i in range(64)]))
    yield taken(b"M\t18FF21F3\nS\t203\t0\nR\t0\t18FF21F3\t1\t18FF21F3\n")
    yield PLAIN


def sound_books(stream, chance):
    for text in (*parts(), *limits(), *mixed(chance), longest(), shortest(), text_of(crowded()), *(text for text, _ in books(chance))):
        stream.book(text)
        rooms(stream)


def refused_text(stream):
    """A text that is refused leaves the record of the empty book."""
    stream.book(PLAIN)
    for text in (b"M\t18FF21F3", route_text([(0, 1, 0, 1)])):
        stream.book(text)
        rooms(stream)


def damages(stream):
    """A plain book with each damage: 12 whatever the room is, or the text of the book that it still is."""
    for damage in DAMAGES:
        stream.book(PLAIN)
        for entry in damage:
            stream.set(*entry)
        for room in (0, MOST_WRITTEN):
            stream.text(room)


def full_damages(stream):
    """The longest text's record with entries of every column in turn set to others, to limits and beyond, and back again."""
    stream.book(longest())
    for letter, size in SIZES.items():
        for index in sorted({0, size // 2, size - 1}):
            kept = stream.record[letter][index]
            for value in (0, 1, 63, 64, 65, 257, 200, 203, 2**29, place(7, 2**29 - 1), MOST):
                stream.set(letter, index, value)
                stream.text(0)
                stream.text(MOST_WRITTEN - 1)
            stream.set(letter, index, kept)
    stream.text(MOST_WRITTEN)


def main():
    stream, chance = Stream(), random.Random(18)
    sound_books(stream, chance)
    refused_text(stream)
    damages(stream)
    full_damages(stream)
    write(b"".join(stream.stdin), "".join(stream.stdout))


if __name__ == "__main__":
    main()
