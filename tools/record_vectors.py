#!/usr/bin/env python3
"""Calls on a lent book record, sound and damaged: the spread with 61 and 62, the text with 71, and 12 before any other refusal.
host/check runs them, in C, by the library and by the plain implementation.

    python3 tools/record_vectors.py DIR

The stream: `B` with a book's text (length in 8 hex digits, newline, bytes, newline) reads it into the record. `X`, a
column's letter (tools/records.py), an index (2 hex digits) and a value (8) sets one entry. `S`, bus (8), identifier (8),
room (2) asks for a spread; `W`, room (8), asks for the book's text; `F` and `P` lines read and pack as in the other vectors.
The answer to S: `spread`, the count and the entries as 8 hex digits each, or `no` and the refusal. The answer to W, whose room
is filled with `*` before: `text`, the count of bytes and how many behind it are still `*`, and on the next line the text; or `no`,
the refusal and how many bytes of the room are still `*`.
"""

import random

from cases import blob, h2, h8, tabbed, write
from frame_books import WORKED, crowded, text_of
from frames_vectors import answer as reading_line
from packing_vectors import answer as packing_line
from records import SIZES, message_book, record_of, spread_by
from rules import place, read_book
from writing import MOST_WRITTEN, write_answer

MOST = 2**32 - 1
PLAIN = b"M\t18FF21F3\nS\t203\t0\nS\t204\t16\nM\t00000005\nS\t204\t0\nR\t0\t18FF21F3\t1\t18FF21F3\nR\t1\t18FF21F3\t2\t18FF21D0\n"


class Stream:
    """The lines so far, and the record as they leave it."""

    def __init__(self):
        self.stdin, self.stdout, self.record = [], [], None

    def book(self, text):
        self.stdin.append(b"B" + blob(text))
        self.record = record_of(read_book(text)[1])

    def set(self, letter, index, value):
        self.stdin.append(("X" + letter + h2(index) + h8(value) + "\n").encode())
        self.record[letter][index] = value

    def say(self, line, answer):
        self.stdin.append((line + "\n").encode())
        self.stdout.append(answer)

    def spread(self, bus, identifier, room):
        word, found = spread_by(self.record, bus, identifier, room)
        answer = tabbed(word, found) if word == "no" else tabbed(word, len(found), *map(h8, found))
        self.say("S" + h8(bus) + h8(identifier) + h2(room), answer)

    def text(self, room):
        self.say("W" + h8(room), write_answer(self.record, room))

    def read(self, identifier, room, frame):
        line = "F" + h8(identifier) + h2(room) + h2(len(frame)) + "".join(map(h2, frame))
        book = message_book(self.record)
        self.say(line, reading_line(book, identifier, room, frame) if book else tabbed("no", 12))

    def pack(self, identifier, length, counts):
        line = "P" + h8(identifier) + h2(length) + h2(len(counts)) + "".join(map(h8, counts))
        book = message_book(self.record)
        self.say(line, packing_line(book, identifier, length, counts) if book else tabbed("no", 12))

    def every_call(self):
        """One call of each kind that is answered, and one of each that is refused for another reason."""
        self.read(0x18FF21F3, 2, list(bytes.fromhex("1F4EFAFFFFFFFFFF")))
        self.read(0x18FF21F3, 2, [0] * 7)
        self.pack(0x18FF21F3, 8, [19999, 250])
        self.pack(0x12345678, 7, [])
        self.spread(0, 0x18FF21F3, 64)
        self.spread(8, 0x18FF21F3, 0)
        self.text(MOST_WRITTEN)
        self.text(0)


def route_text(routes):
    return "".join("R\t%d\t%08X\t%d\t%08X\n" % route for route in routes).encode()


def spreads(stream, chance):
    """The spread of a sound book: every place, room exact, one less and more; limits of bus and identifier."""
    tree = [(chance.randrange(3), 0x100 + chance.randrange(i), i % 8, 0x100 + i) for i in range(1, 65)]
    star = [(0, 1, i % 8, 0x200 + i) for i in range(64)]
    chain = [(i % 8, i, (i + 1) % 8, i + 1) for i in range(64)]
    for routes in ([], chain, list(reversed(chain)), star, tree, chain[:7]):
        text = route_text(routes)
        stream.book(text)
        places = sorted({(bus, name) for bus, name, _, _ in routes} | {(7, 64), (0, 0), (7, 2**29 - 1)})
        for bus, name in places if len(places) < 20 else chance.sample(places, 12):
            found = spread_by(stream.record, bus, name, 64)[1]
            for room in sorted({0, max(len(found), 1) - 1, len(found), 64}):
                stream.spread(bus, name, room)
        for bus, name in ((8, 0), (MOST, 0), (0, 2**29), (0, MOST), (7, 2**29), (8, 2**29), (9, MOST)):
            stream.spread(bus, name, 0)
            stream.spread(bus, name, 64)


DAMAGES = [
    # counts over the limit, under and over what is there
    [("M", 0, 65)], [("M", 0, MOST)], [("S", 0, 257)], [("S", 0, MOST)], [("R", 0, 65)], [("R", 0, MOST)],
    [("M", 0, 1)], [("M", 0, 0)], [("M", 0, 3)], [("S", 0, 2)], [("S", 0, 4)], [("S", 0, 0)], [("R", 0, 1)], [("R", 0, 3)], [("R", 0, 0)],
    # entries past the counts
    [("I", 2, 1)], [("I", 63, MOST)], [("E", 2, 1)], [("E", 63, 3)], [("N", 3, 203)], [("N", 255, 1)], [("T", 3, 1)], [("T", 255, 63)],
    [("F", 2, 1)], [("F", 63, 1)], [("G", 2, 1)], [("G", 63, MOST)],
    # identifiers
    [("I", 0, 2**29)], [("I", 0, MOST)], [("I", 1, 0x18FF21F3)], [("I", 1, 0)], [("I", 0, 6)], [("I", 1, 2**29 - 1)],
    # where the messages' signals end
    [("E", 0, 3)], [("E", 0, 4)], [("E", 1, 2)], [("E", 1, 4)], [("E", 0, MOST)], [("E", 1, MOST)], [("E", 0, 1)], [("E", 0, 0)],
    # a third signal that fits both messages: its end may move
    *([("N", 2, 205), ("T", 2, 24), ("E", 0, end)] for end in (0, 1, 2, 3, 4)), [("N", 2, 205), ("E", 0, 3)],
    # signals
    [("N", 0, 0)], [("N", 0, 200)], [("N", 0, 1400)], [("N", 0, 99999)], [("N", 0, MOST)], [("N", 1, 203)], [("N", 1, 205)], [("N", 2, 203)],
    [("N", 0, 401)], [("N", 1, 503)], [("N", 1, 504)], [("N", 2, 401)],
    # starts
    [("T", 0, 64)], [("T", 0, MOST)], [("T", 0, 48)], [("T", 0, 49)], [("T", 1, 15)], [("T", 1, 56)], [("T", 1, 57)], [("T", 0, 1)], [("T", 2, 56)],
    [("N", 1, 503), ("T", 1, 60)], [("N", 1, 504), ("T", 1, 56)], [("N", 1, 504), ("T", 1, 60)], [("N", 0, 401), ("T", 1, 32)],
    # routes: a loop, a route to itself, a doubling, and sound ones
    [("G", 1, place(0, 0x18FF21F3))], [("G", 0, place(0, 0x18FF21F3))], [("F", 1, place(0, 0x18FF21F3)), ("G", 1, place(1, 0x18FF21F3))],
    [("G", 1, 0)], [("F", 0, MOST)], [("F", 1, place(2, 0x18FF21D0))],
    [("R", 0, 3), ("F", 2, place(2, 0x18FF21D0)), ("G", 2, place(0, 0x18FF21F3))], [("R", 0, 3), ("F", 2, 7), ("G", 2, 0)],
    [("R", 0, 3), ("F", 2, place(0, 0x18FF21F3)), ("G", 2, place(2, 0x18FF21D0))],
    # both halves
    [("M", 0, 65), ("R", 0, 65)], [("T", 0, 64), ("G", 63, 1)],
]  # fmt: skip


def damages(stream):
    """A plain book with each damage. The calls on messages and those on routes each look at their own tables, the one
    for the text at all."""
    for damage in [[]] + DAMAGES:
        stream.book(PLAIN)
        for entry in damage:
            stream.set(*entry)
        stream.every_call()


def stray_damages(stream, chance):
    """Larger books with stray entries changed."""
    texts = [text_of(WORKED), text_of(crowded()), route_text([(i % 8, i, (i + 1) % 8, i + 1) for i in range(64)]), PLAIN]
    for _ in range(60):
        stream.book(chance.choice(texts))
        letter = chance.choice("MSRIENTFG")
        index = chance.randrange(SIZES[letter])
        near = stream.record[letter][index]
        stream.set(letter, index, chance.choice([near, (near + 1) % 2**32, max(near, 1) - 1, 0, 1, MOST]))
        stream.read(0x18FF2119, 2, [0] * 8)
        stream.pack(0x18FF4000, 8, [])
        stream.spread(7, 7, 64)
        stream.text(MOST_WRITTEN)


def main():
    chance = random.Random(11)
    stream = Stream()
    spreads(stream, chance)
    damages(stream)
    stray_damages(stream, chance)
    write(b"".join(stream.stdin), "".join(stream.stdout))


if __name__ == "__main__":
    main()
