#!/usr/bin/env python3
"""Frames read by a book, for the program `frames_vectors`.

    python3 tools/frames_vectors.py DIR

The stream: `B` with a book's text (length in 8 hex digits, newline, bytes, newline), and `F` lines: identifier (8 hex
digits), room (2), count of bytes (2), the bytes. The answer to an F line: `read`, the count of readings, and for each
its raw count, class word and thousandths (0 where there are none); or `no` and the refusal.
"""

import random

from cases import blob, h2, h8, tabbed, write
from frame_books import CELLS, CELLS_BOOK, books, cell_counts, edge_counts, text_of
from rules import CATALOGUE, checksum, place_bits, read_book, read_frame, take_bits


def stray_bytes(chance, count):
    return [chance.randrange(256) for _ in range(count)]


def with_checksum(identifier, placements, frame):
    """The frame, mended where its message is checked."""
    return place_bits(frame, 60, 4, checksum(identifier, frame)) if 503 in dict(placements) else frame


def good_frames(chance, identifier, placements):
    """All zero, all one, stray bytes, and every signal's edges in stray bytes."""
    frames = [[0] * 8, [0xFF] * 8] + [stray_bytes(chance, 8) for _ in range(4)]
    for number, start in placements[:12]:
        row = CATALOGUE[number]
        frames += [place_bits(stray_bytes(chance, 8), start, row.bits, count) for count in edge_counts(row)]
    return [with_checksum(identifier, placements, frame) for frame in frames]


def wrong_checksums(frame):
    """The frame with every wrong check, 8 to 15 among them, and with one wrong byte under the right check."""
    right = take_bits(frame, 60, 4)
    yield from (place_bits(frame, 60, 4, check) for check in range(16) if check != right)
    for at in range(7):
        yield frame[:at] + [(frame[at] + 1) % 256] + frame[at + 1 :]
    yield place_bits(frame, 56, 4, (take_bits(frame, 56, 4) + 1) % 16)


def cases_of_message(chance, identifier, placements):
    """(identifier, room, frame) for one message."""
    count = len(placements)
    for frame in good_frames(chance, identifier, placements):
        yield identifier, count, frame
    frame = with_checksum(identifier, placements, stray_bytes(chance, 8))
    for room in sorted({0, 1, max(count, 1) - 1, count + 1, 64}):
        yield identifier, room, frame
    for length in range(17) if count == 2 else chance.sample(range(17), 4):
        yield identifier, chance.choice([0, count]), (frame + stray_bytes(chance, 8))[:length]
    if 503 in dict(placements):
        for wrong in wrong_checksums(frame):
            yield identifier, chance.choice([0, count]), wrong  # 23 before 24


def strangers(chance, known):
    """Identifiers that the book has not, of 2^29 and over too, with frames of every length."""
    for identifier in [0x12345678, 2**29, 2**32 - 1, *(2**29 + one for one in known), *(one ^ 0x100 for one in known)]:
        yield identifier, 64, stray_bytes(chance, 8)
        yield identifier, 0, stray_bytes(chance, chance.choice([0, 1, 7, 8, 9]))


def answer(book, identifier, room, frame):
    word, found = read_frame(book, identifier, frame, room)
    if word == "no":
        return tabbed(word, found)
    return tabbed(word, len(found), *(part for reading in found for part in reading))


def main():
    chance = random.Random(5)
    stdin, stdout = [], []

    def turn_to(text):
        stdin.append(b"B" + blob(text))
        return read_book(text)[1]

    def ask(book, identifier, room, frame):
        line = "F" + h8(identifier) + h2(room) + h2(len(frame)) + "".join(map(h2, frame)) + "\n"
        stdin.append(line.encode())
        stdout.append(answer(book, identifier, room, frame))

    for text, messages in books(chance):
        book = turn_to(text)
        if len(messages) == 1:
            ask(book, 0x18FF21F3, 2, bytes.fromhex("1F4EFAFFFFFFFFFF"))  # document 01's frame
        for identifier, placements in messages.items():
            for case in cases_of_message(chance, identifier, placements):
                ask(book, *case)
        for case in strangers(chance, messages):
            ask(book, *case)
    for text in (b"", b"M\t18FF21F3\nS\t203\t60\n"):  # an empty book, and a refused one, which is left empty
        book = turn_to(text)
        for case in strangers(chance, [0x18FF21F3]):
            ask(book, *case)
        ask(book, 0x18FF21F3, 2, [0] * 8)
    book = turn_to(text_of(CELLS_BOOK))
    for counts in cell_counts():
        if max(counts) < 256:
            ask(book, CELLS, 4, counts + [0xFF] * 4)
    write(b"".join(stdin), "".join(stdout))


if __name__ == "__main__":
    main()
