#!/usr/bin/env python3
"""A book, frame lines and the listing that a frame lister prints, for the programs `frame_list` and `dash_list`.

    python3 tools/lister_vectors.py DIR listing    writes DIR/data/book.txt, DIR/stdin and DIR/stdout
    python3 tools/lister_vectors.py DIR refused    the same lines under a book that is refused, for host/check
    python3 tools/lister_vectors.py DIR empty      the same lines under an empty book (a missing one counts as empty), for host/check

`listing` may be left out. With `doubles` after any of the three, DIR/stdout is what `dash_list` prints of the same: the bits of a value's
double in place of its thousandths.

The lines have every shape that document 01 names, good and ill formed, and there are enough of them, of enough
different lengths, that whatever buffer a program reads with, lines lie across its edges.
"""

import os
import random
import sys

from frame_books import DOCUMENT_BOOK, WORKED, crowded, edge_counts, text_of
from rules import CATALOGUE, checksum, double_bits, listing, place_bits, read_book

BOOKS = {
    "listing": DOCUMENT_BOOK + text_of({**WORKED, **crowded()}) + b"R\t0\t18FF21F3\t1\t18FF21F3\n",
    "refused": DOCUMENT_BOOK + b"R\t0\t18FF21F3\t1\t18FF21F3\nR\t1\t18FF21F3\t0\t18FF21F3\n",
    "empty": b"",
}

# How a value's thousandths are printed.
FIGURES = {"thousandths": str, "doubles": double_bits}

KNOWN = "18FF21F3"

SHAPES = [
    KNOWN + "\t1F4EFAFFFFFFFFFF",  # document 01's line
    *(KNOWN + "\t" + "1F4EFAFFFFFFFFFF"[: 2 * count] for count in range(9)),  # 0 to 8 bytes
    *(KNOWN + "\t" + "1F4EFAFFFFFFFFFF"[: 2 * count + 1] for count in range(8)),  # an odd digit
    # over 16 digits
    KNOWN + "\t1F4EFAFFFFFFFFFF0", KNOWN + "\t1F4EFAFFFFFFFFFF00", KNOWN + "\t" + "00" * 9, KNOWN + "\t" + "F" * 64,
    # digits that are none
    KNOWN + "\t1f4EFAFFFFFFFFFF", KNOWN + "\t1F4EFAFFFFFFFFFf", KNOWN + "\t1F4EFAFFFFFFFFFG", KNOWN + "\t1F4EFAFFFFFFFFF ",
    KNOWN + "\t 1F4EFAFFFFFFFFF", KNOWN + "\t1F 4EFAFFFFFFFFF", KNOWN + "\t0x1F4EFAFFFFFFFF", KNOWN + "\t-F4EFAFFFFFFFFFF",
    KNOWN + "\t1F:EFAFFFFFFFFFF", KNOWN + "\t1F/EFAFFFFFFFFFF", KNOWN + "\t1F@EFAFFFFFFFFFF", KNOWN + "\t1F`EFAFFFFFFFFFF",
    KNOWN + "\t1F4EFAFFFFFFFFF\xff", KNOWN + "\t1F4EFAFFFFFFFFF\0", KNOWN + "\tZZ", KNOWN + "\t--",
    # tabs and ends
    KNOWN, KNOWN + "1F4EFAFFFFFFFFFF", KNOWN + " 1F4EFAFFFFFFFFFF", KNOWN + "\t\t1F4EFAFFFFFFFFFF", KNOWN + "\t1F4EFAFFFFFFFFFF\t",
    KNOWN + "\t1F4EFAFF\tFFFFFFFF", KNOWN + "\t\t", "\t" + KNOWN + "\t1F4EFAFFFFFFFFFF", "\t1F4EFAFFFFFFFFFF", "\t", "\t\t",
    KNOWN + "\t1F4EFAFFFFFFFFFF\r", KNOWN + "\t\r", "\r", " ", "", "", "#", "no\t20",
    # identifiers
    "18FF21F\t1F4EFAFFFFFFFFFF", "018FF21F3\t1F4EFAFFFFFFFFFF", "18ff21f3\t1F4EFAFFFFFFFFFF", "18FF21F3 \t1F4EFAFFFFFFFFFF",
    "18FF21FG\t1F4EFAFFFFFFFFFF", "0x18FF21\t1F4EFAFFFFFFFFFF", "M\t18FF21F3", "S\t203\t0",
    "12345678\t1F4EFAFFFFFFFFFF", "12345678\t", "12345678\t00", "00000006\t0000000000000000",
    # 2^29 and over: well formed
    "20000000\t1F4EFAFFFFFFFFFF", "20000000\t", "38FF21F3\t1F4EFAFFFFFFFFFF", "98FF21F3\t1F4EFAFFFFFFFFFF",
    "FFFFFFFF\t1F4EFAFFFFFFFFFF", "FFFFFFFF\t1F4E", "FFFFFFFF\t1F4EFAFFFFFFFFFF0", "1FFFFFFF\t0000000000000000",
    # a message without signals prints nothing
    "18FF4000\t0123456789ABCDEF", "18FF4000\t0123456789ABCD",
]  # fmt: skip


def overlong():
    """Lines longer than any buffer is likely to be; each is one ill-formed line."""
    yield "F" * 300
    yield KNOWN + "\t" + "1F4EFAFFFFFFFFFF" * 300
    yield "x" * 4096
    yield "\t" * 8191
    yield KNOWN + "\t" + "0" * 33000
    yield "x" * 70001


MESSAGES = {0x18FF21F3: [(203, 0), (204, 16)], **WORKED, **crowded()}


def stray_frame(chance, identifier):
    """A frame of this message with one signal at an edge, and mostly the right checksum."""
    placements = MESSAGES[identifier]
    frame = [chance.randrange(256) for _ in range(8)]
    if placements:
        number, start = chance.choice(placements)
        row = CATALOGUE[number]
        frame = place_bits(frame, start, row.bits, chance.choice(edge_counts(row)))
    if 503 in dict(placements) and chance.random() < 0.8:
        frame = place_bits(frame, 60, 4, checksum(identifier, frame))
    return frame


def stray_line(chance):
    """Mostly good lines, of messages with few signals more often than others, now and then an odd shape."""
    if chance.random() < 0.06:
        return chance.choice(SHAPES)
    known = sorted(MESSAGES, key=lambda identifier: len(MESSAGES[identifier]))
    identifier = chance.choice(known[:8] if chance.random() < 0.85 else known)
    frame = stray_frame(chance, identifier)
    if chance.random() < 0.15:
        frame = frame[: chance.randrange(9)]
    return "%08X\t%s" % (identifier, bytes(frame).hex().upper())


def frame_lines():
    chance = random.Random(10)
    lines = [*SHAPES, *(stray_line(chance) for _ in range(1200)), *overlong(), *SHAPES]
    lines += [stray_line(chance) for _ in range(1600)]
    lines += ["x" * 20000, KNOWN + "\t1F4EFAFFFFFFFFFF", ""]
    last = KNOWN + "\t1F4EFAFFFFFFFFFF"  # without a newline, so ill formed
    return ("\n".join(lines) + "\n" + last).encode("latin-1")


def main(directory, kind="listing", figures="thousandths"):
    book, frames = BOOKS[kind], frame_lines()
    assert (read_book(book)[0][0] == "ok") == (kind != "refused")
    os.makedirs(os.path.join(directory, "data"), exist_ok=True)
    files = {"data/book.txt": book, "stdin": frames, "stdout": listing(book, frames, FIGURES[figures]).encode()}
    for name, content in files.items():
        with open(os.path.join(directory, name), "wb") as file:
            file.write(content)


if __name__ == "__main__":
    main(*sys.argv[1:])
