#!/usr/bin/env python3
"""Holds tools/rules.py against the worked examples that document 01 prints and the rows that document 02 (P2) corrects, its two ways to
judge routes against each other, the books of examples/ and docs/BOOK.md against tools/rules.py, and tools/writing.py against the books.

    python3 tools/rules_check.py
"""

import os
import random
import re

from records import messages_text, record_of, routes_text
from rules import (
    CATALOGUE,
    SleepWatch,
    checker_line,
    checksum,
    class_of,
    dash,
    double_bits,
    listing,
    precharge_complete,
    read_book,
    verdict_by_chains,
    verdict_by_counting,
)
from writing import MOST_WRITTEN, book_text, write_call

ROOT = os.path.join(os.path.dirname(__file__), "..")

FIRST = b"M\t18FF21F3\nS\t203\t0\nS\t204\t16\nR\t0\t18FF21F3\t1\t18FF21F3\nR\t1\t18FF21F3\t2\t18FF21D0\n"

CLASSES = [
    (203, 19999, ("value", -100)),
    (203, 65535, ("invalid", 65535)),
    (204, 250, ("value", 100000)),
    (204, 251, ("outside", 251)),
    (505, 0, ("value", -40000)),
    (505, 253, ("absent", 253)),
    (505, 251, ("outside", 251)),
    (710, 65535, ("value", 65535)),
    (1306, 48, ("value", 12000)),
    (1306, 49, ("outside", 49)),
    (1705, 2, ("invalid", 2)),
]

# Document 02, P2: offset 0, raw 1 to 255, and raw 0 is outside, for the numbers of the highest cell as for those of the lowest.
CELL_NUMBERS = (702, 703, 705, 706)
CELL_CLASSES = [(0, ("outside", 0)), (1, ("value", 1000)), (254, ("value", 254000)), (255, ("value", 255000)), (256, ("no", 26))]


# Bits of doubles that are written down in many places, and of whole numbers: 1 is 3FF0.., each doubling adds 0010...
BITS = [
    (0, "0000000000000000"),
    (1000, "3FF0000000000000"),
    (-1000, "BFF0000000000000"),
    (100, "3FB999999999999A"),
    (-100, "BFB999999999999A"),
    (500, "3FE0000000000000"),
    (100000, "4059000000000000"),
    (-40000, "C044000000000000"),
    (2**31 * 1000, "41E0000000000000"),
    ((2**32 - 1) * 1000, "41EFFFFFFFE00000"),
]


def doubles():
    """The dash's readings: known bits; whole numbers exactly; one rounding, which is how Python divides two whole numbers of any size."""
    for thousandths, bits in BITS:
        assert double_bits(thousandths) == bits, thousandths
    for number, row in CATALOGUE.items():
        for raw in range(row.lowest, row.highest + 1, max(1, (row.highest - row.lowest) // 997)):
            word, thousandths = class_of(CATALOGUE, number, raw)
            if word == "value":
                assert dash(number, raw) == (word, double_bits(thousandths))
                assert float(thousandths) == thousandths and float(thousandths) / 1000.0 == thousandths / 1000
                assert thousandths % 1000 or float(thousandths) / 1000.0 == thousandths // 1000
    assert dash(203, 65535) == ("invalid",) and dash(204, 251) == ("outside",)
    assert dash(200, 2**32 - 1) == ("no", 3) and dash(204, 256) == ("no", 26)


def printed_examples():
    for number, raw, expected in CLASSES:
        assert class_of(CATALOGUE, number, raw) == expected, number
    for raw, expected in CELL_CLASSES:
        assert {class_of(CATALOGUE, number, raw) for number in CELL_NUMBERS} == {expected}, raw
    assert checksum(0x18FFFAF3, [0] * 8) == 4
    assert checksum(0x18FFFAF3, [0xFF] * 7 + [0x0F]) == 5
    assert precharge_complete(6000, 5700, 95) and not precharge_complete(6000, 5699, 95)
    assert precharge_complete(6000, 5400, None) and not precharge_complete(6000, 5399, None)
    assert not precharge_complete(0, 0, 50) and not precharge_complete(6000, 6000, 49) and not precharge_complete(6000, 6000, 101)


def printed_books():
    assert read_book(FIRST)[0] == ("ok", 1, 2, 2)
    assert read_book(FIRST + b"R\t2\t18FF21D0\t0\t18FF21F3\n")[0] == ("no", 10, 4)
    assert read_book(b"M\t00000000\nS\t204\t56\n")[0] == ("ok", 1, 1, 0)
    assert read_book(b"M\t00000000\nS\t204\t57\n")[0] == ("no", 7, 2)
    assert read_book(b"M\t00000000\nS\t203\t0\nS\t204\t15\n")[0] == ("no", 8, 3)
    wanted = "18FF21F3\t203\tvalue\t-100\n18FF21F3\t204\tvalue\t100000\n"
    assert listing(FIRST, b"18FF21F3\t1F4EFAFFFFFFFFFF\n") == wanted


def contents(name):
    with open(os.path.join(ROOT, name), "rb") as file:
        return file.read()


def example_books():
    assert contents("examples/first.book") == FIRST
    assert read_book(contents("examples/loop.book"))[0] == ("no", 10, 4)
    assert read_book(contents("examples/truck.book"))[0] == ("ok", 14, 112, 16)
    printed = listing(contents("examples/truck.book"), contents("examples/frames.txt"))
    assert contents("examples/frames.listing") == printed.encode()
    drawn = listing(contents("examples/truck.book"), contents("examples/frames.txt"), double_bits)
    assert contents("examples/dash.listing") == drawn.encode()
    assert [line.split("\t")[:3] for line in drawn.splitlines()] == [line.split("\t")[:3] for line in printed.splitlines()]
    shown = re.findall(r"(?m)^    ([0-9A-F]{8}\t\d+\t\w+\t-?\d+)$", contents("README.md").decode())
    assert shown and set(shown) <= set(printed.splitlines()), shown


def books_of_the_page():
    """Every book shown in docs/BOOK.md has the answer shown below it."""
    shown = re.findall(r"```book\n(.*?)```\nAnswer: `(.*?)`", contents("docs/BOOK.md").decode(), re.DOTALL)
    assert len(shown) > 10
    for text, answer in shown:
        assert checker_line(read_book(text.encode())[0]) == answer, text


def written_books():
    """Books that are written as they stand, and with the R lines last; 12 and 71; each taken book of the vectors reads back as itself."""
    for text in (FIRST, contents("examples/truck.book"), b"", b"M\t00000000\nS\t204\t56\n"):
        assert book_text(*tables_of(text)).encode() == text
    assert book_text(*tables_of(b"R\t7\t00000000\t0\t1FFFFFFF\nM\t0000000A\n")) == "M\t0000000A\nR\t7\t00000000\t0\t1FFFFFFF\n"
    unordered = contents("examples/unordered.book")
    assert contents("crates/book_write/stdin") == unordered and book_text(*tables_of(unordered)).encode() == FIRST
    assert re.sub("(?m)^", "    ", unordered.decode().rstrip("\n")) in contents("docs/BOOK.md").decode()
    record = record_of(read_book(FIRST)[1])
    assert write_call(record, len(FIRST)) == ("text", FIRST.decode()) and write_call(record, len(FIRST) - 1) == ("no", 71)
    for letter in "SR":
        assert write_call({**record, letter: [3]}, 0) == ("no", 12)
    assert MOST_WRITTEN == 4800
    for text in stored_books():
        answer, book = read_book(text)
        again, read = read_book(book_text(book.messages, book.routes).encode())
        assert again == (answer if answer[0] == "ok" else ("ok", 0, 0, 0)) and tables(read) == tables(book), text
        record = record_of(book)
        assert book_text(book.messages, book.routes).encode() == messages_text(record) + routes_text(record), text


def tables(book):
    return book.messages, book.routes


def tables_of(text):
    return tables(read_book(text)[1])


def stored_books():
    """The texts of the cases of the book."""
    stream = contents("crates/book_vectors/stdin")
    while stream:
        length = int(stream[:8], 16)
        yield stream[9 : 9 + length]
        stream = stream[10 + length :]


def ages():
    assert SleepWatch(0).call(9999, False) == "awake"
    assert SleepWatch(0).call(10000, False) == "asleep"


def both_verdicts_agree():
    chance = random.Random(1)
    for _ in range(20000):
        places = range(chance.randint(1, 7))
        routes = [(chance.choice(places), chance.choice(places)) for _ in range(chance.randint(0, 5))]
        assert verdict_by_chains(routes) == verdict_by_counting(routes), routes


if __name__ == "__main__":
    doubles()
    printed_examples()
    printed_books()
    example_books()
    books_of_the_page()
    written_books()
    ages()
    both_verdicts_agree()
    print("rules: all worked examples hold")
