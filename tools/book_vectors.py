#!/usr/bin/env python3
"""Book texts with the checker's answer, for the program `book_vectors`.

    python3 tools/book_vectors.py DIR

A case is the text's length (8 hex digits), a newline, the text's bytes and a newline; the answer is the checker's line.
"""

import random

from cases import blob, tabbed, write
from rules import CATALOGUE, MOST_BYTES, read_book

# Short names for the lines of a book. Each gives a line with its newline.


def M(identifier=0x18FF21F3):
    return "M\t%08X\n" % identifier


def S(number, start):
    return "S\t%d\t%d\n" % (number, start)


def R(bus, identifier, to_bus, to_identifier):
    return "R\t%d\t%08X\t%d\t%08X\n" % (bus, identifier, to_bus, to_identifier)


GOOD = M() + S(203, 0) + S(204, 16) + R(0, 0x18FF21F3, 1, 0x18FF21F3) + R(1, 0x18FF21F3, 2, 0x18FF21D0)
LOOP_END = R(2, 0x18FF21D0, 0, 0x18FF21F3)


def worked():
    """Document 01's own books."""
    yield GOOD
    yield GOOD + LOOP_END
    yield M() + S(204, 56)
    yield M() + S(204, 57)
    yield M() + S(203, 0) + S(204, 15)
    yield ""


def taken():
    """Books that are taken, at the limits of each field."""
    yield M(0)
    yield M(2**29 - 1)
    yield R(0, 0, 7, 2**29 - 1)
    yield R(7, 2**29 - 1, 0, 0)
    yield R(3, 5, 3, 6)  # R lines without any M line
    yield M() + S(301, 0) + S(1927, 63)
    yield M() + S(401, 0) + S(402, 32)
    yield M() + S(401, 31)
    yield M() + S(503, 60) + S(504, 56)
    yield M() + S(504, 56) + S(503, 60)
    yield M() + S(503, 60)
    yield M() + S(504, 56)
    yield M(1) + S(203, 0) + M(2) + S(203, 0)  # the same signal in another message
    yield M(1) + S(203, 0) + R(0, 1, 1, 1) + S(204, 16) + R(1, 1, 2, 1) + M(2) + R(2, 1, 3, 1) + S(204, 16)
    yield M(1) + M(2) + M(3)
    yield R(0, 1, 1, 1) + M(1) + S(203, 0)
    yield M() + S(204, 0) + S(203, 8) + S(205, 24)  # ends meet, bits do not
    yield M() + S(205, 24) + S(203, 8) + S(204, 0)
    yield M() + S(1705, 5) + S(1707, 8) + S(1708, 2)


BAD_LINES = [
    # kind
    "", "X", "X\t18FF21F3", "m\t18FF21F3", "MM\t18FF21F3", " M\t18FF21F3", "M \t18FF21F3", "\tM\t18FF21F3",
    "s\t203\t0", "r\t0\t00000001\t1\t00000001", "#", "\t", "\t\t", "\t\t\t\t", "0", "S S", "MS\t203\t0",
    # count of fields
    "M", "S", "R", "M\t", "M\t18FF21F3\t", "M\t18FF21F3\t0", "M\t\t18FF21F3", "M 18FF21F3", "M\t18FF21F3\t18FF21F4",
    "S\t203", "S\t203\t", "S\t203\t0\t", "S\t203\t0\t0", "S\t\t203\t0", "S\t203\t\t0", "S 203 0", "S\t203 0", "S203\t0",
    "R\t0\t00000001\t1", "R\t0\t00000001\t1\t", "R\t0\t00000001\t1\t00000001\t", "R\t0\t00000001\t1\t00000001\t0",
    "R\t0\t00000001\t\t1\t00000001", "R\t0\t00000001", "R\t0", "R 0 00000001 1 00000001",
    # identifiers
    "M\t8FF21F3", "M\t018FF21F3", "M\t18ff21f3", "M\t18FF21f3", "M\t0x18FF21", "M\t18FF21FG", "M\t+8FF21F3",
    "M\t-8FF21F3", "M\t 8FF21F3", "M\t18FF21F ", "M\t18FF21F3 ", "M\t1", "M\t0", "M\t18FF.1F3", "M\t18FF21F:",
    "M\t18FF21F/", "M\t18FF21F@", "M\t18FF21F`", "M\t18FF21F[",
    "R\t0\t0000001\t1\t00000001", "R\t0\t00000001\t1\t0000001", "R\t0\t0000000a\t1\t00000001", "R\t0\t00000001\t1\t0000000a",
    "R\t0\t000000001\t1\t00000001", "R\t0\t00000001\t1\t000000001", "R\t00000001\t0\t00000001\t1", "R\t0\t\t1\t00000001",
    # decimal numbers
    "S\t0203\t0", "S\t203\t00", "S\t203\t01", "S\t203\t-1", "S\t203\t+1", "S\t+203\t0", "S\t-203\t0", "S\t2O3\t0",
    "S\tCB\t0", "S\t0xCB\t0", "S\t203.0\t0", "S\t203\t0.0", "S\t 203\t0", "S\t203 \t0", "S\t203\t 0", "S\t203\t0 ",
    "S\t100203\t0", "S\t000203\t0", "S\t203\t000000", "S\t203\t100000", "S\t4294967499\t0", "S\t203\t4294967296",
    "S\t203\t18446744073709551616", "S\t203\t1e1", "S\t\t0", "S\t203\tA", "S\t203\t:", "S\t203\t/",
    "R\t00\t00000001\t1\t00000001", "R\t0\t00000001\t01\t00000001", "R\t-0\t00000001\t1\t00000001",
    "R\t000001\t00000001\t1\t00000001", "R\t0\t00000001\t100000\t00000001", "R\tA\t00000001\t1\t00000001", "R\t\t00000001\t1\t00000001",
    # bytes that are no text
    "M\t18FF21F3\r", "S\t203\t0\r", "R\t0\t00000001\t1\t00000001\r", "\r", "M\t18FF21F3\0", "\0", "M\x0b18FF21F3",
    "M\t18FF21F\xff", "\xef\xbb\xbfM\t18FF21F3", "S\t203\t\xb2",
]  # fmt: skip


def ill_formed():
    """Refusal 2, each bad line alone and as the third line of a book."""
    for line in BAD_LINES:
        yield line + "\n"
    for line in BAD_LINES:
        yield M(1) + S(205, 56) + line + "\n" + "more that is wrong\n"
    for text in (GOOD, M(), M() + S(203, 0), R(0, 1, 1, 1)):
        yield text[:-1]  # the last newline missing
        yield text + "\n"
        yield "\n" + text
        yield text.replace("\n", "\r\n")
        yield text.replace("\n", "\n\n")
        yield text.replace("\n", "\r")
        yield text.replace("\t", "\t\t")
        yield text.replace("\t", " ")
        yield text.lower()
    yield "\n"
    yield "\n\n"
    yield "M"
    yield "M\t18FF21F3\nM\t18FF21F3"  # missing newline before 5
    yield "S\t203\t0"  # before 4
    yield "S\t999\t99"  # before 3
    yield M() + "S\t203\t60"  # before 7
    yield M() + S(203, 0) + "S\t203\t0"


def over_limit():
    """Refusal 3."""
    for identifier in (2**29, 2**29 + 1, 2**30, 2**31, 2**32 - 1):
        yield M(identifier)
        yield M(1) + R(0, identifier, 1, 1)
        yield M(1) + R(0, 1, 1, identifier)
    for bus in (8, 9, 10, 16, 255, 256, 99999):
        yield R(bus, 1, 1, 1)
        yield R(0, 1, bus, 1)
    for start in (64, 65, 100, 256, 99999):
        yield M() + S(204, start)
    for number in (0, 1, 9, 99, 100, 101, 199, 200, 211, 300, 330, 409, 516, 1308, 1400, 1401, 1414, 1507, 1607, 1714, 1815):
        yield M() + S(number, 0)
    for number in (1900, 1928, 2000, 2001, 9999, 10000, 65535, 65536, 65739, 99999):
        yield M() + S(number, 0)


def lonely_signal():
    """Refusal 4, and what comes before it."""
    yield S(203, 0)
    yield R(0, 1, 1, 1) + S(203, 0)
    yield S(203, 63)  # 4 before 7
    yield S(503, 0)
    yield S(504, 57)
    yield S(999, 0)  # 3 before 4
    yield S(203, 64)
    yield S(203, 0) + M()


def repeated():
    """Refusals 5 and 6."""
    yield M() + M()
    yield M(1) + M(2) + M(3) + M(1)
    yield M(0) + M(0)
    yield M(1) + S(203, 0) + M(2) + S(203, 0) + M(1)
    yield M(2**29) + M(2**29)
    yield M() + S(203, 0) + S(203, 16)
    yield M() + S(203, 0) + S(203, 0)  # 6 before 8
    yield M() + S(203, 0) + S(203, 60)  # 6 before 7
    yield M() + S(203, 0) + S(203, 64)  # 3 before 6
    yield M() + S(203, 0) + S(204, 16) + R(0, 1, 1, 1) + S(203, 32)
    yield M() + S(503, 60) + S(503, 60)
    yield M() + S(503, 60) + S(503, 0)
    yield M(1) + S(203, 0) + M(2) + S(203, 0) + S(203, 16)


def misplaced():
    """Refusals 7 and 8."""
    for number in (204, 203, 401, 1705, 1813, 1923):
        bits = CATALOGUE[number].bits
        yield M() + S(number, 64 - bits)
        yield M() + S(number, 65 - bits)
        yield M() + S(number, 63)
    yield M() + S(1927, 63)
    for number, right in ((503, 60), (504, 56)):
        for start in sorted({0, 1, right - 1, right, right + 1, 52, 56, 60, 63}):
            yield M() + S(number, start)
    yield M() + S(204, 56) + S(503, 60)
    yield M() + S(204, 56) + S(504, 56)
    yield M() + S(204, 56) + S(503, 59)  # 7 before 8
    yield M() + S(203, 0) + S(201, 8)
    yield M() + S(203, 8) + S(201, 0)
    yield M() + S(203, 8) + S(204, 7)
    yield M() + S(203, 8) + S(204, 23)
    yield M() + S(203, 8) + S(204, 24)
    yield M() + S(203, 8) + S(204, 0)
    yield M() + S(203, 8) + S(310, 15)
    yield M() + S(401, 16) + S(310, 47)
    yield M() + S(401, 16) + S(310, 48)
    yield M() + S(310, 20) + S(401, 0)
    yield M() + S(204, 0) + S(205, 8) + S(505, 16) + S(506, 9)
    yield M() + S(203, 40) + S(401, 33)  # both 7 and 8
    yield M(1) + S(203, 0) + M(2) + S(204, 8) + S(205, 15)
    yield M(1) + S(203, 0) + M(2) + S(204, 8)


ONE_BIT = [number for number, row in sorted(CATALOGUE.items()) if row.bits == 1]


def signals(count):
    """`count` S lines under as many messages as they need, one-bit signals side by side."""
    lines = []
    for i in range(count):
        if i % 30 == 0:
            lines.append(M(0x1000 + i))
        lines.append(S(ONE_BIT[i % 30], i % 30))
    return "".join(lines)


def too_many():
    """Refusal 9, the limits reached and passed, and what comes before it."""
    messages = "".join(M(i) for i in range(64))
    yield messages
    yield messages + M(64)
    yield messages + M(63)  # 5 before 9
    yield messages + M(2**29)  # 3 before 9
    yield messages + "M\t64\n"  # 2 before 9
    yield messages + S(203, 0)
    yield signals(255)
    yield signals(256)
    yield signals(257)
    yield signals(256) + S(310, 0)  # 6 before 9
    yield signals(256) + S(204, 60)  # 7 before 9
    yield signals(256) + S(204, 0)  # 8 before 9
    yield signals(256) + S(1400, 40)  # 3 before 9
    yield signals(256) + S(204, 40)
    yield signals(256) + M(1) + R(0, 1, 1, 1)
    yield signals(256) + M(1) + S(204, 0)
    routes = "".join(R(0, i, 1, i) for i in range(64))
    yield routes
    yield routes + R(0, 64, 1, 64)
    yield routes + R(8, 64, 1, 64)  # 3 before 9
    yield routes + R(1, 0, 0, 0)  # 9 before 10
    yield routes + R(0, 0, 1, 0)  # 9 before 11
    yield messages + routes
    yield signals(256) + "".join(M(i) for i in range(55)) + routes
    yield signals(256) + "".join(M(i) for i in range(56)) + routes


def closed_or_doubled():
    """Refusals 10 and 11, with the line of the text, not the number of the route."""
    yield R(0, 1, 0, 1)
    yield M(1) + S(203, 0) + R(0, 1, 0, 1)
    yield M(1) + R(0, 1, 1, 1) + S(203, 0) + R(1, 1, 0, 1)
    yield R(5, 1, 6, 1) + M(1) + R(0, 1, 1, 1) + M(2) + R(1, 1, 0, 1)
    yield R(0, 9, 0, 1) + R(0, 1, 0, 2) + R(0, 2, 0, 3) + R(0, 3, 0, 1)
    yield R(0, 3, 0, 4) + R(0, 1, 0, 2) + R(0, 4, 0, 3) + R(0, 2, 0, 1)
    yield R(0, 1, 0, 2)  # renamed on one bus: no loop
    yield R(0, 1, 1, 1) + R(1, 1, 0, 2)
    yield R(0, 1, 1, 1) + R(0, 1, 1, 1)
    yield M(1) + R(0, 1, 1, 1) + M(2) + S(204, 0) + R(0, 1, 1, 1)
    yield R(0, 1, 0, 2) + R(0, 1, 0, 3) + R(0, 2, 0, 4) + R(0, 3, 0, 4)
    yield M(1) + R(0, 2, 0, 4) + S(203, 0) + R(0, 3, 0, 4) + R(0, 1, 0, 3) + M(4) + R(0, 1, 0, 2)
    yield R(0, 1, 0, 2) + R(0, 2, 0, 3) + R(0, 2, 0, 3)  # the chain begins before the fork
    yield R(0, 2, 0, 3) + R(0, 1, 0, 2) + R(0, 2, 0, 3)
    yield R(0, 1, 0, 2) + R(0, 1, 0, 2) + R(0, 2, 0, 1)  # 10 before 11
    yield R(0, 1, 0, 2) + R(0, 1, 0, 2) + R(7, 7, 7, 7)
    yield R(0, 1, 0, 2) + R(0, 3, 0, 2) + R(0, 2, 0, 4)  # two lead to one: taken
    ring = [R(i % 8, i, (i + 1) % 8, i + 1) for i in range(63)]
    yield "".join(ring) + R(63 % 8, 63, 0, 0)
    yield "".join(ring) + R(63 % 8, 63, 4, 20)
    yield "".join(ring) + R(63 % 8, 63, 0, 64)
    yield "".join(ring) + R(0, 0, 63 % 8, 63)
    yield R(0, 1, 0, 1) + "bad\n"  # 2 before 10
    yield R(0, 1, 0, 1) + R(0, 1, 0, 1)[:-1]


def filled(total):
    """A text of `total` bytes of well-formed lines that is refused at line 2 with 5."""
    line = M(1)
    text = line * (total // len(line))
    return text + "x" * (total - len(text))


def long_texts():
    """Refusal 1: the length alone decides, whatever the text holds."""
    yield filled(MOST_BYTES)
    yield filled(MOST_BYTES + 1)
    yield "x" * MOST_BYTES
    yield "x" * (MOST_BYTES + 1)
    yield "\n" * MOST_BYTES
    yield "\n" * (MOST_BYTES + 1)
    yield GOOD + "\t" * (MOST_BYTES - len(GOOD))
    yield GOOD + "\t" * (MOST_BYTES + 1 - len(GOOD))


def changed(chance):
    """Good texts with one byte changed, dropped, doubled or put in."""
    base = M(1) + S(203, 0) + S(204, 16) + R(0, 1, 1, 1) + M(2) + S(503, 60) + S(504, 56) + S(205, 0) + R(1, 1, 2, 1)
    for _ in range(220):
        at = chance.randrange(len(base))
        new = chance.choice("0123456789ABCDEFabMSR\t\n \r-")
        edit = chance.randrange(4)
        yield base[:at] + ("", new, new + base[at], base[at] * 2)[edit] + base[at + 1 :]


def random_line(chance, weights):
    """A well-formed line of any kind, with small numbers so that lines meet each other."""
    numbers = [203, 204, 205, 206, 301, 310, 311, 401, 503, 504, 505, 1705, 1813, 1923, 200, 1400]
    starts = [0, 2, 8, 9, 16, 17, 24, 32, 40, 48, 52, 56, 57, 60, 63, 64]
    return chance.choices(
        [
            M(chance.randrange(12)),
            S(chance.choice(numbers), chance.choice(starts)),
            R(chance.randrange(3), chance.randrange(4), chance.choice([0, 1, 1, 2, 2, 7, 8]), chance.randrange(4)),
        ],
        weights,
    )[0]


def grown(chance):
    """Books grown line by line, each line kept if the book so far is taken, and then one more line of any kind."""
    for weights in [(1, 4, 2)] * 120 + [(1, 1, 6)] * 120:
        text = M(chance.randrange(12))
        for _ in range(chance.randint(0, 30)):
            longer = text + random_line(chance, weights)
            if read_book(longer.encode())[0][0] == "ok":
                text = longer
        yield text
        yield text + random_line(chance, weights)


def main():
    chance = random.Random(4)
    families = [
        worked(), taken(), ill_formed(), over_limit(), lonely_signal(), repeated(), misplaced(), too_many(),
        closed_or_doubled(), long_texts(), changed(chance), grown(chance),
    ]  # fmt: skip
    texts = [text.encode("latin-1") for family in families for text in family]
    write(b"".join(blob(text) for text in texts), "".join(tabbed(*read_book(text)[0]) for text in texts))


if __name__ == "__main__":
    main()
