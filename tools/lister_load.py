#!/usr/bin/env python3
"""A load for the frame lister: python3 tools/lister_load.py DIR writes DIR/book.txt, 10 messages with 6 signals each, and
DIR/frames, 200,000 frame lines of these messages. The same bytes each time. It makes the folder where there is none."""

import json
import os
import random
import sys

MESSAGES, SIGNALS, FRAMES = 10, 6, 200000


def message(rows):
    """Six signals of 8 or 16 bits, side by side."""
    start, placed = 0, []
    for row in random.sample(rows, len(rows)):
        left = SIGNALS - len(placed)
        if left and start + row["bits"] + 8 * (left - 1) <= 64:
            placed.append(f"S\t{row['number']}\t{start}")
            start += row["bits"]
    return placed


def main(folder):
    random.seed(7)
    os.makedirs(folder, exist_ok=True)
    here = os.path.dirname(os.path.abspath(__file__))
    with open(os.path.join(here, "catalogue.json"), encoding="utf-8") as source:
        rows = [row for row in json.load(source) if row["bits"] in (8, 16)]
    identifiers = [f"{0x18FF20F3 + 0x100 * k:08X}" for k in range(MESSAGES)]
    with open(os.path.join(folder, "book.txt"), "w", encoding="ascii") as book:
        for identifier in identifiers:
            book.write("\n".join([f"M\t{identifier}", *message(rows)]) + "\n")
    with open(os.path.join(folder, "frames"), "w", encoding="ascii") as frames:
        for _ in range(FRAMES):
            frames.write(f"{random.choice(identifiers)}\t{random.randbytes(8).hex().upper()}\n")


main(sys.argv[1])
