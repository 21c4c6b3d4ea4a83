#!/usr/bin/env python3
"""Frames of a truck that drives off, packed by examples/truck.book, and what the two frame listers print of them.

    python3 tools/truck_frames.py DIR    writes DIR/frames.txt, DIR/frames.listing (by frame_list) and DIR/dash.listing (by dash_list),
                                         stored in examples/
"""

import os
import sys

from rules import double_bits, listing, pack_frame, read_book

EXAMPLES = os.path.join(os.path.dirname(__file__), "..", "examples")

# (identifier, raw counts in the order of the message's S lines)
FRAMES = [
    (0x18FFFAF3, [0xF3, 1, 1, 1, 1, 0x00000001]),  # woken by the key
    (0x18FF30D0, [1, 0, 0, 253, 253, 253, 253]),  # the vehicle asks for high voltage; no charging port fitted
    (0x18FF31D0, [2, 1, 5, 0]),  # locked and connected, counter 5; the packer fills the checksum
    (0x18FF22F3, [2, 2, 1, 1, 1, 1, 1, 1, 0, 0, 0, 2, 0, 0, 0, 0, 0, 0]),  # precharge
    (0x18FF21F3, [20000, 212, 247, 6120, 5820]),  # no current, 84.8 %, 612.0 V inside, 582.0 V outside
    (0x18FF22F3, [2, 1, 2, 1, 1, 1, 1, 0, 0, 0, 0, 2, 0, 0, 0, 0, 0, 0]),  # on
    (0x18FF21F3, [21530, 212, 247, 6098, 6097]),  # 153.0 A
    (0x18FF23F3, [12000, 11950, 6097, 65535]),  # the last voltage has no valid reading
    (0x18FF24F3, [3312, 14, 3, 3341, 4, 20]),
    (0x18FF25F3, [71, 66, 68, 2, 9, 5, 1]),
    (0x18FF26F3, [72, 71, 253, 253, 65, 65, 253, 255]),  # three probes not fitted, one without a valid reading
    (0x18FF27F3, [3000, 4200, 1800, 2600]),
    (0x18FF28F3, [1] + [0] * 11 + [1] + [0] * 14),  # cells are cold: level 1
    (0x18FF29F3, [2, 0, 0, 1, 65, 610, 0]),
    (0x18FF2AF3, [48211, 50377]),
    (0x18FF32D1, [2, 1, 74, 70, 45, 0, 0]),
]

ODD_LINES = [
    "18FF31D0\tF6FFFFFFFFFFFF08",  # a wrong checksum
    "18FF21F3\t204E",  # two bytes only
    "18FF99F3\tFFFFFFFFFFFFFFFF",  # not in the book
    "18ff21f3\tFFFFFFFFFFFFFFFF",  # small letters
]


def main():
    if len(sys.argv) != 2:
        sys.exit(__doc__)
    book_text = open(os.path.join(EXAMPLES, "truck.book"), "rb").read()
    answer, book = read_book(book_text)
    assert answer[0] == "ok", answer
    lines = []
    for identifier, counts in FRAMES:
        word, frame = pack_frame(book, identifier, 8, counts)
        assert word == "packed", (hex(identifier), frame)
        lines.append("%08X\t%s" % (identifier, frame.hex().upper()))
    frames = "".join(line + "\n" for line in lines + ODD_LINES)
    files = {
        "frames.txt": frames,
        "frames.listing": listing(book_text, frames.encode()),
        "dash.listing": listing(book_text, frames.encode(), double_bits),
    }
    for name, content in files.items():
        with open(os.path.join(sys.argv[1], name), "w") as file:
            file.write(content)


if __name__ == "__main__":
    main()
