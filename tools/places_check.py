#!/usr/bin/env python3
"""Holds the places of an observation against a list: in the tester's header each has its number, its name and the number of its signal;
the definitions and tester/example.c have the same. What a call answers can't show where two signals of one meaning, 301 and 302 say, are
swapped.

    python3 tools/places_check.py [HEADER]
"""

import re
import sys
from pathlib import Path

from tester_rules import SIGNALS

ROOT = Path(__file__).parent.parent
HEADER = ROOT / "include/punnetcrest_tester.h"
NAMED = "PCT_SEEN_"

PLACES = (
    (0, "PLUG", 1708),
    (1, "SELF_CHECK", 1605),
    (2, "MAIN_POSITIVE_WELDED", 311),
    (3, "MAIN_NEGATIVE_WELDED", 313),
    (4, "HEATING_POSITIVE_WELDED", 325),
    (5, "HEATING_NEGATIVE_WELDED", 327),
    (6, "MAIN_POSITIVE", 301),
    (7, "MAIN_NEGATIVE", 302),
    (8, "ALLOWED", 1709),
    (9, "CHARGE_POSITIVE", 304),
    (10, "CHARGE_NEGATIVE", 306),
)

# Of each file the lines that have a place, and what those of the list are there; a field has a place's name in small letters.
LINES = {
    "crates/tester/specs/Following.antt": (r"«?(\w+)»? = charge_seen_at seen (\d+);", [(name.lower(), str(place)) for place, name, _ in PLACES]),
    "crates/charging/specs/Observed.antt": (r"\((\d+), seen\.«?(\w+)»?\)", [(str(signal), name.lower()) for _, name, signal in PLACES]),
    "tester/example.c": (rf"\[{NAMED}(\w+)\] = (\d+),", [(name, str(signal)) for _, name, signal in PLACES]),
}


def header_faults(text):
    """What the lines of the header's enum say otherwise than the list."""
    lines = re.findall(rf"(?m)^ *({NAMED}.*)$", text)
    if len(lines) != len(PLACES):
        yield f"{len(lines)} places for {len(PLACES)}"
    for line, (place, name, signal) in zip(lines, PLACES):
        if not re.match(rf"{NAMED}{name} = {place}, +/\* {signal}\b", line):
            yield f"'{line}' for place {place}, {name}, {signal}"


def main():
    header = Path(sys.argv[1]) if len(sys.argv) > 1 else HEADER
    faults = [f"{header.name}: {fault}" for fault in header_faults(header.read_text())]
    for file, (pattern, wanted) in LINES.items():
        if re.findall(pattern, (ROOT / file).read_text()) != wanted:
            faults.append(f"{file}: other places than those of tools/places_check.py")
    if SIGNALS != tuple(signal for _, _, signal in PLACES):
        faults.append("tools/tester_rules.py: other signals than those of tools/places_check.py")
    print("\n".join(faults) if faults else f"places: {len(PLACES)} of an observation, each with its name and its signal")
    sys.exit(bool(faults))


main()
