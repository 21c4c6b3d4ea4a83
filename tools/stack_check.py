#!/usr/bin/env python3
"""Holds the three places together that say how much stack each call takes: what host/stack reads in the machine code, what
host/touched.c finds, and the table of docs/EMBEDDING.md.

    python3 tools/stack_check.py STACK TOUCHED TOUCHED_64

STACK is what host/stack printed, TOUCHED what host/run touched did, TOUCHED_64 what host/run touched 64 did: pc_spread on a chain of 64
routes. There the slot at the end of the last turn is set aside and not written, so 8 bytes less may be touched."""

import re
import sys
from pathlib import Path

PAPER = Path(__file__).resolve().parent.parent / "docs/EMBEDDING.md"
SLOT = 8
TURNS = re.compile(r"\S+ calls itself: (\d+) and (\d+) for each turn, the most from (\d+) turns on: (\d+) for 64")


def lines(file):
    return [line.split("\t") for line in Path(file).read_text().splitlines()]


def in_paper():
    """The second and third cell of each call in the paper's table."""
    cells = {}
    table = PAPER.read_text().partition("\n## Stack\n")[2].partition("\n## ")[0]
    for row in re.findall(r"(?m)^\| (`pc_.+?) \| (.+?) \| (.+?) \|$", table):
        cells |= {call: row[1:] for call in re.findall(r"`(\w+)`", row[0])}
    return cells


def for_paper(read):
    """What these cells have to be."""
    cells = {}
    for call, size, below, *rest in read:
        told = f"{int(size):,}"
        for without, turn, first, most in (found.groups() for part in rest if (found := TURNS.fullmatch(part))):
            told += f"; where the longest chain from the place has more than {int(first) - 1} routes, {int(without):,} and {int(turn):,} for each of them: {int(most):,} for 64"
        cells[call] = (told, f"{int(below):,}")
    return cells


def chain_of_64(read, touched):
    """What is wrong with what a chain of 64 touches."""
    read = {call: [int(found[4]) for part in rest if (found := TURNS.fullmatch(part))] for call, _, _, *rest in read}
    for call, size, _ in touched:
        if len(read[call]) != 1 or not read[call][0] - SLOT <= int(size) <= read[call][0]:
            yield f"{call} touches {size} bytes on a chain of 64 routes; host/stack reads {read[call]}"


def main(stack, touched, touched_64):
    read, found, paper = lines(stack), lines(touched), in_paper()
    faults = [f"host/stack reads {line[:3]}, touched are {other}" for line, other in zip(read, found) if line[:3] != other]
    if len(read) != len(found):
        faults.append(f"host/stack reads {len(read)} calls, touched are {len(found)}")
    faults += chain_of_64(read, lines(touched_64))
    wanted = for_paper(read)
    faults += [f"docs/EMBEDDING.md, {call}: {paper.get(call)}; host/stack reads {wanted.get(call)}" for call in sorted({*paper, *wanted}) if paper.get(call) != wanted.get(call)]
    print("\n".join(faults) if faults else f"stack: {len(read)} calls, read, touched and in the paper, no difference")
    sys.exit(bool(faults))


main(*sys.argv[1:])
