"""Runs ./check, and holds its words against the rules in Python, for tools/check_test.py: the chains that it shows are chains, the lines that
it names are there, and once its advice is followed the line is no longer at fault."""

import re
import subprocess
import sys
from pathlib import Path

from rules import CATALOGUE, read_book

ROOT = Path(__file__).resolve().parent.parent
TAKEN, REFUSED, UNREADABLE, FAILED = 0, 1, 2, 3


def check(folder, *names, given=b"", **more):
    """(exit status, what it prints, what it says on standard error) of ./check on files of this folder."""
    done = subprocess.run([sys.executable, "-S", ROOT / "check", *names], cwd=folder, input=given, capture_output=True, **more)
    return done.returncode, done.stdout.decode(), done.stderr.decode()


# ---- the chains that are shown

SHOWN = re.compile(r"(?m)^    (.+):(\d+):\tR\t(\d)\t(\w{8})\t(\d)\t(\w{8})$")


def chain_of(paragraph):
    """[(file, line, start, end)] of the routes shown in a paragraph."""
    return [(file, int(line), (bus, name), (to, under)) for file, line, bus, name, to, under in SHOWN.findall(paragraph)]


def linked(chain):
    return all(one[3] == other[2] for one, other in zip(chain, chain[1:]))


def shows_why(printed, refusal, where):
    """Whether a closed chain, or two different chains between the same two places, are shown, beginning at the verdict's line."""
    shown = [chain_of(paragraph) for paragraph in printed.split("\n\n")]
    shown = [chain for chain in shown if chain]
    if not shown or shown[0][0][:2] != where:
        return False
    if refusal == 10:
        (chain,) = shown
        return linked(chain) and chain[0][2] == chain[-1][3]
    one, other = shown if len(shown) == 2 else ([route] for route in shown[0])
    return linked(one) and linked(other) and one != other and one[0][2] == other[0][2] and one[-1][3] == other[-1][3]


# ---- the advice

# What the words tell to write, by refusal, and what becomes of the line's fields.
TOLD = {
    "2": (r"probably meant so:\s+(\S.*)\n", lambda fields, told: told.split("\t")),
    "3": (r"without it this one is (\w{8})", lambda fields, told: [told if field[1:] == told[1:] else field for field in fields]),
    "7": (r"so (\d+) is the last start|sits at start (\d+)", lambda fields, told: [*fields[:2], told]),
    "8": (r"at start (\d+), for one, signal", lambda fields, told: [*fields[:2], told]),
}


def mended(text, refusal, line, printed):
    """The text with this line as the words tell to write it, or None where they tell no line."""
    unfinished = "does not end with a newline" in " ".join(printed.split())
    if unfinished and printed.count("\n\n") == 2:
        return text + b"\n"
    lines = text.split(b"\n")
    pattern, write = TOLD.get(refusal, ("(?!)", None))
    # Words are laid out in lines, lines of a book are not.
    found = re.search(pattern, printed if refusal == "2" else " ".join(printed.split()))
    if not found:
        return None
    told = next(group for group in found.groups() if group is not None)
    fields = lines[line - 1].decode("latin-1").split("\t")
    lines[line - 1] = "\t".join(write(fields, told)).encode()
    return b"\n".join(lines) + b"\n" * unfinished


def mend_fault(text, answer, printed):
    """What is left of the fault once the advice is followed, or None. Other identifiers of the line may still carry a flag."""
    _, refusal, line = answer
    new = mended(text, refusal, int(line), printed)
    if new is None and refusal in ("7", "8") and "there is no other place" not in " ".join(printed.split()):
        return f"{answer}: no start is told: {printed}"
    if new is None or new == text:
        return None
    left = read_book(new)[0]
    return f"{answer}: mended as told it is {left}: {printed}" if left == ("no", int(refusal), int(line)) else None


def earlier_fault(text, answer, printed):
    """Refusals 5, 6 and 8 name a line above: whether it is there and says so."""
    _, refusal, line = answer
    if refusal not in ("5", "6", "8"):
        return None
    found = re.search(r"[Ll]ine (\d+)", printed.partition("\n\n")[2].replace("\n", " "))
    lines = text.decode("latin-1").split("\n")
    named = lines[int(found[1]) - 1].split("\t") if found and int(found[1]) < int(line) else [""]
    for number, first, last in re.findall(r"[Ss]ignal (\d+) (?:in line \d+ )?fills (?:bits )?(\d+) to (\d+)", printed.replace("\n", " ")):
        if int(last) - int(first) + 1 != CATALOGUE[int(number)].bits:
            return f"{answer}: a wrong width: {printed}"
    same = named[0] == lines[int(line) - 1].split("\t")[0] and (refusal == "8" or named[1] == lines[int(line) - 1].split("\t")[1])
    return None if same else f"{answer}: no such line above: {printed}"
