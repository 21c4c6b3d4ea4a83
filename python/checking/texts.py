"""A route book as a file: its bytes, its lines as people count them, and how a line is shown to a person."""

import os
import re
import sys
from typing import NamedTuple

MOST_BYTES = 32768
SHOWN = 100  # characters of a line

NAMES = {"\t": "TAB", "\r": "CR", " ": "SPACE", "\0": "NUL", "\ufeff": "BYTE ORDER MARK", "\u00a0": "NO-BREAK SPACE"}


class Book(NamedTuple):
    name: str  # as it is printed
    text: bytes  # no more of it than tells that it is too long
    file: tuple  # which file it is, however it was named

    def lines(self):
        """The lines without their newlines; one that lacks its newline comes last."""
        *lines, rest = self.text.split(b"\n")
        return lines + [rest] if rest else lines

    def ends_whole(self):
        return not self.text or self.text.endswith(b"\n")


class Unreadable(Exception):
    """A book that could not be read, with the reason."""


def load(name):
    """The book in the file of this name, or on standard input for `-`."""
    try:
        if name == "-" and sys.stdin is None:
            raise ValueError("there is no standard input")
        if name == "-":
            return Book("standard input", sys.stdin.buffer.read(MOST_BYTES + 1), ())
        with open(name, "rb") as file:
            about = os.fstat(file.fileno())
            return Book(printable(name), file.read(MOST_BYTES + 1), (about.st_dev, about.st_ino))
    except (OSError, ValueError) as fault:
        raise Unreadable(getattr(fault, "strerror", None) or str(fault)) from fault


# ---- how text is shown


def characters(line):
    """The line as characters: UTF-8 where it is that, else a character for each byte."""
    try:
        return line.decode("utf-8")
    except UnicodeDecodeError:
        return line.decode("latin-1")


def printable(text):
    """The text with every character that has no picture written out."""
    return "".join(character if character.isprintable() else f"<U+{ord(character):04X}>" for character in text)


def seen(text):
    """The text with what can't be seen written out, blanks too, not all of a long one."""
    named = "".join(f"<{NAMES[character]}>" if character in NAMES else character for character in text[:SHOWN])
    return printable(named) + (" .." if len(text) > SHOWN else "")


def visible(line):
    """A well-formed line as it is; another with what can't be seen written out: tabs, spaces, carriage returns, bytes that are no text."""
    return line.decode() if said_by(line) else seen(characters(line))


# ---- what a well-formed line says: I an identifier, D a decimal number

KINDS = {"M": "I", "S": "DD", "R": "DIDI"}
FIELD = {"I": r"([0-9A-F]{8})", "D": r"(0|[1-9][0-9]{0,4})"}
LINES = {kind: re.compile(r"\t".join([kind, *(FIELD[field] for field in fields)])) for kind, fields in KINDS.items()}


class Said(NamedTuple):
    kind: str
    fields: tuple  # as they are written


def said_by(line):
    """What a well-formed line says, or None."""
    text = line.decode("latin-1")
    for kind, form in LINES.items():
        if found := form.fullmatch(text):
            return Said(kind, found.groups())
    return None
