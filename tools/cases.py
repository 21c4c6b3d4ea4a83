"""What the vector scripts share: fixed-width fields, output lines, and the two files that a script writes."""

import os
import sys


def h2(number):
    assert 0 <= number < 2**8
    return "%02X" % number


def h8(number):
    assert 0 <= number < 2**32
    return "%08X" % number


def tabbed(*fields):
    return "\t".join(str(field) for field in fields) + "\n"


def blob(text):
    """A text inside a stream: its length, a newline, its bytes, a newline."""
    return h8(len(text)).encode() + b"\n" + text + b"\n"


def write(stdin, stdout):
    """Writes DIR/stdin and DIR/stdout, DIR being the script's one argument."""
    (directory,) = sys.argv[1:]
    os.makedirs(directory, exist_ok=True)
    for name, content in (("stdin", stdin), ("stdout", stdout)):
        with open(os.path.join(directory, name), "wb") as file:
            file.write(content if isinstance(content, bytes) else content.encode("ascii"))
