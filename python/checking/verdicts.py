"""The verdict on a text: the proved program's alone."""

import re
import subprocess
from pathlib import Path
from typing import NamedTuple

RUN = Path(__file__).resolve().parents[2] / "run"
PROGRAM = "book_check"


class Verdict(NamedTuple):
    refusal: int  # 0: taken
    line: int  # of a refusal
    counts: tuple  # of M, S and R lines, of a taken book


class NoVerdict(Exception):
    """The proved program could not be built or run, or did not answer as it does."""


def verdict_on(text):
    """What the proved checker says of this text."""
    try:
        done = subprocess.run([RUN, PROGRAM], input=text, stdout=subprocess.PIPE)
    except OSError as fault:
        raise NoVerdict(f"{RUN.name} {PROGRAM}: {fault.strerror}") from fault
    if taken := re.fullmatch(rb"ok\t(\d+)\t(\d+)\t(\d+)\n", done.stdout):
        counts = tuple(int(count) for count in taken.groups())
        # A taken text has a line for each count: anything else was not this text.
        if sum(counts) == text.count(b"\n") and done.returncode == 0:
            return Verdict(0, 0, counts)
    if (refused := re.fullmatch(rb"no\t(\d+)\t(\d+)\n", done.stdout)) and done.returncode == 0:
        return Verdict(int(refused[1]), int(refused[2]), ())
    raise NoVerdict(f"{PROGRAM} gave no answer (exit status {done.returncode})")
