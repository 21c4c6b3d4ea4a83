#!/usr/bin/env python3
"""Tries on a copy what a changed row gives: that tools/rows_code.py and shapes_code.py write its numbers and its shape and nothing else
anew, and stop where a line, a shape or a number is wrong; that tools/rows_moved.py names it; and that a correction of what is not printed
is refused. The rows that it changes are taken from the lists: whichever they are.

    python3 tools/rows_check.py
"""

import os
import re
import shutil
import subprocess
import sys
import tempfile
from collections import Counter
from pathlib import Path

from catalogue import Row
from listed_rows import ROOT, ROWS_FILE, SHAPES_FILE, listed
from printed_cells import MISPRINTED_OFFSETS
from rows_moved import PLAIN_FILE, PRINTED_FILE
from shapes_code import FILES, shapes_of

COLUMNS_FILE = "crates/rows/src/columns.rt"
LIST_FILE, NUMBERS_FILE, ARMS_FILE = FILES
# the text in front of a row's numbers and behind them, in each file that has a row in a line
AROUND = {ROWS_FILE: ("row {} ", "  -- "), PRINTED_FILE: ("row\t{}\t", "\n"), PLAIN_FILE: ("{{ {}, ", "\n")}
# The environment without git's own names, so that git works on the copy where a hook of git calls this script too.
OWN_GIT = {name: word for name, word in os.environ.items() if not name.startswith("GIT_")}


class Copy:
    """A copy of the scripts and of what they read and write. What it had at first is a tree of its own repository, and no commit."""

    def __init__(self, folder):
        self.folder = Path(folder)
        shutil.copytree(ROOT / "tools", self.folder / "tools", ignore=shutil.ignore_patterns("__pycache__"))
        for name in (ROWS_FILE, SHAPES_FILE, PRINTED_FILE, PLAIN_FILE, COLUMNS_FILE, *FILES):
            (self.folder / name).parent.mkdir(parents=True, exist_ok=True)
            shutil.copy(ROOT / name, self.folder / name)
        self.git("init", "-q")
        self.git("add", "-A")
        self.first = self.git("write-tree").strip()

    def git(self, *words):
        return subprocess.run(["git", *words], cwd=self.folder, env=OWN_GIT, check=True, capture_output=True, text=True).stdout

    def change(self, name, old, new):
        text = (self.folder / name).read_text(encoding="utf-8")
        assert text.count(old) == 1, (name, old)
        (self.folder / name).write_text(text.replace(old, new), encoding="utf-8")

    def put_back(self, *names):
        for name in names:
            shutil.copy(ROOT / name, self.folder / name)

    def numbers(self, name, number):
        """A row as a file has it, from its number on."""
        before, behind = (part.format(number) for part in AROUND[name])
        return re.search(re.escape(before) + ".*?" + re.escape(behind), (self.folder / name).read_text(encoding="utf-8"))[0]

    def like(self, name, number, donor):
        """Gives a row the numbers of another, in one file."""
        self.change(name, self.numbers(name, number), self.numbers(name, donor).replace(str(donor), str(number), 1))

    def run(self, script, *words):
        command = [sys.executable, self.folder / "tools" / script, *words]
        done = subprocess.run(command, cwd=self.folder, env=OWN_GIT, capture_output=True, text=True)
        return done.returncode, done.stdout, done.stderr

    def changed_lines(self, name):
        """(old, new) of each line that is another than in the tree."""
        old, new = ((folder / name).read_text(encoding="utf-8").split("\n") for folder in (ROOT, self.folder))
        assert len(old) == len(new), name
        return [pair for pair in zip(old, new) if pair[0] != pair[1]]


class Chosen:
    """A signal whose shape others have too, one of another shape, and one whose shape is its own."""

    def __init__(self):
        rows, shapes = ([row for row, _ in listed(name)] for name in (ROWS_FILE, SHAPES_FILE))
        self.rows = {row.number: row for row in rows}
        self.free = min(set(range(len(shapes) + 1)) - {shape.number for shape in shapes})
        self.shapes = dict(shapes_of(rows, shapes))
        often = Counter(self.shapes.values())
        self.one = next(number for number, shape in self.shapes.items() if often[shape] > 1)
        self.other = next(number for number, shape in self.shapes.items() if shape != self.shapes[self.one])
        self.alone = next(number for number, shape in self.shapes.items() if often[shape] == 1)


def moved_row(copy, chosen):
    """One row, first in the definition alone, then everywhere."""
    rest = "rows are what they were, in the definition, as printed by the proved table, and in plain C\n"
    count = len(chosen.shapes)
    answer = copy.run("rows_moved.py", copy.first)
    yield answer == (0, f"{count} of {count} {rest}", ""), f"no row moved: {answer}"
    copy.like(ROWS_FILE, chosen.one, chosen.other)
    status, printed, said = copy.run("rows_moved.py", copy.first)
    yield status == 1 and not printed and "don't have the same rows" in said, said
    for name in (PRINTED_FILE, PLAIN_FILE):
        copy.like(name, chosen.one, chosen.other)
    old, new = (chosen.rows[number].as_json() for number in (chosen.one, chosen.other))
    what = ", ".join(f"{field} {old[field]} to {new[field]}" for field in Row.FIELDS[1:] if old[field] != new[field])
    answer = copy.run("rows_moved.py", copy.first)
    yield answer == (0, f"{chosen.one}\t{what}\n{count - 1} of {count} {rest}", ""), f"one row moved: {answer}"
    status, printed, said = copy.run("rows_moved.py", "nothing")
    yield status == 1 and not printed and "git shows no" in said, said
    status, printed, said = copy.run("rows_moved.py")
    yield status == 1 and not printed and "rows_moved.py COMMIT" in said, said
    last = max(chosen.rows)
    for name in AROUND:
        copy.change(name, copy.numbers(name, last), copy.numbers(name, last).replace(str(last), str(last + 1), 1))
    answer = copy.run("rows_moved.py", copy.first)
    yield answer == (0, f"{chosen.one}\t{what}\n{last}\tgone\n{last + 1}\tnew\n{count - 2} of {count} {rest}", ""), f"a row gone, another new: {answer}"
    copy.put_back(*AROUND)
    copy.like(ROWS_FILE, chosen.one, chosen.other)


def its_code(copy, chosen):
    """That row's entries, its shape, and no arm."""
    status, printed, said = copy.run("rows_code.py")
    (copy.folder / COLUMNS_FILE).write_text(printed, encoding="utf-8")
    changed = copy.changed_lines(COLUMNS_FILE)
    yield status == 0 and changed and all(new.endswith(f", // {chosen.one}") for _, new in changed), said or changed
    entries = [re.findall(rf"(?m)^    (.*), // {number}$", printed)[1:] for number in (chosen.one, chosen.other)]
    yield entries[0] == entries[1], entries
    answer = copy.run("shapes_code.py", copy.folder)
    yield answer == (0, "", ""), f"shapes_code.py: {answer}"
    old, new = chosen.shapes[chosen.one], chosen.shapes[chosen.other]
    yield copy.changed_lines(NUMBERS_FILE) == [(f"        {chosen.one} => {old},", f"        {chosen.one} => {new},")], copy.changed_lines(NUMBERS_FILE)
    ((before, behind),) = copy.changed_lines(LIST_FILE)
    yield before.replace(f"({chosen.one}, {old})", f"({chosen.one}, {new})") == behind, behind
    yield not copy.changed_lines(ARMS_FILE), "an arm changed"


def wrong_texts(chosen):
    """(the file of a list, its text with something wrong in it, the words that say so)"""
    rows, shapes = ((ROOT / name).read_text(encoding="utf-8") for name in (ROWS_FILE, SHAPES_FILE))
    line = re.search(rf"(?m)^ +(?:∷ )?row {chosen.one} .*\n", rows)[0]
    shape = re.search(rf"(?m)^ +(?:∷ )?row {chosen.shapes[chosen.one]} .*\n", shapes)[0]
    again = re.sub(r"(?:∷ )?row \d+", "∷ row 99", shape)
    yield ROWS_FILE, rows.replace(line, line + line), f"{chosen.one} stands behind {chosen.one}"
    yield ROWS_FILE, rows.replace(line, line.replace("  -- ", " -- ")), "this line is not like the others"
    yield ROWS_FILE, rows.replace(line, re.sub(r"row (\d+) (\d+) \d+", r"row \1 \2 12345", line)), f"no shape has the numbers of the rows [{chosen.one}]: add one (the lowest free number is {chosen.free}) ("
    yield SHAPES_FILE, shapes.replace(shape, shape + again), "stands behind 99"
    yield SHAPES_FILE, shapes.replace("\n    ∷ []", f"\n{again}    ∷ []"), "two shapes have the same numbers"
    yield SHAPES_FILE, re.sub(r"no_shape = \d+", "no_shape = 0", shapes), "has to be above all of them"


def wrong_lists(copy, chosen):
    copy.put_back(ROWS_FILE)
    for name, text, words in wrong_texts(chosen):
        (copy.folder / name).write_text(text, encoding="utf-8")
        status, printed, said = copy.run("shapes_code.py", copy.folder)
        yield status == 1 and not printed and words in said, f"{words}: {said or printed}"
        copy.put_back(name)
    copy.like(ROWS_FILE, chosen.alone, chosen.one)
    status, _, said = copy.run("shapes_code.py", copy.folder)
    yield status == 1 and f"no signal has shape [{chosen.shapes[chosen.alone]}]" in said, f"a shape that no signal has: {said}"
    copy.put_back(ROWS_FILE)
    status, _, said = copy.run("shapes_code.py")
    yield status == 1 and "shapes_code.py DIR" in said, f"no folder: {said}"


def own_shape(copy, chosen):
    """A shape more, above all others, for a signal that had one with others: its arm, and what is no shape."""
    shapes = (ROOT / SHAPES_FILE).read_text(encoding="utf-8")
    number = int(re.search(r"no_shape = (\d+)", shapes)[1])
    line = re.search(rf"(?m)^ +(?:∷ )?row {chosen.shapes[chosen.one]} .*\n", shapes)[0]
    wider = re.sub(r"row \d+ (\d+) \d+", rf"row {number} \1 12345", line)
    copy.change(SHAPES_FILE, "\n    ∷ []", "\n" + re.sub(r" +(?:∷ )?row", "    ∷ row", wider) + "    ∷ []")
    copy.change(SHAPES_FILE, f"no_shape = {number}", f"no_shape = {number + 1}")
    copy.change(ROWS_FILE, f"row {chosen.one} {chosen.rows[chosen.one].bits} {chosen.rows[chosen.one].resolution} ", f"row {chosen.one} {chosen.rows[chosen.one].bits} 12345 ")
    answer = copy.run("shapes_code.py", copy.folder)
    yield answer == (0, "", ""), f"a shape more: {answer}"
    arms = (copy.folder / ARMS_FILE).read_text(encoding="utf-8")
    yield re.search(rf"(?m)^        {number} => \w+\(\s*\d+,\s+12345,", arms) is not None, arms
    changed = [(f"        {chosen.one} => {chosen.shapes[chosen.one]},", f"        {chosen.one} => {number},"), (f"        _ => {number},", f"        _ => {number + 1},")]
    yield copy.changed_lines(NUMBERS_FILE) == changed, copy.changed_lines(NUMBERS_FILE)


def the_correction(copy, _):
    """The correction is of what is printed, and of nothing else."""
    standard = (copy.folder / "tools/standard.json").read_text(encoding="utf-8")
    number, (printed, meant) = next(iter(MISPRINTED_OFFSETS.items()))
    line = re.search(rf'(?m)^\{{"number": {number}, .*$', standard)[0]
    copy.change("tools/standard.json", line, line.replace(f"偏移量: {printed} ", f"偏移量: {meant} "))
    status, _, said = copy.run("catalogue_vectors.py")
    yield status == 1 and f"{number}: the offset {printed} is corrected, and {meant} is printed" in said, f"the correction: {said}"


def main():
    if not shutil.which("git"):
        sys.exit(print("NOT RUN: what a changed row gives, for want of git"))
    chosen = Chosen()
    with tempfile.TemporaryDirectory() as folder:
        copy = Copy(folder)
        answers = [answer for part in (moved_row, its_code, wrong_lists, own_shape, the_correction) for answer in part(copy, chosen)]
    faults = [said for right, said in answers if not right]
    print(f"rows: {len(answers)} cases of a changed row, {len(faults)} wrong")
    print("".join(f"  {fault}\n" for fault in faults), end="")
    sys.exit(bool(faults))


if __name__ == "__main__":
    main()
