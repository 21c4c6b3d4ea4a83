"""The command ./check: what it prints, and its exit status."""

import os
import sys
import textwrap
from typing import NamedTuple

from . import chains, refusals
from .routes import DOUBLING, LOOP, routes_of
from .texts import Unreadable, load, printable, visible
from .verdicts import NoVerdict, verdict_on

TAKEN, REFUSED, UNREADABLE, FAILED = 0, 1, 2, 3
WIDTH = 78

HELP = """usage: ./check BOOK...

Says of each route book whether it is taken, and of a refused one which line
is at fault and how to mend it. Several books are also checked together, as
those of several gateways on one truck: their R lines as one table, in the
order of the files. Give it all the books of a truck at once, since books
that are each right by themselves can loop together.

This book has a message, a signal in it from frame bit 0 on, and a route from
bus 0 to bus 1; one tab stands between fields (docs/BOOK.md has the rest):

    M\t18FF21F3
    S\t203\t0
    R\t0\t18FF21F3\t1\t18FF21F3

A book of the name - is read from standard input.

Exit status: 0 taken; 1 refused; 2 a file is missing or can't be read, or the
command was not understood; 3 the checker itself could not be built or run.
The verdict is that of the proved program book_check, which is built where
needed: the first time takes some minutes."""


class Report(NamedTuple):
    status: int
    paragraphs: list


def counted(number, word):
    return f"{number} {word}" + "s" * (number != 1)


def refused(where, refusal, words):
    return Report(REFUSED, [f"{where}: refused ({refusal}): {refusals.SENTENCES[refusal]}.", *words])


# ---- one book


def report_on(book):
    verdict = verdict_on(book.text)
    if not verdict.refusal:
        words = ", ".join(counted(count, word) for count, word in zip(verdict.counts, ("message", "signal", "route")))
        empty = "" if book.text else " It is empty: is it the file you meant?"
        return Report(TAKEN, [f"{book.name}: taken: {words}.{empty}"])
    where = f"{book.name}:{verdict.line}" if verdict.line else book.name
    return refused(where, verdict.refusal, words_on(book, verdict))


def words_on(book, verdict):
    """The paragraphs below the first line of a refusal."""
    if verdict.refusal not in (LOOP, DOUBLING):
        line = book.lines()[verdict.line - 1 : verdict.line]
        return [*("    " + visible(text) for text in line), *refusals.advice(book, verdict)]
    routes = list(routes_of(book))
    return chains.words_on(routes, verdict.refusal, [route.line for route in routes].index(verdict.line))


# ---- several books together


def report_together(books):
    """On the routes of all these books as one table. Each book is taken by itself."""
    routes = [route for book in books for route in routes_of(book)]
    # 65 routes tell that there are too many: more could be a text too long.
    verdict = verdict_on(b"".join(route.text + b"\n" for route in routes[: refusals.MOST["R"] + 1]))
    if not verdict.refusal:
        return Report(TAKEN, [f"together: taken: {counted(len(routes), 'route')} of {len(books)} books, and no chain of them loops or doubles."])
    named = routes[verdict.line - 1]
    return refused(f"together: {named.book}:{named.line}", verdict.refusal, words_together(books, routes, verdict))


def words_together(books, routes, verdict):
    if verdict.refusal in (LOOP, DOUBLING):
        yield from chains.words_on(routes, verdict.refusal, verdict.line - 1)
    else:
        each = ", ".join(f"{book.name} {len(list(routes_of(book)))}" for book in books)
        yield chains.shown(routes[verdict.line - 1])
        yield f"It is route {verdict.line} of {len(routes)} ({each}), and {refusals.MOST['R']} at most can be checked together."
        yield refusals.TOO_MANY_ROUTES
    if len({book.file for book in books}) < len(books):
        yield "A file is named more than once, and its routes count each time. Name each file once."


# ---- the command


def reports(names):
    """A report for each book, and one for all together where there are several."""
    books, worst = [], TAKEN
    for name in names:
        try:
            books.append(load(name))
            report = report_on(books[-1])
        except Unreadable as fault:
            report = Report(UNREADABLE, [f"{printable(name)}: not checked: {fault}."])
        worst = max(worst, report.status)
        yield report
    if len(names) > 1 and worst == TAKEN:
        yield report_together(books)
    elif len(names) > 1:
        yield Report(worst, ["together: not checked: first each book has to be taken by itself."])


def laid_out(paragraph):
    """A paragraph in lines of their width; lines of a book stay as they are."""
    lines = paragraph.split("\n")
    return "\n".join(line if line.startswith(" ") else textwrap.fill(line, WIDTH, break_on_hyphens=False, break_long_words=False) for line in lines)


def say(text, stream=None):
    """Prints, as long as somebody reads it: whoever stops reading still gets the exit status. What can't be written is a fault."""
    stream = stream or sys.stdout
    try:
        print(text, file=stream, flush=True)
    except OSError as fault:
        os.dup2(os.open(os.devnull, os.O_WRONLY), stream.fileno())
        if stream is sys.stdout and not isinstance(fault, BrokenPipeError):
            raise NoVerdict(f"it can't be printed: {fault.strerror}") from fault


def check_all(names):
    """Prints the reports, an empty line around longer ones, and gives the exit status."""
    worst, before = TAKEN, []
    for report in reports(names):
        gap = "\n" if before and len(before + report.paragraphs) > 2 else ""
        first, *words = report.paragraphs
        say(gap + "\n\n".join([first, *map(laid_out, words)]))
        worst, before = max(worst, report.status), report.paragraphs
    return worst


def told_apart(words):
    """The options and the names of books: behind `--` all are names."""
    at = words.index("--") if "--" in words else len(words)
    options = [word for word in words[:at] if word.startswith("-") and word != "-"]
    return options, [word for word in words[:at] if word not in options] + words[at + 1 :]


def misused(options, names):
    """What is wrong with the words of the command, or nothing."""
    if options:
        return f"check: there is no option {options[0]}"
    if names.count("-") > 1:
        return "check: standard input is one book: name - once"
    return "" if names else "check: which book?"


def open_streams():
    """Standard output and error that take every character, and are there."""
    for name in ("stdout", "stderr"):
        if getattr(sys, name) is None:
            setattr(sys, name, open(os.devnull, "w"))
        getattr(sys, name).reconfigure(errors="backslashreplace")


def main(words):
    open_streams()
    options, names = told_apart(words)
    if "-h" in options or "--help" in options:
        say(HELP)
        return TAKEN
    if fault := misused(options, names):
        say(fault + "\n\n" + HELP, sys.stderr)
        return UNREADABLE
    try:
        return check_all(names)
    except NoVerdict as fault:
        say(f"check: no verdict: {fault}", sys.stderr)
        return FAILED
