#!/usr/bin/env python3
"""Tries the command ./check: on every book vector against the stored answer; on several books together against the rules in Python;
on books as people break them; on what is no book at all; where the checker or its output is missing.

    python3 tools/check_test.py
"""

import os
import re
import shutil
import subprocess
import sys
import tempfile
from concurrent.futures import ThreadPoolExecutor
from pathlib import Path

from book_vectors import GOOD, M, R
from check_slips import REFUSED as REFUSED_BOOKS
from check_slips import SLIPS
from check_together import together
from check_words import FAILED, REFUSED, ROOT, TAKEN, UNREADABLE, check, earlier_fault, mend_fault, shows_why

# What each refusal is called in docs/BOOK.md.
HEADINGS = dict(re.findall(r"(?m)^### (\d+): (.*)$", (ROOT / "docs/BOOK.md").read_text()))


def in_a_row(printed):
    """What is printed, wherever its lines were broken."""
    return " ".join(printed.split())


def stored_cases():
    """(text, answer) of each book vector, as they are stored."""
    stream = (ROOT / "crates/book_vectors/stdin").read_bytes()
    answers = (ROOT / "crates/book_vectors/stdout").read_text().splitlines()
    at = 0
    for answer in answers:
        length = int(stream[at : at + 8], 16)
        yield stream[at + 9 : at + 9 + length], answer.split("\t")
        at += length + 10
    assert at == len(stream)


def first_line(name, answer):
    """The first line of a report."""
    if answer[0] == "ok":
        counts = zip(answer[1:], ("message", "signal", "route"))
        return f"{name}: taken: " + ", ".join(f"{count} {word}{'' if count == '1' else 's'}" for count, word in counts) + "."
    _, refusal, line = answer
    return (f"{name}:{line}" if line != "0" else name) + f": refused ({refusal}): {HEADINGS[refusal]}.\n"


# ---- the vectors


def vector_fault(folder, number, text, answer):
    """What ./check says wrong of one vector, or None."""
    name = f"book{number}"
    (folder / name).write_bytes(text)
    status, printed, said = check(folder, name)
    if status != (TAKEN if answer[0] == "ok" else REFUSED) or said or not printed.startswith(first_line(name, answer)):
        return f"{answer}: status {status}: {printed}{said}"
    if answer[0] == "no" and len(printed.strip().split("\n\n")) < 2:
        return f"{answer}: no word on how to mend it: {printed}"
    if answer[1] in ("10", "11") and answer[0] == "no" and not shows_why(printed, int(answer[1]), (name, int(answer[2]))):
        return f"{answer}: the chains shown are none: {printed}"
    return (mend_fault(text, answer, printed) or earlier_fault(text, answer, printed)) if answer[0] == "no" else None


def vectors(folder):
    with ThreadPoolExecutor(os.cpu_count()) as pool:
        return [*pool.map(lambda case: vector_fault(folder, case[0], *case[1]), enumerate(stored_cases()))]


# ---- several books together: tools/check_together.py has those that are drawn


def founding(folder):
    """The two gateways of the founding case: each taken alone, refused together, both files and lines named."""
    pack, body = "pack_gateway.book", "body_gateway.book"
    for name in (pack, body):
        yield check(ROOT / "examples", name)[0] == TAKEN or f"{name} is not taken"
    status, printed, _ = check(ROOT / "examples", pack, body)
    named = all(re.search(rf"(?m)^    {name}:8:\tR\t", printed) for name in (pack, body))
    yield status == REFUSED and f"together: {pack}:8: refused (10)" in printed and named or printed


def shared_lines(folder):
    """A line that two files share counts twice, and the words say so; a file that is named twice likewise; what each has of 65."""
    (folder / "one").write_text(R(0, 1, 1, 1))
    (folder / "two").write_text(M(1) + R(0, 1, 1, 1))
    status, printed, _ = check(folder, "one", "two")
    yield status == REFUSED and "one:1 and two:2 are the same route in two files, and each counts" in in_a_row(printed) or printed
    for again in ("two", "./two", "../" + folder.name + "/two"):
        status, printed, _ = check(folder, "two", again)
        yield status == REFUSED and "named more than once" in in_a_row(printed) and "in two files" not in in_a_row(printed) or printed
    (folder / "full").write_text("".join(R(0, 7 + i, 1, 7 + i) for i in range(64)))
    status, printed, _ = check(folder, "full", "one")
    yield status == REFUSED and "together: one:1: refused (9)" in printed and "(full 64, one 1)" in in_a_row(printed) or printed


def shown_in_papers(folder):
    """What the papers show of ./check is what it prints."""
    for paper in ("README.md", "docs/BOOK.md"):
        shown = re.findall(r"(?m)^    \$ \./check (.*)\n((?:    [^$\n].*\n|\n)*)", (ROOT / paper).read_text())
        for words, printed in shown:
            wanted = re.sub(r"(?m)^    ", "", printed).strip()
            said = check(ROOT, *words.split())[1].strip()
            yield said == wanted or f"{paper}: {words}: {said}"
        yield paper != "README.md" or len(shown) > 1 or "README.md shows ./check no more"


# ---- what is no book


def no_books(folder):
    (folder / "good").write_text(GOOD)
    (folder / "bad").write_text("X\n")
    (folder / "empty").write_text("")
    for names, wanted in [
        (["missing"], "missing: not checked: No such file"),
        (["good", "missing"], "good: taken"),
        (["missing", "bad"], "bad:1: refused (2)"),
        (["."], ".: not checked: Is a directory"),
    ]:
        status, printed, _ = check(folder, *names)
        yield status == UNREADABLE and wanted in printed and "together: taken" not in printed or f"{names}: {status} {printed}"
    for words in ([], ["--nothing", "good"], ["-", "-"]):
        status, printed, said = check(folder, *words, given=GOOD.encode())
        yield status == UNREADABLE and not printed and "usage: ./check BOOK..." in said or f"{words}: {status} {printed}{said}"
    for words, wanted in ((["--help"], "usage: ./check"), (["-"], "standard input: taken"), (["empty"], "is it the file you meant"), (["--", "good"], "good: taken")):
        status, printed, _ = check(folder, *words, given=GOOD.encode())
        yield status == TAKEN and wanted in printed or f"{words}: {status} {printed}"
    status, printed, _ = check(folder, "good", "bad")
    yield status == REFUSED and "together: not checked" in printed or printed


    (folder / "esc\x1b[1m\n").write_text("X\n")
    status, printed, _ = check(folder, "esc\x1b[1m\n", "no\x1b")
    yield status == UNREADABLE and "\x1b" not in printed and printed.startswith("esc<U+001B>[1m<U+000A>:1: refused (2)") or printed


def no_checker(folder):
    """Without the kit, with output that nobody reads or nothing takes, or with an answer that is none: 1 comes from a verdict alone."""
    (folder / "good").write_text(GOOD)
    path = folder / "without_rt"
    path.mkdir()
    for command in ("bash", "dirname", "find", "grep", "readlink", "uname"):
        (path / command).symlink_to(shutil.which(command))
    without = {name: value for name, value in os.environ.items() if name != "RATTLE_HOME"} | {"PATH": str(path)}
    status, printed, said = check(folder, "good", env=without)
    yield status == FAILED and not printed and "the Rattle kit is missing" in said and "no verdict" in said or f"{status} {printed}{said}"
    command = f"'{sys.executable}' -S '{ROOT}/check'"
    for words, wanted in (("good | true", TAKEN), ("missing | true", UNREADABLE), ("bad | true", REFUSED), ("good >&-", TAKEN), ("good >/dev/full", FAILED), ("2>&-", UNREADABLE)):
        script = f"{command} {words}; exit ${{PIPESTATUS[0]}}"
        done = subprocess.run(["bash", "-c", script], cwd=folder, capture_output=True, text=True)
        yield done.returncode == wanted and "Traceback" not in done.stderr or f"{words}: {done.returncode} {done.stderr}"
    yield from stand_ins(folder)


def stand_ins(folder):
    """What stands in for the program and answers something else than a verdict on the whole text is no verdict."""
    sys.path.insert(0, str(ROOT / "python"))
    from checking import routes, verdicts

    verdicts.RUN, kept = folder / "stand_in", verdicts.RUN
    for answer, status in ((r"ok\t0\t0\t0\n", 0), (r"ok\t1\t2\t2\n", 1), (r"no\t2\t1\n", 1), ("", 0), (r"ok\n", 0), (r"ok\t1\t2\t2\nno\t2\t1\n", 0)):
        verdicts.RUN.write_text(f"#!/bin/sh\ncat >/dev/null\nprintf '{answer}'\nexit {status}\n")
        verdicts.RUN.chmod(0o755)
        try:
            yield f"{answer}, {status}: {verdicts.verdict_on(GOOD.encode())}"
        except verdicts.NoVerdict:
            yield None
    verdicts.RUN = kept
    one, other = routes.Route("", (), 1, b"R\t0\t00000001\t1\t00000001", (), ()), routes.Route("", (), 2, b"R\t1\t00000001\t0\t00000001", (), ())
    yield routes.confirmed([one, other], 10) and not routes.confirmed([one], 10) and not routes.confirmed([one, other], 11) or "confirmed"


# ---- books as people break them


def slip_fault(folder, number, text, line, words, meant):
    name = f"slip{number}"
    (folder / name).write_bytes(text)
    status, printed, _ = check(folder, name)
    right = status == REFUSED and printed.startswith(first_line(name, ("no", "2", str(line)))) and all(word in in_a_row(printed) for word in words)
    right = right and (f"probably meant so:\n\n    {meant}\n" in printed if meant else "probably meant" not in printed) and "\x1b" not in printed
    return None if right else f"{words}: {printed}"


def slips(folder):
    return [slip_fault(folder, number, *slip) for number, slip in enumerate(SLIPS)]


def refusals(folder):
    for number, (text, refusal, line, words) in enumerate(REFUSED_BOOKS):
        name = f"refused{number}"
        (folder / name).write_bytes(text)
        status, printed, _ = check(folder, name)
        right = status == REFUSED and printed.startswith(first_line(name, ("no", str(refusal), str(line))))
        yield right and all(word in in_a_row(printed) for word in words) or f"{words}: {printed}"


def main():
    subprocess.run([ROOT / "tools/prove", "program", "book_check"], check=True)  # so that no answer has words of a proof in it
    failed = False
    with tempfile.TemporaryDirectory() as made:
        for part in (vectors, together, founding, shared_lines, shown_in_papers, no_books, no_checker, slips, refusals):
            answers = list(part(Path(made)))
            faults = [answer for answer in answers if answer not in (None, True)]
            print(f"check, {part.__name__.replace('_', ' ')}: {len(answers)} cases, {len(faults)} wrong")
            print("".join(f"  {fault}\n" for fault in faults[:5]), end="")
            failed = failed or bool(faults)
    sys.exit(failed)


if __name__ == "__main__":
    main()
