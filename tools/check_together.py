"""Several books together, for tools/check_test.py: ./check against the rules in Python, on groups of books that are each taken."""

import os
import random
from concurrent.futures import ThreadPoolExecutor

from book_vectors import GOOD, M, R, S, signals
from check_words import REFUSED, TAKEN, check, shows_why
from rules import read_book


def together_answer(texts):
    """What the rules in Python say of the R lines of several books as one table: ('ok',), or ('no', refusal, (file, line))."""
    routes = [
        ((f"book{number}", line), text)
        for number, book in enumerate(texts)
        for line, text in enumerate(book.splitlines(keepends=True), 1)
        if text.startswith("R")
    ]
    answer = read_book("".join(text for _, text in routes[:65]).encode())[0]
    return ("ok",) if answer[0] == "ok" else ("no", answer[1], routes[answer[2] - 1][0])


def together_fault(folder, texts):
    """What ./check says wrong of books that are each taken by themselves."""
    folder.mkdir()
    names = [f"book{number}" for number in range(len(texts))]
    for name, text in zip(names, texts):
        (folder / name).write_text(text)
    status, printed, said = check(folder, *names)
    last = printed.partition("together: ")[2]
    answer = together_answer(texts)
    if answer[0] == "ok":
        right = status == TAKEN and last.startswith("taken: ")
    else:
        _, refusal, (name, line) = answer
        right = status == REFUSED and last.startswith(f"{name}:{line}: refused ({refusal}): ")
        right = right and (refusal == 9 or shows_why(last, refusal, (name, line)))
    return None if right and not said and len(printed.split(": taken: ")) > len(texts) else f"{answer}: status {status}: {printed}{said}"


def random_books(chance):
    """A few books, each taken by itself, whose routes often loop or double together."""
    for _ in range(chance.randint(2, 4)):
        text = M(1) + S(203, 0)
        for _ in range(chance.randint(0, 5)):
            longer = text + R(chance.randrange(2), chance.randrange(4), chance.randrange(2), chance.randrange(4))
            text = longer if read_book(longer.encode())[0][0] == "ok" else text
        yield text


def together(folder):
    chance = random.Random(5)
    routes = [R(0, i, 1, i) for i in range(70)]
    groups = [
        [GOOD, M(1) + R(2, 0x18FF21D0, 0, 0x18FF21F3)],  # each taken, a loop together
        [M(7) + R(0, 1, 1, 1), R(5, 5, 6, 6) + R(0, 1, 1, 1)],  # a line that both have
        [R(0, 1, 1, 1) + R(0, 1, 2, 1), R(1, 1, 3, 1), M(1) + R(2, 1, 3, 1)],  # two ways over three books
        ["".join(routes[:40]), M(1) + "".join(routes[40:64])],  # 64 together
        ["".join(routes[:40]), M(1) + "".join(routes[40:65])],  # 65 together
        ["".join(routes[:64]), M(3) + R(1, 0, 0, 0)],  # the 65th closes a chain: 9 all the same
        ["".join(R(bus, i, bus, i + 64) for i in range(64)) for bus in range(8)] * 3,  # far more than a text holds
        ["", signals(256)],
        *([*random_books(chance)] for _ in range(60)),
    ]
    with ThreadPoolExecutor(os.cpu_count()) as pool:
        return [*pool.map(lambda case: together_fault(folder / f"together{case[0]}", case[1]), enumerate(groups))]
