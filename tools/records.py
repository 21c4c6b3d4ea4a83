"""The book record in columns, and refusal 12 straight from its words: the tables are those of no taken book.

A record is {letter: entries}: `M`, `S`, `R` the counts (one entry each), `I` message identifiers, `E` how many signals
there are up to the end of each message, `N` signal numbers, `T` starts, `F` and `G` the places a route leads from and
to. Entries past the counts are 0.
"""

from rules import MOST_MESSAGES, MOST_ROUTES, MOST_SIGNALS, read_book, spread_call

SIZES = {
    "M": 1, "S": 1, "R": 1, "I": MOST_MESSAGES, "E": MOST_MESSAGES, "N": MOST_SIGNALS, "T": MOST_SIGNALS, "F": MOST_ROUTES, "G": MOST_ROUTES,
}  # fmt: skip
MESSAGE_COLUMNS, ROUTE_COLUMNS = "MSIENT", "RFG"


def record_of(book):
    ends, placed = [], []
    for _, placements in book.messages:
        placed += placements
        ends.append(len(placed))
    columns = {
        "M": [len(book.messages)],
        "S": [len(placed)],
        "R": [len(book.routes)],
        "I": [identifier for identifier, _ in book.messages],
        "E": ends,
        "N": [number for number, _ in placed],
        "T": [start for _, start in placed],
        "F": [origin for origin, _ in book.routes],
        "G": [end for _, end in book.routes],
    }
    return {letter: entries + [0] * (SIZES[letter] - len(entries)) for letter, entries in columns.items()}


def messages_text(record):
    """The M and S lines that the columns show, whatever they hold."""
    lines, begin = [], 0
    for i in range(min(record["M"][0], MOST_MESSAGES)):
        lines.append("M\t%08X\n" % record["I"][i])
        lines += ["S\t%d\t%d\n" % pair for pair in list(zip(record["N"], record["T"]))[begin : record["E"][i]]]
        begin = record["E"][i]
    return "".join(lines).encode()


def routes_text(record):
    """The R lines that the columns show."""
    pairs = list(zip(record["F"], record["G"]))[: record["R"][0]]
    name = lambda key: "%d\t%08X" % (key // 2**29, key % 2**29)
    return "".join("R\t%s\t%s\n" % (name(origin), name(end)) for origin, end in pairs).encode()


def taken_with(record, text, letters):
    """The book of this text, if it is taken and has the record's columns; else None. A taken book that has these
    columns can be written as this text, so no other text has to be tried."""
    answer, book = read_book(text)
    same = all(record_of(book)[letter] == record[letter] for letter in letters)
    return book if answer[0] == "ok" and same else None


def message_book(record):
    return taken_with(record, messages_text(record), MESSAGE_COLUMNS)


def route_book(record):
    return taken_with(record, routes_text(record), ROUTE_COLUMNS)


def spread_by(record, bus, identifier, room):
    book = route_book(record)
    return spread_call(book, bus, identifier, room) if book else ("no", 12)
