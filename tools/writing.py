"""A book written back as text (document 02, P3): the text of a taken book, and the call on a lent record with 12 and 71.

Each M line with its S lines, in book order, then the R lines in book order. A bus is one digit, an identifier 8 digits 0-9 A-F, any
other number is decimal without needless zeros.
"""

from records import message_book, route_book

MOST_WRITTEN = 64 * len("M\t00000000\n") + 256 * len("S\t1927\t63\n") + 64 * len("R\t0\t00000000\t0\t00000000\n")


def identifier_digits(identifier):
    return format(identifier, "X").rjust(8, "0")


def place_fields(key):
    bus, identifier = divmod(key, 2**29)
    return str(bus), identifier_digits(identifier)


def lines_of(messages, routes):
    """The fields of each line."""
    for identifier, placements in messages:
        yield "M", identifier_digits(identifier)
        for number, start in placements:
            yield "S", str(number), str(start)
    for origin, end in routes:
        yield "R", *place_fields(origin), *place_fields(end)


def book_text(messages, routes):
    text = "".join("\t".join(fields) + "\n" for fields in lines_of(messages, routes))
    assert len(text) <= MOST_WRITTEN
    return text


def write_call(record, room):
    """('no', refusal) or ('text', the text): 12 by all tables, then 71."""
    with_messages, with_routes = message_book(record), route_book(record)
    if with_messages is None or with_routes is None:
        return "no", 12
    text = book_text(with_messages.messages, with_routes.routes)
    return ("text", text) if len(text) <= room else ("no", 71)


def write_answer(record, room):
    """What a vectors program prints: the answer, with how many bytes of the room are as they were, and the text."""
    word, told = write_call(record, room)
    if word == "no":
        return f"no\t{told}\t{room}\n"
    return f"text\t{len(told)}\t{room - len(told)}\n{told}"
