"""Document 01's rules as plain Python, slow and direct: the second, independent way to every expected output.

Written from document 01 alone. Where the document says "lowest", "first" or "every", this code collects all of them and
takes the lowest, the first or every one; nothing here is clever, so that it can be held against the document by eye.
"""

import struct

from catalogue import class_of, class_of_count, load

CATALOGUE = load()


# --- the dash ---------------------------------------------------------------------------------------------------------


def double_bits(thousandths):
    """The bits of the reading as a double, in 16 hex digits: Python's floats are IEEE 754's, which round a quotient once."""
    return struct.pack(">d", float(thousandths) / 1000.0).hex().upper()


def dash(number, raw):
    """('no', refusal), ('value', the bits of its double) or (another class,)."""
    word, amount = class_of(CATALOGUE, number, raw)
    if word == "value":
        return word, double_bits(amount)
    return (word, amount) if word == "no" else (word,)


# --- places, chains, spread -------------------------------------------------------------------------------------------
# A route is a pair of places, a place is one number: bus x 2^29 + identifier.


def place(bus, identifier):
    return bus * 2**29 + identifier


def chains(routes, longest):
    """Every chain of at most `longest` routes, as a list of route indices."""
    grown = [[i] for i in range(len(routes))]
    while grown:
        yield from grown
        grown = [
            chain + [i]
            for chain in grown
            if len(chain) < longest
            for i in range(len(routes))
            if routes[i][0] == routes[chain[-1]][1]
        ]


def verdict_by_chains(routes):
    """('loop', i), ('doubling', i) or ('sound',), straight from the definitions, by listing every chain.

    A route on a closed chain is also on one without a repeated route, so chains as long as the table are enough."""
    every = list(chains(routes, len(routes)))
    ends = lambda chain: (routes[chain[0]][0], routes[chain[-1]][1])
    closed = [chain for chain in every if ends(chain)[0] == ends(chain)[1]]
    if closed:
        return "loop", min(min(chain) for chain in closed)
    joined = {}
    for chain in every:
        joined.setdefault(ends(chain), []).append(chain)
    paired = [chain for group in joined.values() if len(group) > 1 for chain in group]
    if paired:
        return "doubling", min(chain[0] for chain in paired)
    return ("sound",)


def reaches(routes, start):
    """The places that a chain from this place leads to."""
    found, todo = set(), [start]
    while todo:
        here = todo.pop()
        for origin, end in routes:
            if origin == here and end not in found:
                found.add(end)
                todo.append(end)
    return found


def chain_counts(routes):
    """{(p, q): how many chains lead from p to q}, for routes without a closed chain."""
    known = {}

    def counts_from(start):
        if start not in known:
            counts = {}
            for origin, end in routes:
                if origin == start:
                    counts[end] = counts.get(end, 0) + 1
                    for far, ways in counts_from(end).items():
                        counts[far] = counts.get(far, 0) + ways
            known[start] = counts
        return known[start]

    return {(p, q): ways for p, _ in routes for q, ways in counts_from(p).items()}


def verdict_by_counting(routes):
    """The same verdict for tables with too many chains to list: by searching and by counting chains."""
    on_loop = [i for i, (origin, end) in enumerate(routes) if end == origin or origin in reaches(routes, end)]
    if on_loop:
        return "loop", min(on_loop)
    doubled = [pair for pair, ways in chain_counts(routes).items() if ways > 1]
    begins = [
        i
        for i, (origin, end) in enumerate(routes)
        for p, q in doubled
        if p == origin and (q == end or q in reaches(routes, end))
    ]
    if begins:
        return "doubling", min(begins)
    return ("sound",)


def spread(routes, start):
    """A place's routes in book order: the place each leads to, then that place's own spread. Loop-free routes only."""
    entries = []
    for origin, end in routes:
        if origin == start:
            entries.append(end)
            entries += spread(routes, end)
    return entries


# --- the route book ---------------------------------------------------------------------------------------------------

MOST_BYTES, MOST_MESSAGES, MOST_SIGNALS, MOST_ROUTES = 32768, 64, 256, 64
HEX, DIGITS = b"0123456789ABCDEF", b"0123456789"
FIXED_STARTS = {503: 60, 504: 56}


class Book:
    """messages: [(identifier, [(signal number, start)])]; routes: [(from place, to place)]; lines: the routes' line numbers."""

    def __init__(self):
        self.messages, self.routes, self.lines = [], [], []

    def signal_count(self):
        return sum(len(placements) for _, placements in self.messages)

    def placements(self, identifier):
        for known, placements in self.messages:
            if known == identifier:
                return placements
        return None


def identifier_field(field):
    return int(field, 16) if len(field) == 8 and all(digit in HEX for digit in field) else None


def number_field(field):
    if not 1 <= len(field) <= 5 or not all(digit in DIGITS for digit in field):
        return None
    return None if len(field) > 1 and field[:1] == b"0" else int(field)


LINE_FORMS = {
    b"M": [identifier_field],
    b"S": [number_field, number_field],
    b"R": [number_field, identifier_field, number_field, identifier_field],
}


def line_meaning(line):
    """(kind, numbers) of a line without its newline, or None where its form is bad."""
    kind, *fields = line.split(b"\t")
    forms = LINE_FORMS.get(kind)
    if forms is None or len(forms) != len(fields):
        return None
    numbers = [form(field) for form, field in zip(forms, fields)]
    return None if None in numbers else (kind, numbers)


def bits_of(number, start):
    return set(range(start, start + CATALOGUE[number].bits))


def message_refusals(book, identifier):
    if identifier >= 2**29:
        yield 3
    if book.placements(identifier) is not None:
        yield 5
    if len(book.messages) == MOST_MESSAGES:
        yield 9


def signal_refusals(book, number, start):
    if number not in CATALOGUE or start > 63:
        yield 3
    if not book.messages:
        yield 4
    if book.signal_count() == MOST_SIGNALS:
        yield 9
    earlier = book.messages[-1][1] if book.messages else []
    if number in [placed for placed, _ in earlier]:
        yield 6
    if number in CATALOGUE:
        if start + CATALOGUE[number].bits > 64 or start != FIXED_STARTS.get(number, start):
            yield 7
        if any(bits_of(number, start) & bits_of(*placement) for placement in earlier):
            yield 8


def route_refusals(book, bus, identifier, to_bus, to_identifier):
    if max(bus, to_bus) > 7 or max(identifier, to_identifier) >= 2**29:
        yield 3
    if len(book.routes) == MOST_ROUTES:
        yield 9


def line_refusals(book, line):
    """Every refusal that holds of this line, given the lines before it."""
    meaning = line_meaning(line)
    if meaning is None:
        return [2]
    kind, numbers = meaning
    test = {b"M": message_refusals, b"S": signal_refusals, b"R": route_refusals}[kind]
    return list(test(book, *numbers))


def take_line(book, line, at):
    kind, numbers = line_meaning(line)
    if kind == b"M":
        book.messages.append((numbers[0], []))
    elif kind == b"S":
        book.messages[-1][1].append(tuple(numbers))
    else:
        book.routes.append((place(*numbers[:2]), place(*numbers[2:])))
        book.lines.append(at)


def read_book(text):
    """(answer, book): ('ok', M, S, R) or ('no', refusal, line), and the book, empty on a refusal."""
    if len(text) > MOST_BYTES:
        return ("no", 1, 0), Book()
    book = Book()
    *lines, rest = text.split(b"\n")
    for at, line in enumerate(lines, 1):
        refusals = line_refusals(book, line)
        if refusals:
            return ("no", min(refusals), at), Book()
        take_line(book, line, at)
    if rest:
        return ("no", 2, len(lines) + 1), Book()
    verdict = verdict_by_counting(book.routes)
    if verdict[0] != "sound":
        return ("no", {"loop": 10, "doubling": 11}[verdict[0]], book.lines[verdict[1]]), Book()
    return ("ok", len(book.messages), book.signal_count(), len(book.routes)), book


def spread_call(book, bus, identifier, room):
    """The public spread on a taken book: 61, 62, then the entries."""
    if bus > 7 or identifier >= 2**29:
        return "no", 61
    entries = spread(book.routes, place(bus, identifier))
    if room < len(entries):
        return "no", 62
    return "spread", entries


# --- bits in a frame --------------------------------------------------------------------------------------------------


def frame_bit(frame, k):
    return frame[k // 8] // 2 ** (k % 8) % 2


def take_bits(frame, start, bits):
    return sum(2**j for j in range(bits) if frame_bit(frame, start + j))


def place_bits(frame, start, bits, count):
    """The same frame with this count's bits at their place."""
    made = list(frame)
    for j in range(bits):
        k = start + j
        weight = 2 ** (k % 8)
        made[k // 8] += weight * (count // 2**j % 2 - frame_bit(made, k))
    return made


def checksum(identifier, frame):
    counter = frame[7] % 16
    total = sum(frame[:7]) + counter + sum(identifier.to_bytes(4, "big"))
    return (total // 64 % 4 + total // 8 + total) % 8


def read_frame(book, identifier, frame, room):
    """('no', refusal) or ('read', [(raw, word, thousandths or 0)])."""
    if len(frame) != 8:
        return "no", 21
    placements = book.placements(identifier)
    if placements is None:
        return "no", 22
    if 503 in dict(placements) and take_bits(frame, 60, 4) != checksum(identifier, frame):
        return "no", 23
    if room < len(placements):
        return "no", 24
    readings = []
    for number, start in placements:
        row = CATALOGUE[number]
        raw = take_bits(frame, start, row.bits)
        word, amount = class_of_count(row, raw)
        readings.append((raw, word, amount if word == "value" else 0))
    return "read", readings


def pack_frame(book, identifier, length, counts):
    """('no', refusal) or ('packed', bytes)."""
    placements = book.placements(identifier)
    if placements is None:
        return "no", 22
    if len(counts) != len(placements):
        return "no", 25
    if length != 8:
        return "no", 21
    frame = [0xFF] * 8
    for (number, start), count in zip(placements, counts):
        row = CATALOGUE[number]
        if number == 503:
            continue
        if count >= 2**row.bits:
            return "no", 26
        if class_of_count(row, count)[0] in ("reserved", "outside"):
            return "no", 27
        frame = place_bits(frame, start, row.bits, count)
    if 503 in dict(placements):
        frame = place_bits(frame, 60, 4, checksum(identifier, frame))
    return "packed", bytes(frame)


# --- the frame lister -------------------------------------------------------------------------------------------------


def frame_line(line):
    """(identifier, bytes) of a line without its newline, or None where it is ill formed."""
    name, *rest = line.split(b"\t")
    identifier = identifier_field(name)
    if identifier is None or len(rest) != 1:
        return None
    digits = rest[0]
    if len(digits) > 16 or len(digits) % 2 or not all(digit in HEX for digit in digits):
        return None
    return identifier, bytes.fromhex(digits.decode())


def list_line(book, line, figures):
    """The output lines of one frame line; `figures` writes the thousandths of a value."""
    frame = frame_line(line)
    if frame is None:
        return ["no\t20"]
    identifier, content = frame
    answer, found = read_frame(book, identifier, content, MOST_SIGNALS)
    if answer == "no":
        return ["%08X\tno\t%d" % (identifier, found)]
    numbers = [number for number, _ in book.placements(identifier)]
    return [
        "%08X\t%d\t%s\t%s" % (identifier, number, word, figures(thousandths) if word == "value" else raw)
        for number, (raw, word, thousandths) in zip(numbers, found)
    ]


def checker_line(answer):
    return "\t".join(str(field) for field in answer)


def listing(book_text, frames_text, figures=str):
    """What the frame lister prints; with `double_bits` for the figures of a value, what the lister for the dash prints."""
    answer, book = read_book(book_text)
    if answer[0] == "no":
        return checker_line(answer) + "\n"
    *lines, rest = frames_text.split(b"\n")
    printed = [out for line in lines for out in list_line(book, line, figures)]
    if rest:
        printed.append("no\t20")
    return "".join(line + "\n" for line in printed)


# --- faults -----------------------------------------------------------------------------------------------------------

FAULT_ROWS = list(range(1901, 1928))
LEVEL_ROWS = list(range(1902, 1915)) + [1925]
ONE_BIT_ROWS = list(range(1915, 1922)) + [1924, 1926, 1927]
EMERGENCY_LEVEL_ROWS = [1902, 1903, 1905, 1907, 1908]


def fault_sum(counts):
    """('no', refusal) or ('sum', highest, at 1, at 2, at 3, set, emergency, agrees)."""
    if len(counts) != len(FAULT_ROWS):
        return "no", 31
    of = dict(zip(FAULT_ROWS, counts))
    if any(of[number] >= 2 ** CATALOGUE[number].bits for number in FAULT_ROWS):
        return "no", 32
    levels = [of[number] for number in LEVEL_ROWS]
    emergency = any(of[number] == 3 for number in EMERGENCY_LEVEL_ROWS) or of[1921] == 1
    standing = [levels.count(level) for level in (1, 2, 3)]
    faults_set = sum(of[number] for number in ONE_BIT_ROWS)
    return ("sum", max(levels), *standing, faults_set, int(emergency), int(of[1901] == max(levels)))


# --- power ------------------------------------------------------------------------------------------------------------

OFF, RISING, PRECHARGE, BOTH, ON, FALLING, FAULT = range(7)
START = OFF
# Main negative, precharge, main positive: o open, c closed.
PICTURES = {OFF: "ooo", RISING: "coo", PRECHARGE: "cco", BOTH: "ccc", ON: "coc", FALLING: "coo"}
RELAY = {1: "o", 2: "c"}


SHARE_WHERE_NONE = 90


def precharge_complete(inside, outside, share):
    """The share is a number, or None where none is given."""
    share = SHARE_WHERE_NONE if share is None else share
    valid = all(class_of(CATALOGUE, number, raw)[0] == "value" for number, raw in ((201, inside), (202, outside)))
    return 50 <= share <= 100 and valid and inside > 0 and 100 * outside >= share * inside


def power_step(state, relays, command, request, current, inside, outside, share):
    """The next state, or ('no', refusal). `request` is 1604; `share` a number, or None where none is given."""
    if any(relay not in RELAY for relay in relays):
        return "no", 41
    if command > 3 or request > 3:
        return "no", 42
    if max(current, inside, outside) > 65535:
        return "no", 43
    if share is not None and (share < 50 or share > 100):
        return "no", 44
    picture = "".join(RELAY[relay] for relay in relays)
    urgent = command == 3 or request == 1
    if state == FAULT:
        return OFF if picture == "ooo" and command in (0, 2) else FAULT
    if picture == PICTURES[state]:
        return state
    if urgent and picture == "ooo":
        return OFF
    under_10_a = 19901 <= current <= 20099
    steps = [
        (OFF, RISING, command == 1),
        (RISING, PRECHARGE, command == 1),
        (PRECHARGE, BOTH, command == 1 and precharge_complete(inside, outside, share)),
        (BOTH, ON, True),
        (FALLING, OFF, True),
        (RISING, OFF, command == 2),
        (PRECHARGE, FALLING, command == 2 or urgent),
        (ON, FALLING, urgent or (command == 2 and under_10_a)),
    ]
    for before, after, allowed in steps:
        if state == before and allowed and picture == PICTURES[after]:
            return after
    return FAULT


# --- sleep ------------------------------------------------------------------------------------------------------------


class SleepWatch:
    def __init__(self, now):
        self.asleep, self.last_wake = False, now

    def call(self, now, wake):
        """'awake', 'asleep' or 'no' (refusal 51, state kept)."""
        age = (now - self.last_wake) % 2**32
        if not self.asleep and age >= 2**31:
            return "no"
        if wake:
            self.asleep, self.last_wake = False, now
        elif age >= 10000:
            self.asleep = True
        return "asleep" if self.asleep else "awake"
