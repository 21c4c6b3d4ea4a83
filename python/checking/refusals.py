"""What each refusal means and how to mend it, in words: SENTENCES for the first line, `advice` for what stands below it."""

from . import signals, slips
from .texts import said_by
from .verdicts import verdict_on

# The headings of docs/BOOK.md.
SENTENCES = {
    1: "the text is over 32,768 bytes",
    2: "the line is ill formed",
    3: "a number is over its limit, or the catalogue has no such signal",
    4: "an S line before any M line",
    5: "the identifier already has an M line",
    6: "the signal is already in this message",
    7: "the signal does not fit there",
    8: "the signal's bits meet an earlier signal of the message",
    9: "one line too many",
    10: "frames would go round in a loop",
    11: "a frame would arrive twice",
}
MOST = {"M": 64, "S": 256, "R": 64}
LINES_NAMED = 8
TOO_MANY_ROUTES = (
    f"Strike routes that nobody needs. Don't split them over several books to get below {MOST['R']}: routes that are not checked together are "
    "not checked for loops, and a loop over two books is what drains a truck's battery."
)
SIGNAL_NUMBERS = (
    "A signal's number is table x 100 + row of the standard (but 1301, 1302 are the software version, 1303, 1304 the hardware version, "
    "1305 year, 1306 month, 1307 day); docs/SIGNALS.md lists them."
)


def list_of(numbers):
    """Line numbers in words, not all of many."""
    named = ", ".join(str(number) for number in numbers[:LINES_NAMED])
    more = f" and {len(numbers) - LINES_NAMED} more" if len(numbers) > LINES_NAMED else ""
    return f"line{'s' * (len(numbers) > 1)} {named}{more}"


def too_long(book, line, said):
    yield "No book that can be taken has more than 4,800 bytes. Is it the file you meant?"


# ---- the form of a line

# Slips that leave nothing of the line to write otherwise.
UNSEEN = {"a byte order mark", "CR LF", "an empty line"}
# Slips that tend to be on many lines.
HABITS = {"CR LF", "spaces", "commas", "quotes", "tabs too many", "small letters", "0x", "look-alike characters", "a name", "zeros in front"}


def ill_formed(book, line, said):
    if whole := slips.of_file(book):
        yield from whole
        return
    text = book.lines()[line - 1]
    found = slips.of_line(text)
    yield from (words for _, words in found.words)
    unfinished = line == len(book.lines()) and not book.ends_whole()
    if unfinished and "an empty line" not in found.names():
        yield "It is the last line and does not end with a newline: press Enter at its end, and save."
    if not set(found.names()) <= UNSEEN:
        yield from written_so(book, line, found.meant)
    elif not found.words and not unfinished:
        yield from slips.form_of(text)
    yield from on_other_lines(book, line, found.names())


def written_so(book, line, meant):
    """The line as it was probably meant, where the proved checker then no longer finds its form wrong; else how such a line is written."""
    before = b"".join(text + b"\n" for text in book.lines()[: line - 1])
    verdict = verdict_on(before + meant.encode() + b"\n")
    if meant and (verdict.refusal, verdict.line) != (2, line):
        yield "It was probably meant so:\n\n    " + meant
    else:
        yield from slips.form_of(book.lines()[line - 1])


def on_other_lines(book, line, names):
    """Which other lines have a slip that tends to be on many."""
    others = [(number, slips.of_line(text).names()) for number, text in enumerate(book.lines(), 1) if number != line]
    for name in names:
        lines = [number for number, has in others if name in has]
        if name in HABITS and lines:
            yield f"Also with {name}: {list_of(lines)}."


# ---- what a well-formed line says


def over_limit(book, line, said):
    if said.kind == "S":
        number, start = (int(field) for field in said.fields)
        if number not in signals.WIDTHS:
            table = signals.of_table(number)
            there = f"table {number // 100} has {table[0]} to {table[1]}" if table else f"there is no table {number // 100} with signals"
            yield f"There is no signal {number}: {there}. {SIGNAL_NUMBERS}"
        if start >= signals.FRAME_BITS:
            yield f"The start {start} is over 63, the last bit of a frame."
        return
    identifiers = said.fields if said.kind == "M" else said.fields[1::2]
    for bus in said.fields[::2] if said.kind == "R" else ():
        if int(bus) > 7:
            yield f"There is no bus {bus}: buses are 0 to 7."
    for identifier in identifiers:
        if int(identifier, 16) >= 2**29:
            yield f"The identifier {identifier} is not below 20000000 (29 bits)." + flagged(identifier)


def flagged(identifier):
    """What to do about an identifier that still has its flag from a log."""
    bare = int(identifier, 16) - 2**31
    return f" Identifiers copied from a log may carry a flag in front: without it this one is {bare:08X}." if 0 <= bare < 2**29 else ""


def lonely(book, line, said):
    yield "A signal belongs to the nearest M line above it, and there is none. Write the M line of its message above it."


def earlier(book, line, said):
    """The nearest line above of the same kind and with the same first field."""
    for number in range(line - 1, 0, -1):
        other = said_by(book.lines()[number - 1])
        if other and other.kind == said.kind and other.fields[0] == said.fields[0]:
            return number
    return 0


def repeated_message(book, line, said):
    yield (
        f"Line {earlier(book, line, said)} is the M line of {said.fields[0]} already, and a message is described once. "
        "Strike this one, and move its S lines under the other: left here, they would belong to the message above."
    )


def repeated_signal(book, line, said):
    yield (
        f"Line {earlier(book, line, said)} places signal {said.fields[0]} in this message already. Strike one of the two, or mend the number "
        "of the one that was meant otherwise. The same signal in another message is fine."
    )


def misplaced(book, line, said):
    number = int(said.fields[0])
    if number in signals.OWN_STARTS:
        yield f"The {'checksum' if number == 503 else 'counter'} {number} sits at start {signals.OWN_STARTS[number]}, nowhere else."
    else:
        bits = signals.width(number)
        yield f"Signal {number} has {bits} bit{'s' * (bits > 1)} and a frame has bits 0 to 63, so {signals.FRAME_BITS - bits} is the last start it can have."


def meeting(book, line, said):
    mine, others = signals.neighbours(book, line)
    for other in others:
        if other.line < line and other.meets(mine):
            yield f"Signal {mine.number} fills bits {mine.start} to {mine.last()}; signal {other.number} in line {other.line} fills {other.start} to {other.last()}."
    start = signals.free_start(mine, others)
    yield (
        f"Move one of them: at start {start}, for one, signal {mine.number} meets no other signal of the message."
        if start is not None
        else f"Move the other, or put one of them into another message: there is no other place for signal {mine.number} in this one."
    )


def one_too_many(book, line, said):
    most = MOST[said.kind]
    there = sum(text.startswith(said.kind.encode() + b"\t") for text in book.lines())
    yield f"It is {said.kind} line {most + 1} of {there}, and a book has {most} at most."
    yield TOO_MANY_ROUTES if said.kind == "R" else (
        "Strike messages that this gateway neither reads nor packs, or give them to another gateway's book. Leave the R lines as they are: "
        "frames are handed on without an M line too."
    )


ADVICE = {
    1: too_long,
    2: ill_formed,
    3: over_limit,
    4: lonely,
    5: repeated_message,
    6: repeated_signal,
    7: misplaced,
    8: meeting,
    9: one_too_many,
}


def advice(book, verdict):
    """The paragraphs below the first line of a refusal of one book, but for 10 and 11, which are about several lines."""
    line = verdict.line
    said = said_by(book.lines()[line - 1]) if line else None
    return list(dict.fromkeys(ADVICE[verdict.refusal](book, line, said)))
