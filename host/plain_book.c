/* The book reader, and the test of a lent book's message and signal tables. */
#include "plain.h"
#include "plain_signals.h"
#include <string.h>

struct part {
    const uint8_t *bytes;
    size_t length;
};

/* Parts a line at its tabs. Gives the count of fields, which may be more than fit. */
static unsigned fields_of(const uint8_t *line, size_t length, struct part fields[5]) {
    unsigned count = 0;
    size_t begin = 0;
    for (size_t i = 0; i <= length; i++)
        if (i == length || line[i] == '\t') {
            if (count < 5) {
                fields[count].bytes = line + begin;
                fields[count].length = i - begin;
            }
            count++;
            begin = i + 1;
        }
    return count;
}

/* Exactly 8 digits 0-9 A-F. */
static int identifier_in(struct part field, uint32_t *value) {
    uint32_t sum = 0;
    if (field.length != 8)
        return 0;
    for (size_t i = 0; i < 8; i++) {
        uint8_t c = field.bytes[i];
        if (c >= '0' && c <= '9')
            sum = sum * 16 + (c - '0');
        else if (c >= 'A' && c <= 'F')
            sum = sum * 16 + (c - 'A' + 10);
        else
            return 0;
    }
    *value = sum;
    return 1;
}

/* 1 to 5 decimal digits, no needless leading zero. */
static int number_in(struct part field, uint32_t *value) {
    uint32_t sum = 0;
    if (field.length < 1 || field.length > 5 || (field.length > 1 && field.bytes[0] == '0'))
        return 0;
    for (size_t i = 0; i < field.length; i++) {
        uint8_t c = field.bytes[i];
        if (c < '0' || c > '9')
            return 0;
        sum = sum * 10 + (c - '0');
    }
    *value = sum;
    return 1;
}

static int identifier_fits(uint32_t identifier) {
    return identifier < (uint32_t)1 << 29;
}

static int misplaced(const struct plain_row *row, uint32_t start) {
    return start + row->bits > 64 || (row->number == CHECKSUM && start != CHECKSUM_START) ||
           (row->number == COUNTER && start != COUNTER_START);
}

static uint64_t bits_at(const struct plain_row *row, uint32_t start) {
    return (((uint64_t)1 << row->bits) - 1) << start;
}

/* What is gathered while the lines are read: the book, the bits that the last message has placed, each route's line. */
struct reading {
    uint32_t *book;
    uint64_t placed;
    uint32_t line_of_route[PC_MOST_ROUTES];
};

static uint32_t add_message(struct reading *r, const struct part *fields, unsigned count) {
    uint32_t identifier, messages = r->book[PC_BOOK_MESSAGES];
    if (count != 2 || !identifier_in(fields[1], &identifier))
        return PC_LINE_FORM;
    if (!identifier_fits(identifier))
        return PC_OVER_LIMIT;
    for (uint32_t i = 0; i < messages; i++)
        if (r->book[PC_BOOK_IDENTIFIERS + i] == identifier)
            return PC_MESSAGE_REPEATED;
    if (messages == PC_MOST_MESSAGES)
        return PC_TABLE_FULL;
    r->book[PC_BOOK_IDENTIFIERS + messages] = identifier;
    r->book[PC_BOOK_ENDS + messages] = r->book[PC_BOOK_SIGNALS];
    r->book[PC_BOOK_MESSAGES]++;
    r->placed = 0;
    return PC_DONE;
}

static uint32_t add_signal(struct reading *r, const struct part *fields, unsigned count) {
    uint32_t number, start, messages = r->book[PC_BOOK_MESSAGES], signals = r->book[PC_BOOK_SIGNALS];
    if (count != 3 || !number_in(fields[1], &number) || !number_in(fields[2], &start))
        return PC_LINE_FORM;
    const struct plain_row *row = plain_row_of(number);
    if (!row || start > 63)
        return PC_OVER_LIMIT;
    if (messages == 0)
        return PC_SIGNAL_WITHOUT_MESSAGE;
    uint32_t first = messages == 1 ? 0 : r->book[PC_BOOK_ENDS + messages - 2];
    for (uint32_t i = first; i < signals; i++)
        if (r->book[PC_BOOK_NUMBERS + i] == number)
            return PC_SIGNAL_REPEATED;
    if (misplaced(row, start))
        return PC_SIGNAL_MISPLACED;
    if (r->placed & bits_at(row, start))
        return PC_BITS_MEET;
    if (signals == PC_MOST_SIGNALS)
        return PC_TABLE_FULL;
    r->book[PC_BOOK_NUMBERS + signals] = number;
    r->book[PC_BOOK_STARTS + signals] = start;
    r->book[PC_BOOK_SIGNALS]++;
    r->book[PC_BOOK_ENDS + messages - 1]++;
    r->placed |= bits_at(row, start);
    return PC_DONE;
}

static uint32_t add_route(struct reading *r, const struct part *fields, unsigned count, uint32_t line) {
    uint32_t from_bus, from, to_bus, to, routes = r->book[PC_BOOK_ROUTES];
    if (count != 5 || !number_in(fields[1], &from_bus) || !identifier_in(fields[2], &from) ||
        !number_in(fields[3], &to_bus) || !identifier_in(fields[4], &to))
        return PC_LINE_FORM;
    if (from_bus > 7 || to_bus > 7 || !identifier_fits(from) || !identifier_fits(to))
        return PC_OVER_LIMIT;
    if (routes == PC_MOST_ROUTES)
        return PC_TABLE_FULL;
    r->book[PC_BOOK_FROM + routes] = PC_PLACE(from_bus, from);
    r->book[PC_BOOK_TO + routes] = PC_PLACE(to_bus, to);
    r->book[PC_BOOK_ROUTES]++;
    r->line_of_route[routes] = line;
    return PC_DONE;
}

static uint32_t add_line(struct reading *r, const uint8_t *bytes, size_t length, uint32_t line) {
    struct part fields[5];
    unsigned count = fields_of(bytes, length, fields);
    if (fields[0].length != 1)
        return PC_LINE_FORM;
    switch (fields[0].bytes[0]) {
    case 'M':
        return add_message(r, fields, count);
    case 'S':
        return add_signal(r, fields, count);
    case 'R':
        return add_route(r, fields, count, line);
    default:
        return PC_LINE_FORM;
    }
}

static uint32_t refuse(uint32_t refusal, uint32_t at, uint32_t book[PC_BOOK_WORDS], uint32_t *line) {
    memset(book, 0, PC_BOOK_WORDS * sizeof *book);
    *line = at;
    return refusal;
}

uint32_t plain_book_read(const uint8_t *text, uint64_t text_length, uint32_t book[PC_BOOK_WORDS], uint32_t *line) {
    struct reading r = { .book = book, .placed = 0 };
    uint32_t number = 0, lowest, refusal;
    memset(book, 0, PC_BOOK_WORDS * sizeof *book);
    if (text_length > PC_MOST_TEXT)
        return refuse(PC_TEXT_TOO_LONG, 0, book, line);
    for (const uint8_t *at = text, *end = text + text_length; at < end;) {
        const uint8_t *newline = memchr(at, '\n', (size_t)(end - at));
        number++;
        refusal = newline ? add_line(&r, at, (size_t)(newline - at), number) : (uint32_t)PC_LINE_FORM;
        if (refusal)
            return refuse(refusal, number, book, line);
        at = newline + 1;
    }
    refusal = plain_routes_refusal(book + PC_BOOK_FROM, book + PC_BOOK_TO, book[PC_BOOK_ROUTES], &lowest);
    if (refusal)
        return refuse(refusal, r.line_of_route[lowest], book, line);
    *line = 0;
    return PC_DONE;
}

static int all_zero(const uint32_t *words, uint32_t count) {
    for (uint32_t i = 0; i < count; i++)
        if (words[i] != 0)
            return 0;
    return 1;
}

/* Whether the signals from first up to end could be those of one message. */
static int signals_fit(const uint32_t book[PC_BOOK_WORDS], uint32_t first, uint32_t end) {
    const uint32_t *numbers = book + PC_BOOK_NUMBERS, *starts = book + PC_BOOK_STARTS;
    uint64_t placed = 0;
    for (uint32_t i = first; i < end; i++) {
        const struct plain_row *row = plain_row_of(numbers[i]);
        if (!row || starts[i] > 63 || misplaced(row, starts[i]) || (placed & bits_at(row, starts[i])))
            return 0;
        for (uint32_t j = first; j < i; j++)
            if (numbers[j] == numbers[i])
                return 0;
        placed |= bits_at(row, starts[i]);
    }
    return 1;
}

int plain_messages_taken(const uint32_t book[PC_BOOK_WORDS]) {
    uint32_t messages = book[PC_BOOK_MESSAGES], signals = book[PC_BOOK_SIGNALS], first = 0;
    const uint32_t *identifiers = book + PC_BOOK_IDENTIFIERS, *ends = book + PC_BOOK_ENDS;
    if (messages > PC_MOST_MESSAGES || signals > PC_MOST_SIGNALS)
        return 0;
    if (!all_zero(identifiers + messages, PC_MOST_MESSAGES - messages) || !all_zero(ends + messages, PC_MOST_MESSAGES - messages) ||
        !all_zero(book + PC_BOOK_NUMBERS + signals, PC_MOST_SIGNALS - signals) ||
        !all_zero(book + PC_BOOK_STARTS + signals, PC_MOST_SIGNALS - signals))
        return 0;
    for (uint32_t m = 0; m < messages; m++) {
        if (!identifier_fits(identifiers[m]) || ends[m] < first || ends[m] > signals)
            return 0;
        for (uint32_t i = 0; i < m; i++)
            if (identifiers[i] == identifiers[m])
                return 0;
        if (!signals_fit(book, first, ends[m]))
            return 0;
        first = ends[m];
    }
    return first == signals;
}
