/* Cases of the book reader. */
#include "edge_text.h"
#include "test.h"

static struct made_text text;

/* The first byte of the text's line with this number. */
static uint8_t kind_of_line(uint32_t line) {
    const uint8_t *at = text.bytes;
    for (; line > 1; line--)
        at = (const uint8_t *)memchr(at, '\n', (size_t)(text.bytes + text.length - at)) + 1;
    return *at;
}

static void meet_text(uint32_t refusal, const uint32_t book[PC_BOOK_WORDS], uint32_t line) {
    uint8_t over = refusal == PC_TABLE_FULL ? kind_of_line(line) : 0;
    const int lengths[] = { text.length == 0, text.length == PC_MOST_TEXT - 1, text.length == PC_MOST_TEXT, text.length == PC_MOST_TEXT + 1 };
    const int full[] = {
        book[PC_BOOK_MESSAGES] == PC_MOST_MESSAGES, book[PC_BOOK_SIGNALS] == PC_MOST_SIGNALS, book[PC_BOOK_ROUTES] == PC_MOST_ROUTES,
        over == 'M', over == 'S', over == 'R',
    };
    meet_each(TEXT_LENGTHS, lengths, 4);
    meet_each(FULL_TABLES, full, 6);
}

uint32_t compare_book_read(const uint8_t *bytes, size_t length, uint32_t book[PC_BOOK_WORDS], uint32_t *line) {
    begin_case(BOOK_READ);
    struct lent *t = lend_bytes("text", bytes, length), *b = lend("book", 0, 4 * PC_BOOK_WORDS), *l = lend("line", 0, 4);
    uint32_t library = pc_book_read(L(t, uint8_t), length, L(b, uint32_t), L(l, uint32_t));
    uint32_t plain = plain_book_read(P(t, uint8_t), length, P(b, uint32_t), P(l, uint32_t));
    judge(library, plain, 1);
    memcpy(book, P(b, uint32_t), 4 * PC_BOOK_WORDS);
    *line = *P(l, uint32_t);
    return plain;
}

/* Gives the refusal, and its line. */
static uint32_t try_book_read(uint32_t *line) {
    uint32_t book[PC_BOOK_WORDS], refusal = compare_book_read(text.bytes, text.length, book, line);
    meet_text(refusal, book, *line);
    return refusal;
}

static void make_any_text(void) {
    uint32_t size = below(8), messages = 1 + below(20), signals = below(80), routes = below(40);
    if (size == 0) { /* full, or one line over */
        messages = 64 + once_in(4);
        signals = 256 + once_in(4);
        routes = 64 + once_in(4);
        if (once_in(2))
            routes = below(3);
    } else if (size == 1) {
        messages = signals = 0;
        routes = once_in(3) ? 64 : 1 + below(64);
    } else if (size == 2) {
        messages = below(4);
        signals = below(8);
        routes = 2 + below(6);
    }
    make_text(&text, &chance, messages, signals, routes);
}

/* The small ones at least are soon found. */
void make_taken_book(uint32_t book[PC_BOOK_WORDS]) {
    uint32_t line;
    do
        make_any_text();
    while (plain_book_read(text.bytes, text.length, book, &line) != 0);
}

/* Over the limit of bytes or near it: lines that can be taken, then more. */
static void make_long_text(void) {
    size_t wanted = PC_MOST_TEXT - 2 + below(5);
    make_any_text();
    while (text.length < wanted) {
        size_t part = text.length < wanted - text.length ? text.length : wanted - text.length;
        if (part == 0)
            text.bytes[text.length++] = '\n';
        memmove(text.bytes + text.length, text.bytes, part);
        text.length += part;
    }
}

static void try_edge_text(void) {
    static uint32_t next;
    uint32_t which = next++ % EDGE_TEXTS, line;
    make_edge_text(&text, which);
    try_book_read(&line);
    meet(EDGE_LINES, which);
}

static void try_full_text(void) {
    uint32_t which = below(FULL_TEXTS), meant = make_full_text(&text, &chance, which), line;
    if (try_book_read(&line) == meant)
        meet(FULL_LINES, which);
}

/* Counts loops and doubling that are on the first line, and that are not. */
static void try_knot(void) {
    uint32_t routes = 1 + below(7), line;
    make_knot(&text, &chance, routes, once_in(2));
    uint32_t refusal = try_book_read(&line);
    if (refusal != PC_DONE)
        meet(KNOTS, 2 * (refusal - PC_CLOSED_CHAIN) + (line > 1));
}

void try_texts(void) {
    uint32_t line;
    for (int i = 0; i < 4; i++) {
        make_any_text();
        try_book_read(&line);
        for (uint32_t times = 1 + below(3); times > 0; times--)
            damage_text(&text, &chance);
        try_book_read(&line);
    }
    make_jumble(&text, &chance, below(60));
    try_book_read(&line);
    try_edge_text();
    try_knot();
    if (once_in(2))
        try_full_text();
    if (once_in(8)) {
        make_long_text();
        try_book_read(&line);
    }
}

