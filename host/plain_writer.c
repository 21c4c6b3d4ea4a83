/* The book writer: the length of the text first, then its lines, straight into the room. */
#include "plain.h"

/* The bytes of an M line and of an R line, and those of an S line beside its two numbers. */
enum { MESSAGE_LINE = 11, ROUTE_LINE = 24, SIGNAL_LINE = 4 };

/* Of a signal's number or start, which have at most four digits. */
static uint32_t digits_of(uint32_t number) {
    return number < 10 ? 1 : number < 100 ? 2 : number < 1000 ? 3 : 4;
}

static uint32_t length_of(const uint32_t book[PC_BOOK_WORDS]) {
    uint32_t signals = book[PC_BOOK_SIGNALS];
    uint32_t length = MESSAGE_LINE * book[PC_BOOK_MESSAGES] + SIGNAL_LINE * signals + ROUTE_LINE * book[PC_BOOK_ROUTES];
    for (uint32_t i = 0; i < signals; i++)
        length += digits_of(book[PC_BOOK_NUMBERS + i]) + digits_of(book[PC_BOOK_STARTS + i]);
    return length;
}

/* ---- Each puts something at a place in the room, and gives the place behind it. */

static uint8_t *put_number(uint8_t *at, uint32_t number) {
    uint8_t *end = at + digits_of(number), *digit = end;
    do
        *--digit = (uint8_t)('0' + number % 10);
    while ((number /= 10) != 0);
    return end;
}

static uint8_t *put_identifier(uint8_t *at, uint32_t identifier) {
    for (int shift = 28; shift >= 0; shift -= 4)
        *at++ = (uint8_t)"0123456789ABCDEF"[identifier >> shift & 15];
    return at;
}

static uint8_t *put_place(uint8_t *at, uint32_t place) {
    *at++ = '\t';
    *at++ = (uint8_t)('0' + PC_BUS(place));
    *at++ = '\t';
    return put_identifier(at, PC_IDENTIFIER(place));
}

static uint8_t *put_message(uint8_t *at, uint32_t identifier) {
    *at++ = 'M';
    *at++ = '\t';
    at = put_identifier(at, identifier);
    *at++ = '\n';
    return at;
}

static uint8_t *put_signal(uint8_t *at, uint32_t number, uint32_t start) {
    *at++ = 'S';
    *at++ = '\t';
    at = put_number(at, number);
    *at++ = '\t';
    at = put_number(at, start);
    *at++ = '\n';
    return at;
}

static uint8_t *put_route(uint8_t *at, uint32_t from, uint32_t to) {
    *at++ = 'R';
    at = put_place(at, from);
    at = put_place(at, to);
    *at++ = '\n';
    return at;
}

static uint8_t *put_messages(uint8_t *at, const uint32_t book[PC_BOOK_WORDS]) {
    uint32_t i = 0;
    for (uint32_t m = 0; m < book[PC_BOOK_MESSAGES]; m++) {
        at = put_message(at, book[PC_BOOK_IDENTIFIERS + m]);
        for (; i < book[PC_BOOK_ENDS + m]; i++)
            at = put_signal(at, book[PC_BOOK_NUMBERS + i], book[PC_BOOK_STARTS + i]);
    }
    return at;
}

static uint8_t *put_routes(uint8_t *at, const uint32_t book[PC_BOOK_WORDS]) {
    for (uint32_t i = 0; i < book[PC_BOOK_ROUTES]; i++)
        at = put_route(at, book[PC_BOOK_FROM + i], book[PC_BOOK_TO + i]);
    return at;
}

uint32_t plain_book_write(const uint32_t book[PC_BOOK_WORDS], uint8_t *text, uint64_t text_length, uint32_t *count) {
    if (!plain_messages_taken(book) || !plain_routes_taken(book))
        return PC_NOT_A_BOOK;
    uint32_t length = length_of(book);
    if (length > text_length)
        return PC_ROOM_FOR_TEXT;
    put_routes(put_messages(text, book), book);
    *count = length;
    return PC_DONE;
}
