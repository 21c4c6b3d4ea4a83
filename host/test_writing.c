/* Cases of the book writer. */
#include "test.h"

/* The text that was written last, and its length. */
static uint8_t written[PC_MOST_WRITTEN];
static uint32_t length;

uint32_t compare_book_write(const uint32_t book[PC_BOOK_WORDS], uint32_t room) {
    begin_case(BOOK_WRITE);
    struct lent *b = lend("book", book, 4 * PC_BOOK_WORDS), *text = lend_bytes("text", 0, room), *count = lend("count", 0, 4);
    uint32_t library = pc_book_write(L(b, uint32_t), L(text, uint8_t), room, L(count, uint32_t));
    uint32_t plain = plain_book_write(P(b, uint32_t), P(text, uint8_t), room, P(count, uint32_t));
    judge(library, plain, 1);
    if (plain != PC_DONE)
        return plain;
    length = *P(count, uint32_t);
    if (length > room || length > PC_MOST_WRITTEN)
        fail_case("it counts more bytes than a text has", "count");
    if (memcmp((const uint8_t *)lent_was(text) + length, P(text, uint8_t) + length, room - length) != 0)
        fail_case("the room behind the text was written", "text");
    memcpy(written, P(text, uint8_t), length);
    return plain;
}

/* What was written has to read as the same book, and that book has to be written as the same text. */
static void read_back(const uint32_t book[PC_BOOK_WORDS]) {
    static uint8_t first[PC_MOST_WRITTEN];
    uint32_t again[PC_BOOK_WORDS], line, first_length = length;
    memcpy(first, written, length);
    if (compare_book_read(first, first_length, again, &line) != PC_DONE || memcmp(again, book, sizeof again) != 0)
        fail_case("what was written reads as another book", "text");
    if (compare_book_write(again, first_length) != PC_DONE || length != first_length || memcmp(first, written, length) != 0)
        fail_case("the book that was read back is written otherwise", "text");
}

/* ---- Which edge a case is at. */

static void meet_book(const uint32_t book[PC_BOOK_WORDS]) {
    uint32_t messages = book[PC_BOOK_MESSAGES], signals = book[PC_BOOK_SIGNALS], routes = book[PC_BOOK_ROUTES], bare = 0;
    for (uint32_t m = 0; m < messages; m++)
        bare |= book[PC_BOOK_ENDS + m] == (m == 0 ? 0 : book[PC_BOOK_ENDS + m - 1]);
    const int full[3] = { messages == PC_MOST_MESSAGES, signals == PC_MOST_SIGNALS, routes == PC_MOST_ROUTES };
    const int holds[] = {
        messages == 0 && routes == 0, messages == 0 && routes > 0, messages > 0 && signals == 0, signals > 0 && routes == 0,
        signals > 0 && routes > 0, signals > 0 && bare, full[0], full[1], full[2], full[0] && full[1] && full[2],
    };
    meet_each(WRITE_BOOKS, holds, sizeof holds / sizeof *holds);
}

/* Which tables are those of no taken book: the messages' alone, the routes' columns alone, a closed chain, a double one, both. */
static uint32_t reason(const uint32_t book[PC_BOOK_WORDS]) {
    uint32_t routes = book[PC_BOOK_ROUTES], lowest;
    if (!plain_messages_taken(book))
        return plain_routes_taken(book) ? 0 : 4;
    uint32_t knot = routes > PC_MOST_ROUTES ? 0 : plain_routes_refusal(book + PC_BOOK_FROM, book + PC_BOOK_TO, routes, &lowest);
    return knot == PC_CLOSED_CHAIN ? 2 : knot == PC_DOUBLE_CHAIN ? 3 : 1;
}

/* ---- The cases. */

/* Some room, or none, by which 12 and 71 would both be right. */
static uint32_t try_any_room(const uint32_t book[PC_BOOK_WORDS]) {
    uint32_t room = once_in(2) ? 0 : once_in(2) ? PC_MOST_WRITTEN : below(2 * PC_MOST_WRITTEN), refusal = compare_book_write(book, room);
    for (uint32_t count = PC_BOOK_MESSAGES; count <= PC_BOOK_ROUTES; count++)
        meet_count(WRITE_COUNTS, book, count, refusal);
    if (refusal == PC_NOT_A_BOOK)
        meet(WRITE_REFUSED, 2 * reason(book) + (room != 0));
    return refusal;
}

/* Room for the text, one byte less, one more, none and far more; for no text, none and more. */
static void try_near_rooms(const uint32_t book[PC_BOOK_WORDS], uint32_t exact) {
    const uint32_t rooms[5] = { exact, exact - 1, exact + 1, 0, exact + PC_MOST_WRITTEN + below(PC_MOST_WRITTEN) };
    uint32_t which = below(5), empty = exact == 0;
    if (empty && which == 1)
        which = 0;
    compare_book_write(book, rooms[which]);
    meet(WRITE_ROOMS, !empty ? which : 5 + (rooms[which] != 0));
}

void try_book_write(void) {
    uint32_t book[PC_BOOK_WORDS];
    choose_book(book);
    if (try_any_room(book) == PC_NOT_A_BOOK)
        return;
    meet_book(book);
    compare_book_write(book, PC_MOST_WRITTEN);
    read_back(book);
    try_near_rooms(book, length);
}

/* Full tables with numbers of four digits and starts of two: no text is longer. */
void try_longest_text(void) {
    uint32_t book[PC_BOOK_WORDS], which = below(3), per_message = PC_MOST_SIGNALS / PC_MOST_MESSAGES;
    book[PC_BOOK_MESSAGES] = PC_MOST_MESSAGES;
    book[PC_BOOK_SIGNALS] = PC_MOST_SIGNALS;
    book[PC_BOOK_ROUTES] = PC_MOST_ROUTES;
    for (uint32_t m = 0; m < PC_MOST_MESSAGES; m++) {
        book[PC_BOOK_IDENTIFIERS + m] = m << 20 | below(1 << 20);
        book[PC_BOOK_ENDS + m] = per_message * (m + 1);
    }
    for (uint32_t i = 0; i < PC_MOST_SIGNALS; i++) {
        book[PC_BOOK_NUMBERS + i] = 1915 + i % per_message;       /* one bit each */
        book[PC_BOOK_STARTS + i] = 10 + 13 * (i % per_message) + below(13);
    }
    for (uint32_t r = 0; r < PC_MOST_ROUTES; r++) {
        book[PC_BOOK_FROM + r] = PC_PLACE(below(8), 2 * r);
        book[PC_BOOK_TO + r] = PC_PLACE(below(8), 2 * r + 1);
    }
    uint32_t refusal = compare_book_write(book, PC_MOST_WRITTEN - 1 + which);
    if (refusal == (which == 0 ? PC_ROOM_FOR_TEXT : PC_DONE) && (which == 0 || length == PC_MOST_WRITTEN))
        meet(WRITE_LONGEST, which);
}
