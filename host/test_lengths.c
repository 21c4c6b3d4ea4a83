/* Lengths of more than 32 bits, which no memory here has: a call that is handed over or looks at their lower half alone takes what it
   has to refuse, or finds no room where there is plenty. Each length of the header is tried so, the others as they are. */
#include "test.h"

/* A book with one message of one signal, and one route. */
static const char text[] = "M\t18FF21F3\nS\t203\t0\nR\t0\t18FF21F3\t1\t18FF21F3\n";
enum { TEXT = sizeof text - 1, IDENTIFIER = 0x18FF21F3, FAULTS = 27 };

enum length { OF_TEXT, OF_WRITTEN, OF_FRAME_TO_READ, OF_RAWS, OF_CLASSES, OF_THOUSANDTHS, OF_VALUES, OF_FRAME_TO_PACK, OF_PLACES, OF_COUNTS, LENGTHS };

/* What the call says where that length is over 32 bits. */
static const uint32_t meant[LENGTHS] = {
    PC_TEXT_TOO_LONG, PC_DONE, PC_NOT_EIGHT_BYTES, PC_DONE, PC_DONE, PC_DONE, PC_COUNT_OF_VALUES, PC_NOT_EIGHT_BYTES, PC_DONE, PC_NOT_27_FAULTS,
};

/* What is added to the length that is tried: a number of times 2^32. */
static enum length tried;
static uint64_t upper_half;

/* The length as it is, or with the same lower half. */
static uint64_t long_if(enum length which, uint64_t length) {
    return which == tried ? upper_half + length : length;
}

/* Room for so many entries, or for many more of which the lower half has none. */
static uint64_t room_if(enum length which, uint64_t entries) {
    return which == tried ? upper_half : entries;
}

static uint32_t long_text(void) {
    begin_case(BOOK_READ);
    struct lent *t = lend_bytes("text", text, TEXT), *book = lend("book", 0, 4 * PC_BOOK_WORDS), *line = lend("line", 0, 4);
    uint64_t length = long_if(OF_TEXT, TEXT);
    uint32_t library = pc_book_read(L(t, uint8_t), length, L(book, uint32_t), L(line, uint32_t));
    uint32_t plain = plain_book_read(P(t, uint8_t), length, P(book, uint32_t), P(line, uint32_t));
    judge(library, plain, 1);
    return plain;
}

/* The book's lines stand in the order in which they are written. */
static uint32_t long_write(const uint32_t book[PC_BOOK_WORDS]) {
    begin_case(BOOK_WRITE);
    struct lent *b = lend("book", book, 4 * PC_BOOK_WORDS), *t = lend_bytes("text", 0, TEXT), *count = lend("count", 0, 4);
    uint64_t room = room_if(OF_WRITTEN, TEXT);
    uint32_t library = pc_book_write(L(b, uint32_t), L(t, uint8_t), room, L(count, uint32_t));
    uint32_t plain = plain_book_write(P(b, uint32_t), P(t, uint8_t), room, P(count, uint32_t));
    judge(library, plain, 1);
    return plain;
}

static uint32_t long_read(const uint32_t book[PC_BOOK_WORDS]) {
    begin_case(FRAME_READ);
    struct lent *b = lend("book", book, 4 * PC_BOOK_WORDS), *frame = lend_bytes("frame", 0, PC_FRAME_BYTES), *raws = lend("raws", 0, 4);
    struct lent *classes = lend_bytes("classes", 0, 1), *thousandths = lend("thousandths", 0, 8), *count = lend("count", 0, 4);
    uint64_t length = long_if(OF_FRAME_TO_READ, PC_FRAME_BYTES), r = room_if(OF_RAWS, 1), c = room_if(OF_CLASSES, 1), t = room_if(OF_THOUSANDTHS, 1);
    uint32_t library = pc_frame_read(L(b, uint32_t), IDENTIFIER, L(frame, uint8_t), length, L(raws, uint32_t), r, L(classes, uint8_t), c,
                                     L(thousandths, int64_t), t, L(count, uint32_t));
    uint32_t plain = plain_frame_read(P(b, uint32_t), IDENTIFIER, P(frame, uint8_t), length, P(raws, uint32_t), r, P(classes, uint8_t), c,
                                      P(thousandths, int64_t), t, P(count, uint32_t));
    judge(library, plain, 2);
    return plain;
}

static uint32_t long_pack(const uint32_t book[PC_BOOK_WORDS]) {
    uint32_t value = below(40001);
    begin_case(FRAME_PACK);
    struct lent *b = lend("book", book, 4 * PC_BOOK_WORDS), *v = lend("values", &value, 4), *frame = lend_bytes("frame", 0, PC_FRAME_BYTES);
    uint64_t values = long_if(OF_VALUES, 1), length = long_if(OF_FRAME_TO_PACK, PC_FRAME_BYTES);
    uint32_t library = pc_frame_pack(L(b, uint32_t), IDENTIFIER, L(v, uint32_t), values, L(frame, uint8_t), length);
    uint32_t plain = plain_frame_pack(P(b, uint32_t), IDENTIFIER, P(v, uint32_t), values, P(frame, uint8_t), length);
    judge(library, plain, 2);
    return plain;
}

static uint32_t long_spread(const uint32_t book[PC_BOOK_WORDS]) {
    begin_case(SPREAD);
    struct lent *b = lend("book", book, 4 * PC_BOOK_WORDS), *places = lend("places", 0, 4), *count = lend("count", 0, 4);
    uint64_t room = room_if(OF_PLACES, 1);
    uint32_t library = pc_spread(L(b, uint32_t), 0, IDENTIFIER, L(places, uint32_t), room, L(count, uint32_t));
    uint32_t plain = plain_spread(P(b, uint32_t), 0, IDENTIFIER, P(places, uint32_t), room, P(count, uint32_t));
    judge(library, plain, 1);
    return plain;
}

static uint32_t long_sum(void) {
    static const uint32_t none[FAULTS];
    begin_case(FAULT_SUM);
    struct lent *counts = lend("counts", none, sizeof none), *sum = lend("sum", 0, 4 * PC_FAULT_WORDS);
    uint64_t length = long_if(OF_COUNTS, FAULTS);
    uint32_t library = pc_fault_sum(L(counts, uint32_t), length, L(sum, uint32_t));
    uint32_t plain = plain_fault_sum(P(counts, uint32_t), length, P(sum, uint32_t));
    judge(library, plain, 1);
    return plain;
}

static uint32_t long_call(const uint32_t book[PC_BOOK_WORDS]) {
    switch (tried) {
    case OF_TEXT:
        return long_text();
    case OF_WRITTEN:
        return long_write(book);
    case OF_VALUES:
    case OF_FRAME_TO_PACK:
        return long_pack(book);
    case OF_PLACES:
        return long_spread(book);
    case OF_COUNTS:
        return long_sum();
    default:
        return long_read(book);
    }
}

void try_long_length(void) {
    static uint32_t next;
    uint32_t book[PC_BOOK_WORDS], line;
    plain_book_read((const uint8_t *)text, TEXT, book, &line);
    tried = (enum length)(next++ % LENGTHS);
    upper_half = (uint64_t)(any_number() | 1) << 32;
    if (long_call(book) == meant[tried])
        meet(LONG_LENGTHS, tried);
}
