/* Cases of the calls on signals and frames. */
#include "made_text.h"
#include "plain_signals.h"
#include "test.h"

/* ---- One count. */

/* A count of the signal at one of its edges: lowest, highest, bits, then its marks; one more and one less of each. */
static uint32_t row_edge(const struct plain_row *row, uint32_t which) {
    uint32_t over = (uint32_t)((uint64_t)1 << row->bits);
    const uint32_t ends[6] = { row->lowest - 1, row->lowest, row->highest, row->highest + 1, over - 1, over };
    if (which < 6)
        return ends[which];
    const struct plain_mark *mark = &row->marks[(which - 6) / 4];
    const uint32_t around[4] = { mark->first - 1, mark->first, mark->last, mark->last + 1 };
    return around[(which - 6) % 4];
}

/* A count of the signal at an edge, or any. */
static uint32_t any_raw(uint32_t number) {
    const struct plain_row *row = plain_row_of(number);
    if (!row || once_in(12))
        return any_number();
    if (once_in(2))
        return row_edge(row, below(ROW_EDGES));
    return (uint32_t)(chance_word(&chance) & (((uint64_t)1 << row->bits) - 1));
}

static void compare_class(uint32_t number, uint32_t raw) {
    begin_case(CLASS);
    struct lent *class_code = lend("class", 0, 4), *thousandths = lend("thousandths", 0, 8);
    uint32_t library = pc_class(number, raw, L(class_code, uint32_t), L(thousandths, int64_t));
    uint32_t plain = plain_class(number, raw, P(class_code, uint32_t), P(thousandths, int64_t));
    judge(library, plain, 0);
}

/* The reading is compared as the other lent memory is: bit for bit. */
static void compare_dash(uint32_t number, uint32_t raw) {
    begin_case(DASH);
    static const uint64_t odd[] = { 0x7FF0000000000001, 0xFFF4000000000001, 0x7FF8000000000123, 0xFFFFFFFFFFFFFFFF, 0x8000000000000000, 0x7FF0000000000000 };
    const uint64_t *was = once_in(4) ? &odd[below(sizeof odd / sizeof *odd)] : 0; /* NaNs, signalling and not, -0.0 and infinity stay as lent too */
    struct lent *class_code = lend("class", 0, 4), *reading = lend("reading", was, 8);
    uint32_t library = pc_dash(number, raw, L(class_code, uint32_t), L(reading, double));
    uint32_t plain = plain_dash(number, raw, P(class_code, uint32_t), P(reading, double));
    judge(library, plain, 0);
}

static void compare_count(uint32_t number, uint32_t raw) {
    compare_class(number, raw);
    compare_dash(number, raw);
}

/* The next edge of a row, the next number, and any number and count. */
void try_classes(void) {
    static uint32_t edge, number;
    uint32_t which = edge++ % (PLAIN_ROWS * ROW_EDGES), next = number++ % 2048;
    uint32_t any = once_in(6) ? any_number() : any_signal(&chance), raw = any_raw(any);
    const struct plain_row *row = &plain_catalogue[which / ROW_EDGES];
    compare_count(row->number, row_edge(row, which % ROW_EDGES));
    meet(ROW_COUNTS, which);
    compare_count(next, any_raw(next));
    meet(SIGNAL_NUMBERS, next);
    compare_count(once_in(20) ? any + ((uint32_t)1 << below(32)) : any, raw);
}

/* ---- Frames. */

/* A message of the book, its identifier and where its signals begin and end; at times an identifier that it has not. */
static void any_message(const uint32_t book[PC_BOOK_WORDS], uint32_t *identifier, uint32_t *first, uint32_t *end) {
    uint32_t messages = book[0] <= 64 ? book[0] : 64, m = messages ? below(messages) : 0;
    *identifier = once_in(12) ? any_number() : once_in(20) ? 0 : book[PC_BOOK_IDENTIFIERS + m];
    *first = m == 0 ? 0 : book[PC_BOOK_ENDS + m - 1];
    *end = book[PC_BOOK_ENDS + m];
    if (*end > 256 || *first > *end)
        *first = *end = 0;
}

/* Puts the check for this identifier into byte 7, with something added. */
static void put_check(uint8_t frame[8], uint32_t identifier, uint32_t added) {
    uint32_t sum = (frame[7] & 15u) + (identifier & 255) + (identifier >> 8 & 255) + (identifier >> 16 & 255) + (identifier >> 24);
    for (int i = 0; i < 7; i++)
        sum += frame[i];
    frame[7] = (uint8_t)((frame[7] & 15) | ((((sum >> 6 & 3) + (sum >> 3) + sum) & 7) + added) << 4);
}

/* What is needed or a little more, at times one too few, or any. */
static uint32_t any_room(uint32_t needed) {
    if (once_in(8) || needed > 200)
        return below(70);
    return once_in(10) && needed ? needed - 1 : needed + below(3);
}

static size_t any_frame_length(void) {
    return !once_in(12) ? PC_FRAME_BYTES : once_in(2) ? PC_FRAME_BYTES - 1 + below(3) : below(17);
}

/* Counts lengths 7, 8 and 9 where the call came so far as to look at them. */
static void meet_length(enum edges family, size_t length, uint32_t refusal) {
    if (length - 7 < 3 && (refusal == PC_DONE || refusal == PC_NOT_EIGHT_BYTES))
        meet(family, (uint32_t)length - 7);
}

/* Counts where a frame that was read or packed began. */
static void meet_place(const struct lent *frame, uint32_t packed, uint32_t refusal) {
    if (refusal == PC_DONE)
        meet(FRAME_PLACES, 8 * packed + (uint32_t)((uintptr_t)L(frame, uint8_t) % 8));
}

static uint32_t compare_frame_read(const uint32_t book[PC_BOOK_WORDS], uint32_t identifier, const uint8_t *bytes, size_t length, const uint32_t rooms[3]) {
    begin_case(FRAME_READ);
    struct lent *b = lend("book", book, 4 * PC_BOOK_WORDS), *frame = lend_bytes("frame", bytes, length);
    struct lent *raws = lend("raws", 0, 4 * rooms[0]), *classes = lend_bytes("classes", 0, rooms[1]);
    struct lent *thousandths = lend("thousandths", 0, 8 * rooms[2]), *count = lend("count", 0, 4);
    uint32_t library = pc_frame_read(L(b, uint32_t), identifier, L(frame, uint8_t), length, L(raws, uint32_t), rooms[0], L(classes, uint8_t),
                                     rooms[1], L(thousandths, int64_t), rooms[2], L(count, uint32_t));
    uint32_t plain = plain_frame_read(P(b, uint32_t), identifier, P(frame, uint8_t), length, P(raws, uint32_t), rooms[0], P(classes, uint8_t),
                                      rooms[1], P(thousandths, int64_t), rooms[2], P(count, uint32_t));
    judge(library, plain, 2);
    meet_place(frame, 0, plain);
    return plain;
}

/* Of each slice: one too few for the readings, or just enough, where the others have more than enough. */
static void meet_rooms(const uint32_t rooms[3], uint32_t needed) {
    for (uint32_t i = 0; i < 3; i++)
        if (rooms[(i + 1) % 3] > needed && rooms[(i + 2) % 3] > needed && rooms[i] + 1 - needed < 2)
            meet(READ_ROOMS, 2 * i + rooms[i] + 1 - needed);
}

void try_frame_read(void) {
    static const uint32_t added[4] = { 0, 1, 8, 15 };
    uint32_t book[PC_BOOK_WORDS], identifier, first, end, wrong = once_in(6) ? 1 + below(3) : 0;
    uint8_t bytes[32];
    choose_book(book);
    any_message(book, &identifier, &first, &end);
    chance_bytes(&chance, bytes, sizeof bytes);
    if (once_in(8))
        memset(bytes, 0xFF, sizeof bytes);
    put_check(bytes, identifier, added[wrong]);
    size_t length = any_frame_length();
    uint32_t rooms[3];
    for (int i = 0; i < 3; i++)
        rooms[i] = any_room(end - first);
    uint32_t refusal = compare_frame_read(book, identifier, bytes, length, rooms);
    meet_count(BOOK_COUNTS, book, PC_BOOK_MESSAGES, refusal);
    meet_count(BOOK_COUNTS, book, PC_BOOK_SIGNALS, refusal);
    meet_length(FRAME_LENGTHS, length, refusal);
    if (refusal == PC_DONE || refusal == PC_ROOM_FOR_READINGS)
        meet_rooms(rooms, end - first);
    if ((refusal == PC_DONE || refusal == PC_CHECKSUM) && place_in(book + PC_BOOK_NUMBERS + first, end - first, CHECKSUM) < end - first)
        meet(CHECKS, wrong);
}

static uint32_t compare_frame_pack(const uint32_t book[PC_BOOK_WORDS], uint32_t identifier, const uint32_t *values, uint32_t count, size_t length) {
    begin_case(FRAME_PACK);
    struct lent *b = lend("book", book, 4 * PC_BOOK_WORDS), *v = lend("values", values, 4 * count), *frame = lend_bytes("frame", 0, length);
    uint32_t library = pc_frame_pack(L(b, uint32_t), identifier, L(v, uint32_t), count, L(frame, uint8_t), length);
    uint32_t plain = plain_frame_pack(P(b, uint32_t), identifier, P(v, uint32_t), count, P(frame, uint8_t), length);
    judge(library, plain, 2);
    meet_place(frame, 1, plain);
    return plain;
}

/* A raw count that the packer takes. */
static uint32_t sent_raw(uint32_t number) {
    const struct plain_row *row = plain_row_of(number);
    for (int i = 0; row && i < 20; i++) {
        uint32_t raw = any_raw(number);
        uint32_t class_code = plain_class_of(row, raw);
        if (!plain_too_wide(row, raw) && class_code != PC_RESERVED && class_code != PC_OUTSIDE)
            return raw;
    }
    return row ? row->lowest : 0;
}

void try_frame_pack(void) {
    uint32_t book[PC_BOOK_WORDS], identifier, first, end, values[512];
    choose_book(book);
    any_message(book, &identifier, &first, &end);
    uint32_t needed = end - first, count = once_in(12) ? any_room(needed) : needed, careless = once_in(3);
    for (uint32_t i = 0; i < count; i++) {
        uint32_t number = first + i < 256 ? book[PC_BOOK_NUMBERS + first + i] : 0;
        values[i] = number == CHECKSUM || (careless && once_in(4)) ? any_raw(number) : sent_raw(number);
    }
    size_t length = any_frame_length();
    uint32_t refusal = compare_frame_pack(book, identifier, values, count, length);
    meet_length(PACK_LENGTHS, length, refusal);
    if ((refusal == PC_DONE || refusal == PC_COUNT_OF_VALUES) && count + 1 - needed < 3)
        meet(PACK_COUNTS, count + 1 - needed);
}

/* A book of one message with one signal. */
static void make_small_book(uint32_t book[PC_BOOK_WORDS], uint32_t identifier, uint32_t number, uint32_t start) {
    memset(book, 0, 4 * PC_BOOK_WORDS);
    book[PC_BOOK_MESSAGES] = book[PC_BOOK_SIGNALS] = 1;
    book[PC_BOOK_IDENTIFIERS] = identifier;
    book[PC_BOOK_ENDS] = 1;
    book[PC_BOOK_NUMBERS] = number;
    book[PC_BOOK_STARTS] = start;
}

/* The next edge of a row as the one signal of a message, packed, and read from a frame of ones. */
void try_row_in_frame(void) {
    static uint32_t edge;
    uint32_t which = edge++ % (PLAIN_ROWS * ROW_EDGES), book[PC_BOOK_WORDS], identifier = below(1 << 29);
    const struct plain_row *row = &plain_catalogue[which / ROW_EDGES];
    uint32_t start = row->number == CHECKSUM ? CHECKSUM_START : row->number == COUNTER ? COUNTER_START : below(65 - row->bits);
    uint32_t raw = row_edge(row, which % ROW_EDGES), rooms[3] = { 1, 1, 1 };
    uint64_t mask = (((uint64_t)1 << row->bits) - 1) << start, word = ~mask | ((uint64_t)raw << start & mask);
    uint8_t frame[PC_FRAME_BYTES];
    make_small_book(book, identifier, row->number, start);
    for (int i = 0; i < PC_FRAME_BYTES; i++)
        frame[i] = (uint8_t)(word >> (8 * i));
    compare_frame_pack(book, identifier, &raw, 1, PC_FRAME_BYTES);
    compare_frame_read(book, identifier, frame, PC_FRAME_BYTES, rooms);
    meet(ROW_FRAMES, which);
}

/* The next book that is lent with one number at a limit or past it: of an identifier, of a start, of a signal; read by, packed by and
   written. */
void try_lent_edge(void) {
    static const uint32_t identifiers[LENT_IDENTIFIERS] = { 0x1FFFFFFF, 0x20000000, 0x20000001, 0xFFFFFFFF };
    static uint32_t edge;
    uint32_t which = edge++ % LENT_BOOKS, at = which, book[PC_BOOK_WORDS], rooms[3] = { 1, 1, 1 }, raw;
    uint8_t frame[PC_FRAME_BYTES];
    make_small_book(book, below(1 << 29), 201, below(49));
    if (at < LENT_IDENTIFIERS) {
        book[PC_BOOK_IDENTIFIERS] = identifiers[at];
    } else if ((at -= LENT_IDENTIFIERS) < LENT_STARTS) {
        const struct plain_row *row = &plain_catalogue[at / 4];
        const uint32_t starts[4] = { 64 - row->bits, 65 - row->bits, 63, 64 };
        book[PC_BOOK_NUMBERS] = row->number;
        book[PC_BOOK_STARTS] = starts[at % 4];
    } else {
        book[PC_BOOK_NUMBERS] = at - LENT_STARTS;
    }
    raw = sent_raw(book[PC_BOOK_NUMBERS]);
    chance_bytes(&chance, frame, sizeof frame);
    put_check(frame, book[PC_BOOK_IDENTIFIERS], 0);
    compare_frame_read(book, book[PC_BOOK_IDENTIFIERS], frame, sizeof frame, rooms);
    compare_frame_pack(book, book[PC_BOOK_IDENTIFIERS], &raw, 1, sizeof frame);
    compare_book_write(book, PC_MOST_WRITTEN);
    meet(LENT_EDGES, which);
}
