/* Reading and packing a frame by a lent book. */
#include "plain.h"
#include "plain_signals.h"

/* Frame bit k is bit k mod 8 of byte k div 8: the frame as one number has it at weight 2^k. */
static uint64_t load(const uint8_t *frame) {
    uint64_t word = 0;
    for (int i = 0; i < PC_FRAME_BYTES; i++)
        word |= (uint64_t)frame[i] << (8 * i);
    return word;
}

static void store(uint64_t word, uint8_t *frame) {
    for (int i = 0; i < PC_FRAME_BYTES; i++)
        frame[i] = (uint8_t)(word >> (8 * i));
}

static uint64_t mask_of(const struct plain_row *row) {
    return ((uint64_t)1 << row->bits) - 1;
}

/* The check over bytes 0 to 6, the low four bits of byte 7 and the four bytes of the identifier. */
static uint32_t check_of(uint64_t word, uint32_t identifier) {
    uint32_t sum = (uint32_t)(word >> 56) & 15;
    for (int i = 0; i < 7; i++)
        sum += (uint8_t)(word >> (8 * i));
    for (int i = 0; i < 4; i++)
        sum += (uint8_t)(identifier >> (8 * i));
    return (sum / 64 % 4 + sum / 8 + sum) % 8;
}

/* The signals of the message with this identifier, from *first up to *end; 0 where there is none. */
static int find_message(const uint32_t book[PC_BOOK_WORDS], uint32_t identifier, uint32_t *first, uint32_t *end) {
    for (uint32_t m = 0; m < book[PC_BOOK_MESSAGES]; m++)
        if (book[PC_BOOK_IDENTIFIERS + m] == identifier) {
            *first = m == 0 ? 0 : book[PC_BOOK_ENDS + m - 1];
            *end = book[PC_BOOK_ENDS + m];
            return 1;
        }
    return 0;
}

static int places_checksum(const uint32_t book[PC_BOOK_WORDS], uint32_t first, uint32_t end) {
    for (uint32_t i = first; i < end; i++)
        if (book[PC_BOOK_NUMBERS + i] == CHECKSUM)
            return 1;
    return 0;
}

uint32_t plain_frame_read_tested(const uint32_t book[PC_BOOK_WORDS], uint32_t identifier, const uint8_t *frame,
                                 uint64_t frame_length, uint32_t *raws, uint8_t *classes, int64_t *thousandths, uint64_t room,
                                 uint32_t *count) {
    uint32_t first, end;
    if (frame_length != PC_FRAME_BYTES)
        return PC_NOT_EIGHT_BYTES;
    if (!find_message(book, identifier, &first, &end))
        return PC_UNKNOWN_IDENTIFIER;
    uint64_t word = load(frame);
    if (places_checksum(book, first, end) && word >> CHECKSUM_START != check_of(word, identifier))
        return PC_CHECKSUM;
    if (room < end - first)
        return PC_ROOM_FOR_READINGS;
    for (uint32_t i = first; i < end; i++) {
        const struct plain_row *row = plain_row_of(book[PC_BOOK_NUMBERS + i]);
        uint32_t raw = (uint32_t)(word >> book[PC_BOOK_STARTS + i] & mask_of(row));
        uint32_t class_code = plain_class_of(row, raw);
        raws[i - first] = raw;
        classes[i - first] = (uint8_t)class_code;
        thousandths[i - first] = class_code == PC_VALUE ? plain_thousandths_of(row, raw) : 0;
    }
    *count = end - first;
    return PC_DONE;
}

uint32_t plain_frame_read(const uint32_t book[PC_BOOK_WORDS], uint32_t identifier, const uint8_t *frame, uint64_t frame_length,
                          uint32_t *raws, uint64_t raws_length, uint8_t *classes, uint64_t classes_length,
                          int64_t *thousandths, uint64_t thousandths_length, uint32_t *count) {
    uint64_t room = raws_length;
    if (classes_length < room)
        room = classes_length;
    if (thousandths_length < room)
        room = thousandths_length;
    if (!plain_messages_taken(book))
        return PC_NOT_A_BOOK;
    return plain_frame_read_tested(book, identifier, frame, frame_length, raws, classes, thousandths, room, count);
}

uint32_t plain_frame_pack(const uint32_t book[PC_BOOK_WORDS], uint32_t identifier, const uint32_t *values,
                          uint64_t values_length, uint8_t *frame, uint64_t frame_length) {
    uint32_t first, end;
    uint64_t word = ~(uint64_t)0;
    if (!plain_messages_taken(book))
        return PC_NOT_A_BOOK;
    if (!find_message(book, identifier, &first, &end))
        return PC_UNKNOWN_IDENTIFIER;
    if (values_length != end - first)
        return PC_COUNT_OF_VALUES;
    if (frame_length != PC_FRAME_BYTES)
        return PC_NOT_EIGHT_BYTES;
    for (uint32_t i = first; i < end; i++) {
        const struct plain_row *row = plain_row_of(book[PC_BOOK_NUMBERS + i]);
        uint32_t raw = values[i - first], start = book[PC_BOOK_STARTS + i];
        if (row->number == CHECKSUM)
            continue;
        if (plain_too_wide(row, raw))
            return PC_RAW_TOO_WIDE;
        uint32_t class_code = plain_class_of(row, raw);
        if (class_code == PC_RESERVED || class_code == PC_OUTSIDE)
            return PC_RAW_NOT_SENT;
        word = (word & ~(mask_of(row) << start)) | (uint64_t)raw << start;
    }
    if (places_checksum(book, first, end))
        word = (word & ~((uint64_t)15 << CHECKSUM_START)) | (uint64_t)check_of(word, identifier) << CHECKSUM_START;
    store(word, frame);
    return PC_DONE;
}
