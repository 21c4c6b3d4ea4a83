/* A signal's row and the class of one of its raw counts. */
#ifndef PLAIN_SIGNALS_H
#define PLAIN_SIGNALS_H

#include "plain_catalogue.h"

/* The two signals that have a place of their own. */
enum { CHECKSUM = 503, CHECKSUM_START = 60, COUNTER = 504, COUNTER_START = 56 };

/* The row of the signal with this number, or a null pointer. Tables 2 to 13 and 15 to 19 have rows 1, 2, .. without gaps. */
static inline const struct plain_row *plain_row_of(uint32_t number) {
    static const uint8_t first_of_table[20] = { 199, 199, 0, 10, 39, 47, 62, 67, 77, 85, 92, 95, 100, 126, 199, 133, 139, 145, 158, 172 };
    if (number < 201 || number > 1927 || number % 100 == 0)
        return 0;
    uint32_t index = first_of_table[number / 100] + number % 100 - 1;
    if (index >= PLAIN_ROWS || plain_catalogue[index].number != number)
        return 0;
    return &plain_catalogue[index];
}

/* Whether the raw count needs more bits than the signal has. */
static inline int plain_too_wide(const struct plain_row *row, uint32_t raw) {
    return row->bits < 32 && raw >> row->bits != 0;
}

/* A mark wins over the range; then value if within the raw limits; else outside. */
static inline uint32_t plain_class_of(const struct plain_row *row, uint32_t raw) {
    for (uint32_t i = 0; i < row->mark_count; i++)
        if (row->marks[i].first <= raw && raw <= row->marks[i].last)
            return row->marks[i].class_code;
    return row->lowest <= raw && raw <= row->highest ? PC_VALUE : PC_OUTSIDE;
}

static inline int64_t plain_thousandths_of(const struct plain_row *row, uint32_t raw) {
    return (int64_t)raw * row->resolution + row->offset;
}

#endif
