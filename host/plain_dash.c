/* The class and reading of one raw count for the dash, in double precision: one conversion, which loses nothing, and one division. It has a
   file of its own since it alone asks for a float unit, which host/bare64 switches on for it. */
#include "plain.h"
#include "plain_signals.h"

uint32_t plain_dash(uint32_t number, uint32_t raw, uint32_t *class_code, double *reading) {
    const struct plain_row *row = plain_row_of(number);
    if (!row)
        return PC_OVER_LIMIT;
    if (plain_too_wide(row, raw))
        return PC_RAW_TOO_WIDE;
    *class_code = plain_class_of(row, raw);
    *reading = *class_code == PC_VALUE ? (double)plain_thousandths_of(row, raw) / 1000.0 : 0.0;
    return PC_DONE;
}
