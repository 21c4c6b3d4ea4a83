/* The class and reading of one raw count. */
#include "plain.h"
#include "plain_signals.h"

uint32_t plain_class(uint32_t number, uint32_t raw, uint32_t *class_code, int64_t *thousandths) {
    const struct plain_row *row = plain_row_of(number);
    if (!row)
        return PC_OVER_LIMIT;
    if (plain_too_wide(row, raw))
        return PC_RAW_TOO_WIDE;
    *class_code = plain_class_of(row, raw);
    *thousandths = *class_code == PC_VALUE ? plain_thousandths_of(row, raw) : 0;
    return PC_DONE;
}
