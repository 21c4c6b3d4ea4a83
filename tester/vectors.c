/* vectors: runs the cases of tools/charging_vectors.py from standard input by the proved call, or with -DPLAIN by the plain one, and prints
   what came out, a line a case. */
#include "../host/case_lines.h"
#include "plain.h"

#ifdef PLAIN
#define charge_step plain_charge_step
#else
#define charge_step pct_charge_step
#endif

/* A state's digit, or N for a new monitor, and the counts. */
static void charging_case(void) {
    uint32_t state = PCT_CHARGE_START, seen[PCT_CHARGE_WORDS];
    if (input[at] == 'N')
        at++;
    else
        state = hex(1);
    for (int i = 0; i < PCT_CHARGE_WORDS; i++)
        seen[i] = hex(8);
    end_of_line();
    uint32_t refusal = charge_step(&state, seen);
    if (refusal)
        print_refusal(refusal);
    else
        printf("%" PRIu32 "\n", state);
}

int main(void) {
    length = fread(input, 1, sizeof input, stdin);
    while (at < length)
        charging_case();
    return 0;
}
