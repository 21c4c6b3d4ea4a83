/* How a workshop tester's program follows a charge: the library takes frames apart by a book, and the tester's one call says how far the
   charge has come. Where a real one has a driver for the bus, this one has a list of frames; what it prints is what a mechanic would read, and
   tester/example.out has it as it must be:
   tester/build && tester/run example */
#include "punnetcrest.h"
#include "punnetcrest_tester.h"
#include <inttypes.h>
#include <stdio.h>
#include <string.h>

/* ---- The truck: where its counts sit, and what comes over its bus. */

enum { PACK = 0x18FF2BF3, VEHICLE = 0x18FF30D0 };

static const char stored_book[] = "M\t18FF2BF3\n"
                                  "S\t1708\t0\n" /* byte 0: the plug, and from bit 4 on the self-check */
                                  "S\t1605\t4\n"
                                  "S\t311\t8\n"  /* byte 1: welded relays, a bit each */
                                  "S\t313\t9\n"
                                  "S\t325\t10\n"
                                  "S\t327\t11\n"
                                  "S\t301\t16\n" /* byte 2: main relays, then charge relays, two bits each: 1 open, 2 closed */
                                  "S\t302\t18\n"
                                  "S\t304\t20\n"
                                  "S\t306\t22\n"
                                  "M\t18FF30D0\n"
                                  "S\t1709\t0\n"; /* byte 0: charging allowed */

/* Bits that carry nothing are 1. */
static const struct frame {
    uint32_t identifier;
    uint8_t bytes[PC_FRAME_BYTES];
} frames[] = {
    { PACK, { 0xC8, 0xF0, 0x55, 0xFF, 0xFF, 0xFF, 0xFF, 0xFF } },    /* no plug, every relay open */
    { VEHICLE, { 0xFC, 0xFF, 0xFF, 0xFF, 0xFF, 0xFF, 0xFF, 0xFF } }, /* charging not allowed */
    { PACK, { 0xD9, 0xF0, 0x55, 0xFF, 0xFF, 0xFF, 0xFF, 0xFF } },    /* plugged in at port A; the self-check has a fault */
    { PACK, { 0xC9, 0xF0, 0x55, 0xFF, 0xFF, 0xFF, 0xFF, 0xFF } },    /* the self-check has none */
    { PACK, { 0xC9, 0xF0, 0x55, 0xFF, 0xFF, 0xFF, 0xFF, 0xFF } },    /* the same again, for one more step: no relay is welded */
    { PACK, { 0xC9, 0xF0, 0x5A, 0xFF, 0xFF, 0xFF, 0xFF, 0xFF } },    /* main relays closed */
    { VEHICLE, { 0xFD, 0xFF, 0xFF, 0xFF, 0xFF, 0xFF, 0xFF, 0xFF } }, /* charging allowed */
    { PACK, { 0xC9, 0xF0, 0xAA, 0xFF, 0xFF, 0xFF, 0xFF, 0xFF } },    /* charge relays closed */
    { VEHICLE, { 0xFC, 0xFF, 0xFF, 0xFF, 0xFF, 0xFF, 0xFF, 0xFF } }, /* no longer allowed */
    { VEHICLE, { 0xFD, 0xFF, 0xFF, 0xFF, 0xFF, 0xFF, 0xFF, 0xFF } }, /* allowed again */
    { PACK, { 0xC9, 0xF0, 0xAA, 0xFF, 0xFF, 0xFF, 0xFF, 0xFF } },    /* as before */
    { PACK, { 0xC9, 0xF1, 0xAA, 0xFF, 0xFF, 0xFF, 0xFF, 0xFF } },    /* 311: the main positive relay is welded */
    { PACK, { 0xC9, 0xF0, 0x55, 0xFF, 0xFF, 0xFF, 0xFF, 0xFF } },    /* it no longer is, and every relay is open; the plug is in */
    { PACK, { 0xC8, 0xF0, 0x55, 0xFF, 0xFF, 0xFF, 0xFF, 0xFF } },    /* the plug is out */
};

/* ---- The tester. */

static uint32_t book[PC_BOOK_WORDS], seen[PCT_CHARGE_WORDS], state = PCT_CHARGE_START;
static int has_come[PCT_CHARGE_WORDS];

/* The signals of an observation, each in its place. */
static const uint32_t signals[PCT_CHARGE_WORDS] = {
    [PCT_SEEN_PLUG] = 1708,
    [PCT_SEEN_SELF_CHECK] = 1605,
    [PCT_SEEN_MAIN_POSITIVE_WELDED] = 311,
    [PCT_SEEN_MAIN_NEGATIVE_WELDED] = 313,
    [PCT_SEEN_HEATING_POSITIVE_WELDED] = 325,
    [PCT_SEEN_HEATING_NEGATIVE_WELDED] = 327,
    [PCT_SEEN_MAIN_POSITIVE] = 301,
    [PCT_SEEN_MAIN_NEGATIVE] = 302,
    [PCT_SEEN_ALLOWED] = 1709,
    [PCT_SEEN_CHARGE_POSITIVE] = 304,
    [PCT_SEEN_CHARGE_NEGATIVE] = 306,
};

static void keep(uint32_t number, uint32_t raw) {
    for (int i = 0; i < PCT_CHARGE_WORDS; i++)
        if (signals[i] == number) {
            seen[i] = raw;
            has_come[i] = 1;
        }
}

/* Whether every count has come at least once: before that, an observation would be made up. */
static int all_have_come(void) {
    int all = 1;
    for (int i = 0; i < PCT_CHARGE_WORDS; i++)
        all = all && has_come[i];
    return all;
}

/* Reads a frame and keeps what it carries. Which reading is which, the book says: its numbers stand in the order of the readings. */
static uint32_t read_frame(const struct frame *frame) {
    uint32_t raws[PC_MOST_READINGS], count, m = 0;
    uint8_t classes[PC_MOST_READINGS];
    int64_t thousandths[PC_MOST_READINGS];
    uint32_t refusal = pc_frame_read(book, frame->identifier, frame->bytes, sizeof frame->bytes, raws, PC_MOST_READINGS, classes,
                                     PC_MOST_READINGS, thousandths, PC_MOST_READINGS, &count);
    if (refusal)
        return refusal;
    while (book[PC_BOOK_IDENTIFIERS + m] != frame->identifier)
        m++;
    for (uint32_t i = 0; i < count; i++)
        keep(book[PC_BOOK_NUMBERS + (m == 0 ? 0 : book[PC_BOOK_ENDS + m - 1]) + i], raws[i]);
    return PC_DONE;
}

/* One observation. What is refused says nothing of the charge, and the state that was kept is not shown for it. A count that comes out of a
   frame fits its signal, so 81 is never met here; a state that is none (93) would be memory gone wrong. The state before it may have been
   fault, so it goes on from there, until an observation has the plug out and no relay welded. */
static void observe(void) {
    static const char *const words[] = {
        [PCT_CHARGE_START] = "start: waits for the plug (1708)",
        [PCT_CHARGE_PLUG_SEEN] = "plug seen: waits for a good self-check (1605)",
        [PCT_CHARGE_SELF_CHECKED] = "self-checked: waits until no relay is welded (311, 313, 325, 327)",
        [PCT_CHARGE_NO_WELD] = "no weld: waits for the main relays (301, 302)",
        [PCT_CHARGE_MAIN_CLOSED] = "main closed: waits until charging is allowed (1709)",
        [PCT_CHARGE_ALLOWED] = "allowed: waits for the charge relays (304, 306)",
        [PCT_CHARGE_READY] = "ready",
        [PCT_CHARGE_FAULT] = "fault: waits until no relay is welded and the plug is out",
    };
    uint32_t refusal = pct_charge_step(&state, seen);
    if (refusal == PCT_NOT_A_CHARGE_STATE)
        state = PCT_CHARGE_FAULT;
    if (refusal)
        printf("pct_charge_step refused: %" PRIu32 "\n", refusal);
    else
        printf("%s\n", words[state]);
}

int main(void) {
    uint32_t line, refusal = pc_book_read((const uint8_t *)stored_book, strlen(stored_book), book, &line);
    if (refusal) {
        printf("book refused: %" PRIu32 " at line %" PRIu32 "\n", refusal, line);
        return 1;
    }
    for (size_t i = 0; i < sizeof frames / sizeof *frames; i++) {
        refusal = read_frame(&frames[i]);
        if (refusal)
            printf("pc_frame_read refused: %" PRIu32 "\n", refusal);
        else if (all_have_come())
            observe();
        else
            printf("not every message has come yet\n");
    }
    return 0;
}
