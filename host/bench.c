/* bench IMPLEMENTATION CASE TIMES: makes one call so many times, by the library, by the plain implementation, or by nothing:
   functions that return at once, which shows what the loop around the calls costs. The count of instructions at two numbers
   of times, subtracted and divided, less the same of nothing, is the cost of one call: host/measure does that.
   bench list: the names of the cases. */
#include "made_text.h"
#include "nothing.h"
#include "plain.h"
#include "plain_signals.h"
#include <stdio.h>
#include <stdlib.h>
#include <string.h>

struct face {
    uint32_t (*book_read)(const uint8_t *, uint64_t, uint32_t *, uint32_t *);
    uint32_t (*book_write)(const uint32_t *, uint8_t *, uint64_t, uint32_t *);
    uint32_t (*class_of)(uint32_t, uint32_t, uint32_t *, int64_t *);
    uint32_t (*dash)(uint32_t, uint32_t, uint32_t *, double *);
    uint32_t (*frame_read)(const uint32_t *, uint32_t, const uint8_t *, uint64_t, uint32_t *, uint64_t, uint8_t *, uint64_t, int64_t *, uint64_t, uint32_t *);
    uint32_t (*frame_pack)(const uint32_t *, uint32_t, const uint32_t *, uint64_t, uint8_t *, uint64_t);
    uint32_t (*spread)(const uint32_t *, uint32_t, uint32_t, uint32_t *, uint64_t, uint32_t *);
    uint32_t (*fault_sum)(const uint32_t *, uint64_t, uint32_t *);
    uint32_t (*power_step)(uint32_t *, const uint32_t *);
    uint32_t (*power_step_by)(uint32_t *, const uint32_t *, uint32_t);
    uint32_t (*sleep_watch)(uint32_t *, uint32_t *, uint32_t, uint32_t);
};

static const struct face library = { pc_book_read, pc_book_write, pc_class, pc_dash, pc_frame_read, pc_frame_pack, pc_spread, pc_fault_sum, pc_power_step, pc_power_step_by, pc_sleep_watch };
static const struct face plain = { plain_book_read, plain_book_write, plain_class, plain_dash, plain_frame_read, plain_frame_pack, plain_spread, plain_fault_sum, plain_power_step, plain_power_step_by, plain_sleep_watch };

static const struct face nothing = { no_book_read, no_book_write, no_class, no_dash, no_frame_read, no_frame_pack, no_spread, no_fault_sum, no_power_step, no_power_step_by, no_sleep_watch };

/* The one that is measured. */
static const struct face *face;

/* ---- What the calls are made on. */

static struct made_text text;
static uint32_t book[PC_BOOK_WORDS], message, first_signal, signal_count;
static uint8_t frame[PC_FRAME_BYTES], written[PC_MOST_WRITTEN];
static uint32_t values[PC_MOST_READINGS], raws[PC_MOST_READINGS], places[PC_MOST_ROUTES], counts[27];
static uint8_t classes[PC_MOST_READINGS];
static int64_t thousandths[PC_MOST_READINGS];

/* The first book that chance makes of this size. */
static void make_book(uint32_t messages, uint32_t signals, uint32_t routes) {
    struct chance c = { 2023 };
    uint32_t line;
    do
        make_text(&text, &c, messages, signals, routes);
    while (plain_book_read(text.bytes, text.length, book, &line) != 0 || book[PC_BOOK_SIGNALS] != signals);
}

/* A book of one message of thirty relay and fault bits. */
static void make_thirty_bits(void) {
    uint32_t line;
    text.length = (uint64_t)sprintf((char *)text.bytes, "M\t18FF21F3\n");
    for (int i = 0; i < 20; i++)
        text.length += (uint64_t)sprintf((char *)text.bytes + text.length, "S\t%d\t%d\n", 310 + i, i);
    for (int i = 0; i < 10; i++)
        text.length += (uint64_t)sprintf((char *)text.bytes + text.length, "S\t%d\t%d\n", 1902 + i, 20 + 2 * i);
    plain_book_read(text.bytes, text.length, book, &line);
}

/* A text of 64 routes, refused: 63 in one chain, and a last one that closes it or doubles a part of it. */
static void make_refused(uint32_t last_from, uint32_t last_to, uint32_t refusal) {
    uint32_t line;
    text.length = 0;
    for (uint32_t i = 0; i < 64; i++)
        text.length += (uint64_t)sprintf((char *)text.bytes + text.length, "R\t0\t%08X\t0\t%08X\n", (unsigned)(i < 63 ? i : last_from), (unsigned)(i < 63 ? i + 1 : last_to));
    if (plain_book_read(text.bytes, text.length, book, &line) != refusal)
        exit(3);
}

static uint32_t read_frame(const struct face *by) {
    uint32_t count;
    return by->frame_read(book, message, frame, sizeof frame, raws, PC_MOST_READINGS, classes, PC_MOST_READINGS, thousandths, PC_MOST_READINGS, &count);
}

/* The last message of the book that has as many signals as any, a frame for it and values. */
static void choose_message(void) {
    uint32_t first = 0;
    for (uint32_t m = 0; m < book[PC_BOOK_MESSAGES]; first = book[PC_BOOK_ENDS + m], m++)
        if (book[PC_BOOK_ENDS + m] - first >= signal_count) {
            message = book[PC_BOOK_IDENTIFIERS + m];
            first_signal = first;
            signal_count = book[PC_BOOK_ENDS + m] - first;
        }
    for (uint32_t i = 0; i < signal_count; i++) {
        const struct plain_row *row = plain_row_of(book[PC_BOOK_NUMBERS + first_signal + i]);
        values[i] = row->mark_count ? 1 : row->highest;
    }
    if (plain_frame_pack(book, message, values, signal_count, frame, sizeof frame) != 0 || read_frame(&plain) != 0)
        exit(3);
}

static void no_book(void) {
}
static void typical_book(void) {
    make_book(10, 60, 12);
    choose_message();
}
static void full_book(void) {
    make_book(64, 256, 64);
    choose_message();
}
static void thirty_bits(void) {
    make_thirty_bits();
    choose_message();
}
static void closed_chain(void) {
    make_refused(63, 40, PC_CLOSED_CHAIN);
}
static void double_chain(void) {
    make_refused(10, 12, PC_DOUBLE_CHAIN);
}
static void some_faults(void) {
    for (int i = 0; i < 27; i++)
        counts[i] = i % 5 == 0;
}

/* ---- One call of each kind; `turn` is how many came before. */

static uint32_t call_book_read(uint32_t turn) {
    uint32_t line;
    (void)turn;
    return face->book_read(text.bytes, text.length, book, &line);
}

static uint32_t call_book_refused(uint32_t turn) {
    uint32_t line;
    (void)turn;
    face->book_read(text.bytes, text.length, book, &line);
    return 0;
}

static uint32_t call_book_write(uint32_t turn) {
    uint32_t count;
    (void)turn;
    return face->book_write(book, written, sizeof written, &count);
}

/* Each of the 199 signals in turn. */
static uint32_t call_class(uint32_t turn) {
    uint32_t class_code;
    int64_t reading;
    return face->class_of(plain_catalogue[turn % PLAIN_ROWS].number, 1, &class_code, &reading);
}

static uint32_t call_dash(uint32_t turn) {
    uint32_t class_code;
    double reading;
    return face->dash(plain_catalogue[turn % PLAIN_ROWS].number, 1, &class_code, &reading);
}

static uint32_t call_frame_read(uint32_t turn) {
    (void)turn;
    return read_frame(face);
}

static uint32_t call_frame_pack(uint32_t turn) {
    (void)turn;
    return face->frame_pack(book, message, values, signal_count, frame, sizeof frame);
}

/* From the start of each route in turn. */
static uint32_t call_spread(uint32_t turn) {
    uint32_t count;
    uint32_t place = book[PC_BOOK_FROM + turn % book[PC_BOOK_ROUTES]];
    return face->spread(book, PC_BUS(place), PC_IDENTIFIER(place), places, PC_MOST_ROUTES, &count);
}

static uint32_t call_fault_sum(uint32_t turn) {
    uint32_t sum[PC_FAULT_WORDS];
    (void)turn;
    return face->fault_sum(counts, 27, sum);
}

/* Up and down again, with each picture seen twice. */
static const uint32_t *power_seen(uint32_t turn) {
    static const uint32_t walk[7][4] = { { 1, 1, 1, 1 }, { 2, 1, 1, 1 }, { 2, 2, 1, 1 }, { 2, 2, 2, 1 }, { 2, 1, 2, 1 }, { 2, 1, 1, 2 }, { 1, 1, 1, 2 } };
    static uint32_t seen[PC_POWER_WORDS] = { 0, 0, 0, 0, 0, 20000, 6000, 5900 };
    return memcpy(seen, walk[turn / 2 % 7], sizeof walk[0]);
}

static uint32_t call_power_step(uint32_t turn) {
    static uint32_t state;
    return face->power_step(&state, power_seen(turn));
}

static uint32_t call_power_step_by(uint32_t turn) {
    static uint32_t state;
    return face->power_step_by(&state, power_seen(turn), 95);
}

/* Ten seconds of calls with wake off, one with wake on. */
static uint32_t call_sleep_watch(uint32_t turn) {
    static uint32_t last_wake, asleep;
    return face->sleep_watch(&last_wake, &asleep, turn * 100, turn % 150 == 0);
}

static const struct {
    const char *name;
    void (*prepare)(void);
    uint32_t (*call)(uint32_t);
} cases[] = {
    { "book-read-typical", typical_book, call_book_read },
    { "book-read-full", full_book, call_book_read },
    { "book-read-30-bits", thirty_bits, call_book_read },
    { "book-read-loop", closed_chain, call_book_refused },
    { "book-read-doubling", double_chain, call_book_refused },
    { "book-write-typical", typical_book, call_book_write },
    { "book-write-full", full_book, call_book_write },
    { "frame-read-typical", typical_book, call_frame_read },
    { "frame-read-full", full_book, call_frame_read },
    { "frame-read-30-bits", thirty_bits, call_frame_read },
    { "frame-pack-typical", typical_book, call_frame_pack },
    { "frame-pack-full", full_book, call_frame_pack },
    { "frame-pack-30-bits", thirty_bits, call_frame_pack },
    { "class", no_book, call_class },
    { "dash", no_book, call_dash },
    { "spread-typical", typical_book, call_spread },
    { "spread-full", full_book, call_spread },
    { "fault-sum", some_faults, call_fault_sum },
    { "power-step", no_book, call_power_step },
    { "power-step-by", no_book, call_power_step_by },
    { "sleep-watch", no_book, call_sleep_watch },
};
enum { CASES = sizeof cases / sizeof *cases };

int main(int argc, char **argv) {
    if (argc == 2 && strcmp(argv[1], "list") == 0) {
        for (int i = 0; i < CASES; i++)
            puts(cases[i].name);
        return 0;
    }
    for (int i = 0; argc == 4 && i < CASES; i++)
        if (strcmp(argv[2], cases[i].name) == 0) {
            uint32_t times = (uint32_t)strtoul(argv[3], 0, 10), refused = 0;
            face = strcmp(argv[1], "library") == 0 ? &library : strcmp(argv[1], "plain") == 0 ? &plain : &nothing;
            cases[i].prepare();
            for (uint32_t turn = 0; turn < times; turn++)
                refused += cases[i].call(turn) != 0;
            if (refused)
                fprintf(stderr, "bench: %u calls were refused\n", (unsigned)refused);
            return refused != 0;
        }
    fprintf(stderr, "bench: usage: bench library|plain|nothing CASE TIMES, or bench list\n");
    return 2;
}
