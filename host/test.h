/* What the parts of the comparison share: numbers by chance, one case with what is lent for it, and the count of edges. */
#ifndef TEST_H
#define TEST_H

#include "lent.h"
#include "plain.h"
#include "plain_catalogue.h"

/* ---- Numbers by chance. */

extern struct chance chance;

uint32_t below(uint32_t bound);
int once_in(uint32_t times);

/* A number from everywhere, the edges of the 32 bits more often. */
uint32_t any_number(void);

/* ---- A case: begun, lent to, judged. */

enum function { BOOK_READ, BOOK_WRITE, CLASS, DASH, FRAME_READ, FRAME_PACK, SPREAD, FAULT_SUM, POWER_STEP, POWER_STEP_BY, SLEEP_START, SLEEP_WATCH, FUNCTIONS };

void begin_case(enum function f);

/* A block for this case, with these contents, or any where they are null. L is the library's copy of it, P the plain one's. */
struct lent *lend(const char *name, const void *contents, size_t bytes);

/* The same for what a caller may have at any address: bytes, which at times begin off every boundary. */
struct lent *lend_bytes(const char *name, const void *contents, size_t bytes);
#define L(block, type) ((type *)lent_library(block))
#define P(block, type) ((type *)lent_plain(block))

/* Ends the run where the two returned different numbers, or one that is none of the function's refusals, or left different
   memory. The first `read_only` blocks of the case may not be written, and none where the call was refused, the book reader's
   apart. */
void judge(uint32_t library, uint32_t plain, int read_only);

/* Ends the run and says what is wrong, and with which block where the name is not empty. */
void fail_case(const char *what, const char *name);

/* ---- Edges (test_edges.c): inputs that tell a rule from one that is off by one. Each family of them is counted one by one. */

enum edges {
    LONG_LENGTHS, TEXT_LENGTHS, FULL_TABLES, FULL_LINES, EDGE_LINES, KNOTS, BOOK_COUNTS, LENT_EDGES, SPREAD_ROOMS, SPREAD_PLACES,
    WRITE_COUNTS, WRITE_ROOMS, WRITE_BOOKS, WRITE_REFUSED, WRITE_LONGEST,
    ROW_COUNTS, ROW_FRAMES, SIGNAL_NUMBERS, READ_ROOMS, CHECKS, FRAME_LENGTHS, PACK_LENGTHS, PACK_COUNTS, FRAME_PLACES,
    FAULT_ALONE, FAULT_LIMITS, FAULT_LENGTHS, FAULT_AGREEMENT,
    POWER_RULES, POWER_VOLTAGES, POWER_HUNDREDTHS, POWER_NONE, POWER_SHARES, POWER_WRONG_SHARES, POWER_CURRENTS, POWER_LIMITS, POWER_ORDER,
    SLEEP_AGES, SLEEP_STATES, SLEEP_ROUND, FAMILIES
};

/* Of each signal: counts around its limits, its bits and three marks. */
enum { ROW_EDGES = 6 + 3 * 4 };

/* Books of one message with one signal, lent: identifiers, each signal's starts, numbers of signals and between. */
enum { LENT_IDENTIFIERS = 4, LENT_STARTS = 4 * PLAIN_ROWS, LENT_NUMBERS = 2048, LENT_BOOKS = LENT_IDENTIFIERS + LENT_STARTS + LENT_NUMBERS };

void meet(enum edges family, uint32_t which);

/* Counts the edges of the family, in their order, of which the list says that they hold. */
void meet_each(enum edges family, const int *holds, uint32_t count);

/* Prints of each family how often the rarest edge was met. Gives how many families have one that never was. */
int report_edges(void);

/* Where the number stands in the list; the count where it does not. */
uint32_t place_in(const uint32_t *list, uint32_t count, uint32_t number);

/* ---- The cases of a group, by what they are about. */

/* A book of a text that is taken. */
void make_taken_book(uint32_t book[PC_BOOK_WORDS]);

/* The text read by both. Gives the refusal, with the book and the line that they left. */
uint32_t compare_book_read(const uint8_t *bytes, size_t length, uint32_t book[PC_BOOK_WORDS], uint32_t *line);

/* The book written by both with a room of so many bytes. Gives the refusal. */
uint32_t compare_book_write(const uint32_t book[PC_BOOK_WORDS], uint32_t room);

/* Makes another of them the group's own. */
void make_good_book(void);

/* The group's book or an empty one, whole or damaged, or words by chance. */
void choose_book(uint32_t book[PC_BOOK_WORDS]);

/* Counts the edge of the family where one of the three counts of a book is the most, or one over, there or in a book that is else
   empty, in a call that tests it and gave this refusal. */
void meet_count(enum edges family, const uint32_t book[PC_BOOK_WORDS], uint32_t count, uint32_t refusal);

void try_long_length(void);
void try_texts(void);
void try_spread(void);
void try_book_write(void);
void try_longest_text(void);
void try_classes(void);
void try_frame_read(void);
void try_frame_pack(void);
void try_row_in_frame(void);
void try_lent_edge(void);
void try_fault_sum(void);
void try_power_step(void);
void try_sleep(void);

#endif
