/* What the parts of the comparison share: a step, how it is judged, and the count of edges. */
#ifndef TEST_H
#define TEST_H

#include "plain.h"

enum { CONDITIONS = 6, STATES = 8 };

/* The counts of an observation, in the header's order: how many bits each has, which of its values are good, the lowest bit for 0, and for
   which of the six conditions. */
struct count {
    uint8_t bits, good, condition;
};
extern const struct count counts[PCT_CHARGE_WORDS];

/* Numbers that are no state; how many bits those that are a state have. */
enum { NO_STATES = 8, STATE_BITS = 3 };
extern const uint32_t no_states[NO_STATES];

/* What a call is given. */
struct step {
    uint32_t state, seen[PCT_CHARGE_WORDS];
};

/* ---- A case: begun, judged, met (test.c). */

void begin_case(const struct step *given);

/* Ends the run where the two returned different numbers, or one that is none of the call's refusals. */
void judge(uint32_t library, uint32_t plain);

/* Ends the run and says what is wrong, and with what where the name is not empty. */
void fail_case(const char *what, const char *name);

/* ---- Edges (test_edges.c): what tells the rule from one that is off by one. Each is counted by itself. */

/* How a case was come by. */
enum way { IN_ORDER, BY_CHANCE, WAYS };

/* Counts the edges of this step, which was answered with this refusal and state. Gives 0 where no such step may lead there. */
int meet_edges(enum way way, const struct step *given, uint32_t refusal, uint32_t after);

/* Prints of each family how often its rarest edge was met that way. Gives how many edges never were. */
int report_edges(enum way way);

/* ---- The cases, in order (test_order.c, test_refused.c) and by chance (test_walks.c). */

/* Calls both on a step, and judges the numbers, the states and every word around them. */
void compare_in_order(const struct step *given);

/* Every state with every observation whose counts fit, or one in so many of them. */
void try_every_observation(uint32_t stride);

/* Each count too wide; pairs of counts, at every bit or at one in so many of them; every choice of counts. */
void try_wide_counts(uint32_t stride);
void try_no_states(void);
void try_unset_memory(void);
void try_constant_counts(void);

/* Memory for what is lent in the walks, and what happens where a call is stopped there. 0 where there is none. */
int open_walks(void);
void try_walk(uint64_t seed);

#endif
