/* The workshop tester of Punnetcrest: follows a truck that is put to charge, from the plug to ready. A product of its own above the
   library: it has its own archive, libpunnetcrest_tester.a (tester/build), and may be linked with libpunnetcrest.a or without it.
   docs/TESTER.md says of each state what it waits for and what to look at on the truck.

   The call returns a refusal number, 0 where it did what was asked. A refused call leaves everything lent to it as it was. The tester
   has no memory of its own, takes none, and does no input or output: any number of threads may call it, each on memory that nobody else
   writes meanwhile. Every pointer points to the stated number of entries, is aligned for them and is not null. What the call may
   write overlaps nothing else that it is lent.

   One header for every processor (tester/build --help lists them), all of them little endian. */
#ifndef PUNNETCREST_TESTER_H
#define PUNNETCREST_TESTER_H

#include <stdint.h>

#if defined __ARM_BIG_ENDIAN || defined __BIG_ENDIAN__ || defined __big_endian__
#error "There is no Punnetcrest for big-endian processors."
#elif defined __BYTE_ORDER__ && defined __ORDER_LITTLE_ENDIAN__
#if __BYTE_ORDER__ != __ORDER_LITTLE_ENDIAN__
#error "There is no Punnetcrest for big-endian processors."
#endif
#endif

/* The version of the tester, which is not the library's. CHANGELOG.md says what each version asks of callers. */
#define PCT_VERSION "0.1.0"

#ifdef __cplusplus
extern "C" {
#endif

/* What the call refuses: 93 before 81. */
enum pct_refusal {
    PCT_DONE = 0,
    PCT_COUNT_TOO_WIDE = 81,      /* a count has more bits than its signal */
    PCT_NOT_A_CHARGE_STATE = 93   /* this header's own: a state that is none of enum pct_charge */
};

/* How far a charge has come: how many of the six conditions are met, each with all before it; or fault. */
enum pct_charge {
    PCT_CHARGE_START = 0,         /* a new monitor's: no condition is met */
    PCT_CHARGE_PLUG_SEEN = 1,     /* 1708 is 1, 2 or 3 */
    PCT_CHARGE_SELF_CHECKED = 2,  /* and 1605 is 0 */
    PCT_CHARGE_NO_WELD = 3,       /* and 311, 313, 325 and 327 are 0: of welds it sees these four alone */
    PCT_CHARGE_MAIN_CLOSED = 4,   /* and 301 and 302 are 2 */
    PCT_CHARGE_ALLOWED = 5,       /* and 1709 is 1 */
    PCT_CHARGE_READY = 6,         /* and 304 and 306 are 2 */
    PCT_CHARGE_FAULT = 7          /* a relay was seen welded; left where none is and the plug is out */
};
enum {                            /* what an observation has, as raw counts: where each of them stands */
    PCT_SEEN_PLUG = 0,                    /* 1708: 0 none, 1 port A, 2 port B, 3 both */
    PCT_SEEN_SELF_CHECK = 1,              /* 1605: 0 no fault */
    PCT_SEEN_MAIN_POSITIVE_WELDED = 2,    /* 311: 0 normal, 1 welded */
    PCT_SEEN_MAIN_NEGATIVE_WELDED = 3,    /* 313 */
    PCT_SEEN_HEATING_POSITIVE_WELDED = 4, /* 325 */
    PCT_SEEN_HEATING_NEGATIVE_WELDED = 5, /* 327 */
    PCT_SEEN_MAIN_POSITIVE = 6,           /* 301: 1 open, 2 closed */
    PCT_SEEN_MAIN_NEGATIVE = 7,           /* 302 */
    PCT_SEEN_ALLOWED = 8,                 /* 1709: 1 charging allowed */
    PCT_SEEN_CHARGE_POSITIVE = 9,         /* 304, of the first pair: 1 open, 2 closed */
    PCT_SEEN_CHARGE_NEGATIVE = 10,        /* 306, of the first pair */
    PCT_CHARGE_WORDS = 11
};

/* One observation. The state is one number, kept by the caller, who sets it to PCT_CHARGE_START at first. A welded fault gives
   fault, from any state; fault is left where none is set and 1708 is 0, to the start. Otherwise, where a condition that was met is
   lost, the state is the last one before the first that is lost; else it goes one on where the next condition holds too, and stays
   where it does not. Where the call gives 0 and *state is PCT_CHARGE_READY, every condition holds in what was seen in this call; a
   state that a refused call kept says nothing of what was seen in it. Refusals 93, 81. */
uint32_t pct_charge_step(uint32_t *state, const uint32_t seen[PCT_CHARGE_WORDS]);

#ifdef __cplusplus
}
#endif
#endif
