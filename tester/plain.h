/* The tester's rule once more, in plain C, written from docs/RULES.md, P5, and not from the Rattle source: what the proved call is compared
   with, for its answers and for its speed. */
#ifndef PLAIN_H
#define PLAIN_H

#include "punnetcrest_tester.h"

uint32_t plain_charge_step(uint32_t *state, const uint32_t seen[PCT_CHARGE_WORDS]);

#endif
