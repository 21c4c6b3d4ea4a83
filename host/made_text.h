/* Texts of books, made by chance: some to be taken, some damaged. */
#ifndef MADE_TEXT_H
#define MADE_TEXT_H

#include "chance.h"

enum { MADE_TEXT_ROOM = 40000 };

struct made_text {
    uint8_t bytes[MADE_TEXT_ROOM];
    size_t length;
};

/* A text of about so many lines of each kind. Its messages are as a planner would have them; its routes are mostly without
   loops and doubling. It is mostly taken. */
void make_text(struct made_text *text, struct chance *c, uint32_t messages, uint32_t signals, uint32_t routes);

/* A route between two of six places, the place 0 among them; onward: only to a later one, so that no chain closes. */
void knot_route(struct chance *c, int onward, uint32_t *from, uint32_t *to);

/* A text of so many such routes, which mostly loop or double. */
void make_knot(struct made_text *text, struct chance *c, uint32_t routes, int onward);

/* The same text with one thing changed: a byte, a line, the end, or a line more. */
void damage_text(struct made_text *text, struct chance *c);

/* A text of bytes that books are made of, in no order. */
void make_jumble(struct made_text *text, struct chance *c, size_t length);

/* The number of a signal. */
uint32_t any_signal(struct chance *c);

#endif
