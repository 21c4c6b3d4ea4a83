/* Texts of books in which one thing stands at a limit or just past it: a field, a line's form, a signal's bits, full tables. */
#ifndef EDGE_TEXT_H
#define EDGE_TEXT_H

#include "made_text.h"
#include "plain_catalogue.h"

/* How many there are: of lines with one field, of lines' forms, and of each signal's bits. */
enum { EDGE_FIELDS = 118, EDGE_FORMS = 43, EDGE_TEXTS = EDGE_FIELDS + EDGE_FORMS + 4 * PLAIN_ROWS };

void make_edge_text(struct made_text *text, uint32_t which);

/* Full tables and one line more, which may have something else wrong as well. Gives the refusal that it is made for, which
   chance mostly allows. */
enum { FULL_TEXTS = 9 };
uint32_t make_full_text(struct made_text *text, struct chance *c, uint32_t which);

#endif
