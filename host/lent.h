/* Lent memory under watch: three copies of one block, as it was, as the library left it and as the plain implementation left
   it. At one end of a block is a stretch that is closed (closed.h), where a call that reads or writes past that end is stopped by
   the machine; at the other, and where the block stands apart from that stretch, are bytes that nobody may write. */
#ifndef LENT_H
#define LENT_H

#include "chance.h"
#include "closed.h"

/* The bytes between two closed stretches, and how many of them beside a block are watched. */
enum { LENT_ROOM = CLOSED_ROOM, LENT_WATCHED = 64 };

struct lent {
    const char *name;
    size_t bytes, first;                  /* first: which of the bytes between the closed stretches is its first */
    uint8_t *was, *library, *plain;       /* the bytes between the closed stretches, of each copy */
};

/* Gives the block its memory, once for all that is lent in it. 0 where there is none. */
int lent_open(struct lent *block);

/* Lends so many bytes with these contents, or with any by chance where they are null: up to a closed stretch, one time in four
   from one on; or so many bytes apart from it, at most LENT_WATCHED. At most LENT_ROOM - 2 x LENT_WATCHED bytes. */
void lent_out(struct lent *block, struct chance *c, const char *name, const void *contents, size_t bytes, size_t apart);

const void *lent_was(const struct lent *block);
void *lent_library(const struct lent *block);
void *lent_plain(const struct lent *block);

/* Null where both sides left the same, kept to their bytes and, if the block was only read or the call refused, left all as
   it was; else what is wrong. */
const char *lent_fault(const struct lent *block, int must_stay);

/* Null where the address is in no closed stretch of the block; else who went past which end. */
const char *lent_trespass(const struct lent *block, const void *address);

#endif
