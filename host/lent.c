#include "lent.h"
#include <string.h>

int lent_open(struct lent *block) {
    block->was = closed_between();
    block->library = closed_between();
    block->plain = closed_between();
    return block->was && block->library && block->plain;
}

/* Whether the closed stretch that it stands at is the one before it. */
static int at_beginning(const struct lent *block) {
    return block->first <= LENT_WATCHED;
}

/* Where the block with the watched bytes around it begins, and where it ends: at most at a closed stretch. */
static size_t begin(const struct lent *block) {
    return at_beginning(block) ? 0 : block->first - LENT_WATCHED;
}

static size_t end(const struct lent *block) {
    return at_beginning(block) ? block->first + block->bytes + LENT_WATCHED : LENT_ROOM;
}

void lent_out(struct lent *block, struct chance *c, const char *name, const void *contents, size_t bytes, size_t apart) {
    block->name = name;
    block->bytes = bytes;
    block->first = one_in(c, 4) ? apart : LENT_ROOM - bytes - apart;
    size_t at = begin(block), whole = end(block) - at;
    chance_bytes(c, block->was + at, whole);
    if (contents)
        memcpy(block->was + block->first, contents, bytes);
    memcpy(block->library + at, block->was + at, whole);
    memcpy(block->plain + at, block->was + at, whole);
}

const void *lent_was(const struct lent *block) {
    return block->was + block->first;
}

void *lent_library(const struct lent *block) {
    return block->library + block->first;
}

void *lent_plain(const struct lent *block) {
    return block->plain + block->first;
}

/* Whether the stretch at the block's other end, where it is not really closed, holds what it was filled with, as far as is looked. */
static int still_filled(const struct lent *block, const uint8_t *copy) {
    const uint8_t *past = at_beginning(block) ? copy - LENT_WATCHED : copy + LENT_ROOM;
    for (size_t i = 0; !closed_by_machine && i < LENT_WATCHED; i++)
        if (past[i] != CLOSED_FILLING)
            return 0;
    return 1;
}

/* Whether the bytes around the block are as they were. */
static int stands_around(const struct lent *block, const uint8_t *copy) {
    size_t at = begin(block), behind = block->first + block->bytes;
    return memcmp(block->was + at, copy + at, block->first - at) == 0 && memcmp(block->was + behind, copy + behind, end(block) - behind) == 0;
}

const char *lent_fault(const struct lent *block, int must_stay) {
    const void *was = lent_was(block);
    if (!still_filled(block, block->library))
        return "the library wrote past its end";
    if (!still_filled(block, block->plain))
        return "the plain implementation wrote past its end";
    if (!stands_around(block, block->library))
        return "the library wrote beside it";
    if (!stands_around(block, block->plain))
        return "the plain implementation wrote beside it";
    if (must_stay && memcmp(was, lent_library(block), block->bytes) != 0)
        return "the library changed it and may not";
    if (memcmp(lent_library(block), lent_plain(block), block->bytes) != 0)
        return "the two left different contents";
    return 0;
}

/* Whether the address is one of the LENT_ROOM from this one on. */
static int within(uintptr_t address, uintptr_t from) {
    return address >= from && address - from < LENT_ROOM;
}

const char *lent_trespass(const struct lent *block, const void *address) {
    uintptr_t at = (uintptr_t)address, library = (uintptr_t)block->library, plain = (uintptr_t)block->plain;
    if (within(at, library + LENT_ROOM))
        return "the library went past its end";
    if (within(at, library - LENT_ROOM))
        return "the library went before its beginning";
    if (within(at, plain + LENT_ROOM))
        return "the plain implementation went past its end";
    if (within(at, plain - LENT_ROOM))
        return "the plain implementation went before its beginning";
    return 0;
}
