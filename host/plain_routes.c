/* Chains, loops, doubling and spread, over routes as two columns of places. */
#include "plain.h"
#include <string.h>

/* For each route, the routes that chains beginning with it go on to, as bits. */
static void close_chains(const uint32_t *from, const uint32_t *to, uint32_t count, uint64_t on[PC_MOST_ROUTES]) {
    for (uint32_t i = 0; i < count; i++) {
        on[i] = 0;
        for (uint32_t j = 0; j < count; j++)
            if (from[j] == to[i])
                on[i] |= (uint64_t)1 << j;
    }
    for (uint32_t k = 0; k < count; k++)
        for (uint32_t i = 0; i < count; i++)
            if (on[i] >> k & 1)
                on[i] |= on[k];
}

/* For each route, the places where chains beginning with it end, as bits: a place stands as the first route that leads to it. */
static void ends_of_chains(const uint32_t *to, uint32_t count, const uint64_t on[PC_MOST_ROUTES], uint64_t ends[PC_MOST_ROUTES]) {
    uint64_t place[PC_MOST_ROUTES];
    for (uint32_t i = 0; i < count; i++) {
        uint32_t first = 0;
        while (to[first] != to[i])
            first++;
        place[i] = (uint64_t)1 << first;
    }
    for (uint32_t i = 0; i < count; i++) {
        ends[i] = place[i];
        for (uint32_t j = 0; j < count; j++)
            if (on[i] >> j & 1)
                ends[i] |= place[j];
    }
}

uint32_t plain_routes_refusal(const uint32_t *from, const uint32_t *to, uint32_t count, uint32_t *lowest) {
    uint64_t on[PC_MOST_ROUTES], ends[PC_MOST_ROUTES];
    close_chains(from, to, count, on);
    for (uint32_t i = 0; i < count; i++)
        if (on[i] >> i & 1) {
            *lowest = i;
            return PC_CLOSED_CHAIN;
        }
    ends_of_chains(to, count, on, ends);
    /* Without loops, two different chains between two places part at some place, along two of its routes that reach a common
       end. A chain begins one of a pair if it can come to such a fork or starts at one. */
    uint64_t forks = 0;
    for (uint32_t i = 0; i < count; i++)
        for (uint32_t j = 0; j < i; j++)
            if (from[i] == from[j] && (ends[i] & ends[j]) != 0)
                forks |= (uint64_t)1 << i | (uint64_t)1 << j;
    for (uint32_t i = 0; i < count; i++)
        if (forks & (on[i] | (uint64_t)1 << i)) {
            *lowest = i;
            return PC_DOUBLE_CHAIN;
        }
    return PC_DONE;
}

int plain_routes_taken(const uint32_t book[PC_BOOK_WORDS]) {
    uint32_t count = book[PC_BOOK_ROUTES], lowest;
    if (count > PC_MOST_ROUTES)
        return 0;
    for (uint32_t i = count; i < PC_MOST_ROUTES; i++)
        if (book[PC_BOOK_FROM + i] != 0 || book[PC_BOOK_TO + i] != 0)
            return 0;
    return plain_routes_refusal(book + PC_BOOK_FROM, book + PC_BOOK_TO, count, &lowest) == PC_DONE;
}

/* Each route of the place in book order: the place it leads to, then that place's own spread. */
static uint32_t spread_from(const uint32_t book[PC_BOOK_WORDS], uint32_t place, uint32_t *spread, uint32_t at) {
    for (uint32_t i = 0; i < book[PC_BOOK_ROUTES]; i++)
        if (book[PC_BOOK_FROM + i] == place) {
            spread[at] = book[PC_BOOK_TO + i];
            at = spread_from(book, book[PC_BOOK_TO + i], spread, at + 1);
        }
    return at;
}

uint32_t plain_spread(const uint32_t book[PC_BOOK_WORDS], uint32_t bus, uint32_t identifier, uint32_t *places,
                      uint64_t places_length, uint32_t *count) {
    uint32_t spread[PC_MOST_ROUTES];
    if (!plain_routes_taken(book))
        return PC_NOT_A_BOOK;
    if (bus > 7 || identifier >= (uint32_t)1 << 29)
        return PC_PLACE_OVER_LIMIT;
    uint32_t found = spread_from(book, PC_PLACE(bus, identifier), spread, 0);
    if (found > places_length)
        return PC_ROOM_FOR_SPREAD;
    memcpy(places, spread, found * sizeof *places);
    *count = found;
    return PC_DONE;
}
