#include "made_text.h"
#include "plain_signals.h"
#include <inttypes.h>
#include <stdarg.h>
#include <stdio.h>
#include <string.h>

enum { PLACES = 80 };

static void append(struct made_text *text, const char *form, ...) {
    char line[128];
    va_list words;
    va_start(words, form);
    int length = vsnprintf(line, sizeof line, form, words);
    va_end(words);
    if (length < 0 || text->length + (size_t)length > MADE_TEXT_ROOM)
        return;
    memcpy(text->bytes + text->length, line, (size_t)length);
    text->length += (size_t)length;
}

uint32_t any_signal(struct chance *c) {
    return plain_catalogue[chance_below(c, PLAIN_ROWS)].number;
}

/* A message with so many signals, or as many as chance finds room for. Gives their count. */
static uint32_t append_message(struct made_text *text, struct chance *c, uint32_t identifier, uint32_t signals) {
    uint32_t used[64], count = 0;
    uint64_t placed = 0;
    append(text, "M\t%08" PRIX32 "\n", identifier);
    for (uint32_t attempt = 0; attempt < 8 * signals && count < signals; attempt++) {
        uint32_t number = one_in(c, 12) ? CHECKSUM : one_in(c, 12) ? COUNTER : any_signal(c), again = 0;
        const struct plain_row *row = plain_row_of(number);
        uint32_t start = number == CHECKSUM ? CHECKSUM_START : number == COUNTER ? COUNTER_START : chance_below(c, 65 - row->bits);
        uint64_t bits = (((uint64_t)1 << row->bits) - 1) << start;
        for (uint32_t i = 0; i < count; i++)
            again |= used[i] == number;
        if (again || (placed & bits))
            continue;
        placed |= bits;
        used[count++] = number;
        append(text, "S\t%" PRIu32 "\t%" PRIu32 "\n", number, start);
    }
    return count;
}

/* The places that routes are made over. */
struct map {
    uint32_t places[PLACES], count;
};

static uint32_t any_place(struct map *map, struct chance *c) {
    return map->places[chance_below(c, map->count)];
}

static uint32_t new_place(struct map *map, struct chance *c) {
    uint32_t bus = chance_below(c, 8), identifier = one_in(c, 16) ? 0x18FF21F3 : 0x18FF0000 + chance_below(c, 0x10000);
    uint32_t place = PC_PLACE(bus, identifier);
    if (map->count < PLACES)
        map->places[map->count++] = place;
    return place;
}

static void append_route(struct made_text *text, uint32_t from, uint32_t to) {
    append(text, "R\t%" PRIu32 "\t%08" PRIX32 "\t%" PRIu32 "\t%08" PRIX32 "\n", PC_BUS(from), PC_IDENTIFIER(from), PC_BUS(to), PC_IDENTIFIER(to));
}

/* Mostly to a new place, which makes no loop and no doubling; at times between two places there are. */
static void append_any_route(struct made_text *text, struct map *map, struct chance *c) {
    uint32_t from = one_in(c, 6) ? new_place(map, c) : any_place(map, c);
    uint32_t to = one_in(c, 32) ? any_place(map, c) : new_place(map, c);
    append_route(text, from, to);
}

void make_text(struct made_text *text, struct chance *c, uint32_t messages, uint32_t signals, uint32_t routes) {
    struct map map = { .count = 0 };
    uint32_t wanted = signals, left = routes, base = 0x18FF0000 + chance_below(c, 0x8000);
    text->length = 0;
    new_place(&map, c);
    for (uint32_t m = 0; m < messages; m++) {
        uint32_t share = wanted / (messages - m);
        uint32_t count = share == 0 ? 0 : one_in(c, 4) ? chance_below(c, 2 * share) : share;
        if (count > wanted)
            count = wanted;
        wanted -= append_message(text, c, one_in(c, 8) ? chance_below(c, 1u << 29) : base + 3 * m, count);
        for (; left > 0 && one_in(c, 3); left--)
            append_any_route(text, &map, c);
    }
    for (; left > 0; left--)
        append_any_route(text, &map, c);
}

void knot_route(struct chance *c, int onward, uint32_t *from, uint32_t *to) {
    uint32_t first = chance_below(c, onward ? 5 : 6), second = onward ? first + 1 + chance_below(c, 5 - first) : chance_below(c, 6);
    *from = PC_PLACE(first % 2, first / 2);
    *to = PC_PLACE(second % 2, second / 2);
}

void make_knot(struct made_text *text, struct chance *c, uint32_t routes, int onward) {
    uint32_t from, to;
    for (text->length = 0; routes > 0; routes--) {
        knot_route(c, onward, &from, &to);
        append_route(text, from, to);
    }
}

void make_jumble(struct made_text *text, struct chance *c, size_t length) {
    static const char bytes[] = "MSR\t\t\t\t\n\n0123456789ABCDEF01203204F3\r ";
    text->length = length;
    for (size_t i = 0; i < length; i++)
        text->bytes[i] = (uint8_t)bytes[chance_below(c, sizeof bytes - 1)];
}

/* A line that is wrong, or wrong somewhere, or right. */
static int odd_line(struct chance *c, char line[64]) {
    static const char *const starts[] = { "0", "63", "64", "56", "60", "57", "00", "07", "99999", "100000", "", "x", "-1" };
    static const char *const numbers[] = { "203", "204", "503", "504", "211", "1401", "1928", "0", "0203", "99999", "1927" };
    static const char *const identifiers[] = { "18FF21F3", "1FFFFFFF", "20000000", "FFFFFFFF", "18ff21f3", "8FF21F3", "018FF21F3", "00000000", "18FF21FG" };
    static const char *const buses[] = { "0", "1", "7", "8", "07", "10", "" };
    static const char *const ends[] = { "\n", "\n", "\n", "\n", "\t\n", "\r\n", " \n", "", "\n\n", "\t0\n" };
#define ANY(list) list[chance_below(c, sizeof list / sizeof *list)]
    uint32_t form = chance_below(c, 4), kind = (uint8_t)"MSRsT1\t"[chance_below(c, 7)];
    const char *start = ANY(starts), *number = ANY(numbers), *from_bus = ANY(buses), *to_bus = ANY(buses);
    const char *from = ANY(identifiers), *to = ANY(identifiers), *end = ANY(ends);
#undef ANY
    switch (form) {
    case 0:
        return sprintf(line, "M\t%s%s", from, end);
    case 1:
        return sprintf(line, "S\t%s\t%s%s", number, start, end);
    case 2:
        return sprintf(line, "R\t%s\t%s\t%s\t%s%s", from_bus, from, to_bus, to, end);
    default:
        return sprintf(line, "%c\t%s%s", (int)kind, from, end);
    }
}

static void insert(struct made_text *text, size_t at, const void *bytes, size_t count) {
    if (text->length + count > MADE_TEXT_ROOM)
        return;
    memmove(text->bytes + at + count, text->bytes + at, text->length - at);
    memcpy(text->bytes + at, bytes, count);
    text->length += count;
}

static void cut(struct made_text *text, size_t at, size_t count) {
    memmove(text->bytes + at, text->bytes + at + count, text->length - at - count);
    text->length -= count;
}

/* Where a line of the text begins, and how long it is with its newline. */
static size_t any_line(const struct made_text *text, struct chance *c, size_t *length) {
    size_t begin = text->length == 0 ? 0 : chance_below(c, (uint32_t)text->length), end;
    while (begin > 0 && text->bytes[begin - 1] != '\n')
        begin--;
    for (end = begin; end < text->length && text->bytes[end] != '\n'; end++)
        ;
    *length = end - begin + (end < text->length);
    return begin;
}

void damage_text(struct made_text *text, struct chance *c) {
    static const uint8_t bytes[] = "MSR\t\n0123456789ABCDEFa x\r\0\xFF";
    uint8_t copy[256], byte = bytes[chance_below(c, sizeof bytes)];
    char line[64];
    size_t length, other, at = any_line(text, c, &length), byte_at = chance_below(c, (uint32_t)text->length + 1);
    switch (chance_below(c, 8)) {
    case 0:
        if (byte_at < text->length)
            text->bytes[byte_at] = byte;
        break;
    case 1:
        if (byte_at < text->length)
            cut(text, byte_at, 1);
        break;
    case 2:
        insert(text, byte_at, &byte, 1);
        break;
    case 3: /* a line twice, maybe elsewhere */
        if (length > sizeof copy)
            break;
        memcpy(copy, text->bytes + at, length);
        insert(text, any_line(text, c, &other), copy, length);
        break;
    case 4:
        cut(text, at, length);
        break;
    case 5: /* a line moved */
        if (length > sizeof copy)
            break;
        memcpy(copy, text->bytes + at, length);
        cut(text, at, length);
        insert(text, any_line(text, c, &other), copy, length);
        break;
    case 6:
        text->length = byte_at;
        break;
    default:
        length = (size_t)odd_line(c, line);
        insert(text, one_in(c, 2) ? text->length : at, line, length);
        break;
    }
}
