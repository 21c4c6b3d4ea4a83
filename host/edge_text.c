#include "edge_text.h"
#include <inttypes.h>
#include <stdio.h>
#include <string.h>

#define COUNT(list) (sizeof list / sizeof *list)
#define FIELDS(list) list, COUNT(list)

static const char *const identifiers[] = {
    "00000000", "1FFFFFFF", "20000000", "3FFFFFFF", "80000000", "FFFFFFFF", "9ABCDEF0", "1234567", "012345678", "",
    "1234567/", "1234567:", "1234567@", "1234567G", "/1234567", ":1234567", "@1234567", "G1234567", "1234567a", "1234 567",
};
static const char *const buses[] = { "0", "7", "8", "07", "00", "", "/", ":", "256", "65536", "99999", "100000", "0x1" };
static const char *const numbers[] = {
    "0", "200", "201", "210", "211", "1307", "1308", "1401", "1501", "1927", "1928", "0201", "65737", "99999", "100000", "20/", "20:",
};
static const char *const starts[] = { "0", "00", "01", "62", "63", "64", "65", "256", "319", "65536", "99999", "100000", "", "6/", "6:" };

/* Texts with one field left open, and what stands there. */
static const struct {
    const char *form;
    const char *const *fields;
    size_t count;
} open_texts[] = {
    { "M\t%s\n", FIELDS(identifiers) },
    { "R\t%s\t18FF21F3\t1\t18FF21F4\n", FIELDS(buses) },
    { "R\t0\t%s\t1\t18FF21F4\n", FIELDS(identifiers) },
    { "R\t0\t18FF21F3\t%s\t18FF21F4\n", FIELDS(buses) },
    { "R\t0\t18FF21F3\t1\t%s\n", FIELDS(identifiers) },
    { "M\t18FF21F3\nS\t%s\t0\n", FIELDS(numbers) },
    { "M\t18FF21F3\nS\t1915\t%s\n", FIELDS(starts) },
};

/* Kinds, counts of fields, ends of lines; then signals and routes that stand in each other's way, and just not. */
static const char *const forms[] = {
    "", "\n", "\t\n", "M\n", "M\t\n", "M\t18FF21F3", "M\t18FF21F3\t\n", "M\t18FF21F3\r\n", "M\t18FF21F3\n\n", "M\t18FF21F3\nM",
    "MM\t18FF21F3\n", "L\t18FF21F3\n", "N\t18FF21F3\n", "m\t18FF21F3\n", "M 18FF21F3\n", "\tM\t18FF21F3\n",
    "M\t18FF21F3\nM\t18FF21F3\n", "M\t18FF21F3\nM\t18FF21F4\n", "S\t203\t0\n", "S\t200\t0\n", "S\t203\t49\n",
    "M\t18FF21F3\nS\t203\n", "M\t18FF21F3\nS\t203\t0\t\n", "M\t18FF21F3\nT\t203\t0\n", "M\t18FF21F3\nS\t203\t0\nS\t203\t16\n",
    "M\t18FF21F3\nS\t203\t0\nS\t203\t8\n", "M\t18FF21F3\nS\t203\t0\nS\t203\t49\n", "M\t18FF21F3\nS\t203\t48\nS\t204\t60\n",
    "M\t18FF21F3\nS\t203\t0\nM\t18FF21F4\nS\t203\t0\n", "M\t18FF21F3\nS\t503\t59\n", "M\t18FF21F3\nS\t503\t60\n",
    "M\t18FF21F3\nS\t503\t61\n", "M\t18FF21F3\nS\t504\t55\n", "M\t18FF21F3\nS\t504\t56\n", "M\t18FF21F3\nS\t504\t57\n",
    "R\t0\t18FF21F3\t1\n", "R\t0\t18FF21F3\t1\t18FF21F4\t\n", "Q\t0\t18FF21F3\t1\t18FF21F4\n", "R\t0\t18FF21F3\t0\t18FF21F3\n",
    "R\t0\t18FF21F3\t1\t18FF21F3\n", "R\t0\t18FF21F3\t0\t18FF21F4\n",
    "R\t0\t18FF21F3\t1\t18FF21F4\nR\t0\t18FF21F3\t1\t18FF21F4\n", "R\t0\t18FF21F3\t1\t18FF21F4\nR\t1\t18FF21F4\t0\t18FF21F3\n",
};

typedef char fields_counted[EDGE_FIELDS == 3 * COUNT(identifiers) + 2 * COUNT(buses) + COUNT(numbers) + COUNT(starts) ? 1 : -1];
typedef char forms_counted[EDGE_FORMS == COUNT(forms) ? 1 : -1];

/* Of each signal four: one that just ends at frame bit 63 or goes one over, one whose last bit another just misses or meets. */
static int row_text(char *line, size_t room, uint32_t which) {
    static const char both[] = "M\t18FF21F3\nS\t%" PRIu32 "\t0\nS\t%d\t%" PRIu32 "\n";
    const struct plain_row *row = &plain_catalogue[which / 4];
    uint32_t variant = which % 4;
    if (variant < 2)
        return snprintf(line, room, "M\t18FF21F3\nS\t%" PRIu32 "\t%" PRIu32 "\n", row->number, 64 - row->bits + variant);
    return snprintf(line, room, both, row->number, row->number == 1915 ? 1916 : 1915, row->bits - (variant - 2));
}

/* A text with an open field, filled. */
static int field_text(char *line, size_t room, uint32_t which) {
    uint32_t i = 0;
    for (; which >= open_texts[i].count; i++)
        which -= (uint32_t)open_texts[i].count;
    return snprintf(line, room, open_texts[i].form, open_texts[i].fields[which]);
}

void make_edge_text(struct made_text *text, uint32_t which) {
    char *line = (char *)text->bytes;
    int length;
    if (which < EDGE_FIELDS)
        length = field_text(line, MADE_TEXT_ROOM, which);
    else if (which < EDGE_FIELDS + EDGE_FORMS)
        length = snprintf(line, MADE_TEXT_ROOM, "%s", forms[which - EDGE_FIELDS]);
    else
        length = row_text(line, MADE_TEXT_ROOM, which - EDGE_FIELDS - EDGE_FORMS);
    text->length = (size_t)length;
}

static void append_line(struct made_text *text, const void *line, size_t length) {
    memmove(text->bytes + text->length, line, length);
    text->length += length;
}

/* The last line of this kind once more. */
static void repeat_line(struct made_text *text, uint8_t kind) {
    size_t at = text->length - 1;
    while (at > 0 && !(text->bytes[at - 1] == '\n' && text->bytes[at] == kind))
        at--;
    const uint8_t *line = text->bytes + at, *newline = memchr(line, '\n', text->length - at);
    append_line(text, line, (size_t)(newline - line) + 1);
}

uint32_t make_full_text(struct made_text *text, struct chance *c, uint32_t which) {
    static const struct {
        const char *line;                 /* or the kind of the one to repeat */
        uint32_t refusal;
    } more[FULL_TEXTS] = {
        { "M\t00000000\n", PC_TABLE_FULL }, { "M\t20000000\n", PC_OVER_LIMIT }, { "M", PC_MESSAGE_REPEATED }, { "S\t200\t0\n", PC_OVER_LIMIT },
        { "S", PC_SIGNAL_REPEATED }, { "S\t503\t59\n", PC_SIGNAL_MISPLACED }, { "S\t504\t57\n", PC_SIGNAL_MISPLACED },
        { "R\t0\t00000000\t0\t00000001\n", PC_TABLE_FULL }, { "R\t8\t00000000\t0\t00000001\n", PC_OVER_LIMIT },
    };
    const char *line = more[which].line;
    make_text(text, c, PC_MOST_MESSAGES, PC_MOST_SIGNALS, PC_MOST_ROUTES);
    if (line[1] == 0)
        repeat_line(text, (uint8_t)line[0]);
    else
        append_line(text, line, strlen(line));
    return more[which].refusal;
}
