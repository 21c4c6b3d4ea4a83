/* The cases that lend a book, for host/vectors.c: frames read and packed, the spread and the text, and entries of the book set. */
#ifndef LENT_CASES_H
#define LENT_CASES_H

#include "case_input.h"
#include <string.h>

static void print_spread(uint32_t bus, uint32_t identifier, uint32_t room, const char *word) {
    uint32_t places[256];
    uint32_t count;
    uint32_t refusal = FACE(spread)(book, bus, identifier, places, room, &count);
    if (refusal) {
        print_refusal(refusal);
        return;
    }
    printf("%s\t%" PRIu32, word, count);
    for (uint32_t i = 0; i < count; i++)
        printf("\t%08" PRIX32, places[i]);
    printf("\n");
}

static void read_case(void) {
    uint32_t identifier = hex(8), room = hex(2), bytes = hex(2), raws[256];
    uint32_t count;
    uint8_t frame[256], classes[256];
    int64_t thousandths[256];
    for (uint32_t i = 0; i < bytes; i++)
        frame[i] = (uint8_t)hex(2);
    end_of_line();
    uint32_t refusal = FACE(frame_read)(book, identifier, frame, bytes, raws, room, classes, room, thousandths, room, &count);
    if (refusal) {
        print_refusal(refusal);
        return;
    }
    printf("read\t%" PRIu32, count);
    for (uint32_t i = 0; i < count; i++)
        printf("\t%" PRIu32 "\t%s\t%" PRId64, raws[i], class_words[classes[i]], thousandths[i]);
    printf("\n");
}

static void pack_case(void) {
    uint32_t identifier = hex(8), bytes = hex(2), count = hex(2), values[256];
    uint8_t frame[256];
    for (uint32_t i = 0; i < count; i++)
        values[i] = hex(8);
    end_of_line();
    uint32_t refusal = FACE(frame_pack)(book, identifier, values, count, frame, bytes);
    if (refusal) {
        print_refusal(refusal);
        return;
    }
    printf("packed\t");
    for (int i = 0; i < PC_FRAME_BYTES; i++)
        printf("%02X", frame[i]);
    printf("\n");
}

static void spread_case(void) {
    uint32_t bus = hex(8), identifier = hex(8), room = hex(2);
    end_of_line();
    print_spread(bus, identifier, room, "spread");
}

/* Asks for the book's text with a room of so many bytes, filled before with one that no text has, and counts those that stayed. */
static void write_case(void) {
    enum { MOST_ROOM = 8192, FILLING = '*' };
    static uint8_t text[MOST_ROOM];
    uint32_t room = hex(8), count = 0, begin = 0, stayed = 0;
    end_of_line();
    if (room > MOST_ROOM) {
        fprintf(stderr, "vectors: a room of %" PRIu32 " bytes\n", room);
        exit(2);
    }
    memset(text, FILLING, sizeof text);
    uint32_t refusal = FACE(book_write)(book, text, room, &count);
    if (!refusal)
        begin = count;
    for (uint32_t i = begin; i < room; i++)
        stayed += text[i] == FILLING;
    printf("%s\t%" PRIu32 "\t%" PRIu32 "\n", refusal ? "no" : "text", refusal ? refusal : count, stayed);
    fwrite(text, 1, begin, stdout);
}

/* Sets one entry of the book: a column's letter, an index, the value. */
static void damage_book(void) {
    static const struct { char letter; int first; } columns[] = {
        { 'M', PC_BOOK_MESSAGES }, { 'S', PC_BOOK_SIGNALS }, { 'R', PC_BOOK_ROUTES }, { 'I', PC_BOOK_IDENTIFIERS },
        { 'E', PC_BOOK_ENDS }, { 'N', PC_BOOK_NUMBERS }, { 'T', PC_BOOK_STARTS }, { 'F', PC_BOOK_FROM }, { 'G', PC_BOOK_TO },
    };
    char letter = (char)input[at++];
    uint32_t index = hex(2), value = hex(8);
    end_of_line();
    for (size_t i = 0; i < sizeof columns / sizeof *columns; i++)
        if (columns[i].letter == letter)
            book[(uint32_t)columns[i].first + index] = value;
}

/* A line of the spread, writer, frames, packing and record streams, by its first byte. */
static void lent_book_case(void) {
    uint32_t line;
    switch (input[at++]) {
    case 'B':
        read_book(&line);
        return;
    case 'F':
        read_case();
        return;
    case 'P':
        pack_case();
        return;
    case 'S':
        spread_case();
        return;
    case 'W':
        write_case();
        return;
    case 'X':
        damage_book();
        return;
    default:
        fprintf(stderr, "vectors: byte %zu begins no case\n", at - 1);
        exit(2);
    }
}

#endif
