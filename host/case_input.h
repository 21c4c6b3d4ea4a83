/* The stored cases on standard input, for host/vectors.c: lines, and the book of a text among them. */
#ifndef CASE_INPUT_H
#define CASE_INPUT_H

#include "case_lines.h"
#include "face.h"

static uint32_t book[PC_BOOK_WORDS];

/* A length, a newline, the text, a newline: the text becomes the book. */
static uint32_t read_book(uint32_t *line) {
    uint32_t bytes = hex(8);
    end_of_line();
    uint32_t refusal = FACE(book_read)(input + at, bytes, book, line);
    at += bytes;
    end_of_line();
    return refusal;
}

#endif
