/* The functions of C that the programs on the bare AArch64 ask for, in the place of a C library: those of Debian use vector registers,
   which are trapped here. Of each only what is asked for; a call that asks for more ends the run with status 98. */
#include "start.h"
#include <stdarg.h>
#include <stdint.h>
#include <stdio.h>
#include <stdlib.h>
#include <string.h>

static void not_here(const char *what) {
    say(what);
    say(" is not in host/bare64/library.c\n");
    exit(98);
}

void *memmove(void *to, const void *from, size_t count) {
    for (size_t i = 0; i < count; i++) {
        size_t at = (uintptr_t)to < (uintptr_t)from ? i : count - 1 - i;
        ((uint8_t *)to)[at] = ((const uint8_t *)from)[at];
    }
    return to;
}

void *memcpy(void *restrict to, const void *restrict from, size_t count) {
    return memmove(to, from, count);
}

void *memset(void *to, int byte, size_t count) {
    for (uint8_t *at = to; count-- > 0; at++)
        *at = (uint8_t)byte;
    return to;
}

int memcmp(const void *one, const void *other, size_t count) {
    for (const uint8_t *a = one, *b = other; count-- > 0; a++, b++)
        if (*a != *b)
            return *a - *b;
    return 0;
}

void *memchr(const void *in, int byte, size_t count) {
    for (const uint8_t *at = in; count-- > 0; at++)
        if (*at == (uint8_t)byte)
            return (void *)at;
    return 0;
}

size_t strlen(const char *text) {
    return (size_t)((const char *)memchr(text, 0, SIZE_MAX) - text);
}

unsigned long long strtoull(const char *restrict text, char **restrict end, int base) {
    unsigned long long number = 0;
    if (end || base != 10)
        not_here("strtoull with an end or another base than 10");
    for (; *text >= '0' && *text <= '9'; text++)
        number = 10 * number + (unsigned)(*text - '0');
    return number;
}

/* A piece of what is printed, and what stands between % and the letter. */
struct piece {
    const char *text;
    size_t length, width;
    int left, zeros, wide;
    char digits[24];
};

static const char *read_width(const char *form, struct piece *piece) {
    piece->left = *form == '-';
    piece->zeros = *form == '0';
    for (form += piece->left; *form >= '0' && *form <= '9'; form++)
        piece->width = 10 * piece->width + (size_t)(*form - '0');
    for (; *form == 'l'; form++)
        piece->wide = 1;
    return form;
}

static void set_number(struct piece *piece, uint64_t number, unsigned base, int negative) {
    char *end = piece->digits + sizeof piece->digits, *at = end;
    do
        *--at = "0123456789ABCDEF"[number % base];
    while (number /= base);
    if (negative)
        *--at = '-';
    piece->text = at;
    piece->length = (size_t)(end - at);
}

/* Writes what there is room for, and gives the length of all. */
static size_t put(char *to, size_t room, size_t length, const struct piece *piece) {
    size_t width = piece->width > piece->length ? piece->width : piece->length, from = piece->left ? 0 : width - piece->length;
    for (size_t i = 0; i < width && length + i < room; i++)
        to[length + i] = i - from < piece->length ? piece->text[i - from] : piece->zeros ? '0' : ' ';
    return length + width;
}

/* Of the forms %c, %s, %d, %u and %X; with l or ll, a width, and - or 0 before it. */
int vsnprintf(char *restrict to, size_t room, const char *restrict form, va_list words) {
    size_t length = 0;
    for (; *form; form++) {
        struct piece piece = { .text = form, .length = 1 };
        if (*form == '%') {
            form = read_width(form + 1, &piece);
            if (*form == 'c') {
                piece.digits[0] = (char)va_arg(words, int);
                piece.text = piece.digits;
            } else if (*form == 's') {
                piece.text = va_arg(words, const char *);
                piece.length = strlen(piece.text);
            } else if (*form == 'd' && !piece.zeros) {
                int64_t value = piece.wide ? va_arg(words, int64_t) : va_arg(words, int);
                set_number(&piece, value < 0 ? -(uint64_t)value : (uint64_t)value, 10, value < 0);
            } else if (*form == 'u' || *form == 'X')
                set_number(&piece, piece.wide ? va_arg(words, uint64_t) : va_arg(words, unsigned), *form == 'u' ? 10 : 16, 0);
            else
                not_here("such a form for printf");
        }
        length = put(to, room, length, &piece);
    }
    if (room > 0)
        to[length < room ? length : room - 1] = 0;
    return (int)length;
}

#define PRINT(to, room)                              \
    va_list words;                                   \
    va_start(words, form);                           \
    int length = vsnprintf(to, room, form, words);   \
    va_end(words)

int snprintf(char *restrict to, size_t room, const char *restrict form, ...) {
    PRINT(to, room);
    return length;
}

int sprintf(char *restrict to, const char *restrict form, ...) {
    PRINT(to, SIZE_MAX);
    return length;
}

int printf(const char *restrict form, ...) {
    char text[512];
    PRINT(text, sizeof text);
    if ((size_t)length >= sizeof text)
        not_here("room for a text so long");
    say(text);
    return length;
}
