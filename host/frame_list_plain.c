/* frame_list in plain C, and with DOUBLES defined dash_list: reads the book from book.txt and frame lines from standard input, and
   prints each signal's reading, in thousandths or as the bits of a double. Input and output go through fixed buffers; numbers are
   written by hand, since printf would be most of the time. */
#include "face.h"
#include <stdio.h>
#include <string.h>
#include <unistd.h>

enum { FRAME_LINE_ILL_FORMED = 20, MOST_LINE = 25 };

static uint8_t text[PC_MOST_TEXT + 1], input[1 << 16], output[1 << 16];
static uint32_t book[PC_BOOK_WORDS];
static size_t written;

static void flush(void) {
    size_t sent = 0;
    while (sent < written) {
        ssize_t n = write(1, output + sent, written - sent);
        if (n <= 0)
            break;
        sent += (size_t)n;
    }
    written = 0;
}

static void put(const void *bytes, size_t count) {
    if (written + count > sizeof output)
        flush();
    memcpy(output + written, bytes, count);
    written += count;
}

static void put_word(const char *word) {
    put(word, strlen(word));
}

static void put_number(int64_t number) {
    char digits[24];
    size_t at = sizeof digits;
    uint64_t rest = number < 0 ? (uint64_t)0 - (uint64_t)number : (uint64_t)number;
    do
        digits[--at] = (char)('0' + rest % 10);
    while ((rest /= 10) != 0);
    if (number < 0)
        digits[--at] = '-';
    put(digits + at, sizeof digits - at);
}

/* What a value reads. */
static void put_value(int64_t thousandths) {
#ifdef DOUBLES
    double reading = (double)thousandths / 1000.0;
    char digits[16];
    uint64_t bits;
    memcpy(&bits, &reading, sizeof bits);
    for (size_t at = sizeof digits; at-- > 0; bits /= 16)
        digits[at] = "0123456789ABCDEF"[bits % 16];
    put(digits, sizeof digits);
#else
    put_number(thousandths);
#endif
}

static void put_refusal(uint32_t refusal) {
    put_word("no\t");
    put_number(refusal);
    put_word("\n");
}

/* The digit's value, or -1. */
static int digit_of(uint8_t c) {
    if (c >= '0' && c <= '9')
        return c - '0';
    return c >= 'A' && c <= 'F' ? c - 'A' + 10 : -1;
}

/* Identifier, tab, 0 to 16 hex digits, an even number of them: the identifier and bytes, or 0. */
static int parse(const uint8_t *line, size_t length, uint32_t *identifier, uint8_t frame[8], size_t *bytes) {
    if (length < 9 || length > MOST_LINE || length % 2 == 0 || line[8] != '\t')
        return 0;
    *identifier = 0;
    for (size_t i = 0; i < 8; i++) {
        int digit = digit_of(line[i]);
        if (digit < 0)
            return 0;
        *identifier = *identifier * 16 + (uint32_t)digit;
    }
    *bytes = (length - 9) / 2;
    for (size_t i = 0; i < *bytes; i++) {
        int high = digit_of(line[9 + 2 * i]), low = digit_of(line[10 + 2 * i]);
        if (high < 0 || low < 0)
            return 0;
        frame[i] = (uint8_t)(high * 16 + low);
    }
    return 1;
}

static void list_reading(const uint8_t *identifier, uint32_t number, uint32_t raw, uint8_t class_code, int64_t thousandths) {
    put(identifier, 9);
    put_number(number);
    put_word("\t");
    put_word(class_words[class_code]);
    put_word("\t");
    if (class_code == PC_VALUE)
        put_value(thousandths);
    else
        put_number(raw);
    put_word("\n");
}

/* The number of the message's first signal in the book's columns. */
static uint32_t first_signal(uint32_t identifier) {
    uint32_t m = 0;
    while (book[PC_BOOK_IDENTIFIERS + m] != identifier)
        m++;
    return m == 0 ? 0 : book[PC_BOOK_ENDS + m - 1];
}

static void list_line(const uint8_t *line, size_t length) {
    uint32_t identifier, raws[PC_MOST_READINGS];
    uint8_t frame[8], classes[PC_MOST_READINGS];
    int64_t thousandths[PC_MOST_READINGS];
    size_t bytes;
    uint32_t count;
    if (!parse(line, length, &identifier, frame, &bytes)) {
        put_refusal(FRAME_LINE_ILL_FORMED);
        return;
    }
    uint32_t refusal = plain_frame_read_tested(book, identifier, frame, bytes, raws, classes, thousandths, PC_MOST_READINGS, &count);
    if (refusal) {
        put(line, 9);
        put_refusal(refusal);
        return;
    }
    if (count == 0)
        return;
    uint32_t first = first_signal(identifier);
    for (uint32_t i = 0; i < count; i++)
        list_reading(line, book[PC_BOOK_NUMBERS + first + i], raws[i], classes[i], thousandths[i]);
}

/* Lists every line of standard input. A line too long for the buffer is ill formed, and the rest of it is passed over. */
static void list_input(void) {
    size_t held = 0;
    int passing_over = 0;
    for (;;) {
        ssize_t got = read(0, input + held, sizeof input - held);
        if (got <= 0)
            break;
        size_t begin = 0, length = held + (size_t)got;
        const uint8_t *newline;
        while (begin < length && (newline = memchr(input + begin, '\n', length - begin)) != 0) {
            size_t end = (size_t)(newline - input);
            if (passing_over)
                put_refusal(FRAME_LINE_ILL_FORMED);
            else
                list_line(input + begin, end - begin);
            passing_over = 0;
            begin = end + 1;
        }
        held = length - begin;
        memmove(input, input + begin, held);
        if (held > MOST_LINE) {
            passing_over = 1;
            held = 0;
        }
    }
    if (held > 0 || passing_over)
        put_refusal(FRAME_LINE_ILL_FORMED);
}

int main(void) {
    uint32_t line, refusal;
    size_t length = 0;
    FILE *file = fopen("book.txt", "rb");
    if (file) {
        length = fread(text, 1, sizeof text, file);
        fclose(file);
    }
    refusal = plain_book_read(text, length, book, &line);
    if (refusal) {
        put_word("no\t");
        put_number(refusal);
        put_word("\t");
        put_number(line);
        put_word("\n");
    } else {
        list_input();
    }
    flush();
    return 0;
}
