/* some_signals TIMES LENGTH [NUMBER START]...: reads a frame so many times by a book of one message with these signals. A frame of LENGTH
   8 is read; one of another length is refused behind the test of the book, so that the difference is what reading costs. For
   host/measure_signals, which counts both. */
#include "punnetcrest.h"
#include <stdio.h>
#include <stdlib.h>

int main(int argc, char **argv) {
    static uint32_t book[PC_BOOK_WORDS], raws[PC_MOST_READINGS];
    static uint8_t classes[PC_MOST_READINGS], text[PC_MOST_WRITTEN];
    static int64_t thousandths[PC_MOST_READINGS];
    static const uint8_t frame[PC_FRAME_BYTES];
    uint32_t line, count;
    if (argc < 3 || argc % 2 == 0 || argc > 3 + 2 * PC_MOST_READINGS) {
        fprintf(stderr, "some_signals: usage: some_signals TIMES LENGTH [NUMBER START]...\n");
        return 2;
    }
    int used = sprintf((char *)text, "M\t00000000\n");
    for (int i = 3; i < argc; i += 2)
        used += sprintf((char *)text + used, "S\t%d\t%d\n", atoi(argv[i]), atoi(argv[i + 1]));
    if (pc_book_read(text, (uint64_t)used, book, &line) != 0) {
        fprintf(stderr, "some_signals: line %u is refused\n", (unsigned)line);
        return 3;
    }
    uint64_t length = strtoul(argv[2], 0, 10);
    uint32_t wanted = length == PC_FRAME_BYTES ? 0 : PC_NOT_EIGHT_BYTES;
    for (unsigned long times = strtoul(argv[1], 0, 10); times > 0; times--)
        if (pc_frame_read(book, 0, frame, length, raws, PC_MOST_READINGS, classes, PC_MOST_READINGS, thousandths, PC_MOST_READINGS, &count) != wanted)
            return 3;
    return 0;
}
