/* book_write in plain C: reads a book from standard input and writes it back, or prints the checker's line of one that is refused. */
#include "plain.h"
#include <inttypes.h>
#include <stdio.h>

static uint8_t text[PC_MOST_TEXT + 1], written[PC_MOST_WRITTEN];
static uint32_t book[PC_BOOK_WORDS];

int main(void) {
    uint32_t line, count;
    size_t length = fread(text, 1, sizeof text, stdin);
    uint32_t refusal = plain_book_read(text, length, book, &line);
    if (refusal)
        printf("no\t%" PRIu32 "\t%" PRIu32 "\n", refusal, line);
    else if (plain_book_write(book, written, sizeof written, &count) == PC_DONE)
        fwrite(written, 1, count, stdout);
    return 0;
}
