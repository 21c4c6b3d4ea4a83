/* book_check in plain C: reads a book from standard input and prints the checker's line. */
#include "plain.h"
#include <inttypes.h>
#include <stdio.h>

static uint8_t text[PC_MOST_TEXT + 1];
static uint32_t book[PC_BOOK_WORDS];

int main(void) {
    uint32_t line;
    size_t length = fread(text, 1, sizeof text, stdin);
    uint32_t refusal = plain_book_read(text, length, book, &line);
    if (refusal)
        printf("no\t%" PRIu32 "\t%" PRIu32 "\n", refusal, line);
    else
        printf("ok\t%" PRIu32 "\t%" PRIu32 "\t%" PRIu32 "\n", book[PC_BOOK_MESSAGES], book[PC_BOOK_SIGNALS], book[PC_BOOK_ROUTES]);
    return 0;
}
