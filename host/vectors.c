/* vectors SUBJECT: runs the cases of tools/SUBJECT_vectors.py from standard input and prints what came out, a line a case, and
   of the writer the text behind it.
   The subjects are catalogue, dash, routes, spread, book, writer, frames, packing, record, faults, power and sleep. For catalogue
   the input is signal numbers and raw counts, one pair a line. */
#include "dash_line.h"
#include "lent_cases.h"
#include <string.h>

static void catalogue_case(void) {
    unsigned number, raw;
    uint32_t class_code;
    int64_t thousandths;
    char line[64];
    size_t bytes = 0;
    while (at < length && input[at] != '\n' && bytes + 1 < sizeof line)
        line[bytes++] = (char)input[at++];
    line[bytes] = 0;
    end_of_line();
    if (sscanf(line, "%u\t%u", &number, &raw) != 2) {
        fprintf(stderr, "vectors: ill-formed pair '%s'\n", line);
        exit(2);
    }
    uint32_t refusal = FACE(class)(number, raw, &class_code, &thousandths);
    if (refusal)
        printf("%u\t%u\tno\t%" PRIu32 "\n", number, raw, refusal);
    else if (class_code == PC_VALUE)
        printf("%u\t%u\tvalue\t%" PRId64 "\n", number, raw, thousandths);
    else
        printf("%u\t%u\t%s\t%u\n", number, raw, class_words[class_code], raw);
}

static void dash_case(void) {
    uint32_t number = hex(8), raw = hex(8);
    end_of_line();
    print_dash(number, raw);
}

/* The routes become a text of R lines, so the book reader judges them. */
static void routes_case(void) {
    char text[PC_MOST_ROUTES * 32];
    size_t bytes = 0;
    uint32_t count = hex(2), line;
    for (uint32_t i = 0; i < count; i++) {
        uint32_t from = hex(8), to = hex(8);
        bytes += (size_t)sprintf(text + bytes, "R\t%" PRIu32 "\t%08" PRIX32 "\t%" PRIu32 "\t%08" PRIX32 "\n", PC_BUS(from),
                                 PC_IDENTIFIER(from), PC_BUS(to), PC_IDENTIFIER(to));
    }
    uint32_t place = hex(8);
    end_of_line();
    uint32_t refusal = FACE(book_read)((const uint8_t *)text, bytes, book, &line);
    if (refusal == PC_CLOSED_CHAIN)
        printf("loop\t%" PRIu32 "\n", line - 1);
    else if (refusal == PC_DOUBLE_CHAIN)
        printf("doubling\t%" PRIu32 "\n", line - 1);
    else if (refusal)
        print_refusal(refusal);
    else
        print_spread(PC_BUS(place), PC_IDENTIFIER(place), PC_MOST_ROUTES, "sound");
}

static void book_case(void) {
    uint32_t line, refusal = read_book(&line);
    if (refusal)
        printf("no\t%" PRIu32 "\t%" PRIu32 "\n", refusal, line);
    else
        printf("ok\t%" PRIu32 "\t%" PRIu32 "\t%" PRIu32 "\n", book[PC_BOOK_MESSAGES], book[PC_BOOK_SIGNALS], book[PC_BOOK_ROUTES]);
}

static void faults_case(void) {
    uint32_t count = hex(2), counts[256], sum[PC_FAULT_WORDS];
    for (uint32_t i = 0; i < count; i++)
        counts[i] = hex(8);
    end_of_line();
    uint32_t refusal = FACE(fault_sum)(counts, count, sum);
    if (refusal) {
        print_refusal(refusal);
        return;
    }
    printf("sum");
    for (int i = 0; i < PC_FAULT_WORDS; i++)
        printf("\t%" PRIu32, sum[i]);
    printf("\n");
}

static void power_case(void) {
    uint32_t state = PC_POWER_START;
    if (input[at] == 'N')
        at++;
    else
        state = hex(1);
    uint32_t seen[PC_POWER_WORDS];
    for (int i = 0; i < PC_POWER_WORDS; i++)
        seen[i] = hex(8);
    uint32_t named = input[at] != '-', share = named ? hex(8) : 0;
    at += named ? 0 : 8;
    end_of_line();
    uint32_t refusal = named ? FACE(power_step_by)(&state, seen, share) : FACE(power_step)(&state, seen);
    if (refusal)
        print_refusal(refusal);
    else
        printf("%" PRIu32 "\n", state);
}

static void sleep_case(void) {
    static uint32_t last_wake, asleep;
    char letter = (char)input[at++];
    uint32_t time = hex(8);
    end_of_line();
    if (letter == 'N') {
        FACE(sleep_start)(&last_wake, &asleep, time);
        return;
    }
    uint32_t refusal = FACE(sleep_watch)(&last_wake, &asleep, time, letter == 'W');
    if (refusal)
        print_refusal(refusal);
    else
        printf("%s\t%" PRIu32 "\n", asleep ? "asleep" : "awake", last_wake);
}

int main(int argc, char **argv) {
    static const struct { const char *subject; void (*run)(void); } subjects[] = {
        { "catalogue", catalogue_case }, { "dash", dash_case }, { "routes", routes_case }, { "spread", lent_book_case }, { "book", book_case },
        { "writer", lent_book_case }, { "frames", lent_book_case }, { "packing", lent_book_case }, { "record", lent_book_case },
        { "faults", faults_case }, { "power", power_case }, { "sleep", sleep_case },
    };
    length = fread(input, 1, sizeof input, stdin);
    for (size_t i = 0; argc == 2 && i < sizeof subjects / sizeof *subjects; i++)
        if (strcmp(argv[1], subjects[i].subject) == 0) {
            while (at < length)
                subjects[i].run();
            return 0;
        }
    fprintf(stderr, "vectors: usage: vectors SUBJECT < cases\n");
    return 2;
}
